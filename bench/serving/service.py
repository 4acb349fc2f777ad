"""A service that is run and asked, and the tests of it that failed."""
import contextlib
import http.client
import json
import os
import re
import select
import subprocess
import time

PATIENCE = 300


class Checks:
    """The tests that failed."""

    def __init__(self):
        self.failed = []

    def check(self, what, holds, found=""):
        """Prints whether it holds, and if not, what was found."""
        print(f"ok      {what}" if holds else f"FAILED  {what}: {found}", flush=True)
        if not holds:
            self.failed.append(what)

    @contextlib.contextmanager
    def part(self, what):
        """A part of the tests, which fails as a whole if it cannot go on."""
        try:
            yield
        except (OSError, http.client.HTTPException, subprocess.SubprocessError, ValueError, KeyError, TypeError, RuntimeError) as error:
            self.check(f"{what} goes to its end", False, repr(error))


class Client:
    """A kept connection."""

    def __init__(self, port, patience=PATIENCE):
        self.connection = http.client.HTTPConnection("127.0.0.1", port, timeout=patience)

    def __enter__(self):
        return self

    def __exit__(self, *_):
        self.connection.close()

    def ask(self, method, path, body=None):
        """The status of the response, and its JSON if it has a body."""
        self.connection.request(method, path, None if body is None else json.dumps(body).encode())
        response = self.connection.getresponse()
        text = response.read()
        return response.status, json.loads(text) if text else None

    def add(self, path, body):
        """Asks for something that must be added."""
        status, answer = self.ask("POST", path, body)
        if status not in (200, 201):
            raise RuntimeError(f"POST {path} {json.dumps(body)}: {status} {answer}")
        return answer


class Service:
    """A running service, in a folder of its own. `wrap` are the words of a program that becomes the service, before those of the service."""

    started = []

    def __init__(self, path, folder, *words, port=0, wrap=()):
        self.path, self.folder = path, folder
        self.log = os.path.join(folder, "service.txt")
        begin = os.path.getsize(self.log) if os.path.exists(self.log) else 0
        with open(self.log, "ab") as log:
            self.process = subprocess.Popen(
                [*wrap, path, "serve", "--port", str(port), *words], cwd=folder, stdin=subprocess.DEVNULL, stdout=subprocess.PIPE, stderr=log,
                env={**os.environ, "BENCH_SERVE": "a word"})
        Service.started.append(self)
        self.port = self.port_told(begin)

    def port_told(self, begin):
        """Waits for the line on standard output, and returns the port that standard error told before it."""
        since, output = time.monotonic(), self.process.stdout
        line = output.readline() if select.select([output], [], [], PATIENCE)[0] else b""
        with open(self.log, encoding="utf-8") as log:
            log.seek(begin)
            told = log.read()
        port = re.search(r"batch: serves http://127\.0\.0\.1:(\d+)\n", told)
        if line != b"listening\n" or port is None:
            since, status = time.monotonic() - since, self.process.poll()
            self.kill()
            raise RuntimeError(f"the service did not begin in {since:.1f} s, status {status}: {line} {told!r}")
        return int(port[1])

    def client(self, patience=PATIENCE):
        return Client(self.port, patience)

    def ask(self, method, path, body=None, patience=PATIENCE):
        """One request over a connection of its own."""
        with self.client(patience) as client:
            return client.ask(method, path, body)

    def told(self):
        """What the service, and those before it in this folder, have written to standard error."""
        return text_of(self.log)

    def counts(self, job):
        return self.ask("GET", f"/jobs/{job}/taskcounts")[1]["taskCounts"]

    def task(self, job, task):
        """The task; None if it is not there."""
        status, row = self.ask("GET", f"/jobs/{job}/tasks/{task}")
        return row if status == 200 else None

    def tasks(self, job):
        """All tasks of the job, by pages."""
        rows, after = [], ""
        while True:
            page = self.ask("GET", f"/jobs/{job}/tasks?maxresults=1000{after}")[1]
            rows += page["value"]
            if "nextAfter" not in page:
                return rows
            after = f"&after={page['nextAfter']}"

    def pool(self, pool):
        """The pool; None if it is not there."""
        status, row = self.ask("GET", f"/pools/{pool}")
        return row if status == 200 else None

    def nodes(self, pool):
        """The states of the nodes of the pool, by their ids, in the order of their numbers."""
        rows = self.ask("GET", f"/pools/{pool}/nodes")[1]["value"]
        return {row["id"]: row["state"] for row in sorted(rows, key=lambda row: int(row["id"].removeprefix("node-")))}

    def settled(self, job, active=0):
        """Waits until no task of the job runs, and at most so many are active; whether that came."""
        def is_settled():
            counts = self.counts(job)
            return counts["running"] == 0 and counts["active"] <= active
        return wait_for(is_settled)

    def comes_to(self, job, state):
        """Waits until the job has this state: whether that came, and the job."""
        came = wait_for(lambda: self.ask("GET", f"/jobs/{job}")[1]["state"] == state)
        return came, self.ask("GET", f"/jobs/{job}")[1]

    def kill(self):
        self.process.kill()
        self.process.wait()
        self.process.stdout.close()

    @classmethod
    def kill_all(cls):
        for service in cls.started:
            service.kill()

    def ended(self, patience=PATIENCE):
        """Waits for the end of the program: its status, and what it wrote after its first line."""
        status = self.process.wait(patience)
        with self.process.stdout as output:
            return status, output.read()

    def status_line(self, name):
        """A number of the process, in kilobytes."""
        with open(f"/proc/{self.process.pid}/status", encoding="utf-8") as status:
            return int(re.search(rf"{name}:\s+(\d+) kB", status.read())[1])

    def child_programs(self):
        """The states of the processes that the service has started, by their numbers; `Z` is one that has ended and was not waited for."""
        found = {}
        for name in filter(str.isdigit, os.listdir("/proc")):
            state, parent = process_of(int(name)) or ("", 0)
            if parent == self.process.pid:
                found[int(name)] = state
        return found

    def processor_seconds(self):
        with open(f"/proc/{self.process.pid}/stat", encoding="utf-8") as stat:
            fields = stat.read().rsplit(")", 1)[1].split()
        return (int(fields[11]) + int(fields[12])) / os.sysconf("SC_CLK_TCK")


def process_of(number):
    """The state of a process, and the number of its parent; None if it is not there."""
    try:
        with open(f"/proc/{number}/stat", encoding="utf-8", errors="replace") as stat:
            state, parent = stat.read().rsplit(")", 1)[1].split()[:2]
    except (FileNotFoundError, ProcessLookupError):
        return None
    return state, int(parent)


def is_running(number):
    """Whether a process is there that has not ended."""
    return (process_of(number) or "Z")[0] not in "ZX"


def finished(path, folder, *words, seconds=60):
    """Runs the program without input to its end: its status, None if it does not end within these seconds, its output, and its lines on
    standard error."""
    try:
        done = subprocess.run([path, *words], cwd=folder, input="", capture_output=True, text=True, timeout=seconds, check=False)
    except subprocess.TimeoutExpired:
        return None, "", []
    return done.returncode, done.stdout, done.stderr.splitlines()


def wait_for(is_done, seconds=PATIENCE, pause=0.05):
    """Asks until it is done, with a pause between; whether that came within these seconds."""
    until = time.monotonic() + seconds
    while time.monotonic() < until:
        if is_done():
            return True
        time.sleep(pause)
    return False


def text_of(*path):
    """The text of a file; the empty one if it is not there."""
    try:
        with open(os.path.join(*path), encoding="utf-8") as it:
            return it.read()
    except FileNotFoundError:
        return ""


def is_there(*path):
    return wait_for(lambda: os.path.exists(os.path.join(*path)))


def quoted(word):
    """The word as a quoted part of a command line."""
    escaped = word.replace("\\", "\\\\").replace('"', '\\"')
    return f'"{escaped}"'


def shell(line):
    """A command line that gives the line to the shell."""
    return f"sh -c {quoted(line)}"


def at_root(line):
    """The same, in the folder of the service."""
    return shell(f"cd $AZ_BATCH_NODE_ROOT_DIR; {line}")
