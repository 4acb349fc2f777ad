"""What becomes of a service whose disk is full, whose folders are removed, whose store is not its own, and which is killed."""
import hashlib
import http.client
import os
import re
import shutil
import sqlite3
import subprocess
import threading
import time

from service import Service, finished, shell, text_of, wait_for

RUNNING, FULL_SECONDS, ROOM = 6, 20, 10


def begun(path, folder, *words, nodes=RUNNING, slots=1, wrap=()):
    """A service with a pool and a job."""
    service = Service(path, folder, *words, wrap=wrap)
    with service.client() as client:
        client.add("/pools", {"id": "p", "targetDedicatedNodes": nodes, "taskSlotsPerNode": slots})
        client.add("/jobs", {"id": "j", "poolInfo": {"poolId": "p"}})
    return service


def add_tasks(service, line, count, name="t", job="j"):
    """Adds tasks with this command line."""
    with service.client() as client:
        for first in range(1, count + 1, 100):
            last = min(first + 100, count + 1)
            client.add(f"/jobs/{job}/addtaskcollection", {"value": [{"id": f"{name}{n}", "commandLine": line} for n in range(first, last)]})


def comes_to(service, seconds, job="j", **wanted):
    """Waits until the counts of the job have these values: whether that came, and the counts."""
    def is_so():
        counts = service.counts(job)
        return all(counts[name] == count for name, count in wanted.items())
    return wait_for(is_so, seconds), service.counts(job)


def exported(path, store):
    """The tables that a store has."""
    return finished(path, ".", "export", "--store", store)[1]


def places(runs):
    """Places and moments of the calls in the logs of a service: the greatest place that is there at each moment."""
    found = []
    for name in sorted(os.listdir(runs)) if os.path.isdir(runs) else []:
        if name.startswith("steps-"):
            found += [(int(place), int(moment)) for place, moment in re.findall(r"^(\d+) (\d{13}) [a-z]", text_of(runs, name), re.M)]
    return found


def fill(name):
    """Writes a file until there is no room."""
    with open(name, "wb", buffering=0) as it:
        for size in (65536, 4096, 512, 1):
            try:
                while it.write(b"x" * size) == size:
                    pass
            except OSError:
                pass


class Adding(threading.Thread):
    """A request to add a task: its status, once it is answered, or how its connection ended."""

    def __init__(self, service, name):
        super().__init__()
        self.service, self.name_of_task, self.status = service, name, None

    def run(self):
        try:
            self.status = self.service.ask("POST", "/jobs/j/tasks", {"id": self.name_of_task, "commandLine": "true"}, patience=90)[0]
        except (OSError, http.client.HTTPException) as error:
            self.status = repr(error)


def adds_while_full(service, until):
    """Asks to add a task every half second. A request whose call was made is answered only once it is written, so each has a thread."""
    adding = []
    while time.monotonic() < until:
        adding.append(Adding(service, f"full{len(adding)}"))
        adding[-1].start()
        time.sleep(0.5)
    return adding


def disk(checks, path, folder):
    """The disk of the store fills while child programs run."""
    small = os.path.join(folder, "small")
    os.mkdir(small)
    if subprocess.run(["mount", "-t", "tmpfs", "-o", "size=3m", "night", small], capture_output=True, check=False).returncode != 0:
        print("skipped disk: no file system can be mounted here")
        return
    service = begun(path, folder, "--store", os.path.join(small, "night.db"))
    try:
        over_small(checks, service, folder, small)
    finally:
        service.kill()
        subprocess.run(["umount", small], check=False)


def share_of(service, seconds):
    """How much of one processor the service takes, in percent."""
    since, spent = time.monotonic(), service.processor_seconds()
    time.sleep(seconds)
    return (service.processor_seconds() - spent) / (time.monotonic() - since) * 100


def over_small(checks, service, folder, small):
    go, runs = os.path.join(folder, "go"), os.path.join(small, "night.db-runs")
    # they write nothing, since that would fail on the full disk
    add_tasks(service, shell(f"until test -e {go}; do sleep 0.2; done"), RUNNING)
    came, counts = comes_to(service, 30, running=RUNNING)
    checks.check(f"disk: {RUNNING} child programs run", came, counts)
    before, rest, last = service.told(), share_of(service, 3), max(places(runs), default=(0, 0))[0]
    fill(os.path.join(small, "fill"))
    with open(go, "w", encoding="utf-8"):
        pass
    time.sleep(1)
    since, spent = time.monotonic(), service.processor_seconds()
    adding = adds_while_full(service, since + FULL_SECONDS)
    early = [each.status for each in adding]
    seconds = time.monotonic() - since
    share = (service.processor_seconds() - spent) / seconds * 100
    # the log of pages may have room in blocks that it has already
    late = early[early.count(201):]
    checks.check(f"disk: while it is full, {early.count(500)} tasks are refused, and {early.count(None)} requests wait, after {early.count(201)} that found room",
                 set(late) <= {None, 500} and 500 in late and early.count(201) <= ROOM, early)
    checks.check(f"disk: the service takes {share:.1f} % of a processor meanwhile, under 5 ({rest:.1f} % before)", share < 5)
    os.remove(os.path.join(small, "fill"))
    for each in adding:
        each.join()
    statuses = [each.status for each in adding]
    kinds = {status: statuses.count(status) for status in set(statuses)}
    checks.check(f"disk: after room is made, those that waited are answered: in all {kinds}", set(statuses) <= {201, 500}, statuses)
    acknowledged = [each.name_of_task for each in adding if each.status == 201]
    made_room(checks, service, acknowledged, before)
    # the log has the place of each call in the journal, and is written a moment after it
    time.sleep(1)
    end = max(places(runs), default=(0, 0))[0]
    entries = (end - last - len(statuses)) / seconds * 60
    checks.check(f"disk: {entries:.0f} entries a minute were made meanwhile beside the requests, at most 200", last < end and entries <= 200, (last, end))
    service.kill()
    tables = exported(service.path, os.path.join(small, "night.db"))
    lost = [name for name in acknowledged if f"\ntask j {name} completed success" not in tables]
    checks.check("disk: the file has each of them", not lost, lost)


def made_room(checks, service, acknowledged, before):
    """After room is made, all goes on."""
    count = RUNNING + len(acknowledged)
    came, counts = comes_to(service, 60, succeeded=count)
    checks.check(f"disk: after room is made, all {count} tasks that were acknowledged end with success", came and counts["failed"] == 0, counts)
    lines = service.told()[len(before):].splitlines()
    checks.check(f"disk: standard error has {len(lines)} lines of it: {lines}", 2 <= len(lines) <= 30)


def remove(ending, *folders):
    """Removes the folders, again and again."""
    count = 0
    while not ending.is_set():
        for folder in folders:
            shutil.rmtree(folder, ignore_errors=True)
        count += 1
        ending.wait(0.05)
    return count


def tidy(checks, path, folder):
    """The folder of runs is removed under load."""
    service, runs, count = begun(path, folder, "--store", "night.db", nodes=4), os.path.join(folder, "night.db-runs"), 300
    ending = threading.Event()
    remover = threading.Thread(target=remove, args=(ending, runs, os.path.join(folder, "shared")))
    remover.start()
    add_tasks(service, shell("echo $AZ_BATCH_TASK_ID; sleep 0.05"), count)
    came, counts = comes_to(service, 90, completed=count)
    ending.set()
    remover.join()
    checks.check(f"tidy: the folders are removed all the while, and {counts['succeeded']} of {count} tasks succeed", came and counts["failed"] == 0, counts)
    add_tasks(service, shell("echo after; test -d $AZ_BATCH_NODE_SHARED_DIR"), 1, name="after")
    came, counts = comes_to(service, 30, succeeded=count + 1)
    outputs = [text_of(place, "stdout.txt") for place, _, _ in os.walk(os.path.join(runs, "j", "after1"))]
    checks.check("tidy: the next task finds its folders", came and "after\n" in outputs, (counts, outputs))
    service.kill()


def digests(folder):
    """The files of a folder, each with its digest."""
    found = {}
    for name in sorted(os.listdir(folder)):
        with open(os.path.join(folder, name), "rb") as it:
            found[name] = hashlib.sha256(it.read()).hexdigest()
    return found


def make_foreign(folder):
    """Files that are no stores."""
    for name, mode in (("places.sqlite", "DELETE"), ("logged.sqlite", "WAL")):
        with sqlite3.connect(os.path.join(folder, name)) as database:
            database.execute(f"PRAGMA journal_mode={mode}")
            database.execute("CREATE TABLE places(id INTEGER PRIMARY KEY, url TEXT)")
            database.execute("INSERT INTO places(url) VALUES('http://example.org')")
        database.close()
    with open(os.path.join(folder, "letter.txt"), "w", encoding="utf-8") as it:
        it.write("Dear batch,\n" * 1000)


def foreign(checks, path, folder):
    """Another program's files."""
    files = os.path.join(folder, "files")
    os.mkdir(files)
    make_foreign(files)
    before = digests(files)
    for name in list(before):
        for words in (["export"], ["replay"], ["serve", "--port", "0"]):
            status, text, lines = finished(path, folder, *words, "--store", os.path.join(files, name), seconds=20)
            is_told = (status, text) == (5, "") and "store fault" in lines and len(lines) >= 2
            checks.check(f"foreign: {words[0]} of {name}: status {status}, {lines}", is_told, text)
    checks.check("foreign: the files are left byte for byte, and no others are there", digests(files) == before, sorted(digests(files)))


def runs_of(folder, task):
    place = os.path.join(folder, "night.db-runs", "j", task)
    return sorted(os.listdir(place), key=int) if os.path.isdir(place) else []


def kill(checks, path, folder, count=1):
    """The service is killed while tasks run, so many times."""
    service = begun(path, folder, "--store", "night.db")
    told = os.path.join(folder, "$AZ_BATCH_TASK_ID.txt")
    for number in range(1, count + 1):
        what, names = f"kill {number}" if count > 1 else "kill", [f"t{number}-{n}" for n in range(1, RUNNING + 1)]
        # it waits for the end of its input, the first time that it is run
        add_tasks(service, shell(f"echo run >> {told}; test $(wc -l < {told}) = 2 || cat"), RUNNING, name=f"t{number}-")
        came = wait_for(lambda: all(text_of(folder, f"{name}.txt") for name in names), 30)
        service.kill()
        service = Service(path, folder, "--store", "night.db")
        ended, counts = comes_to(service, 60, succeeded=number * RUNNING)
        checks.check(f"{what}: {RUNNING} tasks that ran are run again, and succeed", came and ended, counts)
        numbers = {name: runs_of(folder, name) for name in names}
        checks.check(f"{what}: each has a folder for each of its two runs", all(len(each) == 2 for each in numbers.values()), numbers)
        rows = text_of(folder, "night.db-runs", "runs.csv").splitlines()
        checks.check(f"{what}: runs.csv has a header, and a line for each run whose end was seen ({len(rows)} lines)", len(rows) == 1 + number * RUNNING, rows)
    service.kill()


def sync(checks, path, folder):
    """The system cannot synchronise the file of the store."""
    if shutil.which("strace") is None:
        print("skipped sync: there is no strace")
        return
    service = begun(path, folder, "--store", "night.db")
    before = service.told()
    calls = "fsync,fdatasync,sync_file_range,msync"
    tracer = subprocess.Popen(["strace", "-f", "-q", "-o", os.path.join(folder, "trace.txt"), "-e", f"trace={calls}", "-e", f"inject={calls}:error=EIO",
                               "-p", str(service.process.pid)], stderr=subprocess.DEVNULL)
    try:
        # the tracer needs a moment until it has each thread
        time.sleep(2)
        since = time.monotonic()
        try:
            status = service.ask("POST", "/jobs/j/tasks", {"id": "lost", "commandLine": "true"}, patience=30)[0]
        except (OSError, http.client.HTTPException) as error:
            status = repr(error)
        try:
            ended = service.process.wait(20)
        except subprocess.TimeoutExpired:
            ended = None
        lines = service.told()[len(before):].splitlines()
        checks.check(f"sync: a request is answered {status}, and the program ends with {ended} after {time.monotonic() - since:.1f} s: {lines}",
                     status != 201 and ended == 5 and len(lines) > 0)
    finally:
        tracer.kill()
        tracer.wait()
    service.kill()
    service = Service(path, folder, "--store", "night.db")
    checks.check("sync: the next start has what was answered before", service.ask("GET", "/jobs/j")[0] == 200)
    service.kill()
