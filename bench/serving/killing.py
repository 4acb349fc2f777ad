"""Kills of a service (signal 9) while clients add tasks and child programs run, and what its store, its log and its child programs tell."""
import contextlib
import http.client
import itertools
import json
import os
import re
import shutil
import subprocess
import threading
import time

from service import Service, at_root, is_there, text_of, wait_for
from tables import Tables

CLIENTS, NODES, MOST = 16, 4, 500
WORDS = ("--store", "night.db", "--doors", str(CLIENTS))


class History:
    """What was asked of a service, and how its store is read while it does not run."""

    def __init__(self, path, folder):
        self.path, self.folder, self.bodies = path, folder, {}

    def add(self, client, what, words, body):
        """Asks for something that must be added, and notes its line as a script has it."""
        self.note(what, words, body)
        client.add({"add-pool": "/pools", "add-job": "/jobs"}.get(what) or f"/jobs/{words[0]}/tasks", body)

    def note(self, what, words, body):
        self.bodies[" ".join([what, *words])] = " ".join([what, *words[:-1], json.dumps(body)])

    def keep(self, name):
        """Copies the store with its log of pages under this name; nothing if it was not made yet."""
        for ending in ("", "-wal"):
            with contextlib.suppress(FileNotFoundError):
                os.remove(os.path.join(self.folder, name + ending))
            with contextlib.suppress(FileNotFoundError):
                shutil.copy(os.path.join(self.folder, "night.db" + ending), os.path.join(self.folder, name + ending))

    def run(self, *words, lines=""):
        done = subprocess.run([self.path, *words], cwd=self.folder, input=lines, capture_output=True, text=True, check=False)
        if done.returncode != 0:
            raise RuntimeError(f"{words}: status {done.returncode}: {done.stderr}")
        return done.stdout

    def replayed(self, calls):
        """What `replay` of calls writes over the store of before this start: the lines of the calls, and the tables text."""
        for ending in ("", "-wal"):
            with contextlib.suppress(FileNotFoundError):
                os.remove(os.path.join(self.folder, "replayed.db" + ending))
            with contextlib.suppress(FileNotFoundError):
                shutil.copy(os.path.join(self.folder, "before.db" + ending), os.path.join(self.folder, "replayed.db" + ending))
        text = self.run("replay", "--store", "replayed.db", lines="".join(f"{moment} {line}\n" for moment, line in calls))
        at = text.index("tables ")
        return text[:at].splitlines(), text[at:]

    def logged(self):
        """The calls that the log of the last start has, with their moments, and all other lines of it."""
        runs = os.path.join(self.folder, "night.db-runs")
        log = max(name for name in os.listdir(runs) if name.startswith("steps-"))
        calls, told = [], []
        # what follows the last end of a line was cut off
        for line in text_of(runs, log).split("\n")[:-1]:
            call = re.fullmatch(r"\d+ (\d{13}) ([a-z].*)", line)
            if call is None:
                told.append(line)
            else:
                calls.append((int(call[1]), self.bodies.get(call[2], call[2])))
        return calls, told


class Differs(Exception):
    """Two tables that no calls of clients and lanes lead from one to the other."""


def change_jobs(now, kept):
    """Calls that remove jobs whose tasks have all ended, and add others."""
    calls = [f"delete-job {job}" for job in now.jobs if job not in kept.jobs] + [f"add-job {job}" for job in kept.jobs if job not in now.jobs]
    now.tasks = {key: row for key, row in now.tasks.items() if key[0] in kept.jobs}
    now.runs = {run: row for run, row in now.runs.items() if row[2] in kept.jobs}
    return calls


def calls_between(now, kept):
    """Calls that lead from some tables to later ones, if only a job was removed and one added, then tasks were added, and runs taken and ended.
    Each node has one slot, so a run is placed on a node after the one before it there has ended, or once its task is added."""
    calls, tasks = change_jobs(now, kept), list(kept.tasks)

    def finish(run):
        if kept.runs[run][4] != "ended":
            raise Differs(f"run {run} is {kept.runs[run][4]}, and another is placed on its node")
        calls.extend([f"take {run}"] * (now.runs[run][4] == "queued") + [f"end {run} {kept.runs[run][5]}"])
        now.runs[run] = list(kept.runs[run])

    def add_through(last):
        for key in tasks[len(now.tasks):tasks.index(last) + 1]:
            calls.append(f"add-task {key[0]} {key[1]}")
            now.tasks[key] = ["active", "-", "-", "0"]

    if list(now.tasks) != tasks[:len(now.tasks)] or list(now.runs) != list(kept.runs)[:len(now.runs)] or now.nodes != kept.nodes or now.pools != kept.pools:
        raise Differs("rows are missing, or are others")
    for run, (_, node, job, task, *_) in kept.runs.items():
        if run not in now.runs:
            for holder in [each for each, row in now.runs.items() if row[1] == node and row[4] in ("queued", "taken")]:
                finish(holder)
            add_through((job, task))
            now.runs[run] = [*kept.runs[run][:4], "queued", "-"]
    if tasks:
        add_through(tasks[-1])
    for run, row in kept.runs.items():
        if row != now.runs[run] and now.runs[run][4] == "queued":
            calls.append(f"take {run}")
            now.runs[run][4] = "taken"
    for run, row in kept.runs.items():
        if row[4] == "ended" and now.runs[run][4] == "taken":
            finish(run)
    return calls


def texts_between(history, calls):
    """The tables texts after the last of the calls and each of its due steps, which were saved one after the other."""
    tables, (moment, line) = Tables(history.replayed(calls[:-1])[1]), calls[-1]
    answer, *steps = [each.split(" ", 1)[1] for each in history.replayed(calls)[0] if each.startswith(f"{len(calls)} ")]
    tables.call(moment, line, int(answer.split(" ")[0]) < 400)
    texts = [tables.text()]
    for step in steps:
        tables.step(step)
        texts.append(tables.text())
    return texts


def place_of(history, logged, kept):
    """How many calls that are not in the log lead from those that are to the tables of a store, and whether due steps of the last one are left.
    The last one of them may be any: the others are put before it. It raises `Differs` if none do."""
    text, moment = history.replayed(logged)[1], Tables(kept).moment
    lines = calls_between(Tables(text), Tables(kept)) or ["tick"] * (moment != Tables(text).moment)
    more = [(moment, history.bodies.get(line, line)) for line in lines]
    text = history.replayed(logged + more)[1] if more else text
    if text == kept:
        return len(more), False
    for last in reversed([each for each in more if each[1].startswith(("add-task ", "end "))]):
        if kept in texts_between(history, logged + [each for each in more if each is not last] + [last]):
            return len(more), True
    pairs = [pair for pair in zip(text.splitlines(), kept.splitlines()) if pair[0] != pair[1]]
    raise Differs(f"{len(logged)} calls of the log and {len(more)} more lead to other tables: {pairs[:3]}")


def explained(history, kept):
    """How the history leads to the tables of a store, and whether it does. The log is written a moment after the calls, so the last ones may be
    missing: they follow from the tables, and `replay` must then come to the same."""
    (logged, _), moment, why = history.logged(), Tables(kept).moment, "no call has this moment"
    # a call may have an earlier moment than the one before it, and is made at the later one
    reached = list(itertools.accumulate((each[0] for each in logged), max))
    count = sum(each <= moment for each in reached)
    while True:
        try:
            more, is_cut = place_of(history, logged[:count], kept)
            return f"{count} calls of it and {more} more{', with due steps left' if is_cut else ''}", True
        except Differs as error:
            why = str(error)
        # a call of the same moment may be logged, and not be in the store
        if count == 0 or reached[count - 1] != moment:
            return why, False
        count -= 1


class Kill:
    """A kill of the service, while two tasks run and clients add others."""

    def __init__(self, history, number):
        self.history, self.job, self.what = history, f"k{number}", f"kill {number}"
        self.folder = os.path.join(history.folder, self.job)
        # the tasks that were acknowledged, and all that were sent
        self.added, self.sent = [], []

    def task(self, name, line):
        told = "$AZ_BATCH_NODE_ROOT_DIR/$AZ_BATCH_JOB_ID/$AZ_BATCH_TASK_ID.txt"
        body = {"id": name, "commandLine": at_root(f"told={told}; echo run $AZ_BATCH_TASK_DIR >> $told; {line}")}
        self.sent.append(name)
        self.history.note("add-task", [self.job, name], body)
        return body

    def add_until_gone(self, service, prefix):
        """Adds tasks until the service is gone."""
        with contextlib.suppress(OSError, http.client.HTTPException), service.client() as client:
            for n in range(MOST):
                name = f"{prefix}-{n}"
                if client.ask("POST", f"/jobs/{self.job}/tasks", self.task(name, "true"))[0] == 201:
                    self.added.append(name)

    def make(self, service, count):
        """Kills the service once so many tasks of the clients were acknowledged."""
        os.mkdir(self.folder)
        long = ["long-1", "long-2"]
        with service.client() as client:
            self.history.add(client, "add-job", [self.job], {"id": self.job, "poolInfo": {"poolId": "p"}})
            for name in long:
                # it waits for the end of its input, the first time that it is run
                client.add(f"/jobs/{self.job}/tasks", self.task(name, "test $(wc -l < $told) = 2 || cat"))
                self.added.append(name)
        begun = all([is_there(self.folder, f"{name}.txt") for name in long])
        clients = [threading.Thread(target=self.add_until_gone, args=(service, f"c{n}")) for n in range(CLIENTS)]
        for each in clients:
            each.start()
        begun = wait_for(lambda: len(self.added) >= count + len(long), pause=0.001) and begun
        service.kill()
        for each in clients:
            each.join()
        if not begun:
            raise RuntimeError("the long tasks did not begin, or no others were added")

    def begun(self):
        """The runs whose child programs have begun, each with its task."""
        found = []
        for name in sorted(os.listdir(self.folder)):
            found += [(run, name.removesuffix(".txt")) for run in re.findall(r"^run .*/(\d+)$", text_of(self.folder, name), re.M)]
        return found

    def kept(self, checks):
        """Tests what the store of the killed service has."""
        self.history.keep("dead.db")
        text = self.history.run("export", "--store", "dead.db")
        tables = self.tables = Tables(text)
        there = [task for job, task in tables.tasks if job == self.job]
        lost = [name for name in self.added if name not in there]
        more = [name for name in there if name not in self.added]
        checks.check(f"{self.what}: all {len(self.added)} acknowledged tasks are in the store, and {len(more)} others that were sent",
                     not lost and set(more) <= set(self.sent) and len(more) <= CLIENTS, (lost, more))
        calls, told = self.history.logged()
        lines, _ = self.history.replayed(calls)
        checks.check(f"{self.what}: the log of {len(calls)} calls is what `replay` writes for them", told == lines[:len(told)] and len(told) >= len(calls) - 1 >= 0,
                     [pair for pair in zip(told, lines) if pair[0] != pair[1]][:3])
        found, holds = explained(self.history, text)
        checks.check(f"{self.what}: the store has the tables after {found if holds else 'a prefix of the history'}", holds, found)
        # a child program that was started may write a moment later
        time.sleep(0.2)
        self.taken(checks, self.begun())

    def taken(self, checks, begun):
        """Each child program that began was taken before, and each that is told to have ended has begun."""
        runs = {run: row for run, row in self.tables.runs.items() if row[2] == self.job}
        ghosts = [(run, task) for run, task in begun if run not in runs or runs[run][3] != task or runs[run][4] not in ("taken", "ended")]
        missing = [run for run, row in runs.items() if row[4] == "ended" and (run, row[3]) not in begun]
        checks.check(f"{self.what}: each of {len(begun)} child programs that have begun was taken before, and each that has ended had begun",
                     not ghosts and not missing, (ghosts, missing))

    def survived(self, checks, service):
        """Tests what the next service does with the tasks."""
        count = sum(job == self.job for job, _ in self.tables.tasks)
        done, counts = service.settled(self.job), service.counts(self.job)
        checks.check(f"{self.what}: all {count} tasks end with success", done and counts["succeeded"] == count, counts)
        ended = {(run, row[3]) for run, row in self.tables.runs.items() if row[2] == self.job and row[4] == "ended"}
        torn = {(run, row[3]) for run, row in self.tables.runs.items() if row[2] == self.job and row[4] == "taken"}
        # the log is written a moment after the calls
        came = wait_for(lambda: len(ended | self.ended_again()) == count, 10)
        begun, ended = self.begun(), ended | self.ended_again()
        wrong = sorted({each for each in begun if each not in ended | torn or begun.count(each) > 1} | {each for each in ended if each not in begun})
        again = len(torn & set(begun))
        checks.check(f"{self.what}: {again} programs that ran are run once more, and nothing else", came and again >= 2 and not wrong, (len(ended), wrong))
        service.ask("DELETE", f"/jobs/{self.job}")
        checks.check(f"{self.what}: the job is deleted", wait_for(lambda: service.ask("GET", f"/jobs/{self.job}")[0] == 404), self.job)

    def ended_again(self):
        """The runs that have ended since the start, each with its task, by the log."""
        calls, told = self.history.logged()
        placed = dict(re.findall(rf"^\d+ U16 {self.job} (\S+) \d+ (\d+)$", "\n".join(told), re.M))
        tasks, ended = {run: task for task, run in placed.items()}, [line.split(" ")[1] for _, line in calls if line.startswith("end ")]
        return {(run, tasks[run]) for run in ended if run in tasks}


def kills(checks, path, folder, count, chance):
    """Kills a service and starts it again, so many times."""
    folder = os.path.join(folder, "kills")
    os.mkdir(folder)
    history, since = History(path, folder), time.monotonic()
    service = Service(path, folder, *WORDS)
    with service.client() as client:
        history.add(client, "add-pool", ["p"], {"id": "p", "targetDedicatedNodes": NODES})
    for number in range(1, count + 1):
        kill = Kill(history, number)
        kill.make(service, chance.randint(1, 100))
        kill.kept(checks)
        history.keep("before.db")
        service = Service(path, folder, *WORDS, port=service.port)
        kill.survived(checks, service)
    service.kill()
    print(f"{count} kills in {time.monotonic() - since:.0f} s, load {os.getloadavg()[0]:.1f}", flush=True)
