"""What is tested of a running service."""
import contextlib
import http.client
import os
import re
import subprocess
import time

from service import PATIENCE, Service, at_root, is_there, quoted, shell, text_of, wait_for

NIGHT, FREE, SHORT = 200, 10, 1000


def parents(n):
    """The tasks that task n depends on: of the night's first ones none, of later ones one by its id, or three by their range."""
    if n <= FREE:
        return []
    return [n - FREE] if n % 2 == 0 else [n - FREE, n - FREE + 1, n - FREE + 2]


def night_task(n):
    stamps = "date +%s%N; echo $AZ_BATCH_POOL_ID $AZ_BATCH_NODE_ID $AZ_BATCH_JOB_ID; date +%s%N"
    task = {"id": str(n), "commandLine": at_root(f"({stamps}) > night/$AZ_BATCH_TASK_ID.txt")}
    needs = parents(n)
    if len(needs) == 1:
        task["dependsOn"] = {"taskIds": [str(needs[0])]}
    elif needs:
        task["dependsOn"] = {"taskIdRanges": [{"start": needs[0], "end": needs[-1]}]}
    return task


def stamps_of(folder):
    """Of each task of the night: when it began, what it was told, and when it ended."""
    stamps = {}
    for n in range(1, NIGHT + 1):
        lines = text_of(folder, "night", f"{n}.txt").splitlines()
        if len(lines) == 3:
            stamps[n] = (int(lines[0]), lines[1], int(lines[2]))
    return stamps


def overlaps(stamps):
    """Tasks that began on a node before the one before them there had ended."""
    found, ends = [], {}
    for begin, told, end in sorted(stamps.values()):
        if begin < ends.get(told, 0):
            found.append((told, begin))
        ends[told] = max(end, ends.get(told, 0))
    return found


def night(checks, service):
    """The night: half of its tasks are added one by one, and half together."""
    os.mkdir(os.path.join(service.folder, "night"))
    start_task = {"commandLine": at_root("echo $AZ_BATCH_NODE_ID >> night/nodes.txt"), "waitForSuccess": True}
    with service.client() as client:
        client.add("/pools", {"id": "p", "targetDedicatedNodes": 4, "startTask": start_task})
        client.add("/jobs", {"id": "night", "poolInfo": {"poolId": "p"}, "usesTaskDependencies": True})
        for n in range(1, NIGHT // 2 + 1):
            client.add("/jobs/night/tasks", night_task(n))
        rest = client.add("/jobs/night/addtaskcollection", {"value": [night_task(n) for n in range(NIGHT // 2 + 1, NIGHT + 1)]})
    checks.check("a collection is added", all(each["status"] == "success" for each in rest["value"]), rest)
    done, counts = service.settled("night"), service.counts("night")
    checks.check(f"all {NIGHT} tasks run with success", done and counts["succeeded"] == NIGHT, counts)
    stamps = stamps_of(service.folder)
    lost = [n for n in range(1, NIGHT + 1) if n not in stamps]
    checks.check("each has written its file", not lost, lost)
    early = [(n, m) for n in stamps for m in parents(n) if m not in stamps or stamps[n][0] < stamps[m][2]]
    checks.check("each began after those that it depends on had ended", not early, early)
    checks.check("no node had two tasks at a time", not overlaps(stamps), overlaps(stamps))
    told = sorted({told for _, told, _ in stamps.values()})
    checks.check("their words have the names of pool, nodes and job", told == [f"p node-{n} night" for n in range(1, 5)], told)
    started = text_of(service.folder, "night", "nodes.txt").split()
    checks.check("the start task has run on each node once", sorted(started) == [f"node-{n}" for n in range(1, 5)], started)


def no_action(does_satisfy):
    return {"jobAction": "none", "dependencyAction": "satisfy" if does_satisfy else "block"}


def condition_tasks():
    """Tasks that end in each way, and for each one that depends on it, which writes a file."""
    tries = "echo try >> ends/tries.txt; test $(wc -l < ends/tries.txt) -ge 3"
    tasks = [
        {"id": "code", "commandLine": at_root("exit 5"), "exitConditions": {"exitCodes": [{"code": 5, "exitOptions": no_action(True)}]}},
        {"id": "range", "commandLine": at_root("exit 7"),
         "exitConditions": {"exitCodeRanges": [{"start": 6, "end": 9, "exitOptions": no_action(False)}], "default": no_action(True)}},
        {"id": "missing", "commandLine": "/no/such/program", "exitConditions": {"preProcessingError": no_action(True), "default": no_action(False)}},
        {"id": "signal", "commandLine": at_root("kill -9 $$"), "exitConditions": {"default": no_action(True)}},
        {"id": "tries", "commandLine": at_root(tries), "constraints": {"maxTaskRetryCount": 5}},
    ]
    afters = [{"id": f"after-{task['id']}", "commandLine": at_root("echo ran > ends/$AZ_BATCH_TASK_ID.txt"), "dependsOn": {"taskIds": [task["id"]]}}
              for task in tasks]
    return tasks + afters


def conditions(checks, service):
    """Exit conditions, and what they do to tasks and to jobs."""
    os.mkdir(os.path.join(service.folder, "ends"))
    job = {"poolInfo": {"poolId": "p"}, "usesTaskDependencies": True, "onTaskFailure": "performexitoptionsjobaction"}
    disables = {"exitCodes": [{"code": 3, "exitOptions": {"jobAction": "disable"}}]}
    with service.client() as client:
        for name in ("ends", "ending", "pausing"):
            client.add("/jobs", {"id": name, **job})
        client.add("/jobs/ends/addtaskcollection", {"value": condition_tasks()})
        client.add("/jobs/ending/tasks", {"id": "t", "commandLine": at_root("exit 3")})
        client.add("/jobs/pausing/tasks", {"id": "t", "commandLine": at_root("exit 3"), "exitConditions": disables})
    done, rows = service.settled("ends", active=1), {row["id"]: row for row in service.tasks("ends")}
    checks.check("the tasks of the exit conditions end", done, rows)
    found = {name: rows[name].get("exit") for name in ("code", "range", "missing", "signal", "tries")}
    checks.check("they end by their codes, without a code, or are not started",
                 found == {"code": "5", "range": "7", "missing": "notstarted", "signal": "none", "tries": "0"}, found)
    checks.check("a failed task is tried until it succeeds", rows["tries"]["retryCount"] == 2 and rows["tries"]["result"] == "success", rows["tries"])
    after = {name: rows[f"after-{name}"]["state"] for name in found}
    wanted = {name: "active" if name == "range" else "completed" for name in found}
    checks.check("dependent tasks go on as the conditions say, and no others", after == wanted, after)
    files = sorted(name for name in os.listdir(os.path.join(service.folder, "ends")) if name.startswith("after-"))
    checks.check("and only they have written", files == sorted(f"after-{name}.txt" for name in found if name != "range"), files)
    is_ended, job = service.comes_to("ending", "completed")
    checks.check("a failure terminates its job", is_ended and job.get("terminateReason") == "TaskFailed", job)
    is_paused, job = service.comes_to("pausing", "disabled")
    checks.check("a code disables its job", is_paused, job)


def runs_with(service, name, text):
    """The runs of the job `told` whose file of this name has the text, as TASK/RUN."""
    places = [place for place, _, names in os.walk(os.path.join(service.folder, "night.db-runs", "told")) if name in names]
    return sorted("/".join(place.split("/")[-2:]) for place in places if text_of(place, name) == text)


def surroundings(checks, service):
    """What a child program gets."""
    line = shell("pwd; echo $BENCH_SERVE; printf '[%s]' \"$@\"; echo told >&2") + ' sh "a b" "" "\\"" c"d e"f'
    names = ("POOL_ID", "NODE_ID", "JOB_ID", "TASK_ID", "TASK_DIR", "TASK_WORKING_DIR", "NODE_ROOT_DIR", "NODE_SHARED_DIR")
    variables = shell("; ".join(f"echo ${{AZ_BATCH_{name}}}" for name in names) + "; cd ${AZ_BATCH_NODE_SHARED_DIR} && pwd")
    with service.client() as client:
        client.add("/jobs", {"id": "told", "poolInfo": {"poolId": "p"}})
        client.add("/jobs/told/tasks", {"id": "t", "commandLine": line})
        client.add("/jobs/told/tasks", {"id": "names", "commandLine": variables})
        client.add("/jobs/told/tasks", {"id": "files", "commandLine": "ls /proc/self/fd"})
        client.add("/jobs/told/tasks", {"id": "signals", "commandLine": "grep -E ^Sig(Blk|Ign) /proc/self/status"})
        client.add("/jobs/told/tasks", {"id": "child", "commandLine": f"{quoted(service.path)} child 259"})
    done, root = service.settled("told"), os.path.realpath(service.folder)
    run = max(os.listdir(os.path.join(root, "night.db-runs", "told", "t")), key=int, default="0")
    folder = f"{root}/night.db-runs/told/t/{run}"
    outputs = runs_with(service, "stdout.txt", f"{folder}/wd\na word\n[a b][][\"][cd ef]")
    checks.check("a child program has its words, a working folder of its run, and the environment of the service", done and outputs == [f"t/{run}"], outputs)
    errors = runs_with(service, "stderr.txt", "told\n")
    checks.check("what it writes is in two files of its run", errors == outputs, errors)
    run = max(os.listdir(os.path.join(root, "night.db-runs", "told", "names")), key=int, default="0")
    text, folder = text_of(root, "night.db-runs", "told", "names", run, "stdout.txt").split("\n"), f"{root}/night.db-runs/told/names/{run}"
    wanted = ["p", "told", "names", folder, f"{folder}/wd", root, f"{root}/shared", f"{root}/shared", ""]
    is_so = text[:1] + text[2:] == wanted and re.fullmatch(r"node-\d+", text[1]) is not None
    checks.check("and the names of its pool, node, job, task and folders", is_so, text)
    alone = runs_with(service, "stdout.txt", "0\n1\n2\n3\n")
    checks.check("it has its standard streams, and no other open file", len(alone) == 1, alone)
    # the C library may ignore signals 32 and 33, which it keeps for itself
    none, own = "0" * 16, "0000000180000000"
    texts = [f"SigBlk:\t{none}\nSigIgn:\t{ignored}\n" for ignored in (none, own)]
    signals = [it for text in texts for it in runs_with(service, "stdout.txt", text)]
    checks.check("no signal is blocked for it, or ignored but by the C library", len(signals) == 1, signals)
    child, exit_text = runs_with(service, "stdout.txt", "child 259\n"), service.task("told", "child").get("exit")
    checks.check("`batch child 259` writes that, and ends with code 3", len(child) == 1 and exit_text == "3", (child, exit_text))


def waiting(name):
    """A command line that waits for the end of its input, and then writes a file."""
    return at_root(f"echo begun > stops/{name}-begun.txt; cat; echo closed > stops/{name}.txt")


def ended_around(name):
    """The same, around a program that does not read its input."""
    ends = f"cat <&3; echo closed > stops/{name}.txt; kill $$ 2> /dev/null"
    return at_root(f"echo begun > stops/{name}-begun.txt; exec 3<&0; ({ends}) & exec sleep 1000")


def stopped(checks, service, name, exit_text, ask, **job):
    """A task is asked to stop: it ends by the end of its input."""
    with service.client() as client:
        client.add("/jobs", {"id": name, "poolInfo": {"poolId": "p"}, **job})
        wall = {"constraints": {"maxWallClockTime": "PT2S"}} if name == "wall" else {}
        line = ended_around(name) if name == "around" else waiting(name)
        client.add(f"/jobs/{name}/tasks", {"id": "t", "commandLine": line, **wall})
    begun = is_there(service.folder, "stops", f"{name}-begun.txt")
    since = time.monotonic()
    status = service.ask("POST", ask)[0] if ask else 0
    done = begun and wait_for(lambda: service.task(name, "t")["state"] == "completed", 60)
    seconds, row = time.monotonic() - since, service.task(name, "t")
    is_closed = text_of(service.folder, "stops", f"{name}.txt") == "closed\n"
    checks.check(f"{name}: a task that waits for the end of its input ends ({seconds:.1f} s)", done and is_closed, (status, row))
    checks.check(f"{name}: it is a failure by {exit_text}", (row.get("result"), row.get("exit")) == ("failure", exit_text), row)


def stops(checks, service):
    """Wall time, and termination of a job and of a task."""
    os.mkdir(os.path.join(service.folder, "stops"))
    stopped(checks, service, "wall", "wall", None)
    stopped(checks, service, "task", "terminated", "/jobs/task/tasks/t/terminate")
    stopped(checks, service, "around", "terminated", "/jobs/around/terminate")
    around = {"jobPreparationTask": {"commandLine": at_root("echo $AZ_BATCH_NODE_ID >> stops/prepared.txt")},
              "jobReleaseTask": {"commandLine": at_root("echo $AZ_BATCH_NODE_ID >> stops/released.txt")}}
    stopped(checks, service, "job", "terminated", "/jobs/job/terminate", **around)
    is_ended, job = service.comes_to("job", "completed")
    checks.check("the terminated job is completed", is_ended and job.get("terminateReason") == "UserTerminate", job)
    prepared, released = (text_of(service.folder, "stops", f"{each}.txt").split() for each in ("prepared", "released"))
    checks.check("its node was prepared and released once", len(prepared) == 1 and released == prepared, (prepared, released))


def last(checks, path, folder):
    """A service of one connection ends by itself, after its child program."""
    service = Service(path, folder, "--store", "night.db", "--connections", "1")
    with service.client() as client:
        client.add("/jobs", {"id": "last", "poolInfo": {"poolId": "p"}})
        client.add("/jobs/last/tasks", {"id": "t", "commandLine": at_root("echo begun > begun.txt; sleep 2; echo ended > ended.txt")})
        begun = is_there(folder, "begun.txt")
    status, output = service.ended()
    checks.check("a service of one connection ends with status 0", (status, output) == (0, b""), (status, output))
    checks.check("its child program was waited for", begun and text_of(folder, "ended.txt") == "ended\n")
    export = subprocess.run([path, "export", "--store", "night.db"], cwd=folder, capture_output=True, check=False)
    is_kept = export.returncode == 0 and b"\ntask last t completed success 0 0\n" in export.stdout
    checks.check("the store has its ending", is_kept, (export.returncode, export.stdout[-300:]))
    open_runs = [line for line in export.stdout.decode().splitlines() if re.match(r"run .* (queued|taken|waiting) ", line)]
    checks.check("the store has no run that is not ended", is_kept and not open_runs, open_runs)


def kept(checks, path, folder):
    """A kept connection makes requests as long as many child programs begin and end, and is not ended."""
    os.mkdir(os.path.join(folder, "kept"))
    service = Service(path, os.path.join(folder, "kept"), "--seats", "1", "--doors", "1")
    client, ended, count = service.client(), 0, 0
    client.add("/pools", {"id": "p", "targetDedicatedNodes": 1, "taskSlotsPerNode": 8})
    client.add("/jobs", {"id": "j", "poolInfo": {"poolId": "p"}})
    client.ask("POST", "/jobs/j/disable", {"disableTasks": "requeue"})
    for part in range(SHORT // 100):
        client.add("/jobs/j/addtaskcollection", {"value": [{"id": f"{part}-{n}", "commandLine": "true"} for n in range(100)]})
    client.ask("POST", "/jobs/j/enable")
    until = time.monotonic() + PATIENCE
    while count < SHORT and time.monotonic() < until:
        try:
            count = client.ask("GET", "/jobs/j/taskcounts")[1]["taskCounts"]["completed"]
        except (OSError, http.client.HTTPException):
            ended, client = ended + 1, service.client()
        time.sleep(0.01)
    checks.check(f"a connection is kept while {SHORT} child programs begin and end", (ended, count) == (0, SHORT), f"ended {ended} times, {count} completed")
    client.connection.close()
    service.kill()


def refused(checks, path, folder):
    """Command lines, a port and stores that cannot be served."""
    service = Service(path, folder)
    with open(os.path.join(folder, "no-store.db"), "w", encoding="utf-8") as it:
        it.write("this is no store" * 100)
    for what, words, status, told in (
        ("a port that is taken", ["--port", str(service.port)], 3, "port fault"),
        ("a file that is no store", ["--port", "0", "--store", "no-store.db"], 5, "store fault"),
        ("17 doors", ["--doors", "17"], 2, ""),
        ("no connections", ["--connections", "0"], 2, ""),
        ("a port above 65,535", ["--port", "65536"], 2, ""),
    ):
        with contextlib.suppress(subprocess.TimeoutExpired):
            done = None
            done = subprocess.run([path, "serve", *words], cwd=folder, capture_output=True, timeout=PATIENCE, check=False)
        holds = done is not None and (done.returncode, done.stdout) == (status, b"") and told.encode() in done.stderr
        checks.check(f"{what}: status {status}", holds, done)
    service.kill()
