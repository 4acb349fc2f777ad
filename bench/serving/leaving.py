"""What becomes of tasks and of their child programs when pools are resized and deleted under them."""
import os
import re
import time

from service import Service, is_running, quoted, text_of, wait_for

# nodes of a pool, those that stay, and tasks that wait beside one on each node
NODES, STAY, WAITING = 8, 2, 4
# seconds: a retention, between two ticks, what may come to them, how long nodes that wait are watched, and what a program takes to its end
RETAINED, TICK, LATE, WATCHED, SLOW = 3, 10, 20, 2, 0.5
IN_TASK = os.path.realpath(os.path.join(os.path.dirname(os.path.abspath(__file__)), "..", "..", "examples", "in-task"))

# Each child program writes a line when it begins, and one when it is asked to stop, or when it finds the file `go`.
ENTER = "cd $AZ_BATCH_NODE_ROOT_DIR/$AZ_BATCH_JOB_ID; told=$AZ_BATCH_TASK_ID.txt"
TELL = "echo begun $$ $AZ_BATCH_NODE_ID >> $told"
READ = "read -r -t 0.05; test $? -gt 128 || { echo closed >> $told; exit 0; }"
WAITS = "until test -e go; do sleep 0.05; done; echo done >> $told"


def reads():
    """A program that looks at its input."""
    return "bash -c " + quoted(f"{ENTER}; {TELL}; until test -e go; do {READ}; done; echo done >> $told")


def around():
    """One that does not, is run by `examples/in-task`, and takes a moment to its end."""
    return f"{quoted(IN_TASK)} -g 5 bash -c " + quoted(f"{ENTER}; trap 'echo closed >> $told; sleep {SLOW}; exit 0' TERM; {TELL}; {WAITS}")


def goes_on():
    """One that does not, and goes on when it is asked to stop."""
    return "bash -c " + quoted(f"{ENTER}; {TELL}; {WAITS}")


class Load:
    """A pool, a job with its name, and tasks: one that runs on each node, and some that wait."""

    def __init__(self, service, name, lines, nodes=NODES, **members):
        self.service, self.name, self.nodes, self.folder = service, name, nodes, os.path.join(service.folder, name)
        os.mkdir(self.folder)
        self.tasks = [f"t{number}" for number in range(1, len(lines) + 1)]
        value = [{"id": task, "commandLine": line, **members} for task, line in zip(self.tasks, lines)]
        with service.client() as client:
            client.add("/pools", {"id": name, "targetDedicatedNodes": nodes})
            client.add("/jobs", {"id": name, "poolInfo": {"poolId": name}})
            client.add(f"/jobs/{name}/addtaskcollection", {"value": value})

    def told(self, task):
        """What the child programs of the task have written: for each that has begun its process and its node, and the other lines."""
        text = text_of(self.folder, f"{task}.txt")
        return [(int(number), node) for number, node in re.findall(r"^begun (\d+) (\S+)$", text, re.M)], re.findall(r"^(?:closed|done)$", text, re.M)

    def run_on_all(self):
        """Waits until each node has a task whose child program has begun: the task and the process of each node."""
        def found():
            return {node: (task, number) for task in self.tasks for number, node in self.told(task)[0]}
        if not wait_for(lambda: len(found()) == self.nodes, 60):
            raise RuntimeError(f"{self.name}: only {found()} have begun")
        return found()

    def go(self):
        with open(os.path.join(self.folder, "go"), "w", encoding="utf-8"):
            return time.monotonic()

    def states(self, tasks):
        """How many of these tasks are in each state."""
        rows = {row["id"]: row["state"] for row in self.service.tasks(self.name)}
        states = [rows.get(task, "absent") for task in tasks]
        return {state: states.count(state) for state in set(states)}

    def resize(self, target, option):
        return self.service.ask("POST", f"/pools/{self.name}/resize", {"targetDedicatedNodes": target, "nodeDeallocationOption": option})

    def is_steady(self):
        return self.service.pool(self.name)["allocationState"] == "steady"

    def is_gone(self):
        return self.service.pool(self.name) is None


def milliseconds(since):
    return f"{(time.monotonic() - since) * 1000:.0f} ms"


def count_of(states):
    return {state: list(states).count(state) for state in set(states)}


def shrunk(checks, service, option):
    """A pool of eight nodes is resized to two, by an option, while a task runs on each node and others wait."""
    retention = {"constraints": {"retentionTime": f"PT{RETAINED}S"}}
    load = Load(service, option, [reads() if number % 2 else around() for number in range(NODES + WAITING)], **retention)
    ran = load.run_on_all()
    nodes = list(service.nodes(option))
    left = {node: ran[node] for node in nodes[STAY:]}
    since = time.monotonic()
    status, answer = load.resize(STAY, option)
    checks.check(f"{option}: a pool of {NODES} nodes with running tasks is resized to {STAY}", status == 202, answer)
    if option in ("requeue", "terminate"):
        seen = []
        came = wait_for(lambda: is_seen_steady(load, seen), 60, 0.002)
        checks.check(f"{option}: it is steady {milliseconds(since)} after the request", came and time.monotonic() - since >= SLOW, service.pool(option))
        leaves(checks, load, nodes, seen)
    else:
        holds(checks, load, left)
        since = load.go()
        came = wait_for(load.is_steady, 60, 0.002)
        seconds = time.monotonic() - since
        least = RETAINED if option == "retaineddata" else 0
        checks.check(f"{option}: it is steady {milliseconds(since)} after its tasks may end", came and least <= seconds <= least + TICK + LATE, service.pool(option))
    is_left(checks, load, nodes, left)
    is_settled(checks, load, option, nodes, [task for task, _ in left.values()])
    service.ask("DELETE", f"/pools/{option}")
    checks.check(f"{option}: the pool is deleted, and gone", wait_for(load.is_gone, 30), service.pool(option))


def is_seen_steady(load, seen):
    """Notes the states of the nodes if they are other ones; whether the pool is steady."""
    states = load.service.nodes(load.name)
    if states not in seen:
        seen.append(states)
    return load.is_steady()


def leaves(checks, load, nodes, seen):
    """Each node that leaves does so from the first moment, and is dropped once its own program has ended."""
    wrong = [states for states in seen if any((state == "leavingpool") != (node in nodes[STAY:]) for node, state in states.items())]
    checks.check(f"{load.name}: nodes that leave are shown so all the while, and the others not", not wrong, wrong)
    checks.check(f"{load.name}: some are dropped while others wait for slower programs", any(STAY < len(states) < NODES for states in seen), seen)


def holds(checks, load, left):
    """Nodes that leave wait for their tasks, and nothing is begun on them."""
    until, seen = time.monotonic() + WATCHED, []
    while time.monotonic() < until:
        states = count_of(load.service.nodes(load.name).values())
        now = load.service.pool(load.name)["allocationState"], states, load.states(load.tasks)
        if now not in seen:
            seen.append(now)
        time.sleep(0.02)
    wanted = [("resizing", {"running": STAY, "leavingpool": NODES - STAY}, {"running": NODES, "active": WAITING})]
    checks.check(f"{load.name}: {NODES - STAY} nodes wait for their tasks", seen == wanted, seen)
    quiet = all(is_running(number) and load.told(task)[1] == [] for task, number in left.values())
    checks.check(f"{load.name}: whose child programs are not asked to stop", quiet, left)
    status, answer = load.resize(NODES, load.name)
    checks.check(f"{load.name}: a pool that is resizing is not resized", status == 409 and answer["code"] == "PoolBeingResized", answer)


def is_left(checks, load, nodes, left):
    """The nodes with the highest numbers have left, and nothing runs on them."""
    pool = load.service.pool(load.name)
    row = pool["currentDedicatedNodes"], pool["targetDedicatedNodes"], pool["resizeErrors"]
    checks.check(f"{load.name}: it has {STAY} nodes, and no error", row == (STAY, STAY, []), pool)
    rest = list(load.service.nodes(load.name))
    checks.check(f"{load.name}: those with the lowest numbers", rest == nodes[:STAY], rest)
    there = {node: number for node, (_, number) in left.items() if is_running(number)}
    checks.check(f"{load.name}: the child programs of the others are gone", not there, there)
    def is_waited_for():
        states = load.service.child_programs()
        return len(states) <= STAY and "Z" not in states.values()
    checks.check(f"{load.name}: the service has no others than those of the nodes that stay, and has waited for the rest", wait_for(is_waited_for, 10),
                 load.service.child_programs())


def is_settled(checks, load, option, nodes, tasks):
    """What the option does to tasks, those of the nodes that have left and the others."""
    stops = option in ("requeue", "terminate")
    if stops:
        closed = [task for task in tasks if load.told(task)[1] != ["closed"]]
        checks.check(f"{option}: each of them was asked to stop, and ended by itself", not closed, closed)
        states, wanted = load.states(tasks), {"active" if option == "requeue" else "completed": len(tasks)}
        checks.check(f"{option}: their tasks are {' '.join(wanted)}, and no others", states == wanted and load.states(load.tasks)["running"] == STAY, states)
        load.go()
    came, counts = load.service.settled(option), load.service.counts(option)
    failed = len(tasks) if option == "terminate" else 0
    checks.check(f"{option}: at the end {counts['succeeded']} tasks have succeeded, and {counts['failed']} have failed",
                 came and (counts["succeeded"], counts["failed"]) == (len(load.tasks) - failed, failed), counts)
    endings = {task: load.service.task(option, task) for task in tasks}
    wanted = ("failure", "terminated", 0) if option == "terminate" else ("success", "0", 0)
    rows = {task: row for task, row in endings.items() if (row.get("result"), row.get("exit"), row["retryCount"]) != wanted}
    checks.check(f"{option}: the tasks of the nodes that have left end with {wanted[0]} by {wanted[1]}", not rows, rows)
    begun = {task: load.told(task)[0] for task in load.tasks}
    more = {task: runs for task, runs in begun.items() if len(runs) != (2 if option == "requeue" and task in tasks else 1)}
    checks.check(f"{option}: {'they run twice, and the others once' if option == 'requeue' else 'each task runs once'}", not more, more)
    others = [runs[-1] for task, runs in begun.items() if (option == "requeue" or task not in tasks) and runs[-1][1] not in nodes[:STAY]]
    checks.check(f"{option}: and nothing was begun but on the nodes that stay", not others, others)


def deleted(checks, service):
    """A pool is deleted under load, and its seats serve the next one."""
    first = Load(service, "first", [goes_on()] + [reads() if number % 2 else around() for number in range(1, NODES)])
    ran = first.run_on_all()
    since = time.monotonic()
    status, answer = service.ask("DELETE", "/pools/first")
    checks.check("deleted: a pool with running tasks", status == 202, answer)
    second = Load(service, "second", [reads()] * NODES)
    came = wait_for(lambda: len(service.nodes("second")) == NODES - 1, 60, 0.002)
    nodes = service.nodes("first")
    checks.check(f"deleted: {NODES - 1} of its seats serve the next pool {milliseconds(since)} later", came, (nodes, service.nodes("second")))
    pool = service.pool("first")
    is_so = pool["state"] == "deleting" and list(nodes.values()) == ["leavingpool"] and nodes.keys() == {node for node, (task, _) in ran.items() if task == "t1"}
    checks.check("deleted: the other waits for a program that goes on", is_so, (pool, nodes))
    there = {node: number for node, (task, number) in ran.items() if is_running(number) != (task == "t1")}
    checks.check("deleted: the other child programs are gone", not there, there)
    states = first.states(first.tasks)
    checks.check("deleted: their tasks are active", states == {"active": NODES - 1, "running": 1}, states)
    codes = [service.ask("POST", "/jobs", {"id": "third", "poolInfo": {"poolId": "first"}})[1]["code"], first.resize(1, "requeue")[1]["code"],
             service.ask("POST", "/pools", {"id": "first"})[1]["code"], service.ask("DELETE", "/pools/first")[1]["code"]]
    checks.check("deleted: it takes no job, and is not resized, added or deleted", codes == ["PoolBeingDeleted", "PoolBeingDeleted", "PoolExists", "PoolBeingDeleted"], codes)
    since = first.go()
    came = wait_for(first.is_gone, 60, 0.002) and wait_for(second.is_steady, 60, 0.002)
    checks.check(f"deleted: it is gone, and the next pool steady, {milliseconds(since)} after that program may end", came, service.pool("second"))
    served_by_next(checks, service, first, second)


def served_by_next(checks, service, first, second):
    """The next pool has all seats; once it is gone, tasks of the deleted pool are placed in one with its name."""
    second.run_on_all()
    second.go()
    came, counts = service.settled("second"), service.counts("second")
    checks.check(f"deleted: {counts['succeeded']} tasks of the next pool succeed on {NODES} nodes", came and counts["succeeded"] == NODES, counts)
    states = first.states(first.tasks)
    checks.check("deleted: all tasks of the deleted pool are active", states == {"active": NODES}, states)
    since = time.monotonic()
    service.ask("DELETE", "/pools/second")
    checks.check(f"deleted: a pool without tasks is gone after {milliseconds(since)}", second.is_gone(), service.pool("second"))
    service.ask("POST", "/pools", {"id": "first", "targetDedicatedNodes": NODES})
    came, counts = service.settled("first"), service.counts("first")
    checks.check("deleted: a pool of the same name is added, and runs its tasks", came and counts["succeeded"] == NODES, counts)
    again = {task: len(first.told(task)[0]) for task in first.tasks}
    checks.check("deleted: each of them was run twice", set(again.values()) == {2}, again)
    service.ask("DELETE", "/pools/first")


def starts(checks, service):
    """Nodes leave while their start tasks run, and wait for the end of these."""
    folder, count = os.path.join(service.folder, "starts"), NODES // 2
    os.mkdir(folder)
    enter = "cd $AZ_BATCH_NODE_ROOT_DIR/starts; told=$AZ_BATCH_NODE_ID.txt"
    start = {"commandLine": around().replace(ENTER, enter), "waitForSuccess": False}
    service.ask("POST", "/pools", {"id": "starts", "targetDedicatedNodes": count, "startTask": start})

    def told(node):
        return re.fullmatch(r"begun (\d+) \S+\n(closed\n)?", text_of(folder, f"{node}.txt"))
    nodes = list(service.nodes("starts"))
    came = wait_for(lambda: all(told(node) for node in nodes), 60)
    checks.check(f"starts: {count} start tasks run", came and len(nodes) == count, nodes)
    since, numbers = time.monotonic(), {node: int(told(node)[1]) for node in nodes}
    status, answer = service.ask("POST", "/pools/starts/resize", {"targetDedicatedNodes": 1})
    states = list(service.nodes("starts").values())
    checks.check("starts: the pool is resized to one node, and the others wait", status == 202 and states == ["idle"] + ["leavingpool"] * (count - 1), (answer, states))
    came = wait_for(lambda: service.pool("starts")["allocationState"] == "steady", 60, 0.002)
    there = [node for node in nodes[1:] if is_running(numbers[node]) or told(node)[2] is None]
    checks.check(f"starts: it is steady after {milliseconds(since)}, when their start tasks were asked to stop and have ended", came and not there and
                 time.monotonic() - since >= SLOW, there)
    checks.check("starts: that of the node that stays goes on", is_running(numbers[nodes[0]]) and told(nodes[0])[2] is None, nodes[0])
    service.ask("DELETE", "/pools/starts")
    came = wait_for(lambda: service.pool("starts") is None, 60, 0.002)
    checks.check("starts: the pool is deleted, and gone once the last start task has ended", came and not is_running(numbers[nodes[0]]), text_of(folder, f"{nodes[0]}.txt"))


def stopped(checks, service):
    """A resize that cannot come to its end is stopped."""
    with service.client() as client:
        client.add("/pools", {"id": "large", "targetDedicatedNodes": NODES + 4})
        pool = client.ask("GET", "/pools/large")[1]
        checks.check("stopped: a pool with a target above the seats is resizing", (pool["allocationState"], pool["currentDedicatedNodes"]) == ("resizing", NODES), pool)
        answers = [client.ask("POST", "/pools/large/stopresize") for _ in range(2)]
        pool = client.ask("GET", "/pools/large")[1]
        row = pool["allocationState"], pool["currentDedicatedNodes"], pool["resizeErrors"]
        checks.check("stopped: its resize is stopped, and it stays with its nodes", answers[0][0] == 202 and row == ("steady", NODES, ["ResizeStopped"]), pool)
        checks.check("stopped: and is not stopped twice", answers[1][0] == 409 and answers[1][1]["code"] == "PoolNotResizing", answers[1])
        client.ask("POST", "/pools/large/resize", {"targetDedicatedNodes": 0})
        pool = client.ask("GET", "/pools/large")[1]
        row = pool["allocationState"], pool["currentDedicatedNodes"], pool["resizeErrors"]
        checks.check("stopped: the next resize leads to its target, without an error", row == ("steady", 0, []), pool)
        client.ask("DELETE", "/pools/large")


def killed(checks, service):
    """The service is killed while nodes leave: one pool is being resized, another is being deleted."""
    small, gone = (Load(service, name, [goes_on()] * (NODES // 2), NODES // 2) for name in ("small", "gone"))
    ran = [each.run_on_all() for each in (small, gone)]
    small.resize(1, "taskcompletion")
    service.ask("DELETE", "/pools/gone")
    states = [count_of(service.nodes(name).values()) for name in ("small", "gone")]
    checks.check("killed: nodes of two pools leave", states == [{"running": 1, "leavingpool": NODES // 2 - 1}, {"leavingpool": NODES // 2}], states)
    service.kill()
    service = Service(service.path, service.folder, "--store", "night.db")
    small.service = gone.service = service
    checks.check("killed: after the next start the deleted pool is gone", wait_for(gone.is_gone, 30), service.pool("gone"))
    came, pool = wait_for(small.is_steady, 30), service.pool("small")
    checks.check("killed: and the other has its new target", came and pool["currentDedicatedNodes"] == 1, pool)
    for each in (small, gone):
        each.go()
    came, counts = service.settled("small"), service.counts("small")
    checks.check(f"killed: all {NODES // 2} tasks of it succeed", came and counts["succeeded"] == NODES // 2, counts)
    states = gone.states(gone.tasks)
    checks.check("killed: those of the deleted pool are active", states == {"active": NODES // 2}, states)
    numbers = [number for each in ran for _, number in each.values()]
    checks.check("killed: the child programs of before have ended", wait_for(lambda: not any(map(is_running, numbers)), 30), numbers)
    service.kill()


def pools(checks, path, folder):
    """Pools that are resized and deleted, over a store of their own."""
    folder = os.path.join(folder, "pools")
    os.mkdir(folder)
    service = Service(path, folder, "--store", "night.db")
    for option in ("requeue", "terminate", "taskcompletion", "retaineddata"):
        with checks.part(option):
            shrunk(checks, service, option)
    for part in (deleted, starts, stopped, killed):
        with checks.part(part.__name__):
            part(checks, service)
