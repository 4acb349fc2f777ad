"""What is measured of a running service, and beside it: starts, resizes, child programs and requests."""
import os
import statistics
import subprocess
import time

from service import Service, is_there, shell, text_of, wait_for

NODES, COLLECTION, ROUNDS = 8, 100, 3
SECONDS_AT_REST, STARTS, SECONDS_BETWEEN = 3, 20, 0.4
LEFT, RESIZES = 2, 10
CONNECTIONS = (1, 4, 16)


class Plain:
    """The C program."""

    def __init__(self, folder):
        source = os.path.join(os.path.dirname(os.path.abspath(__file__)), "plain.c")
        self.folder, self.path = folder, os.path.join(folder, "plain")
        subprocess.run(["cc", "-O2", "-pthread", "-o", self.path, source], check=True)

    def seconds(self, *words):
        done = subprocess.run([self.path, *map(str, words)], cwd=self.folder, stdout=subprocess.PIPE, check=True)
        return float(done.stdout)

    def children(self, count, at_once, files):
        """Child programs a second."""
        return count / self.seconds("spawn", count, at_once, files)

    def requests(self, service, connections, count, what, name):
        """Requests a second."""
        each = count // connections
        return each * connections / self.seconds("ask", service.port, connections, each * connections, what, name)


def begun(path, folder, name, *words):
    """A service in a new folder, with a pool of 8 nodes, and a job that is disabled."""
    folder = os.path.join(folder, name)
    os.mkdir(folder)
    service = Service(path, folder, *words)
    with service.client() as client:
        client.add("/pools", {"id": "p", "targetDedicatedNodes": NODES})
        client.add("/jobs", {"id": "j", "poolInfo": {"poolId": "p"}})
        client.ask("POST", "/jobs/j/disable", {"disableTasks": "requeue"})
    if not service.comes_to("j", "disabled")[0]:
        raise RuntimeError("the job is not disabled")
    return service


def rest(service):
    """How much of one processor a service takes that is asked nothing, in percent."""
    before = service.processor_seconds()
    time.sleep(SECONDS_AT_REST)
    return (service.processor_seconds() - before) / SECONDS_AT_REST * 100


def run_children(service, count):
    """Adds tasks, enables the job, and waits for their end: the seconds from the enabling to the end."""
    with service.client() as client:
        for first in range(1, count + 1, COLLECTION):
            last = min(first + COLLECTION, count + 1)
            client.add("/jobs/j/addtaskcollection", {"value": [{"id": f"t{n}", "commandLine": "true"} for n in range(first, last)]})
        since = time.monotonic()
        client.ask("POST", "/jobs/j/enable")
        done = wait_for(lambda: client.ask("GET", "/jobs/j/taskcounts")[1]["taskCounts"]["completed"] == count)
        seconds = time.monotonic() - since
    counts = service.counts("j")
    if not done or counts["succeeded"] != count:
        raise RuntimeError(f"tasks have failed: {counts}")
    return seconds


def children_round(path, plain, folder, number, count):
    """Child programs a second: plain ones, and those of services."""
    rates = {"one": plain.children(count, 1, "bare"), "eight": plain.children(count, NODES, "bare"), "kept": plain.children(count, NODES, "kept")}
    for name, words in (("memory", []), ("store", ["--store", "night.db"])):
        service = begun(path, folder, f"children-{name}-{number}", *words)
        empty, before = rest(service), service.processor_seconds()
        rates[name] = count / run_children(service, count)
        spent = (service.processor_seconds() - before) / count * 1e6
        print(f"round {number}, {name}: {spent:.0f} us of processor time a child program in the service itself, "
              f"{service.status_line('VmHWM') / 1024:.0f} MB at most; at rest {empty:.1f} % of a processor before, and {rest(service):.1f} % after", flush=True)
        service.kill()
    return rates


def told(rates):
    return (f"plain {rates['one']:.0f} a second one at a time, {rates['eight']:.0f} eight at a time, {rates['kept']:.0f} with a pipe and two files each; "
            f"service {rates['memory']:.0f} in memory ({rates['memory'] / rates['one']:.2f} of one at a time, {rates['memory'] / rates['eight']:.2f} of eight), "
            f"{rates['store']:.0f} with a store ({rates['store'] / rates['one']:.2f} and {rates['store'] / rates['eight']:.2f})")


def children(path, plain, folder, count):
    """Prints how many child programs are run in a second."""
    print(f"{count} child programs `true` on {NODES} nodes, load {os.getloadavg()[0]:.1f}", flush=True)
    rounds = []
    for number in range(1, ROUNDS + 1):
        rates = children_round(path, plain, folder, number, count)
        rounds.append(rates)
        print(f"round {number}: {told(rates)}", flush=True)
    print(f"medians: {told({name: statistics.median(each[name] for each in rounds) for name in rounds[0]})}, load {os.getloadavg()[0]:.1f}", flush=True)


def started_after(service, client, folder, name):
    """How long it is from before the request that adds a task to what its child program tells as its time, in milliseconds."""
    told = os.path.join(folder, name)
    since = time.time_ns()
    client.add("/jobs/j/tasks", {"id": name, "commandLine": shell(f"date +%s%N > {told}.new; mv {told}.new {told}")})
    if not is_there(told):
        raise RuntimeError(f"the task {name} was not started")
    return (int(text_of(told)) - since) / 1e6


def starts(path, folder):
    """Prints how soon an idle service starts a task, and what it takes at rest."""
    for name, words in (("memory", []), ("store", ["--store", "night.db"])):
        service = begun(path, folder, f"starts-{name}", *words)
        with service.client() as client:
            client.ask("POST", "/jobs/j/enable")
            times = []
            for number in range(1, STARTS + 1):
                time.sleep(SECONDS_BETWEEN)
                times.append(started_after(service, client, folder, f"{name}{number}"))
        print(f"{name}: from the request that adds a task to an idle service to its child program {statistics.median(times):.1f} ms, "
              f"{min(times):.1f} to {max(times):.1f}, of {STARTS}; at rest {rest(service):.1f} % of a processor, load {os.getloadavg()[0]:.1f}", flush=True)
        service.kill()


def shown_after(client, is_so, *ask):
    """How long it is from before a request about the pool to a read that shows it so, in milliseconds."""
    since = time.monotonic()
    status, answer = client.ask(*ask)
    if status not in (201, 202) or not wait_for(lambda: is_so(*client.ask("GET", "/pools/p")), pause=0.001):
        raise RuntimeError(f"{ask}: {status} {answer}, and {client.ask('GET', '/pools/p')}")
    return (time.monotonic() - since) * 1000


def is_steady(_, pool):
    return pool["allocationState"] == "steady"


def is_gone(status, _):
    return status == 404


def load(client, name):
    """Has a task `cat` run on each node."""
    client.ask("POST", "/jobs/j/enable")
    client.add("/jobs/j/addtaskcollection", {"value": [{"id": f"{name}-{n}", "commandLine": "cat"} for n in range(NODES)]})
    if not wait_for(lambda: client.ask("GET", "/jobs/j/taskcounts")[1]["taskCounts"]["running"] == NODES, pause=0.01):
        raise RuntimeError("the tasks do not run")
    # the child program of a task that runs may not have begun yet
    time.sleep(SECONDS_BETWEEN)


def unload(client, name):
    """Ends what is left of these tasks, and removes them."""
    client.ask("POST", "/jobs/j/disable", {"disableTasks": "terminate"})
    for n in range(NODES):
        client.ask("DELETE", f"/jobs/j/tasks/{name}-{n}")
    if not wait_for(lambda: client.ask("GET", "/jobs/j/taskcounts")[1]["taskCounts"] == dict.fromkeys(("active", "completed", "failed", "running", "succeeded"), 0)):
        raise RuntimeError("the tasks are not removed")


def resized(client, option):
    """Times of a resize to two nodes by the option, and of one back to eight."""
    down = shown_after(client, is_steady, "POST", "/pools/p/resize", {"targetDedicatedNodes": LEFT, "nodeDeallocationOption": option})
    return down, shown_after(client, is_steady, "POST", "/pools/p/resize", {"targetDedicatedNodes": NODES})


def by_requeue(client):
    return resized(client, "requeue")


def by_terminate(client):
    return resized(client, "terminate")


def by_deletion(client):
    """Times of a deletion of the pool, and of its adding."""
    return shown_after(client, is_gone, "DELETE", "/pools/p"), shown_after(client, is_steady, "POST", "/pools", {"id": "p", "targetDedicatedNodes": NODES})


def range_of(times):
    return f"{statistics.median(times):.1f} ms ({min(times):.1f} to {max(times):.1f})"


def changed_times(service, name, change, is_loaded):
    """Times of changes of the pool, each with a task on each node or with idle ones."""
    times = []
    for number in range(RESIZES):
        with service.client() as client:
            if is_loaded:
                load(client, f"{name}-{number}")
            times.append(change(client))
            if is_loaded:
                unload(client, f"{name}-{number}")
    down, up = zip(*times)
    return f"{range_of(down)}, and {NODES} nodes are there {range_of(up)} after they are asked for"


def resizes(path, folder):
    """Prints how long resizes and deletions of a pool take, from before the request to a read that shows its end."""
    for name, words in (("memory", []), ("store", ["--store", "night.db"])):
        service = begun(path, folder, f"resizes-{name}", *words)
        for what, change, is_loaded in (("idle nodes", by_requeue, False), ("requeue", by_requeue, True), ("terminate", by_terminate, True), ("deletion", by_deletion, True)):
            ending = f"pool with `cat` on each of {NODES} nodes is gone" if change is by_deletion else f"pool of {NODES} nodes is steady at {LEFT}"
            print(f"{name}, {what}: a {ending} after {changed_times(service, what.replace(' ', '-'), change, is_loaded)}; of {RESIZES}, "
                  f"load {os.getloadavg()[0]:.1f}", flush=True)
        service.kill()


def requests(path, plain, folder, count):
    """Prints how many requests are answered in a second."""
    for name, words in (("memory", []), ("store", ["--store", "night.db"])):
        service = begun(path, folder, f"requests-{name}", "--doors", "16", *words)
        for what, text in (("read", "reads of a pool"), ("add", "tasks added")):
            for connections in CONNECTIONS:
                rates = [plain.requests(service, connections, count, what, f"{what}{connections}-{number}") for number in range(1, ROUNDS + 1)]
                print(f"{name}, {text}, {connections} connections: {statistics.median(rates):.0f} a second, in rounds "
                      f"{', '.join(f'{rate:.0f}' for rate in rates)}, load {os.getloadavg()[0]:.1f}", flush=True)
        tasks = sum(service.counts("j")[state] for state in ("active", "running", "completed"))
        print(f"{name}: {tasks} tasks, {service.status_line('VmHWM') / 1024:.0f} MB at most; at rest {rest(service):.1f} % of a processor", flush=True)
        service.kill()
