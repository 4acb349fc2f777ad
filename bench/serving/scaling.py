"""A pool that follows its queue by a formula, and formulas with faults, watched over HTTP."""
import os
import re
import time

from service import Service, text_of, wait_for

# nodes at least and at most, the tasks that the pool grows for, and the seconds that each takes
LEAST, MOST, TASKS, SECONDS = 1, 6, 300, 1
# seconds: from one evaluation to the next, which is the least interval; from one sample to the next; between two ticks; what may come to these
INTERVAL, HALF_MINUTE, TICK, LATE = 300, 30, 10, 20

PENDING = "$PendingTasks.GetSample(TimeInterval_Minute * 2)"
FORMULA = f"""$percent = $PendingTasks.GetSamplePercent(TimeInterval_Minute * 2);
$tasks = $percent < 70 ? max(0, $PendingTasks.GetSample(1)) : max($PendingTasks.GetSample(1), avg({PENDING}));
$TargetDedicatedNodes = max({LEAST}, min({MOST}, $tasks));
$NodeDeallocationOption = taskcompletion;"""
SETTINGS = "$TargetDedicatedNodes={};$TargetLowPriorityNodes=0;$NodeDeallocationOption={}"
# the operator of the fault stands at this place
FAULTY, FAULT = "$TargetDedicatedNodes = 10 / $PendingTasks;", "error DivideByZero 27"


class Watched:
    """A pool, and the numbers of nodes that it was seen to have, one after the other."""

    def __init__(self, service, pool):
        self.service, self.path, self.seen = service, f"/pools/{pool}", []

    def row(self):
        row = self.service.ask("GET", self.path)[1]
        if self.seen[-1:] != [row["currentDedicatedNodes"]]:
            self.seen.append(row["currentDedicatedNodes"])
        return row

    def has(self, count):
        """Whether the pool has so many nodes, and wants no others."""
        row = self.row()
        return row["allocationState"] == "steady" and row["currentDedicatedNodes"] == row["targetDedicatedNodes"] == count

    def ask(self, what, formula=None, **members):
        body = members if formula is None else {"autoScaleFormula": formula, **members}
        return self.service.ask("POST", f"{self.path}/{what}", body)

    def newest(self):
        """The newest sample of the tasks that wait or run; None if there is none."""
        status, answer = self.ask("evaluateautoscale", "x = $PendingTasks.GetSample(1);")
        found = re.search(r";\$x=\[(\d+)\]$", answer["results"]) if status == 200 else None
        return int(found[1]) if found else None

    def evaluations(self):
        """The texts of the evaluations that the log of the service has."""
        runs = os.path.join(self.service.folder, "night.db-runs")
        logs = (name for name in sorted(os.listdir(runs)) if name.startswith("steps-"))
        return [text for name in logs for text in re.findall(r"^\d+ U12 \S+ (.*)$", text_of(runs, name), re.M)]


def add_tasks(client):
    client.add("/jobs", {"id": "queue", "poolInfo": {"poolId": "p"}})
    tasks = [{"id": str(number), "commandLine": f"sleep {SECONDS}"} for number in range(TASKS)]
    for begin in range(0, TASKS, 100):
        client.add("/jobs/queue/addtaskcollection", {"value": tasks[begin:begin + 100]})


def follows(checks, service, pool):
    """It has one node without tasks, six when it is evaluated under the tasks, and one again at the next evaluation."""
    with service.client() as client:
        client.add("/pools", {"id": "p", "enableAutoScale": True, "autoScaleFormula": FORMULA, "autoScaleEvaluationInterval": "PT5M"})
        checks.check(f"a pool that follows its queue begins with {LEAST} node", wait_for(lambda: pool.has(LEAST), LATE), pool.row())
        add_tasks(client)
    sampled = wait_for(lambda: (pool.newest() or 0) >= MOST, HALF_MINUTE + TICK + LATE)
    checks.check("its tasks are sampled", sampled and pool.has(LEAST), (pool.newest(), pool.row()))
    found = pool.ask("evaluateautoscale", FORMULA)
    wanted = SETTINGS.format(MOST, "taskcompletion")
    checks.check(f"a tried formula gives it {MOST}, and changes nothing", found[0] == 200 and found[1]["results"].startswith(wanted) and pool.has(LEAST), found)
    since = time.monotonic()
    found = pool.ask("enableautoscale")
    grown = found[0] == 200 and wait_for(lambda: pool.has(MOST), LATE)
    checks.check(f"it grows to {MOST} when its formula is evaluated", grown, (found, pool.row()))
    done, counts = service.settled("queue"), service.counts("queue")
    checks.check(f"all {TASKS} tasks run with success, {time.monotonic() - since:.0f} s after that", done and counts["succeeded"] == TASKS, counts)
    shrunk = wait_for(lambda: pool.has(LEAST), INTERVAL + TICK + LATE, 0.2)
    seconds = time.monotonic() - since
    checks.check(f"it shrinks to {LEAST} at its next evaluation, {seconds:.0f} s after the last one", shrunk and seconds >= INTERVAL, pool.row())
    checks.check("it had no other numbers of nodes", pool.seen in ([LEAST, MOST, LEAST], [0, LEAST, MOST, LEAST]), pool.seen)


def faults(checks, pool):
    """A formula whose evaluation has a fault changes nothing, and one that is none is refused."""
    before = pool.row()
    found = pool.ask("enableautoscale", FAULTY)
    told = wait_for(lambda: pool.evaluations()[-1:] == [FAULT], LATE)
    checks.check("a formula with a fault is enabled, and the log has the fault", found[0] == 200 and told, (found, pool.evaluations()[-3:]))
    found = pool.ask("evaluateautoscale", FAULTY)
    checks.check("a try shows the same", found == (200, {"results": FAULT}), found)
    checks.check("and the pool is as it was", pool.row() == before, (before, pool.row()))
    found = pool.ask("evaluateautoscale", "x = ;")
    checks.check("a text that is no formula is refused", found == (400, {"code": "FormulaRefused", "number": 10, "values": ["UnexpectedToken", "4"]}), found)
    status, answer = pool.ask("enableautoscale", FORMULA)
    checks.check("scaling is not enabled twice in half a minute", (status, answer.get("code")) == (409, "AutoscaleTooSoon"), (status, answer))
    status, answer = pool.ask("resize", targetDedicatedNodes=2)
    checks.check("a pool that scales is not resized by hand", (status, answer.get("code")) == (409, "PoolScalesAutomatically"), (status, answer))
    found = pool.ask("disableautoscale")
    statuses = [found[0], pool.ask("resize", targetDedicatedNodes=2)[0], pool.ask("evaluateautoscale", FORMULA)[0]]
    checks.check("one that does not scale any more is", statuses == [200, 202, 409] and wait_for(lambda: pool.has(2), LATE), (statuses, pool.row()))


def scaling(checks, path, folder):
    """Both, over one store."""
    folder = os.path.join(folder, "scaling")
    os.mkdir(folder)
    service = Service(path, folder, "--store", "night.db")
    pool = Watched(service, "p")
    with checks.part("a pool that follows its queue"):
        follows(checks, service, pool)
    with checks.part("formulas with faults"):
        faults(checks, pool)
    service.kill()
