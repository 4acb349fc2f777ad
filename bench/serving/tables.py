"""A small model of the tables: pools without start tasks, one slot a node, jobs, and tasks without retries."""
import json


class Tables:
    """The tables, which calls and due steps change. A call changes what it changes at once; the lines of the output say its due steps."""

    def __init__(self, text="tables 0\n"):
        """The tables of a tables text."""
        self.moment, self.pools, self.nodes, self.jobs, self.tasks, self.runs = 0, {}, {}, {}, {}, {}
        # the option of the last resize of a pool, and the tasks that are to be terminated
        self.options, self.terminated = {}, set()
        for line in text.splitlines():
            kind, *words = line.split(" ")
            if kind == "tables":
                self.moment = int(words[0])
            elif kind == "pool":
                self.pools[words[0]] = words[1:]
            elif kind == "node":
                self.nodes[words[0]] = words[1:3] + [words[3] == "leavingpool"]
            elif kind == "job":
                self.jobs[words[0]] = words[1:]
            elif kind == "task":
                self.tasks[words[0], words[1]] = words[2:]
            elif kind == "run":
                self.runs[words[0]] = words[1:]
            else:
                raise ValueError(f"a line that the model does not have: {line}")

    def call(self, moment, call, is_done=True):
        """Makes the call, without its due steps; one that was refused has its moment alone."""
        self.moment = moment
        verb, *words = call.split(" ")
        if not is_done:
            return
        if verb == "add-pool":
            body = json.loads(words[0])
            self.pools[body["id"]] = ["active", "resizing", str(body["targetDedicatedNodes"]), "0", "1", "spread"]
        elif verb == "resize":
            body = json.loads(words[1])
            self.pools[words[0]][1:3] = ["resizing", str(body["targetDedicatedNodes"])]
            self.options[words[0]] = body["nodeDeallocationOption"]
        elif verb == "add-job":
            body = json.loads(words[0])
            self.jobs[body["id"]] = [body["poolInfo"]["poolId"], "active", "0", "-"]
        elif verb == "add-task":
            self.tasks[words[0], json.loads(" ".join(words[1:]))["id"]] = ["active", "-", "-", "0"]
        elif verb == "take":
            self.runs[words[0]][4:] = ["taken", "-"]
        elif verb == "end":
            self.runs[words[0]][4:] = ["ended", words[1]]
        elif verb != "tick":
            raise ValueError(f"a call that the model does not have: {call}")

    def step(self, line):
        """Makes the due step that a line of the output says, without its number."""
        rule, *words = line.split(" ")
        if rule == "U5":
            self.settle(*words)
        elif rule == "U11":
            self.pools[words[0]][1] = words[1]
        elif rule == "U13":
            self.leave(words[0])
        elif rule == "U14":
            del self.nodes[words[0]]
        elif rule == "U15":
            self.nodes[words[1]] = [words[0], words[2], False]
        elif rule == "U16":
            self.tasks[words[0], words[1]] = ["running", "-", "-", "0"]
            self.runs[words[3]] = ["task", words[2], *words[:2], "queued", "-"]
        else:
            raise ValueError(f"a due step that the model does not have: {line}")

    def settle(self, job, task, word, *failures):
        """The task is active again, or completed."""
        if word == "active":
            self.tasks[job, task] = ["active", "-", "-", *failures]
        else:
            code = "terminated" if (job, task) in self.terminated else self.last_run(job, task)[5]
            self.tasks[job, task] = ["completed", word, code, "0"]

    def last_run(self, job, task):
        return [run for run in self.runs.values() if run[2:4] == [job, task]][-1]

    def leave(self, node):
        """The node leaves: its queued runs are withdrawn, and tasks of its runs terminated, if the option says so."""
        self.nodes[node][2] = True
        option = self.options[self.nodes[node][0]]
        for run in self.runs.values():
            if run[1] == node and run[4] in ("queued", "taken") and option in ("requeue", "terminate"):
                if run[4] == "queued":
                    run[4] = "withdrawn"
                if option == "terminate":
                    self.terminated.add((run[2], run[3]))

    def busy(self):
        """The nodes on which a placed task holds its slot."""
        last = {(run[2], run[3]): run[1] for run in self.runs.values()}
        return {last[key] for key, task in self.tasks.items() if task[0] == "running"}

    def text(self):
        """The tables text."""
        busy, lines = self.busy(), [f"tables {self.moment}"]
        lines += [" ".join(["pool", pool, *words]) for pool, words in self.pools.items()]
        for node, (pool, seat, leaves) in self.nodes.items():
            lines.append(f"node {node} {pool} {seat} {'leavingpool' if leaves else 'running' if node in busy else 'idle'}")
        lines += [" ".join(["job", job, *words]) for job, words in self.jobs.items()]
        lines += [" ".join(["task", *key, *words]) for key, words in self.tasks.items()]
        lines += [" ".join(["run", run, *words]) for run, words in self.runs.items()]
        return "\n".join(lines) + "\n"
