"""What is sent and what is read: the members that are set are written, and of those that come the known ones are read."""
import datetime
import enum


class Model:
    """Values by the names of Python, as `target_dedicated_nodes` for the member `targetDedicatedNodes`."""

    # the members that are known of a reply, with their kinds; all others are in `additional_properties`
    known = {}

    def __init__(self, **values):
        self.additional_properties = {}
        for name in self.known:
            setattr(self, name, None)
        for name, value in values.items():
            setattr(self, name, value)

    def __repr__(self):
        return f"{type(self).__name__}({vars(self)})"


def member_of(name):
    """`targetDedicatedNodes` of `target_dedicated_nodes`."""
    first, *rest = name.split("_")
    return first + "".join(map(str.capitalize, rest))


def duration(value):
    """A duration as `isodate` writes it: `P7D`, `PT1H`, `PT1M30.5S`."""
    hours, rest = divmod(value.seconds, 3600)
    minutes, seconds = divmod(rest, 60)
    parts = [f"{hours}H"] * (hours > 0) + [f"{minutes}M"] * (minutes > 0)
    parts += [f"{seconds + value.microseconds / 1e6:.6f}".rstrip("0").rstrip(".") + "S"] * (seconds > 0 or value.microseconds > 0)
    days = f"{value.days}D" * (value.days > 0)
    return "P" + days + "T" * (len(parts) > 0) + "".join(parts) if days or parts else "P0D"


def written(value):
    """The JSON of a value, without the members that are not set."""
    if isinstance(value, Model):
        value = {member_of(name): each for name, each in vars(value).items() if name != "additional_properties" and each is not None}
    if isinstance(value, dict):
        return {name: written(each) for name, each in value.items()}
    if isinstance(value, list):
        return [written(each) for each in value]
    if isinstance(value, datetime.timedelta):
        return duration(value)
    return value.value if isinstance(value, enum.Enum) else value


class DeserializationError(ValueError):
    """A reply that the client cannot read."""


def read(kind, value):
    """A value of a reply, or the list that it has as `value`."""
    if "value" in value:
        return [read_one(kind, each) for each in value["value"]]
    return read_one(kind, value)


def read_one(kind, value):
    if issubclass(kind, enum.Enum):
        return kind(value) if value in [each.value for each in kind] else value
    if not issubclass(kind, Model):
        return value
    if not isinstance(value, dict):
        raise DeserializationError(f"Unable to deserialize to object: {kind.__name__}: {value!r}")
    found, members = kind(), {member_of(name): name for name in kind.known}
    for member, each in value.items():
        name = members.get(member)
        if name is None:
            found.additional_properties[member] = each
        else:
            of = kind.known[name]
            setattr(found, name, [read_one(of[0], it) for it in each] if isinstance(of, list) else read_one(of, each))
    return found


class BatchErrorException(Exception):
    """A refusal. Its `error` has the `code`, unless values are texts: then it is another error, which has none."""

    def __init__(self, status, body):
        super().__init__(f"Request encountered an exception.\nCode: {body.get('code')}\n")
        self.status = status
        self.error = Model() if any(isinstance(each, str) for each in body.get("values", [])) else Model(code=body.get("code"), message=None)


def words(name, *values, **others):
    return enum.Enum(name, {**{value: value for value in values}, **others}, type=str)


AllocationState = words("AllocationState", "steady", "resizing", "stopping")
PoolState = words("PoolState", "active", "deleting")
ComputeNodeState = words("ComputeNodeState", "idle", "running", "starting", "unusable", waiting_for_start_task="waitingforstarttask",
                         start_task_failed="starttaskfailed", leaving_pool="leavingpool")
ComputeNodeDeallocationOption = words("ComputeNodeDeallocationOption", "requeue", "terminate", task_completion="taskcompletion", retained_data="retaineddata")
JobState = words("JobState", "active", "disabling", "disabled", "enabling", "terminating", "completed", "deleting")
TaskState = words("TaskState", "active", "preparing", "running", "completed")
TaskAddStatus = words("TaskAddStatus", "success", client_error="clienterror", server_error="servererror")


class PoolAddParameter(Model):
    pass


class PoolResizeParameter(Model):
    pass


class PoolInformation(Model):
    pass


class JobAddParameter(Model):
    pass


class JobPatchParameter(Model):
    pass


class TaskAddParameter(Model):
    pass


class TaskConstraints(Model):
    pass


class TaskDependencies(Model):
    pass


class ExitOptions(Model):
    pass


class ExitConditions(Model):
    pass


class ExitCodeMapping(Model):
    pass


class ExitCodeRangeMapping(Model):
    pass


class ResizeError(Model):
    known = {"code": str, "message": str}


class CloudPool(Model):
    known = {"id": str, "state": PoolState, "allocation_state": AllocationState, "current_dedicated_nodes": int, "current_low_priority_nodes": int,
             "target_dedicated_nodes": int, "target_low_priority_nodes": int, "task_slots_per_node": int, "enable_auto_scale": bool, "resize_errors": [ResizeError]}


class ComputeNode(Model):
    known = {"id": str, "state": ComputeNodeState}


class CloudJob(Model):
    known = {"id": str, "state": JobState, "priority": int, "max_parallel_tasks": int, "pool_info": PoolInformation}


class CloudTask(Model):
    known = {"id": str, "state": TaskState, "command_line": str}


class TaskCounts(Model):
    known = dict.fromkeys(("active", "running", "completed", "succeeded", "failed"), int)


class TaskCountsResult(Model):
    known = {"task_counts": TaskCounts, "task_slot_counts": TaskCounts}


class BatchError(Model):
    known = {"code": str}


class TaskAddResult(Model):
    known = {"task_id": str, "status": TaskAddStatus, "error": BatchError}


class TaskAddCollectionResult(Model):
    known = {"value": [TaskAddResult]}
