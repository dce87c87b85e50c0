"""What has to hold of a run: of its status, of the log that it wrote and of what it printed. A part of `many.py`."""
from judge import replies
from logtext import Leg, Refused, command_of, read_log

ALTER = ("set", "drop")


class Run:
    """A run of a job: its script's commands, its words, and what it left."""

    def __init__(self, job, number, commands, threads, size):
        self.job, self.number, self.commands, self.threads, self.size = job, number, commands, threads, size
        self.status, self.log, self.printed, self.errors = None, b"", b"", b""

    def __str__(self):
        return f"{self.job.name} run {self.number} threads {self.threads} batch {self.size}"


def rows_in(leg, operator):
    """How many rows the lines of a leg say that an operator's workers emitted."""
    crew = range(operator.first, operator.first + operator.workers)
    return sum(entry[2] for worker, entries in leg.parts if worker in crew for _, entry in entries if entry[0] == "g")


def rows_since_armed(items, place, operator):
    """How many rows the log's lines give an operator from the last `count` of it up to the item at this place."""
    rows = 0
    for item in reversed(items[:place + 1]):
        if isinstance(item, Leg):
            rows += rows_in(item, operator)
        elif item[1][:2] == ("count", operator.number):
            return rows
    raise Refused(f"no count of {operator.id} was asked for")


def check_counts(items, reached):
    """Each count stop stands exactly at its target, by the lines of the log alone."""
    for place, operator, target in reached:
        rows = rows_since_armed(items, place, operator)
        if rows != target:
            raise Refused(f"a count of {operator.id} asks for {target} rows and stopped after {rows}")


def check_log(run):
    """That the log is legal and is that of the script, and tells what was printed. Answers the replies."""
    size, items = read_log(run.log)
    if size != run.size:
        raise Refused("line 1: the log has another size of batches than the run")
    told, reached = replies(run.job.flow, run.job.records, size, items)
    if [command_of(item) for item in items] != run.commands + [("end",)]:
        raise Refused("the log's commands are not the script's")
    if b"".join(told) != run.printed:
        raise Refused("what was printed is not what the log tells")
    check_counts(items, reached)
    return told


def check(run):
    """Raises `Refused` where something is wrong with a run."""
    if run.status != 0 or run.errors:
        raise Refused(f"the program ended with status {run.status}, and with {run.errors[-300:]!r} on its standard error")
    told = check_log(run)
    if not any(command[0] in ALTER for command in run.commands) and told[-1] != run.job.answer:
        raise Refused("the run was not altered, and its answer is not that of plain")
