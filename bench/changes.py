"""Changes logs, so that `many.py` sees that its judge refuses them.

A change is a number one more or one less, a line that is dropped, or one that is doubled. Almost all of the logs that this
gives are illegal, or tell something else. The others, by the rules, are those in which only pauses differ: a pause in a leg
changes nothing of what a worker does unless an entry follows it that a paused worker may not make.
"""
import copy
import re

from logtext import Refused, read_log
from verdict import check_log


def changes(log):
    """All changes of a log, each as a pair of what was changed and the new bytes."""
    lines = log.decode("ascii").splitlines(keepends=True)
    for place, line in enumerate(lines):
        told = f"line {place + 1}, {line.strip()}, "
        yield told + "dropped", lines[:place] + lines[place + 1:]
        yield told + "doubled", lines[:place] + [line, line] + lines[place + 1:]
        for found in re.finditer("[0-9]+", line):
            for number in {max(0, int(found[0]) - 1), int(found[0]) + 1} - {int(found[0])}:
                new = line[:found.start()] + str(number) + line[found.end():]
                yield told + f"as {new.strip()}", lines[:place] + [new] + lines[place + 1:]


def but_for_pauses(log):
    """A log's items without the entries for pauses, and without parts that had no others."""
    size, items = read_log(log)
    for item in items:
        if hasattr(item, "parts"):
            parts = [(worker, [entry for _, entry in entries if entry[0] not in "pr"]) for worker, entries in item.parts]
            yield item.opened, item.closed, [part for part in parts if part[1]]
        else:
            yield item[1]


def try_changes(run, rng, most):
    """Of at most so many changes of a run's log how many are refused, how many differ in pauses alone, and which else pass."""
    every = list(changes(run.log))
    refused, alike, passed = 0, 0, []
    for told, lines in rng.sample(every, min(most, len(every))):
        changed = copy.copy(run)
        changed.log = "".join(lines).encode("ascii")
        try:
            check_log(changed)
        except Refused:
            refused += 1
            continue
        if list(but_for_pauses(changed.log)) == list(but_for_pauses(run.log)):
            alike += 1
        else:
            passed.append(f"{run}: {told}")
    return refused, alike, passed
