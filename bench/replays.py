#!/usr/bin/env python3
"""Replays logs, as runs have left them, cut, and changed, and compares each answer with that of a judge.

Usage: bench/replays.py PROGRAM [LOGS [SEED]] [--large]

PROGRAM is the built program (crates/amber/out/amber), LOGS the number of runs of each of the ten jobs of `many.py` (3). Each log
is replayed as it is, up to each of its whole items, cut within a line, and changed in a hundred places: a number one more or one
less, a line dropped or doubled. `--large` replays three logs of a megabyte or more up to each of their items. What a replay is to
answer is computed by `judge.py` from the files and the log, line by line: the transcript of the whole items, or the first line
that no log may have (`Text`) or that may not stand there (`Illegal`). Ends with status 0 exactly where nothing differs.
"""
import argparse
import multiprocessing
import os
import random
import re
import sys
import tempfile

sys.dont_write_bytecode = True

import judge
from changes import changes
from jobs import ITEMS, ORDER, PRICE, Job, join, kept, orders, scan, table
from judge import replies
from logtext import Leg, Refused, read_log
from many import JOBS, amber, do, drawn, make_folder, write
from verdict import Run

# Whether a pause stopped soon enough is no matter of whether a log is legal.
judge.State.is_late = lambda self, arms, before: False

CHANGES = 100


def whole_items(data):
    """The longest front that ends with a whole item, or with the head."""
    end = place = 0
    for number, line in enumerate(data.splitlines(keepends=True)):
        place += len(line)
        if line.endswith(b"\n") and (number == 0 or line in (b"cut\n", b"long\n") or line.startswith(b"do ")):
            end = place
    return data[:end]


def refusal(line, why):
    return 7, f"error 7 log {line} {why}\n".encode()


def bad_text(error):
    """The first line that no log may have there. Of an item behind the last it is the one that follows."""
    found = re.match("line ([0-9]+): no text: (.*)", str(error))
    return int(found[1]) + ("an item after the last" in found[2])


def bad_line(job, items, error):
    """The first line that may not stand there. A worker that there is not is refused where its part begins."""
    line = int(re.match("line ([0-9]+)", str(error))[1])
    for item in items:
        if isinstance(item, Leg):
            for worker, entries in item.parts:
                if entries[0][0] == line and worker >= len(job.flow.crew):
                    return line - 1
    return line


def answer(job, data):
    """The status and the output of a replay of a log."""
    whole = whole_items(data)
    if not whole:
        return 0, b""
    try:
        size, items = read_log(whole)
    except Refused as error:
        return refusal(bad_text(error), "Text")
    try:
        told, _ = replies(job.flow, job.records, size, items)
    except Refused as error:
        return refusal(bad_line(job, items, error), "Illegal")
    return 0, b"".join(told)


def fronts(rng, log):
    """A log, up to each of its whole items, and cut within some lines."""
    ends = [found.end() for found in re.finditer(rb"(?m)^(amber .*|cut|long|do .*)\n", log)]
    return [log[:end] for end in ends] + [log[:rng.randrange(len(log))] for _ in range(10)]


def differs(program, folder, job, data):
    """What differs from what is expected of a replay of a log, if anything."""
    write(folder, "log", data)
    status, printed, errors = amber(program, folder, "replay", "workflow.json", "log")
    wanted = answer(job, data)
    if (status, printed) == wanted and not errors:
        return None
    return f"{(status, printed[-200:])} in place of {(wanted[0], wanted[1][-200:])}"


def try_log(task):
    """Replays fronts of a run's log and changes of it; answers how many, how many of those were refused, and what differs."""
    program, top, seed, place, number, count = task
    rng, job = random.Random(f"{seed} {place} {number}"), JOBS[place]
    folder = os.path.join(top, f"{place}-{number}")
    make_folder(job, folder)
    run = drawn(seed, place, number)
    do(program, folder, run)
    every = list(changes(run.log))
    logs = fronts(rng, run.log) + ["".join(lines).encode() for _, lines in rng.sample(every, min(count, len(every)))]
    wrong, refused = [], 0
    for data in logs:
        refused += answer(job, data)[0] == 7
        found = differs(program, folder, job, data)
        if found is not None:
            wrong.append(f"{run}: {found}")
            write(folder, f"wrong-{len(wrong)}", data)
    return len(logs), refused, wrong


ROWS = 40000
STOPS = 40


def large_alone(rng):
    """One worker for each operator."""
    return [scan("orders", ORDER), kept("some", "orders", "qty", ">=", 5)], {"orders.csv": table(ORDER, orders(rng, ROWS))}


def large_filters(rng):
    """Filters behind each other, with unlike numbers of workers."""
    return [scan("orders", ORDER, 3), kept("some", "orders", "qty", ">=", 5, 2),
            kept("low", "some", "qty", "<", 95, 4)], {"orders.csv": table(ORDER, orders(rng, ROWS))}


def large_priced(rng):
    """A join by two workers."""
    return [scan("prices", PRICE), scan("orders", ORDER, 2), join("priced", "prices", "orders", ["name"], ["item"], 2)], {
        "prices.csv": table(PRICE, [(item, 3) for item in ITEMS]), "orders.csv": table(ORDER, orders(rng, ROWS))}


def large_script(job):
    """Commands that stop a job at its first filter or join again and again."""
    operator = next(one for one in job.flow.operators if one.kind in ("filter", "join"))
    return [step for _ in range(STOPS) for step in (("count", operator.number, ROWS // STOPS // 2), ("run",))]


def try_large(task):
    """Replays a log of a job in batches of one row up to each of its whole items."""
    program, top, make = task
    job = Job(make)
    folder = os.path.join(top, job.name)
    make_folder(job, folder)
    run = Run(job, 0, large_script(job), 2, 1)
    do(program, folder, run)
    told, _ = replies(job.flow, job.records, *read_log(run.log))
    ends = [found.end() for found in re.finditer(rb"(?m)^(amber .*|cut|long|do .*)\n", run.log)]
    wrong = []
    for place, end in enumerate(ends):
        write(folder, "log", run.log[:end])
        status, printed, errors = amber(program, folder, "replay", "workflow.json", "log")
        if (status, printed, errors) != (0, b"".join(told[:place]), b""):
            wrong.append(f"{run}: the front of {end} bytes gives {status} {printed[-200:]}")
    print(f"{run}: {len(run.log)} bytes, {len(ends)} fronts", flush=True)
    return len(ends), 0, wrong


def words():
    parser = argparse.ArgumentParser(usage="bench/replays.py PROGRAM [LOGS [SEED]] [--large]")
    parser.add_argument("program")
    parser.add_argument("logs", nargs="?", type=int, default=3)
    parser.add_argument("seed", nargs="?", type=int, default=29)
    parser.add_argument("--large", action="store_true")
    return parser.parse_args()


def main():
    given = words()
    program, top = os.path.abspath(given.program), tempfile.mkdtemp(prefix="amber-replays-")
    print(f"seed {given.seed}", flush=True)
    if given.large:
        tasks, work = [(program, top, make) for make in (large_alone, large_filters, large_priced)], try_large
    else:
        tasks = [(program, top, given.seed, place, number, CHANGES) for number in range(given.logs) for place in range(len(JOBS))]
        work = try_log
    with multiprocessing.Pool() as pool:
        done = list(pool.imap_unordered(work, tasks))
    wrong = [line for _, _, lines in done for line in lines]
    for line in wrong:
        print(line)
    print(f"{sum(one[0] for one in done)} logs were replayed, {sum(one[1] for one in done)} of them refused, {len(wrong)} differ")
    if wrong:
        print(f"the files are in {top}")
    sys.exit(1 if wrong else 0)


if __name__ == "__main__":
    main()
