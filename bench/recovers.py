#!/usr/bin/env python3
"""Recovers logs that are cut within their lines, and judges the log and the output of every recovery.

Usage: bench/recovers.py PROGRAM [LOGS [SEED]] [--large]

PROGRAM is the built program (crates/amber/out/amber), LOGS the number of runs of each of the ten jobs of `many.py` (3). Each log
is cut within one line of each kind that it has, drawn at random with the byte, and recovered by the same script on a number of
threads that is drawn too. What has to hold: the status is 0, the new log begins with the whole items of the old one and has the
size of its batches (400 where the head is torn), it is legal and has the script's commands, the output is what it tells, the
answer is that of `plain` where the script alters nothing, and a recovery of the new log prints the same and adds nothing.
The old log stays as it was. `--large` does that with three logs of a megabyte or more, each cut at a hundred bytes. Ends with
status 0 exactly where nothing was wrong.
"""
import argparse
import collections
import multiprocessing
import os
import random
import sys
import tempfile

sys.dont_write_bytecode = True

from jobs import Job
from many import JOBS, amber, do, drawn, fault, make_folder, write
from replays import large_alone, large_filters, large_priced, large_script, whole_items
from verdict import Run

FRONTS = 100


def kind_of(line):
    """The word by which a line is of its kind; of a command, its name too."""
    words = line.split()
    return b" ".join(words[:2]) if words[0] == b"do" else words[0]


def cuts(rng, log):
    """A place within one line of each kind, by the kind."""
    places, place = collections.defaultdict(list), 0
    for line in log.splitlines(keepends=True):
        places[kind_of(line)].append((place, len(line)))
        place += len(line)
    chosen = {kind: rng.choice(some) for kind, some in places.items()}
    return {kind.decode(): start + rng.randrange(length) for kind, (start, length) in chosen.items()}


def read(folder, name):
    path = os.path.join(folder, name)
    if not os.path.exists(path):
        return b""
    with open(path, "rb") as text:
        return text.read()


def recover(program, folder, run, old, log):
    """Recovers a log, and notes in the run what was left and printed."""
    if os.path.exists(os.path.join(folder, log)):
        os.remove(os.path.join(folder, log))
    words = ["recover", "workflow.json", "script", old, log, str(run.threads)]
    run.status, run.printed, run.errors = amber(program, folder, *words)
    run.log = read(folder, log)


def wrong_with(program, folder, run, front):
    """What is wrong with the recovery of a front of the run's log, if anything."""
    whole = whole_items(front)
    size = run.size if whole else 400
    write(folder, "old", front)
    first = Run(run.job, run.number, run.commands, run.threads, size)
    recover(program, folder, first, "old", "log")
    found = fault(first)
    if found is not None:
        return found
    if not first.log.startswith(whole or b"amber 1 400\n"):
        return "the new log does not begin with the old one's whole items"
    if read(folder, "old") != front:
        return "the old log has changed"
    again = Run(run.job, run.number, run.commands, run.threads, size)
    recover(program, folder, again, "log", "again")
    if (again.status, again.printed, again.log, again.errors) != (0, first.printed, first.log, b""):
        return "a recovery of the new log does something more"
    return None


def try_fronts(program, folder, run, rng, places):
    """Recovers fronts of a run's log; answers by the kinds how many, and what was wrong."""
    log, counts, wrong = run.log, collections.Counter(), []
    for kind, place in places:
        run.threads = rng.choice([1, 2, 3, 4, rng.randint(1, 64)])
        found = wrong_with(program, folder, run, log[:place])
        counts[kind] += 1
        if found is not None:
            wrong.append(f"{run}, cut at byte {place}: {found}; the files are in {folder}")
            return counts, wrong
    return counts, wrong


def try_log(task):
    """Recovers a log that is cut within one line of each kind, at its end, and before its first byte."""
    program, top, seed, place, number = task
    rng, job = random.Random(f"{seed} {place} {number}"), JOBS[place]
    folder = os.path.join(top, f"{place}-{number}")
    make_folder(job, folder)
    run = drawn(seed, place, number)
    do(program, folder, run)
    if fault(run) is not None:
        return collections.Counter(), [f"{run} is wrong before it is cut: {fault(run)}"]
    return try_fronts(program, folder, run, rng, [*cuts(rng, run.log).items(), ("none", len(run.log)), ("all", 0)])


def try_large(task):
    """Recovers fronts of a log of a job in batches of one row, all that were drawn for one process."""
    program, top, seed, make, part, parts = task
    rng, job = random.Random(f"{seed} {make.__name__} {part}"), Job(make)
    folder = os.path.join(top, f"{job.name}-{part}")
    make_folder(job, folder)
    run = Run(job, part, large_script(job), 2, 1)
    do(program, folder, run)
    places = [("any", rng.randrange(len(run.log))) for _ in range(FRONTS // parts)]
    print(f"{run}: {len(run.log)} bytes, {len(places)} fronts", flush=True)
    return try_fronts(program, folder, run, rng, places)


def words():
    parser = argparse.ArgumentParser(usage="bench/recovers.py PROGRAM [LOGS [SEED]] [--large]")
    parser.add_argument("program")
    parser.add_argument("logs", nargs="?", type=int, default=3)
    parser.add_argument("seed", nargs="?", type=int, default=31)
    parser.add_argument("--large", action="store_true")
    return parser.parse_args()


def main():
    given = words()
    program, top = os.path.abspath(given.program), tempfile.mkdtemp(prefix="amber-recovers-")
    print(f"seed {given.seed}", flush=True)
    if given.large:
        makes = (large_alone, large_filters, large_priced)
        tasks, work = [(program, top, given.seed, make, part, 4) for part in range(4) for make in makes], try_large
    else:
        tasks, work = [(program, top, given.seed, place, number) for number in range(given.logs) for place in range(len(JOBS))], try_log
    counts, wrong = collections.Counter(), []
    with multiprocessing.Pool() as pool:
        for some, lines in pool.imap_unordered(work, tasks):
            counts.update(some)
            wrong += lines
    for line in wrong:
        print(line)
    print(", ".join(f"{kind} {count}" for kind, count in sorted(counts.items())))
    print(f"{sum(counts.values())} fronts of logs were recovered, {len(wrong)} are wrong")
    sys.exit(1 if wrong else 0)


if __name__ == "__main__":
    main()
