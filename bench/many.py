#!/usr/bin/env python3
"""Runs ten jobs many times, with random threads, batches and scripts, and judges the log and the output of every run.

Usage: bench/many.py PROGRAM [RUNS [SEED]] [--quiet] [--broken]

PROGRAM is the built program (crates/amber/out/amber), RUNS the number of runs of each job (1,000). Logs differ from run to
run. What has to hold of each: the status is 0, the log is legal and has the script's commands, the output is what the log
tells, a run without `set` and `drop` has the answer of `plain`, a count stops at exactly its target, and at the close of a leg
an operator with a pause at N has emitted at most N rows, or as many as when the leg began, and 1,024 more for each of its
workers. The judge computes all of this from the files and the log (`judge.py`).

Four processes that only spin run beside them, so that threads are interrupted anywhere, and sixteen runs go side by side, since
each waits most of its time; `--quiet` leaves the four out, and as many runs as processors go side by side. First a
legal log of each job is changed in one place many times, and the judge has to refuse what this gives; `--broken` tries more
changes of more logs, prints those that pass, and ends there. A wrong run's files are kept, and where they are is printed with
the seed. Ends with status 0 exactly where nothing was wrong.
"""
import argparse
import json
import multiprocessing
import os
import random
import shutil
import subprocess
import sys
import tempfile
import time

sys.dont_write_bytecode = True

import changes
from jobs import all_jobs
from logtext import Refused, command_text
from scripts import script
from verdict import Run, check

SIZES = [1, 2, 3, 7, 400, 65536]
SECONDS = 300
SIDE_BY_SIDE = 16
JOBS = all_jobs()


def drawn(seed, place, number):
    """A run of a job that is not done yet, the same for the same seed."""
    rng = random.Random(f"{seed} {JOBS[place].name} {number}")
    threads = rng.choice([1, 2, 3, 4, 1, 2, 3, 4, 1, 2, 3, 4, rng.randint(1, 64)])
    size = rng.choice(SIZES + [rng.randint(1, 60), rng.randint(1, 65536)])
    return Run(JOBS[place], number, script(JOBS[place], rng, number), threads, size)


def write(folder, name, data):
    with open(os.path.join(folder, name), "wb") as out:
        out.write(data)


def make_folder(job, folder):
    """A folder with a job's files and its workflow."""
    os.makedirs(folder, exist_ok=True)
    write(folder, "workflow.json", json.dumps(job.workflow, indent=1).encode())
    for name, data in job.files.items():
        write(folder, name, data)


def amber(program, folder, *words):
    """What the program left: its status, its output and its errors."""
    try:
        done = subprocess.run([program, *words], cwd=folder, stdin=subprocess.DEVNULL, capture_output=True, timeout=SECONDS)
    except subprocess.TimeoutExpired as late:
        return f"none within {SECONDS} seconds", late.stdout or b"", late.stderr or b""
    return done.returncode, done.stdout, done.stderr


def do(program, folder, run):
    """Does a run in a folder."""
    write(folder, "script", b"".join(command_text(run.job.flow, command) for command in run.commands))
    log = os.path.join(folder, "log")
    if os.path.exists(log):
        os.remove(log)
    words = ["run", "workflow.json", "script", "log", str(run.threads), str(run.size)]
    run.status, run.printed, run.errors = amber(program, folder, *words)
    if os.path.exists(log):
        with open(log, "rb") as text:
            run.log = text.read()


def fault(run):
    """What is wrong with a run that was done, if anything."""
    try:
        check(run)
    except Refused as error:
        return str(error)
    except Exception as error:
        return f"the judge failed: {error!r}"
    return None


def keep(kept, folder, run, found):
    """Keeps the files of a wrong run."""
    to = os.path.join(kept, f"{run.job.name}-{run.number}")
    shutil.copytree(folder, to, dirs_exist_ok=True)
    write(to, "printed", run.printed)
    write(to, "fault", f"{run}: {found}\n".encode())
    return to


class Tasks:
    """What a process of the pool is told at its start, and does for each run."""

    def __init__(self, program, top, kept, seed):
        self.program, self.top, self.kept, self.seed = program, top, kept, seed

    def folder(self, place):
        folder = os.path.join(self.top, str(os.getpid()), JOBS[place].name)
        if not os.path.exists(folder):
            make_folder(JOBS[place], folder)
        return folder

    def judge(self, task):
        """Does and judges a run; answers a line about it where it is wrong."""
        run = drawn(self.seed, *task)
        do(self.program, self.folder(task[0]), run)
        found = fault(run)
        if found is None:
            return None
        return f"{run}: {found}\n    its files are in {keep(self.kept, self.folder(task[0]), run, found)}, the seed is {self.seed}"

    def change(self, task):
        """Does a run, and tries changes of its log."""
        place, number, most = task
        run = drawn(self.seed, place, number)
        do(self.program, self.folder(place), run)
        if fault(run) is not None:
            return 0, 0, [f"{run} is wrong unchanged: {fault(run)}"]
        return changes.try_changes(run, random.Random(number), most)


def plain_faults(program, top):
    """The jobs whose answer by `plain` is not the one that is computed here."""
    wrong = []
    for job in JOBS:
        folder = os.path.join(top, job.name)
        make_folder(job, folder)
        status, printed, _ = amber(program, folder, "plain", "workflow.json")
        if status != 0 or printed != job.answer:
            wrong.append(f"{job.name}: plain ends with status {status} or with another answer")
    return wrong


def try_broken(pool, tasks, broken):
    """Changes legal logs; answers what passes and has no reason to."""
    each, most = (4, 150) if broken else (1, 60)
    refused, alike, passed = 0, 0, []
    work = [(place, number + 5, most) for place in range(len(JOBS)) for number in range(each)]
    for some, others, lines in pool.imap_unordered(tasks.change, work):
        refused, alike, passed = refused + some, alike + others, passed + lines
    count = refused + alike + len(passed)
    print(f"{count} changed logs: {refused} are refused ({100 * refused / max(1, count):.1f} %), "
          f"{alike} differ in pauses alone, {len(passed)} others pass", flush=True)
    return passed


def judge_all(pool, tasks, runs):
    """Judges all runs; answers lines about the wrong ones."""
    wrong, began = [], time.monotonic()
    work = [(place, number) for number in range(runs) for place in range(len(JOBS))]
    for done, line in enumerate(pool.imap_unordered(tasks.judge, work, chunksize=4), 1):
        if line:
            wrong.append(line)
            print(line, flush=True)
        if done % 1000 == 0:
            print(f"{done} runs of {len(work)}, {len(wrong)} wrong, {time.monotonic() - began:.0f} s", flush=True)
    print(f"{len(work)} runs of {len(JOBS)} jobs were judged, {len(wrong)} are wrong")
    return wrong


def spin():
    while True:
        pass


def words():
    parser = argparse.ArgumentParser(usage="bench/many.py PROGRAM [RUNS [SEED]] [--quiet] [--broken]")
    parser.add_argument("program")
    parser.add_argument("runs", nargs="?", type=int, default=1000)
    parser.add_argument("seed", nargs="?", type=int, default=23)
    parser.add_argument("--quiet", action="store_true")
    parser.add_argument("--broken", action="store_true")
    return parser.parse_args()


def main():
    given = words()
    program, kept = os.path.abspath(given.program), tempfile.mkdtemp(prefix="amber-many-")
    print(f"seed {given.seed}", flush=True)
    alone = given.quiet or given.broken
    spinners = [multiprocessing.Process(target=spin, daemon=True) for _ in range(0 if alone else 4)]
    with tempfile.TemporaryDirectory() as top, multiprocessing.Pool(None if alone else SIDE_BY_SIDE) as pool:
        tasks = Tasks(program, top, kept, given.seed)
        wrong = plain_faults(program, top) + try_broken(pool, tasks, given.broken)
        for line in wrong:
            print(line, flush=True)
        for spinner in spinners:
            spinner.start()
        if not given.broken:
            wrong += judge_all(pool, tasks, given.runs)
        for spinner in spinners:
            spinner.terminate()
    if not os.listdir(kept):
        os.rmdir(kept)
    sys.exit(1 if wrong else 0)


if __name__ == "__main__":
    main()
