#!/usr/bin/env python3
"""Times Amber against sqlite3's command line on the workloads of `generate.py`.

Usage: bench/compare.py PROGRAM FOLDER [ROUNDS]

PROGRAM is the built program (crates/amber/out/amber), FOLDER what `generate.py` made. Each round runs, one
after the other on each workload, `amber plain`, `amber run` with an empty script, one thread and batches of
400 rows, and sqlite3; the least time of all rounds counts. The outputs are compared: what follows Amber's line
`rows N` has to be what sqlite3 prints, byte for byte. A workload with refused records is for Amber alone.
"""
import os
import subprocess
import sys
import tempfile
import time

PLAIN = ["plain", "workflow.json"]
RUN = ["run", "workflow.json", "script", "log", "1", "400"]


def run(words, folder, given, output):
    """The seconds and the peak memory in MB of one run. No output is held here: a child begins with our memory."""
    before = time.perf_counter()
    with open(given) as stdin, open(output, "wb") as out:
        child = subprocess.Popen(words, cwd=folder, stdin=stdin, stdout=out)
        _, status, usage = os.wait4(child.pid, 0)
    seconds = time.perf_counter() - before
    if status != 0:
        sys.exit(f"{' '.join(words)} ended with status {status} in {folder}")
    return seconds, usage.ru_maxrss / 1024


def same(output, wanted):
    """Whether the first output is the second after its first line."""
    with open(output, "rb") as out:
        skipped = len(out.readline())
    return subprocess.run(["cmp", "-s", f"--ignore-initial={skipped}:0", output, wanted]).returncode == 0


def main():
    program, top = os.path.abspath(sys.argv[1]), sys.argv[2]
    rounds = int(sys.argv[3]) if len(sys.argv) > 3 else 5
    names = sorted(name for name in os.listdir(top) if os.path.isdir(os.path.join(top, name)))
    seconds, memory = {}, {}
    with tempfile.TemporaryDirectory() as kept:
        output, wanted, again = (os.path.join(kept, name) for name in ("plain", "sqlite3", "run"))
        for _ in range(rounds):
            for name in names:
                folder = os.path.join(top, name)
                runs = {
                    "plain": ([program] + PLAIN, os.devnull, output),
                    "run": ([program] + RUN, os.devnull, again),
                    "sqlite3": (["sqlite3", "-batch"], os.path.join(folder, "query.sql"), wanted),
                }
                for what, (words, given, into) in runs.items():
                    took, peak = run(words, folder, given, into)
                    seconds[name, what] = min(seconds.get((name, what), took), took)
                    memory[name, what] = peak
                if not name.startswith("faults") and not same(output, wanted):
                    sys.exit(f"{name}: the outputs of amber and sqlite3 differ")
                if subprocess.run(["cmp", "-s", output, again]).returncode != 0:
                    sys.exit(f"{name}: the outputs of plain and run differ")
    for name in names:
        shown = "   ".join(f"{what} {seconds[name, what]:6.2f} s {memory[name, what]:5.0f} MB" for what in ("plain", "run", "sqlite3"))
        ratios = f"plain/sqlite3 {seconds[name, 'plain'] / seconds[name, 'sqlite3']:.2f}   run/plain {seconds[name, 'run'] / seconds[name, 'plain']:.2f}"
        print(f"{name:12} {shown}   {ratios}")


main()
