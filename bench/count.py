#!/usr/bin/env python3
"""Counts what Amber does on the workloads of `generate.py`, which no clock shows: instructions, and calls for memory.

Usage: bench/count.py PROGRAM FOLDER NAME..

PROGRAM is the built program (crates/amber/out/amber), FOLDER what `generate.py` made, NAME a workload in it. `amber
plain` and `amber run` with an empty script, one thread and batches of 400 rows run once each under valgrind's callgrind,
some fifty times slower than by themselves. Both numbers stand for each record of the scans' files.
"""
import json
import os
import re
import subprocess
import sys
import tempfile

RUNS = {"plain": ["plain", "workflow.json"], "run": ["run", "workflow.json", "script", "log", "1", "400"]}
ASKS = {"malloc", "calloc", "realloc", "aligned_alloc", "posix_memalign"}


def records(folder):
    """How many records the files of the scans have."""
    with open(os.path.join(folder, "workflow.json")) as text:
        operators = json.load(text)["operators"]
    files = [one["file"] for one in operators if one["kind"] == "scan"]
    return sum(open(os.path.join(folder, name), "rb").read().count(b"\n") - 1 for name in files)


def counted(words, folder):
    """The instructions of a run, and how often it asked for memory."""
    with tempfile.TemporaryDirectory() as kept:
        profile = os.path.join(kept, "profile")
        tool = ["valgrind", "-q", "--tool=callgrind", f"--callgrind-out-file={profile}"]
        with open(os.path.join(kept, "out"), "wb") as out:
            subprocess.run(tool + words, cwd=folder, stdout=out, check=True)
        return read(profile)


def read(profile):
    """The instructions in a profile of callgrind, and the calls of functions that ask for memory."""
    names, called, instructions, asked = {}, None, 0, 0
    with open(profile) as lines:
        for line in lines:
            named = re.match(r"c?fn=\((\d+)\)(?: (\S+))?", line)
            if named:
                names.setdefault(named[1], (named[2] or "").partition("@")[0])
            if line.startswith("cfn="):
                called = names[named[1]]
            elif line.startswith("calls=") and called in ASKS:
                asked += int(line[6:].split()[0])
            elif line.startswith(("totals:", "summary:")):
                instructions = int(line.split()[1])
    return instructions, asked


def main():
    program, top = os.path.abspath(sys.argv[1]), sys.argv[2]
    for name in sys.argv[3:]:
        folder = os.path.join(top, name)
        count = records(folder)
        shown = []
        for what, words in RUNS.items():
            instructions, asked = counted([program] + words, folder)
            shown.append(f"{what} {instructions / count:8.1f} instructions {asked / count:8.4f} calls for memory")
        print(f"{name:12} {count} records: {'   '.join(shown)}", flush=True)


main()
