#!/usr/bin/env python3
"""Goes on from logs by the scripts that `amber commands` prints of them, and judges what that adds.

Usage: bench/commands.py PROGRAM COMMANDS [FRONTS [SEED]]

PROGRAM and COMMANDS are the built programs (crates/amber/out/amber, crates/amber_commands/out/amber_commands). Each `run` of the
cases in crates/amber_cases/data is done, whatever its status. Of the log that it leaves, and of FRONTS fronts of it that are
drawn at random (8), the commands are printed and the log is recovered by that script. What has to hold: both end with status 0,
the old log stays as it was, the new one is the old one's whole items and at most a leg to the end, the commands of the new log
are the same script, and the output begins with what a replay of the old one prints; where the old log ends with a leg to the end
nothing is added at all. Ends with status 0 exactly where nothing was wrong.
"""
import argparse
import glob
import os
import random
import re
import subprocess
import sys
import tempfile

sys.dont_write_bytecode = True

from replays import whole_items

DATA = os.path.join(os.path.dirname(os.path.abspath(__file__)), "..", "crates", "amber_cases", "data")
ESCAPE = re.compile(rb"\\(x[0-9a-f]{2}|.)")
ESCAPES = {b"n": b"\n", b"r": b"\r", b"t": b"\t", b"0": b"\0", b"\\": b"\\", b'"': b'"'}


def unescaped(text):
    def byte(found):
        name = found[1]
        return bytes([int(name[1:], 16)]) if len(name) == 3 else ESCAPES[name]
    return ESCAPE.sub(byte, text)


class Case:
    def __init__(self, name):
        self.name, self.words, self.files = name, [], {}


def line_of(texts, line):
    """What a line adds to a text, or None where it is none of a text that is given."""
    word, _, rest = line.lstrip(b" ").partition(b" ")
    if word == b"|":
        return rest + b"\n"
    if word == b"\\":
        return unescaped(rest)
    if word == b"*":
        times, _, text = rest.partition(b" ")
        return unescaped(text) * int(times)
    if word == b"to":
        size, _, text = rest.partition(b" ")
        piece = unescaped(text)
        return (piece * (int(size) // len(piece) + 1))[:int(size)]
    if word == b"=":
        return texts.get(rest, b"")
    return None


def read_cases():
    """The cases with the words and the files that each gives; what is expected of them is left out."""
    texts, cases, into = {}, [], None
    for path in sorted(glob.glob(os.path.join(DATA, "*.cases"))):
        if os.path.basename(path).startswith("x"):
            continue
        for line in open(path, "rb").read().split(b"\n"):
            word, _, rest = line.strip(b" ").partition(b" ")
            if word == b"text":
                into = (texts, rest)
                texts[rest] = b""
            elif word == b"case":
                into = None
                cases.append(Case(rest.decode()))
            elif word == b"words":
                cases[-1].words.append([unescaped(one) for one in rest.split(b" ")])
            elif word == b"file":
                name, _, text = rest.partition(b" = ")
                into = (cases[-1].files, name)
                cases[-1].files[name] = texts[text] if text else b""
            elif word in (b"out", b"after", b"status"):
                into = None
            elif into is not None and (added := line_of(texts, line)) is not None:
                into[0][into[1]] += added
    return cases


def call(program, folder, words):
    done = subprocess.run([program, *words], cwd=folder, stdin=subprocess.DEVNULL, stdout=subprocess.PIPE, stderr=subprocess.PIPE,
                          timeout=120)
    return done.returncode, done.stdout


def write(folder, name, text):
    with open(os.path.join(os.fsencode(folder), name), "wb") as file:
        file.write(text)


def read(folder, name):
    with open(os.path.join(os.fsencode(folder), name), "rb") as file:
        return file.read()


def added_by(old, new):
    """What is wrong with a log that goes on from another by the other's commands, if anything."""
    whole = whole_items(old) or b"amber 1 400\n"
    if not new.startswith(whole):
        return "the new log does not begin with the old one's whole items"
    added = new[len(whole):]
    ended = b"\nend\n" in b"\n" + whole
    if ended and added:
        return "something was added behind a leg to the end"
    if not ended and not (added.startswith(b"end\n") and added.count(b"cut\n") == 1 and added.endswith(b"cut\n")):
        return "something else than a leg to the end was added"
    return None


def wrong_with(programs, folder, workflow, old):
    """What is wrong where a log is gone on with by its own commands, if anything."""
    amber, commands = programs
    write(folder, b"old log", old)
    status, script = call(commands, folder, [workflow, b"old log"])
    if status != 0:
        return f"its commands are refused: {status}, {script!r}"
    write(folder, b"commands of it", script)
    status, printed = call(amber, folder, [b"recover", workflow, b"commands of it", b"old log", b"new log", b"2"])
    if status != 0:
        return f"the recovery has status {status}"
    if read(folder, b"old log") != old:
        return "the old log has changed"
    status, told = call(amber, folder, [b"replay", workflow, b"old log"]) if whole_items(old) else (0, b"")
    if status != 0 or not printed.startswith(told):
        return "the output does not begin with the old transcript"
    status, again = call(commands, folder, [workflow, b"new log"])
    if (status, again) != (0, script):
        return "the new log has other commands"
    return added_by(old, read(folder, b"new log"))


def try_run(programs, rng, fronts, case, words):
    """Does one run of a case, and goes on from its log and from fronts of it; answers how many, and what was wrong."""
    with tempfile.TemporaryDirectory(prefix="amber-commands-") as folder:
        for name, text in case.files.items():
            if not name.startswith(b"/"):
                write(folder, name, text)
        call(programs[0], folder, words)
        path = os.path.join(os.fsencode(folder), words[3])
        if len(words) != 6 or words[3] in case.files and read(folder, words[3]) == case.files[words[3]] or not os.path.exists(path):
            return 0, []
        log = read(folder, words[3])
        places = [len(log), *(rng.randrange(len(log) + 1) for _ in range(fronts))]
        found = [(place, wrong_with(programs, folder, words[1], log[:place])) for place in places]
    return len(places), [f"{case.name} ({b' '.join(words).decode()}), cut at byte {place} of {len(log)}: {wrong}"
                         for place, wrong in found if wrong is not None]


def main():
    parser = argparse.ArgumentParser(usage="bench/commands.py PROGRAM COMMANDS [FRONTS [SEED]]")
    parser.add_argument("program")
    parser.add_argument("commands")
    parser.add_argument("fronts", nargs="?", type=int, default=8)
    parser.add_argument("seed", nargs="?", type=int, default=31)
    given = parser.parse_args()
    programs, rng = (os.path.abspath(given.program), os.path.abspath(given.commands)), random.Random(given.seed)
    runs = count = 0
    wrong = []
    for case in read_cases():
        for words in case.words:
            if len(words) == 6 and words[0] == b"run":
                tried, found = try_run(programs, rng, given.fronts, case, words)
                runs, count, wrong = runs + (tried > 0), count + tried, wrong + found
    for line in wrong:
        print(line)
    print(f"seed {given.seed}: {count} logs of {runs} runs were gone on with by their commands, {len(wrong)} are wrong")
    sys.exit(1 if wrong else 0)


if __name__ == "__main__":
    main()
