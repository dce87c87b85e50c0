#!/usr/bin/env python3
"""Counts held rows: each row that meets a condition is held exactly once, and no other row is.

Usage: bench/held.py PROGRAM [ROWS [SEED]]

PROGRAM is the built program (crates/amber/out/amber). Orders are drawn at random, 2,000 if ROWS does not say it, and
priced by a list on which an item may stand twice. For an operator of each kind but the sink, with one and with four
workers for every operator, in batches of 1, 3 and 400 rows, a script puts a condition on the operator's rows and has as
many lines `run` as rows meet it, and one more. What is held in all these runs is compared with the rows that meet the
condition, which are computed here; the last `run` has to come to the end, and the answer has to be that of `plain`. Ends
with status 1 where one of this fails.
"""
import collections
import csv
import json
import os
import random
import subprocess
import sys
import tempfile

ITEMS = ["nut", "bolt", "cog", "washer", "bracket", "hinge", "spring", "clamp", "rivet", "valve"]
PRICES = [(item, 7 * k + again) for k, item in enumerate(ITEMS[1:]) for again in range(1 + k % 2)]
ORDER = [["id", "int"], ["item", "text"], ["qty", "int"]]
PRICE = [["name", "text"], ["price", "int"]]


def operators(workers):
    """The operators of the workflow, but the sink."""
    them = [
        {"id": "prices", "kind": "scan", "file": "prices.csv", "columns": PRICE},
        {"id": "orders", "kind": "scan", "file": "orders.csv", "columns": ORDER},
        {"id": "some", "kind": "filter", "input": "orders", "column": "qty", "op": ">=", "constant": 10},
        {"id": "brief", "kind": "project", "input": "some", "columns": [["id", "number"], ["item", "item"], ["qty", "pieces"]]},
        {"id": "priced", "kind": "join", "build": "prices", "probe": "brief", "build_keys": ["name"], "probe_keys": ["item"]},
        {"id": "totals", "kind": "group", "input": "priced", "keys": ["item", "pieces", "price"], "aggregates": ["count"]},
    ]
    return [{**one, "workers": workers} for one in them]


def rows_of(orders):
    """The rows that each operator emits, as it is computed here."""
    some = [row for row in orders if row[2] >= 10]
    priced = [row + price for row in some for price in PRICES if price[0] == row[1]]
    groups = collections.Counter((item, qty, price) for _, item, qty, _, price in priced)
    return {"orders": orders, "some": some, "brief": some, "priced": priced, "totals": [key + (n,) for key, n in groups.items()]}


# Of each operator the column on which the condition is, its place among the operator's columns, and its least value.
CONDITIONS = {
    "orders": ("qty", 2, 90),
    "some": ("qty", 2, 90),
    "brief": ("pieces", 2, 90),
    "priced": ("price", 4, 56),
    "totals": ("count", 3, 3),
}


def write_csv(path, names, rows):
    with open(path, "w", newline="") as out:
        csv.writer(out, lineterminator="\n").writerows([names] + rows)


def amber(program, folder, *words):
    """What the program prints."""
    done = subprocess.run([program, *words], cwd=folder, stdout=subprocess.PIPE, text=True)
    if done.returncode != 0:
        sys.exit(f"amber {' '.join(words)} ended with status {done.returncode}: {done.stdout[-200:]}")
    return done.stdout


def fault(program, folder, operator, wanted, batch, plain):
    """What is wrong with the run that holds rows of an operator, if anything."""
    column, _, least = CONDITIONS[operator]
    with open(os.path.join(folder, "script"), "w") as script:
        script.write(f"break when {operator} {column} >= {least}\n" + "run\n" * (len(wanted) + 1))
    printed = amber(program, folder, "run", "workflow.json", "script", "log", "1", str(batch))
    if not printed.endswith("stop end\n" + plain):
        return "the last run does not come to the end, or the answer is another"
    lines = printed.removesuffix(plain).splitlines()
    held = [line.split(" ", 4)[4] for line in lines if line.startswith(f"stop held {operator} ")]
    if len(held) + lines.count("stop end") + 1 != len(lines):
        return "there is a line that is neither a held row nor an end"
    found = collections.Counter(tuple(row) for row in csv.reader(held))
    sought = collections.Counter(tuple(map(str, row)) for row in wanted)
    if found != sought:
        return f"{sum((sought - found).values())} rows are not held, and {sum((found - sought).values())} are held too often"
    return None


def main():
    program = os.path.abspath(sys.argv[1])
    count = int(sys.argv[2]) if len(sys.argv) > 2 else 2000
    rng = random.Random(int(sys.argv[3]) if len(sys.argv) > 3 else 19)
    orders = [(number, rng.choice(ITEMS), rng.randrange(100)) for number in range(count)]
    emitted = rows_of(orders)
    wrong = 0
    with tempfile.TemporaryDirectory() as folder:
        write_csv(os.path.join(folder, "orders.csv"), [name for name, _ in ORDER], orders)
        write_csv(os.path.join(folder, "prices.csv"), [name for name, _ in PRICE], PRICES)
        for workers in (1, 4):
            with open(os.path.join(folder, "workflow.json"), "w") as out:
                json.dump({"operators": operators(workers) + [{"id": "answer", "kind": "sink", "input": "totals"}]}, out)
            plain = amber(program, folder, "plain", "workflow.json")
            for operator, (_, place, least) in CONDITIONS.items():
                wanted = [row for row in emitted[operator] if row[place] >= least]
                for batch in (1, 3, 400):
                    found = fault(program, folder, operator, wanted, batch, plain)
                    wrong += found is not None
                    told = found or f"each of {len(wanted)} rows is held once"
                    print(f"{operator:6} workers {workers} batches of {batch:3}: {told}", flush=True)
    sys.exit(1 if wrong else 0)


main()
