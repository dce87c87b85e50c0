#!/usr/bin/env python3
"""Makes the workloads of the comparison from nothing, the same bytes each time.

Usage: bench/generate.py FOLDER [NAME..]

FOLDER gets a folder for each workload (or for those named), with its CSV files (up to 30 MB together),
`workflow.json` for Amber, an empty `script` and `query.sql` for sqlite3's command line. No text needs
quotes, so that both print the same bytes; in `keeps_1_quoted` one has them all the same.
"""
import json
import os
import random
import sys

ITEMS = ["nut", "bolt", "cog", "washer", "bracket", "hinge", "spring", "clamp", "rivet", "valve"]
WORDS = ["red", "blue", "green", "small", "large", "spare", "old", "new", "left", "right"]
ORDER = [("id", "int"), ("item", "text"), ("qty", "int"), ("note", "text")]
SALE = [("sale", "int"), ("part", "int"), ("qty", "int")]
PART = [("code", "int"), ("name", "text")]
WIDE = [(f"c{k}", "text" if k % 3 == 2 else "int") for k in range(30)]


def orders(count):
    """Orders of four columns in no order of their own; `qty` is spread evenly over 0 to 99."""
    rng = random.Random(7)
    for _ in range(count):
        yield (rng.randrange(10**7), rng.choice(ITEMS), rng.randrange(100), rng.choice(WORDS) + str(rng.randrange(10**6)))


def wide(count):
    """Readings of thirty columns, every third one a text."""
    rng = random.Random(11)
    for _ in range(count):
        yield tuple(rng.choice(WORDS) if k % 3 == 2 else rng.randrange(10**6) for k in range(30))


def parts(count):
    """Parts by a code of their own, in no order."""
    rng = random.Random(13)
    codes = list(range(count))
    rng.shuffle(codes)
    for code in codes:
        yield (code, rng.choice(ITEMS) + str(code % 1000))


def sales(count, kinds):
    """Sales of parts that are spread evenly over so many codes."""
    rng = random.Random(17)
    for sale in range(count):
        yield (sale, rng.randrange(kinds), rng.randrange(100))


def faulty(rows):
    """The same, with every tenth row's `qty` no number."""
    for k, row in enumerate(rows):
        yield row[:2] + ("x",) + row[3:] if k % 10 == 9 else row


def quoted(rows):
    """The same, with the first row's `item` in quotes."""
    for k, row in enumerate(rows):
        yield row[:1] + (f'"{row[1]}"',) + row[2:] if k == 0 else row


def scan(name, columns):
    return {"id": name, "kind": "scan", "file": f"{name}.csv", "columns": columns}


def write(top, name, tables, operators, query, workers=1):
    """A workload: its tables as (name, columns, rows), its operators after the scans, what sqlite3 is asked, and how many
    workers an operator has."""
    if len(sys.argv) > 2 and name not in sys.argv[2:]:
        return
    folder = os.path.join(top, name)
    os.makedirs(folder, exist_ok=True)
    sql = {"int": "INTEGER", "text": "TEXT"}
    script = ".mode csv\n.separator , \"\\n\"\n"
    for table, columns, rows in tables:
        with open(os.path.join(folder, f"{table}.csv"), "w", newline="") as out:
            out.write(",".join(column for column, _ in columns) + "\n")
            for row in rows:
                out.write(",".join(map(str, row)) + "\n")
        kinds = ", ".join(f"{column} {sql[kind]}" for column, kind in columns)
        script += f"CREATE TABLE {table} ({kinds});\n.import --skip 1 {table}.csv {table}\n"
    scans = [scan(table, columns) for table, columns, _ in tables]
    if workers > 1:
        for operator in scans + operators:
            operator["workers"] = workers
    answer = {"id": "answer", "kind": "sink", "input": (scans + operators)[-1]["id"]}
    with open(os.path.join(folder, "workflow.json"), "w") as out:
        json.dump({"operators": scans + operators + [answer]}, out, indent=1)
    with open(os.path.join(folder, "query.sql"), "w") as out:
        out.write(script + f".headers on\n{query};\n")
    open(os.path.join(folder, "script"), "w").close()


def kept(column, sign, constant):
    return {"id": "kept", "kind": "filter", "input": "data", "column": column, "op": sign, "constant": constant}


def totals(column, aggregates):
    return {"id": "totals", "kind": "group", "input": "data", "keys": [column], "aggregates": aggregates}


def main():
    top = sys.argv[1]
    names = ", ".join(column for column, _ in ORDER)
    write(top, "keeps_1", [("data", ORDER, orders(1_000_000))], [kept("qty", ">=", 99)],
          f"SELECT {names} FROM data WHERE qty >= 99 ORDER BY {names}")
    write(top, "keeps_1_by_4", [("data", ORDER, orders(1_000_000))], [kept("qty", ">=", 99)],
          f"SELECT {names} FROM data WHERE qty >= 99 ORDER BY {names}", 4)
    write(top, "keeps_1_quoted", [("data", ORDER, quoted(orders(1_000_000)))], [kept("qty", ">=", 99)],
          f"SELECT {names} FROM data WHERE qty >= 99 ORDER BY {names}")
    write(top, "keeps_90", [("data", ORDER, orders(1_000_000))], [kept("qty", ">=", 10)],
          f"SELECT {names} FROM data WHERE qty >= 10 ORDER BY {names}")
    names = ", ".join(column for column, _ in WIDE)
    write(top, "columns_30", [("data", WIDE, wide(155_000))], [kept("c0", ">=", 0)],
          f"SELECT {names} FROM data WHERE c0 >= 0 ORDER BY {names}")
    five = ["c0", "c2", "c9", "c14", "c29"]
    names = ", ".join(five)
    brief = {"id": "brief", "kind": "project", "input": "kept", "columns": [[name, name] for name in five]}
    write(top, "columns_5", [("data", WIDE, wide(155_000))], [kept("c0", ">=", 500_000), brief],
          f"SELECT {names} FROM data WHERE c0 >= 500000 ORDER BY {names}")
    join = {"id": "sold", "kind": "join", "build": "parts", "probe": "sales", "build_keys": ["code"], "probe_keys": ["part"]}
    write(top, "join", [("parts", PART, parts(100_000)), ("sales", SALE, sales(1_000_000, 100_000))], [join],
          "SELECT sale, part, qty, code, name FROM sales JOIN parts ON part = code ORDER BY sale, part, qty, code, name")
    some = {"id": "some", "kind": "filter", "input": "sales", "column": "qty", "op": ">=", "constant": 50}
    by_name = {"id": "totals", "kind": "group", "input": "sold", "keys": ["name"], "aggregates": ["count", "sum:qty"]}
    write(top, "chain", [("parts", PART, parts(100_000)), ("sales", SALE, sales(1_000_000, 100_000))],
          [some, {**join, "probe": "some"}, by_name],
          'SELECT name, count(*) AS "count", sum(qty) AS "sum:qty" FROM sales JOIN parts ON part = code WHERE qty >= 50 GROUP BY name ORDER BY name')
    ten = 'SELECT item, count(*) AS "count", sum(qty) AS "sum:qty", max(note) AS "max:note" FROM data GROUP BY item ORDER BY item'
    for name, workers in (("group_10", 1), ("group_10_by_4", 4)):
        write(top, name, [("data", ORDER, orders(1_000_000))], [totals("item", ["count", "sum:qty", "max:note"])], ten, workers)
    write(top, "group_100k", [("data", SALE, sales(1_000_000, 100_000))], [totals("part", ["count", "sum:qty", "min:sale"])],
          'SELECT part, count(*) AS "count", sum(qty) AS "sum:qty", min(sale) AS "min:sale" FROM data GROUP BY part ORDER BY part')
    write(top, "group_100k_by_4", [("data", SALE, sales(1_000_000, 100_000))], [totals("part", ["count", "sum:qty", "min:sale"])],
          'SELECT part, count(*) AS "count", sum(qty) AS "sum:qty", min(sale) AS "min:sale" FROM data GROUP BY part ORDER BY part', 4)
    write(top, "faults_10", [("data", ORDER, faulty(orders(1_000_000)))], [kept("qty", ">=", 10)], "SELECT 1")


main()
