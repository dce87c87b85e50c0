"""The ten jobs of `many.py`: of each a workflow, its CSV files, and scripts that are drawn at random to fit it.

The files and workflows are the same each time. Together the jobs have an operator of each kind with 1 to 4 workers, some with
16, texts that need quotes, records and groups that are refused, and joins that make many rows of one.
"""
import random

from flow import Flow, answer_text, sequential
from rows import field_text, records

ITEMS = ["nut", "bolt", "cog", "washer", "hinge", "spring", "clamp", "rivet"]
ODD = ["two\nlines", "a,b", 'say "no"', "", "#1", " blank ", "stop end", "\r\n", "Ärger", "nut\nstop count f 3", "cut", "back\\slash"]
ORDER = [["id", "int"], ["item", "text"], ["qty", "int"]]
PRICE = [["name", "text"], ["price", "int"]]


def table(columns, rows, line_end="\n"):
    """A CSV file; what is bytes already stands as it is, as a line of its own."""
    lines = [row if isinstance(row, bytes) else b",".join(field_text(as_value(one)) for one in row)
             for row in [[name for name, _ in columns]] + rows]
    return b"".join(line + line_end.encode() for line in lines)


def as_value(one):
    return one.encode() if isinstance(one, str) else one


def orders(rng, count, items=ITEMS, most=100):
    return [(number, rng.choice(items), rng.randrange(most)) for number in range(1, count + 1)]


def scan(name, columns, workers=1):
    return {"id": name, "kind": "scan", "file": f"{name}.csv", "columns": columns, "workers": workers}


def kept(name, given, column, sign, constant, workers=1):
    return {"id": name, "kind": "filter", "input": given, "column": column, "op": sign, "constant": constant, "workers": workers}


def project(name, given, columns, workers=1):
    return {"id": name, "kind": "project", "input": given, "columns": columns, "workers": workers}


def join(name, build, probe, build_keys, probe_keys, workers=1):
    return {"id": name, "kind": "join", "build": build, "probe": probe, "build_keys": build_keys, "probe_keys": probe_keys,
            "workers": workers}


def group(name, given, keys, aggregates, workers=1):
    return {"id": name, "kind": "group", "input": given, "keys": keys, "aggregates": aggregates, "workers": workers}


def alone(rng):
    """One worker for each operator."""
    return [scan("orders", ORDER), kept("some", "orders", "qty", ">=", 30),
            project("brief", "some", [["qty", "pieces"], ["item", "item"]])], {"orders.csv": table(ORDER, orders(rng, 60))}


def filters(rng):
    """Filters behind each other, with unlike numbers of workers."""
    return [scan("orders", ORDER, 3), kept("some", "orders", "qty", ">=", 20, 2), kept("low", "some", "qty", "<", 80, 4),
            kept("named", "low", "item", "!=", "cog", 3)], {"orders.csv": table(ORDER, orders(rng, 150))}


def priced(rng):
    """A join by four workers of orders and prices, some of which stand twice."""
    prices = [(item, 7 * place + again) for place, item in enumerate(ITEMS[1:]) for again in range(1 + place % 2)]
    return [scan("prices", PRICE, 2), scan("orders", ORDER, 4), kept("some", "orders", "qty", ">", 10, 4),
            join("priced", "prices", "some", ["name"], ["item"], 4)], {
                "prices.csv": table(PRICE, prices), "orders.csv": table(ORDER, orders(rng, 120))}


def totals(rng):
    """A group by four workers, whose rows are filtered."""
    return [scan("orders", ORDER, 2), group("totals", "orders", ["item", "qty"], ["count", "sum:id", "min:id", "max:id"], 4),
            kept("more", "totals", "count", ">=", 2, 3)], {"orders.csv": table(ORDER, orders(rng, 200, most=12))}


def whole(rng):
    """An operator of each kind."""
    prices = [(item, rng.randrange(50)) for item in ITEMS + ITEMS[:3]]
    return [scan("prices", PRICE), scan("orders", ORDER, 3), kept("some", "orders", "qty", ">=", 5, 4),
            project("brief", "some", [["item", "item"], ["qty", "pieces"], ["id", "number"]], 3),
            join("priced", "prices", "brief", ["name"], ["item"], 4),
            group("totals", "priced", ["item", "price"], ["count", "sum:pieces", "max:number"], 4)], {
                "prices.csv": table(PRICE, prices), "orders.csv": table(ORDER, orders(rng, 150))}


def sixteen(rng):
    """Sixteen workers for each operator but the sink."""
    return [scan("orders", ORDER, 16), kept("some", "orders", "qty", "!=", 7, 16),
            project("brief", "some", [["item", "item"], ["qty", "qty"]], 16),
            group("totals", "brief", ["qty"], ["count", "min:item"], 16)], {"orders.csv": table(ORDER, orders(rng, 250))}


def quoted(rng):
    """Texts with quotes, commas and ends of lines in them, in a file whose lines end with CR LF."""
    columns = [["note", "text"], ["unit price", "int"], ["who \"is\" it", "text"]]
    rows = [(rng.choice(ODD), rng.randrange(-20, 20), rng.choice(ODD + ITEMS)) for _ in range(90)]
    return [scan("notes", columns, 2), kept("some", "notes", "note", "<", "two", 3),
            project("brief", "some", [["who \"is\" it", "who, then"], ["unit price", "#price"], ["note", "note"]], 4),
            group("totals", "brief", ["note"], ["count", "min:who, then", "sum:#price"], 2)], {
                "notes.csv": table(columns, rows, "\r\n")}


def refused(rng):
    """Records and groups that are refused, in a file with empty lines and a byte order mark."""
    columns = [["key", "text"], ["value", "int"], ["note", "text"]]
    bad = [b"x,12", b"x,12,a,b", b"x,1.5,a", b"x,9223372036854775808,a", b"x,3,\xff\xfe", b"\xc3,+7,a", b"x,,a", b"x,-,\xff"]
    good = [(rng.choice(["a", "b", "large", "small", "mixed"]), rng.randrange(100), "n") for _ in range(70)]
    edges = [("large", (1 << 63) - 1, "n"), ("small", -(1 << 63), "n"), ("small", -1000000, "n"), ("mixed", (1 << 63) - 1, ""), ("mixed", -(1 << 62), "")]
    rows = good + edges + bad + [b"a,+0012,z", b"", b'"a",-3,"z"'] + rng.choices(bad, k=10)
    rng.shuffle(rows)
    return [scan("given", columns, 3), kept("some", "given", "note", "!=", "z", 2),
            group("sums", "some", ["key"], ["sum:value", "count", "max:value"], 3)], {
                "given.csv": b"\xef\xbb\xbf" + table(columns, rows)}


def many_rows(rng):
    """A join that makes thousands of rows, so that a pause may be passed, and a group without keys."""
    left, right = [["a", "int"], ["x", "int"]], [["b", "int"], ["y", "int"]]
    return [scan("left", left), scan("right", right, 2), join("pairs", "left", "right", ["a"], ["b"]),
            kept("some", "pairs", "x", ">=", 20, 2), group("total", "some", [], ["count", "sum:x", "min:y"], 3)], {
                "left.csv": table(left, [(rng.randrange(5), rng.randrange(100)) for _ in range(120)]),
                "right.csv": table(right, [(rng.randrange(5), rng.randrange(100)) for _ in range(120)])}


def joins(rng):
    """A join of a join, with sixteen workers, keys of two columns, and a side that is empty after its filter."""
    third = [["kind", "text"], ["size", "int"], ["place", "int"]]
    places = [(rng.choice(ITEMS), rng.randrange(6), place) for place in range(40)]
    return [scan("prices", PRICE, 3), scan("places", third, 4), scan("orders", ORDER, 2),
            join("priced", "prices", "orders", ["name"], ["item"], 16),
            kept("there", "places", "place", "<", 25, 2),
            join("placed", "there", "priced", ["kind", "size"], ["item", "qty"], 3)], {
                "prices.csv": table(PRICE, [(item, rng.randrange(9)) for item in ITEMS[2:] * 2]),
                "places.csv": table(third, places), "orders.csv": table(ORDER, orders(rng, 100, most=6))}


class Job:
    """A workflow with its files; for each operator how many rows it gives and what these are when nothing is altered."""

    def __init__(self, make):
        operators, self.files = make(random.Random(make.__name__))
        self.name = make.__name__
        self.workflow = {"operators": operators + [{"id": "answer", "kind": "sink", "input": operators[-1]["id"]}]}
        self.flow = Flow(self.workflow)
        self.rows, objects = sequential(self.flow, self.files)
        self.answer = answer_text(self.flow, objects)
        self.records = {one.id: records(self.files[one.given["file"]], one.columns) for one in self.flow.operators if one.kind == "scan"}


def all_jobs():
    return [Job(make) for make in (alone, filters, priced, totals, whole, sixteen, quoted, refused, many_rows, joins)]
