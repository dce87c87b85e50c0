"""A workflow as its workers see it: columns, who sends to whom, and by which keys. A part of `many.py`.

Operators are numbered from 1 and workers from 0, through the whole workflow.
"""
from kinds import KINDS
from rows import records, route, row_text


class Operator:
    """One operator; `inputs` are its inputs' numbers, of a join first the build side."""

    def __init__(self, number, given, earlier):
        self.number, self.given = number, given
        self.id, self.kind, self.workers = given["id"], given["kind"], given.get("workers", 1)
        self.first = sum(one.workers for one in earlier)
        numbers = {one.id: one.number for one in earlier}
        self.inputs = [numbers[given[side]] for side in ("build", "probe", "input") if side in given]
        self.columns, self.keys = [], []
        getattr(self, self.kind)(*(earlier[input - 1].columns for input in self.inputs))
        self.is_keyed = self.kind in ("join", "group")

    def scan(self):
        self.columns = [tuple(pair) for pair in self.given["columns"]]

    def filter(self, columns):
        self.columns = columns
        self.place = places_of([self.given["column"]], columns)[0]
        constant = self.given["constant"]
        self.constant = constant if isinstance(constant, int) else constant.encode()

    def project(self, columns):
        self.places = places_of([old for old, _ in self.given["columns"]], columns)
        self.columns = [(new, columns[place][1]) for place, (_, new) in zip(self.places, self.given["columns"])]

    def join(self, build, probe):
        self.keys = [places_of(self.given["build_keys"], build), places_of(self.given["probe_keys"], probe)]
        self.columns = probe + build

    def group(self, columns):
        self.places = places_of(self.given["keys"], columns)
        self.keys = [self.places]
        self.aggregates = [aggregate_of(text, columns) for text in self.given["aggregates"]]
        named = [(text, columns[place][1] if text[:3] in ("min", "max") else "int")
                 for text, (_, place) in zip(self.given["aggregates"], self.aggregates)]
        self.columns = [columns[place] for place in self.places] + named

    def sink(self, columns):
        self.columns = columns

    def receiver(self, side, sender_place, row):
        """The running number of the worker to which a sender's row goes that comes from this side."""
        place = route(row, self.keys[side], self.workers) if self.is_keyed else sender_place % self.workers
        return self.first + place


def places_of(names, columns):
    """Where columns of these names stand."""
    known = [name for name, _ in columns]
    return [known.index(name) for name in names]


def aggregate_of(text, columns):
    """What is computed, and of the column at which place; `count` looks at any."""
    name, _, column = text.partition(":")
    return name, places_of([column], columns)[0] if column else 0


class Flow:
    """The operators, and for each worker its operator and its place among that operator's workers."""

    def __init__(self, given):
        self.operators = []
        for number, one in enumerate(given["operators"], 1):
            self.operators.append(Operator(number, one, self.operators))
        self.crew = [(operator, place) for operator in self.operators for place in range(operator.workers)]

    def reader(self, number):
        """The operator that reads operator `number`, and the side on which it does; of the sink none."""
        readers = [(one, one.inputs.index(number)) for one in self.operators if number in one.inputs]
        return readers[0] if readers else (None, 0)

    def senders(self, operator, place):
        """The workers that send to this one, each with whether it is on a join's build side."""
        them = []
        for side, number in enumerate(operator.inputs):
            input = self.operators[number - 1]
            building = operator.kind == "join" and side == 0
            them += [(input.first + sender, building) for sender in range(input.workers)
                     if operator.is_keyed or sender % operator.workers == place]
        return dict(them)


def sequential(flow, files):
    """The rows that each operator gives, computed from the whole lists of its inputs' rows, and its object."""
    given, objects = {}, {}
    for operator in flow.operators:
        kind = KINDS[operator.kind](Alone(operator), 0)
        inputs = [given[number] for number in operator.inputs] or [records(files[operator.given["file"]], operator.columns)]
        constant = getattr(operator, "constant", None)
        made = [one for side, rows in enumerate(inputs) for row in rows
                for one in kind.take(row, operator.kind == "join" and side == 0, constant)]
        given[operator.number], objects[operator.number] = made + kind.close(), [kind]
    return given, objects


class Alone:
    """An operator with one worker."""

    def __init__(self, operator):
        self.__dict__ = {**operator.__dict__, "workers": 1}


def answer_text(flow, objects):
    """What the run to the end prints, of the objects of each operator's workers."""
    lines = []
    for operator in flow.operators:
        refused = sorted(one for kind in objects[operator.number] for one in getattr(kind, "refused", ()))
        if operator.kind == "scan":
            lines += [f"refused record {operator.id} {number} {fault}\n".encode() for number, fault in refused]
        if operator.kind == "group":
            lines += [f"refused group {operator.id}".encode() + (b" " + row_text(key) if key else b"\n") for key in refused]
    sink = flow.operators[-1]
    rows = sorted(row for kind in objects[sink.number] for row in kind.rows)
    lines += [b"rows %d\n" % len(rows), row_text([name.encode() for name, _ in sink.columns])]
    return b"".join(lines + [row_text(row) for row in rows])
