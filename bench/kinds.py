"""What an operator of each kind makes of the rows that one of its workers takes. A part of `many.py`.

An object of a kind is fed one row after the other with `take`, which answers the rows that it makes of it; `close` answers
those that it makes once all was taken. `kept` is how `inspect` ends a worker's line.
"""
from rows import HOLDS, Fault, fits


class Scan:
    """Records that are rows pass; of the others the number and the fault are kept. The worker has each `workers`-th record."""

    def __init__(self, operator, place):
        self.number, self.workers = place + 1 - operator.workers, operator.workers
        self.refused = []

    def take(self, record, from_build, constant):
        self.number += self.workers
        if not isinstance(record, Fault):
            return [record]
        self.refused.append((self.number, record))
        return []

    def close(self):
        return []

    def kept(self):
        return f" refused {len(self.refused)}"


class Filter:
    def __init__(self, operator, place):
        self.place, self.holds = operator.place, HOLDS[operator.given["op"]]

    def take(self, row, from_build, constant):
        return [row] if self.holds(row[self.place], constant) else []

    def close(self):
        return []

    def kept(self):
        return ""


class Project:
    def __init__(self, operator, place):
        self.places = operator.places

    def take(self, row, from_build, constant):
        return [tuple(row[place] for place in self.places)]

    def close(self):
        return []

    def kept(self):
        return ""


class Join:
    """The rows of the build side stand in a table by their keys, in the order in which they came."""

    def __init__(self, operator, place):
        self.build_places, self.probe_places = operator.keys
        self.table, self.built = {}, 0

    def take(self, row, from_build, constant):
        if not from_build:
            return [row + other for other in self.table.get(tuple(row[place] for place in self.probe_places), ())]
        self.table.setdefault(tuple(row[place] for place in self.build_places), []).append(row)
        self.built += 1
        return []

    def close(self):
        return []

    def kept(self):
        return f" keys {len(self.table)} built {self.built}"


class Group:
    """The rows of each key, in the order in which the keys came first."""

    def __init__(self, operator, place):
        self.places, self.aggregates = operator.places, operator.aggregates
        self.groups, self.refused = {}, []

    def take(self, row, from_build, constant):
        self.groups.setdefault(tuple(row[place] for place in self.places), []).append(row)
        return []

    def cells(self, rows):
        """The aggregates of a group's rows."""
        work = {"count": len, "sum": sum, "min": min, "max": max}
        return tuple(work[name]([row[place] for row in rows]) for name, place in self.aggregates)

    def close(self):
        made = []
        for key, rows in self.groups.items():
            cells = self.cells(rows)
            if all(not isinstance(cell, int) or fits(cell) for cell in cells):
                made.append(key + cells)
            else:
                self.refused.append(key)
        return made

    def kept(self):
        return f" groups {len(self.groups)}"


class Sink:
    def __init__(self, operator, place):
        self.rows = []

    def take(self, row, from_build, constant):
        self.rows.append(row)
        return []

    def close(self):
        return []

    def kept(self):
        return f" kept {len(self.rows)}"


KINDS = {"scan": Scan, "filter": Filter, "project": Project, "join": Join, "group": Group, "sink": Sink}
