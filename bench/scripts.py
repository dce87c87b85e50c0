"""Draws scripts for the jobs of `many.py` at random, as lists of commands that fit a job's workflow.

Each shape of a script is a function of a `Draw`; the runs of a job go through all of them.
"""


class Draw:
    """Draws commands that fit a job."""

    def __init__(self, job, rng):
        self.job, self.rng = job, rng
        self.breakable = job.flow.operators[:-1]
        self.filters = [one for one in job.flow.operators if one.kind == "filter"]

    def operator(self):
        """An operator that may have a pause, a count or a condition; one that gives no row seldom."""
        some = [one for one in self.breakable if self.given(one)]
        return self.rng.choice(some if some and self.rng.random() < 0.95 else self.breakable)

    def given(self, operator):
        """How many rows an operator gives."""
        return len(self.job.rows[operator.number])

    def number(self, operator):
        """A number of rows: one, all, one more, or any."""
        rows = self.given(operator)
        return max(1, self.rng.choice([1, 2, rows, rows + 1, rows // 2] + [self.rng.randint(1, rows + 2) for _ in range(5)]))

    def when(self, operator):
        """A condition that a row of the operator meets."""
        rows = self.job.rows[operator.number]
        column = self.rng.randint(1, len(operator.columns))
        kind = operator.columns[column - 1][1]
        value = self.rng.choice(rows)[column - 1] if rows else 0 if kind == "int" else b"x y"
        return ("when", operator.number, column, self.rng.choice(["=", "=", "=", ">=", "<=", ">", "<", "!="]), value)

    def count(self, operator, rows=None):
        return ("count", operator.number, max(1, self.number(operator) if rows is None else rows))

    def pause(self, operator):
        return ("pause", operator.number, self.number(operator))

    def drops(self, operator):
        """A line `drop` for some of an operator's workers."""
        places = self.rng.sample(range(operator.workers), self.rng.randint(1, operator.workers))
        return [("drop", operator.number, place) for place in places]

    def loses(self, operator):
        """A line `lose` for some of an operator's workers."""
        places = self.rng.sample(range(operator.workers), self.rng.randint(1, operator.workers))
        return [("lose", operator.number, place) for place in places]

    def lose(self):
        """A line `lose` for a worker of any operator."""
        return self.loses(self.rng.choice(self.job.flow.operators))[0]

    def set(self):
        """Another constant for a filter, or a look where there is none."""
        if not self.filters:
            return self.inspect()
        operator = self.rng.choice(self.filters)
        rows = self.job.rows[operator.inputs[0]]
        return ("set", operator.number, self.rng.choice(rows)[operator.place] if rows else operator.constant)

    def inspect(self, operator=None):
        return ("inspect", (operator or self.rng.choice(self.job.flow.operators)).number)

    def anything(self):
        """Any command."""
        operator = self.operator()
        return self.rng.choice([
            lambda: ("run",), lambda: ("run",), lambda: self.inspect(), lambda: self.pause(operator), lambda: self.count(operator),
            lambda: self.when(operator), lambda: ("clear", operator.number), self.set, self.lose,
            lambda: self.drops(operator)[0]])()


def one_row(draw):
    operator = draw.operator()
    return [draw.count(operator, 1), ("run",), draw.inspect(operator), draw.count(operator, 1), ("run",), draw.inspect()]


def all_rows(draw):
    operator = draw.operator()
    return [draw.count(operator, draw.given(operator)), ("run",), draw.inspect(operator), ("run",)]


def one_more(draw):
    operator = draw.operator()
    return [draw.count(operator, draw.given(operator) + 1), ("run",), draw.inspect(operator)]


def some_rows(draw):
    """Counts one after the other, at an operator with several workers where there is one."""
    several = [one for one in draw.breakable if one.workers > 1 and draw.given(one)] or draw.breakable
    operator = draw.rng.choice(several)
    again = [draw.count(operator), ("run",), draw.inspect(operator)]
    return again + [draw.count(operator, draw.rng.randint(1, 5)), ("run",), draw.inspect(operator)] * 2


def two_counts(draw):
    one, other = draw.operator(), draw.operator()
    return [draw.count(one), draw.count(other), ("run",), draw.inspect(one), draw.inspect(other), ("run",), draw.inspect(one)]


def count_and_condition(draw):
    operator = draw.operator()
    first = [draw.count(operator), draw.when(operator), ("run",), draw.inspect(operator)]
    return first + draw.drops(operator) + [("run",), draw.inspect(operator), ("run",)]


def conditions(draw):
    """Rows that are held, dropped or let go, several times."""
    operator = draw.operator()
    again = [command for _ in range(3) for command in [("run",)] + draw.drops(operator) + [draw.inspect(operator)]]
    return [draw.when(operator)] + again + [("clear", operator.number), ("run",)]


def two_conditions(draw):
    one, other = draw.operator(), draw.operator()
    return [draw.when(one), draw.when(other)] + [("run",), draw.inspect(one), draw.inspect(other)] * 3


def pauses(draw):
    one, other = draw.operator(), draw.operator()
    first = [draw.pause(one), draw.pause(other), ("run",), draw.inspect(one), ("run",), draw.inspect(other)]
    return first + [draw.pause(one), ("run",), draw.inspect(one)]


def constants(draw):
    """A filter's constant is set between stops."""
    operator = draw.operator()
    stop = draw.rng.choice([draw.pause, draw.count])(operator)
    return [stop, ("run",), draw.set(), draw.inspect(operator), draw.count(operator), ("run",), draw.set(), ("run",), draw.inspect()]


def all_at_once(draw):
    armed = [draw.rng.choice([draw.pause, draw.count, draw.when])(operator) for operator in draw.breakable]
    looks = [draw.inspect(operator) for operator in draw.job.flow.operators]
    return armed + [("run",)] + looks + [("run",)] * draw.rng.randint(1, 4) + looks


def lost(draw):
    operator = draw.operator()
    stop = [draw.count(operator), ("run",), draw.inspect(operator), *draw.loses(operator), draw.lose(), draw.inspect(operator)]
    return stop + [draw.when(operator), ("run",), *draw.loses(operator), draw.drops(operator)[0], *draw.loses(operator)]


def nothing(draw):
    return [("run",), ("run",)][:draw.rng.randint(0, 2)] + [draw.inspect()]


def anything(draw):
    return [draw.anything() for _ in range(draw.rng.randint(1, 14))]


SHAPES = [one_row, lost, all_rows, one_more, some_rows, two_counts, count_and_condition, conditions, two_conditions, pauses,
          constants, all_at_once, nothing, anything, anything]


def script(job, rng, run):
    """The commands of a job's script in this run."""
    return SHAPES[run % len(SHAPES)](Draw(job, rng))
