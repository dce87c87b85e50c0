"""Judges a log: whether it is legal, and what it tells. A part of `many.py`.

Each entry is replayed on its worker by the rules of FORMATS.md and SEMANTICS.md, with all the rows; what a run prints is made
anew from the state that this leads to. A log that is not legal is `Refused`, with the line and why.
"""
from kinds import KINDS
from logtext import Leg, Refused, command_text
from rows import HOLDS, records, row_text, word
from flow import answer_text

MOST = 1 << 40
LATE = 1024


def need(condition, why):
    if not condition:
        raise Refused(why)


class Arms:
    """What is in force at an operator: a pause, a count with the rows emitted when it was armed, a condition, a constant."""

    def __init__(self, operator):
        self.operator = operator
        self.constant = getattr(operator, "constant", None)
        self.clear()

    def clear(self):
        self.pause = self.count = self.when = None

    def meets(self, row):
        """Whether a row meets the condition."""
        if self.when is None:
            return False
        column, sign, constant = self.when
        return HOLDS[sign](row[column - 1], constant)


class Worker:
    """A worker at a place in the log."""

    def __init__(self, flow, number, arms):
        self.number, self.arms = number, arms
        self.operator, self.place = flow.crew[number]
        self.kind = KINDS[self.operator.kind](self.operator, self.place)
        self.senders = flow.senders(self.operator, self.place)
        self.reader, self.side = flow.reader(self.operator.number)
        self.fed, self.taken = [], 0
        self.made, self.gone, self.emitted = [], 0, 0
        self.streams = {}
        self.batches, self.ended, self.closed = dict.fromkeys(self.senders, 0), set(), False
        self.hand, self.held, self.waved, self.paused, self.finished = 0, False, False, False, False

    # ---- what follows from its place

    def is_free(self):
        return not (self.paused or self.held or self.finished)

    def rest(self):
        return len(self.fed) - self.taken

    def pending(self):
        return len(self.made) - self.gone

    def is_drained(self):
        return self.rest() == 0 and self.pending() == 0

    def has_all(self):
        return len(self.ended) == len(self.senders)

    def steps(self):
        return self.taken + self.emitted + sum(self.batches.values()) + self.finished

    def offered(self, receiver, number, size):
        """The rows of a batch for a receiver and whether it is the last, if the worker has made it."""
        stream = self.streams.get(receiver, [])
        full = len(stream) // size
        need(number < full or number == full and self.finished, f"worker {self.number} has not made batch {number}")
        return stream[number * size:(number + 1) * size], number == full

    # ---- the entries

    def take(self, sender, number, senders, size):
        need(self.is_free(), "it is not free to take a batch")
        need(sender in self.senders, "nobody sends to it by this number")
        need(number == self.batches[sender], "it is not the sender's next batch")
        need(self.is_drained(), "a row is left or pending")
        builders = {one for one, building in self.senders.items() if building}
        need(sender in builders or builders <= self.ended, "the build side has not ended")
        rows, last = senders[sender].offered(self.number, number, size)
        self.fed += [(sender in builders, row) for row in rows]
        self.batches[sender] += 1
        if last:
            self.ended.add(sender)
        self.close_where_complete()

    def close_where_complete(self):
        """Where all was taken, what is made at the end is pending."""
        if not self.closed and self.has_all() and self.rest() == 0:
            self.made += self.kind.close()
            self.closed = True

    def go(self, rows, outs):
        need(self.is_free(), "it is not free to go on")
        need(rows <= self.rest(), "so many rows are not left")
        before = 0
        for from_build, row in self.fed[self.taken:self.taken + rows]:
            before = len(self.made)
            self.made += self.kind.take(row, from_build, self.arms.constant)
            self.taken += 1
            self.close_where_complete()
        need(self.gone + outs <= len(self.made), "so many rows were not made")
        need(rows == 0 or before <= self.gone + outs, "a row is taken before what was made is gone")
        if self.arms.count:
            need(outs <= self.hand, "the hand has not so many units")
            need(rows == 0 or before - self.gone < self.hand, "a row is taken with an empty hand")
            self.hand -= outs
        self.emit(outs)

    def emit(self, outs):
        """Rows go to those that read them, none of them one that meets the condition and was not waved on."""
        for row in self.made[self.gone:self.gone + outs]:
            need(self.waved or not self.arms.meets(row), "a row that meets the condition is emitted")
            self.waved = False
            receiver = self.reader.receiver(self.side, self.place, row)
            self.streams.setdefault(receiver, []).append(row)
        self.gone += outs
        self.emitted += outs

    def claim(self, units):
        need(self.arms.count and not self.finished, "it may claim nothing")
        self.hand += units

    def give_back(self, units):
        need(self.arms.count and units == self.hand, "it is not the hand that is given back")
        self.hand = 0

    def pause(self):
        need(not (self.paused or self.finished), "it may not pause")
        self.paused = True

    def resume(self):
        need(self.paused and not (self.held or self.finished), "it may not resume")
        self.paused = False

    def hold(self):
        need(self.is_free(), "it is not free to be held")
        need(self.pending() and self.arms.meets(self.made[self.gone]), "no pending row meets the condition first")
        need(not self.waved, "the row was waved on")
        need(not self.arms.count or self.hand, "the hand is empty")
        self.held = True

    def finish(self):
        need(self.is_free(), "it is not free to finish")
        need(self.is_drained() and self.has_all(), "it has more to do")
        self.finished = True

    # ---- what commands change

    def let_go(self):
        self.waved, self.held, self.paused = self.held or self.waved, False, False

    def drop(self):
        """The row before which it is held, which is gone without being emitted; None where it is not held."""
        if not self.held:
            return None
        self.held = False
        self.gone += 1
        return self.made[self.gone - 1]


class State:
    """All workers and what is in force, at a place in the log, which is an item's; and the counts that were reached, where."""

    def __init__(self, flow, files, size):
        self.flow, self.size = flow, size
        self.place, self.reached = 0, []
        self.arms = [Arms(operator) for operator in flow.operators]
        self.workers = [Worker(flow, number, self.arms[operator.number - 1]) for number, (operator, _) in enumerate(flow.crew)]
        for worker in self.workers:
            if worker.operator.kind == "scan":
                share = files[worker.operator.id][worker.place::worker.operator.workers]
                worker.fed = [(False, record) for record in share]

    def crew(self, operator):
        return self.workers[operator.first:operator.first + operator.workers]

    def emitted(self, operator):
        return sum(worker.emitted for worker in self.crew(operator))

    def counted(self, arms):
        return self.emitted(arms.operator) - arms.count[1]

    def enter(self, worker, entry):
        """One entry of a worker."""
        kind, *numbers = entry
        if kind == "t":
            worker.take(*numbers, self.workers, self.size)
        elif kind == "g":
            worker.go(*numbers)
        else:
            work = {"a": worker.claim, "b": worker.give_back, "p": worker.pause, "r": worker.resume, "h": worker.hold, "f": worker.finish}
            work[kind](*numbers)

    def work(self, leg):
        """All that the workers did in a leg."""
        for number, entries in leg.parts:
            for line, entry in entries:
                try:
                    need(number < len(self.workers), "there is no such worker")
                    self.enter(self.workers[number], entry)
                except Refused as error:
                    raise Refused(f"line {line}: worker {number}: {error}") from None

    def have_finished(self):
        return all(worker.finished for worker in self.workers)

    def stops(self):
        """Why a leg has stopped, as lines."""
        lines = [f"stop held {worker.operator.id} {worker.place} ".encode() + row_text(worker.made[worker.gone])
                 for worker in self.workers if worker.held]
        lines += [f"stop count {arms.operator.id} {arms.count[0]}\n".encode() for arms in self.arms
                  if arms.count and self.counted(arms) == arms.count[0]]
        lines += [f"stop pause {arms.operator.id} {arms.pause} {self.emitted(arms.operator)}\n".encode() for arms in self.arms
                  if arms.pause and self.emitted(arms.operator) >= arms.pause]
        return lines + [b"stop end\n"] * self.have_finished()

    def settle(self, leg):
        """What has to hold where a leg is closed."""
        need(all(worker.hand == 0 for worker in self.workers), "a hand is not empty")
        need(all(self.counted(arms) <= arms.count[0] for arms in self.arms if arms.count), "a count is passed")
        steps = sum(worker.steps() for worker in self.workers)
        need(leg.closed == "cut" and steps <= MOST, "the steps are not used up")

    def is_late(self, arms, before):
        """Whether an operator has emitted more past its pause than is promised."""
        operator = arms.operator
        return arms.pause and self.emitted(operator) > max(arms.pause, before[operator.number - 1]) + LATE * operator.workers

    def run(self, leg):
        """The reply to a leg up to a stop."""
        before = [self.emitted(operator) for operator in self.flow.operators]
        for worker in self.workers:
            worker.let_go()
        self.work(leg)
        self.settle(leg)
        stops = self.stops()
        need(stops, "no stop stands")
        need(not any(self.is_late(arms, before) for arms in self.arms), "a pause stopped too late")
        for arms in self.arms:
            if arms.count and self.counted(arms) == arms.count[0]:
                self.reached.append((self.place, arms.operator, arms.count[0]))
                arms.count = None
            if arms.pause and self.emitted(arms.operator) >= arms.pause:
                arms.pause = None
        return b"".join(stops)

    def end(self, leg):
        """The reply to the leg to the end, which is the answer."""
        for arms in self.arms:
            arms.clear()
        for worker in self.workers:
            worker.let_go()
        self.work(leg)
        self.settle(leg)
        need(self.have_finished(), "somebody has not finished")
        objects = {operator.number: [worker.kind for worker in self.crew(operator)] for operator in self.flow.operators}
        return answer_text(self.flow, objects)

    def do(self, command):
        """The reply to a command that opens no leg."""
        kind, number, *rest = command
        arms = self.arms[number - 1]
        if kind == "inspect":
            return self.inspect(arms)
        if kind == "drop":
            return self.drop(arms.operator, *rest)
        if kind == "pause":
            arms.pause = rest[0]
        elif kind == "count":
            arms.count = (rest[0], self.emitted(arms.operator))
        elif kind == "when":
            arms.when = tuple(rest)
        elif kind == "clear":
            arms.clear()
        elif kind == "set":
            arms.constant = rest[0]
        return b"ok " + command_text(self.flow, command)

    def drop(self, operator, place):
        row = self.crew(operator)[place].drop()
        told = f"drop {operator.id} {place}".encode()
        return b"none " + told + b"\n" if row is None else b"ok " + told + b" " + row_text(row)

    def inspect(self, arms):
        operator = arms.operator
        lines = [f"inspect {operator.id} {operator.kind}\n".encode()]
        if operator.kind == "filter":
            lines.append(b"constant " + word(arms.constant) + b"\n")
        if arms.pause:
            lines.append(f"pause {arms.pause}\n".encode())
        if arms.count:
            lines.append(f"count {self.counted(arms)} of {arms.count[0]}\n".encode())
        if arms.when:
            column, sign, constant = arms.when
            name = operator.columns[column - 1][0].encode()
            lines.append(b"when " + word(name) + f" {sign} ".encode() + word(constant) + b"\n")
        for worker in self.crew(operator):
            stand = "finished" if worker.finished else "held" if worker.held else "ready"
            lines.append((f"worker {worker.place} taken {worker.taken} rest {worker.rest()} out {worker.emitted}"
                          f" pending {worker.pending()} {stand}{worker.kind.kept()}\n").encode())
            if worker.pending():
                lines.append(b"next " + row_text(worker.made[worker.gone]))
        return b"".join(lines)


def fits(flow, command):
    """Whether the workflow has what a command names."""
    kind, number, *rest = command
    if not 1 <= number <= len(flow.operators):
        return False
    operator = flow.operators[number - 1]
    if kind in ("pause", "count"):
        return operator.kind != "sink" and 1 <= rest[0] <= MOST
    if kind == "when":
        return operator.kind != "sink" and 1 <= rest[0] <= len(operator.columns) and is_of(rest[2], operator.columns[rest[0] - 1])
    if kind == "set":
        return operator.kind == "filter" and is_of(rest[0], operator.columns[operator.place])
    return kind in ("clear", "inspect") or rest[0] < operator.workers


def is_of(constant, column):
    return isinstance(constant, int) == (column[1] == "int")


def replies(flow, files, size, items):
    """The reply to each item of a log, which has to be legal, and the counts that were reached, each with its item's place, its
    operator and its target. `files` has each scan's records by its id."""
    state, told = State(flow, files, size), []
    for state.place, item in enumerate(items):
        try:
            told.append(reply(state, item))
        except Refused as error:
            line = item.line if isinstance(item, Leg) else item[0]
            raise error if str(error).startswith("line ") else Refused(f"line {line}: {error}") from None
    return told, state.reached


def reply(state, item):
    if isinstance(item, Leg):
        return state.run(item) if item.opened == "run" else state.end(item)
    need(fits(state.flow, item[1]), "the command does not fit the workflow")
    return state.do(item[1])
