"""Reads the text of a log, and writes commands as a script, a log and a reply have them. A part of `many.py`.

A command is a tuple: its word (`pause`, `count`, `when`, `clear`, `set`, `drop`, `inspect`, `lose`), its operator's number,
and what else it has in the order of the log's line; `("run",)` and `("end",)` are the two that open a leg.
"""
import re

from rows import is_text, fits, word

SIGNS = ("=", "!=", "<", "<=", ">", ">=")
U32, U64 = (1 << 32) - 1, (1 << 64) - 1
# How the words of each command's line are read: u is a number of 32 bits, n of 64, s a sign, c a constant.
COMMANDS = {"pause": "un", "count": "un", "clear": "u", "inspect": "u", "when": "uusc", "set": "uc", "drop": "uu", "lose": "uu"}
ENTRIES = {"t": "un", "g": "nn", "a": "n", "b": "n", "p": "", "r": "", "h": "", "f": ""}


class Refused(Exception):
    """Why a log is not accepted."""


class Leg:
    """A leg: what opened it, the parts as pairs of a worker and its entries, what closed it, and the line of that."""

    def __init__(self, opened, parts, closed, line):
        self.opened, self.parts, self.closed, self.line = opened, parts, closed, line


NUMBER = re.compile("0|[1-9][0-9]*")


def read_number(text, most):
    if not NUMBER.fullmatch(text) or int(text) > most:
        raise ValueError(text)
    return int(text)


def read_constant(text):
    if text[:1] == "t" and re.fullmatch("([0-9a-f]{2})*", text[1:]) and is_text(bytes.fromhex(text[1:])):
        return bytes.fromhex(text[1:])
    if text[:1] == "i" and re.fullmatch("0|-?[1-9][0-9]*", text[1:]) and fits(int(text[1:])):
        return int(text[1:])
    raise ValueError(text)


def read_sign(text):
    if text not in SIGNS:
        raise ValueError(text)
    return text


READERS = {"u": lambda text: read_number(text, U32), "n": lambda text: read_number(text, U64), "s": read_sign, "c": read_constant}


def read_words(words, kinds):
    """The first word and the others, each read by its kind; a line has none of another kind."""
    if words[0] not in kinds or len(kinds[words[0]]) != len(words) - 1:
        raise ValueError(" ".join(words))
    return (words[0],) + tuple(READERS[kind](text) for kind, text in zip(kinds[words[0]], words[1:]))


def read_entry(words):
    entry = read_words(words, ENTRIES)
    if entry[0] in ("a", "b") and entry[1] == 0 or entry[:3] == ("g", 0, 0):
        raise ValueError(" ".join(words))
    return entry


class Reader:
    """Reads a log line by line."""

    def __init__(self, lines):
        self.lines, self.number = lines, 0

    def next(self):
        """The words of the next line."""
        if self.number == len(self.lines):
            raise ValueError("the log ends within an item")
        self.number += 1
        return self.lines[self.number - 1].split(" ")

    def head(self):
        words = self.next()
        if words[:2] != ["amber", "1"] or len(words) != 3:
            raise ValueError("no head")
        size = read_number(words[2], 65536)
        if size == 0:
            raise ValueError("no rows in a batch")
        return size

    def leg(self, opened):
        """The parts of a leg up to the line that closes it."""
        parts, words = [], self.next()
        while words not in (["cut"], ["long"]):
            if words[0] == "w" and (not parts or parts[-1][1]):
                worker = read_words(words, {"w": "u"})[1]
                if parts and parts[-1][0] >= worker:
                    raise ValueError("the workers of a leg rise")
                parts.append((worker, []))
            else:
                self.entry(words, parts)
            words = self.next()
        if parts and not parts[-1][1]:
            raise ValueError("a part without an entry")
        return Leg(opened, parts, words[0], self.number)

    def entry(self, words, parts):
        entry = read_entry(words)
        if not parts or entry[0] == "g" and parts[-1][1] and parts[-1][1][-1][1][0] == "g":
            raise ValueError("an entry without a worker, or two that move rows")
        parts[-1][1].append((self.number, entry))

    def item(self):
        """A leg, or a pair of the line and its command."""
        words = self.next()
        if words in (["run"], ["end"]):
            return self.leg(words[0])
        if words[0] != "do" or len(words) < 2:
            raise ValueError("no item")
        return self.number, read_words(words[1:], COMMANDS)

    def items(self):
        items, over = [], False
        while self.number < len(self.lines):
            if over:
                raise ValueError("an item after the last")
            items.append(self.item())
            over = isinstance(items[-1], Leg) and (items[-1].opened == "end" or items[-1].closed == "long")
        return items


def read_log(data):
    """The rows of a batch and the items of a log that has a text."""
    if data[-1:] != b"\n" or not data.isascii():
        raise Refused("the log is no lines of ASCII")
    reader = Reader(data.decode("ascii")[:-1].split("\n"))
    try:
        return reader.head(), reader.items()
    except ValueError as error:
        raise Refused(f"line {reader.number}: no text: {error}") from None


def command_of(item):
    return (item.opened,) if isinstance(item, Leg) else item[1]


def command_text(flow, command):
    """A command's line in a script, which its reply repeats after `ok`."""
    kind, *rest = command
    if not rest:
        return kind.encode() + b"\n"
    operator = flow.operators[rest[0] - 1]
    words = [b"break"] if kind in ("count", "when") else []
    words += [kind.encode(), operator.id.encode()]
    if kind == "when":
        words += [word(operator.columns[rest[1] - 1][0].encode()), rest[2].encode(), word(rest[3])]
    else:
        words += [word(value) for value in rest[1:]]
    return b" ".join(words) + b"\n"
