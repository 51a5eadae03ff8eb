"""One stored line, a reading or a writing, and what the Rust's answer is in that form. oracle/README.md says how a line is read."""
import sys

import cases
import rooms
import rules
import rust
import strays
import tables

TEXT, NUMBERS = 4096, 264  # the rooms of `replay`
LARGEST = 18446744073709551615

REFUSED = (2, 4, 5, 7, 8, 9)  # what the Rust's error may be here: it does not tell them apart
NONE = (2, 4)  # what its None may be


def numbers(values):
    assert len(values) <= NUMBERS
    return " ".join(map(str, values)) + "; "


def text(value):
    assert len(value) <= TEXT
    plain = {10: "\\n", 34: '\\"', 92: "\\\\"}
    return '"' + "".join(plain.get(b) or (chr(b) if 32 <= b < 127 else "\\x%02x" % b) for b in value) + '" '


def in_rooms(r):
    """What lies in the rooms, in their order: texts, references, comments, features, qualifiers, location rows, letters."""
    return text(r.texts) + "".join(map(numbers, r.rows())) + text(r.letters)


NOTHING = in_rooms(rooms.Rooms(None))


class Reading:
    """A place in a slice, rooms (whole ones, or of these lengths), the numbers that may be answered, what is told with them, the table, line and offset where they are known, and
    whether it is read strictly."""
    title = None

    def __init__(self, data, at, permitted, told, table=None, departures=(), lent=(), spot=None, strict=False):
        self.data, self.at, self.permitted, self.told, self.table = data, at, list(permitted), list(told), table
        self.departures, self.lent, self.spot, self.strict = list(departures), list(lent), spot, strict

    def line(self):
        found = rooms.Rooms(self.table) if self.permitted == [0] else None
        return ("S " if self.strict else "R ") + numbers(self.departures) + text(self.data) + numbers([self.at] + self.lent) + numbers(self.permitted) + \
            numbers(self.told + (found.head if found else [])) + (in_rooms(found) if found else NOTHING) + (numbers(self.spot) if self.spot else "")


class Writing:
    """A table in rooms, a width and the switches, the lengths of what is lent if not all of it (the slice, then the rooms), the two writers' numbers, and the bytes."""
    title = None

    def __init__(self, table, how, plain, keeping, data, departures=(), lent=()):
        self.rooms, self.how, self.plain, self.keeping = table, list(map(int, how)), plain, keeping
        self.data, self.departures, self.lent = data, list(departures), list(lent)

    def value(self, number):
        return len(self.data) if number in (0, 6) else 0

    def line(self):
        return "W " + numbers(self.departures) + in_rooms(self.rooms) + numbers(self.rooms.head) + numbers(self.how + self.lent) + \
            numbers([self.plain, self.value(self.plain), self.keeping, self.value(self.keeping)]) + \
            text(self.data if 0 in (self.plain, self.keeping) else b"")


# ---- the Rust

def ask(todo):
    requests = [c.requests() for c in todo]
    replies = iter(rust.ask([r for rs in requests for r in rs]))
    for case, rs in zip(todo, requests):
        case.take([next(replies) for _ in rs])
    return todo


def departures(case):
    """The departures that a verdict of compare names before its comma."""
    verdict = case.verdict()
    if verdict == cases.LEFT:
        sys.exit("store: left over: " + case.show())
    return [int(c) for c in verdict.partition(",")[0] if c.isdigit()]


def rust_reading(case):
    """What the Rust, with the departures on, makes of a slice. Its refusals have no number; 14 is found by closing the slice (compare.d/cases.py), 16 by ending it (compare.d/strays.py)."""
    def found(permitted, place, table=None, spot=None):
        return Reading(case.data, case.at, permitted, [place], table, departures(case), spot=spot, strict=case.strict)

    at = case.at
    if at > len(case.data):
        return found([3], 0)
    if at == len(case.data):
        return found([1], at)
    if case.deep:
        return found([14], at)
    if case.stray is not None:
        return found([16], at, spot=strays.spot(case.data, at, case.stray))
    kind, _, rest = case.departed.partition(" ")
    if kind == "0":
        place, _, table = rest.partition(" ")
        return found([0], int(place), tables.from_line(table))
    if kind == "panic":
        return found([2], at)
    return found(NONE if "none" in (kind, case.unchanged) else REFUSED, at)


def rust_writing(case):
    """What it writes. Numbers 10 and 11 and the keeping writer's number are a second reading of documents 01 and 02 in Python, compare.d/rules.py."""
    table, by, refusal = rooms.Rooms(case.table), departures(case), case.refusal()
    if refusal:
        return Writing(table, case.how, refusal, refusal, b"", by)
    return Writing(table, case.how, 0, 0 if rules.kept(case.table, *case.how) else 13, bytes.fromhex(case.departed[len("ok x"):]), by)


# ---- rooms that are too short, after document 01

def short_rooms(readings):
    """Good readings once more, with no room (6), exact rooms (0), and each room that the table needs one number short (6)."""
    for r in readings:
        found = rooms.Rooms(r.table)
        exact = found.lengths()
        shorts = [exact[:i] + [n - 1] + exact[i + 1:] for i, n in enumerate(exact) if n]
        yield Reading(r.data, r.at, [0], r.told, r.table, r.departures, exact, strict=r.strict)
        for lent in [[0] * len(exact)] + shorts:
            yield Reading(r.data, r.at, [6], [r.at] + found.sizes(), departures=[5], lent=lent, strict=r.strict)
