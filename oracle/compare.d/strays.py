"""Number 16, by the Rust: the first letter of the sequence without an IUPAC code. The Rust has no such number, but it tells which letters it comes to."""
import re

import rust

STRAY = re.compile(rb"[EFIJLOPQXZefijlopqxz]")  # no code: not A C G T U R Y S W K M B D H V N
END = b"//"


def _places(data, at):
    return [m.start() for m in STRAY.finditer(data, at)]


def requests(data, at):
    """The slice up to each such letter, ended there, whatever length LOCUS says."""
    mask = rust.mask(rust.READING + (rust.UNCOUNTED,))
    return [rust.read_request(mask, 0, data[at:i + 1] + END) for i in _places(data, at)]


def first(data, at, replies):
    """The place of the first of them that is a letter of the sequence, None if none is. It is one if all that was asked is one record, with letters: they run up to that
    `//`, and no other trouble stands before it."""
    for i, reply in zip(_places(data, at), replies):
        number, _, rest = reply.partition(" ")
        if number == "0" and int(rest.split(" ")[0]) == len(data[at:i + 1] + END) and not rest.endswith(" x"):
            return i
    return None


def spot(data, at, i):
    """The line of a byte, from 1 at the place given, and where it begins."""
    return [1 + data.count(b"\n", at, i), max(at, data.rfind(b"\n", at, i) + 1)]
