"""A location's text read by document 02, ticket 1, a second time, in Python: what the Rust cannot tell about a location.

`reading` gives its rows, NONE or DEEP. A row is form (1 base, 2 range, 3 between, 4 complement, 5 join, 6 order, 7 gap), marks (1 for `<` and 2 for `>`), from, to, start and length
of the accession or of a gap's text, and inside: how many rows right before it belong to a word.
"""
import re

NONE, DEEP = "none", "deep"
MOST = 16  # words open at once

WORD = re.compile(rb"(complement|join|order)\(")
GAP = re.compile(rb"gap\(([!-'*-~]*)\)")
BASE = rb"([1-9][0-9]{0,9})(?![0-9])"
LEAF = re.compile(rb"(?:([A-Za-z0-9_]+\.[0-9]+):)?(?:(?P<less><)?" + BASE + rb"\.\.(?P<more>>)?" + BASE + rb"|" + BASE + rb"(?:\^" + BASE + rb")?(?!\.\.|\^))")
FORMS = {b"complement": 4, b"join": 5, b"order": 6}


class Trouble(Exception):
    """The first trouble from the left: NONE or DEEP."""


def _base(digits):
    if int(digits) > 4294967295:
        raise Trouble(NONE)
    return int(digits)


def _leaf(text, at):
    found = LEAF.match(text, at)
    if not found:
        raise Trouble(NONE)
    accession, less, low, more, high, n, m = found.groups()
    start, length = (found.start(1), len(accession)) if accession else (0, 0)
    if low:
        row = [2, bool(less) + 2 * bool(more), _base(low), _base(high), start, length, 0]
    elif m:
        row = [3, 0, _base(n), _base(m), start, length, 0]
    else:
        row = [1, 0, _base(n), _base(n), start, length, 0]
    return [row], found.end()


def _location(contig, text, at, open_):
    """The rows of the location that begins here, and the place after it."""
    word = WORD.match(text, at)
    gap = GAP.match(text, at) if contig else None
    if gap:
        return [[7, 0, 0, 0, gap.start(1), len(gap.group(1)), 0]], gap.end()
    if not word:
        return _leaf(text, at)
    if open_ == MOST:
        raise Trouble(DEEP)
    rows, at = _location(contig, text, word.end(), open_ + 1)
    while word.group(1) != b"complement" and text[at:at + 1] == b",":
        more, at = _location(contig, text, at + 1, open_ + 1)
        rows += more
    if text[at:at + 1] != b")":
        raise Trouble(NONE)
    return rows + [[FORMS[word.group(1)], 0, 0, 0, 0, 0, len(rows)]], at + 1


def reading(contig, text):
    try:
        rows, at = _location(contig, text, 0, 0)
    except Trouble as trouble:
        return trouble.args[0]
    return rows if at == len(text) else NONE


def rows(contig, text):
    """The rows of a text's reading; none where it has none."""
    found = reading(contig, text)
    return found if isinstance(found, list) else []
