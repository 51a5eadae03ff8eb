"""Tables at the edges of lines, columns and rules, by hand, and two that are read back: document 01's run examples.

A case: what it shows, a table, a width, and what else is not as usual. The bytes come from the Rust with departures 4 and 6 on; 11 and 13 are after compare.d/rules.py,
6, 10 and 12 after documents 01 and 02. To add a case, add a line and run oracle/store --cases.
"""
import cases
import lines
import rooms
import tables

P318 = dict(tables.empty(), name=b"P318", length=12, division=b"SYN", date=(1, 3, 2024))
WIDTHS = (60, 61, 79, 80, 132)
ENDS = (("letters", b""), ("a space", b" bc"), ("a quote", b'"bc'), ("LF", b"\nbc"),
        ("two bytes", b"\xc3\xa9bc"), ("three bytes", b"\xe2\x82\xacbc"), ("four bytes", b"\xf0\x9d\x84\x9ebc"))
LETTERS = bytes(range(97, 123))
COMMAS = b"join(" + b",".join(b"%d..%d" % (n, n + 100) for n in range(100, 2400, 200)) + b")"
TENS = b"".join(LETTERS[i:i + 1] * 10 for i in range(12))
BARE = (b"anticodon", b"citation", b"codon_start", b"compare", b"direction", b"estimated_length", b"mod_base", b"number", b"rpt_type", b"rpt_unit_range", b"tag_peptide",
        b"transl_except", b"transl_table")


def a(n):
    return b"a" * n


def case(title, table, width=80, truncate=False, escape=False, number=None, slice=lines.TEXT, texts=lines.TEXT, letters=b"", change=None):
    """One writing. Lent are that much of the slice and of the store, rows just as many as there are, and that room of letters; `change` changes the rooms after
    the table is laid out, and `number` is what both writers answer then, if not what they would."""
    asked = cases.Writing(width, truncate, escape, table)
    if number is None and 60 <= width <= 132:
        found = lines.rust_writing(lines.ask([asked])[0])
    else:
        found = lines.Writing(rooms.Rooms(table), asked.how, number or 12, number or 12, b"", [5])
    if slice < len(found.data):
        found.plain, found.keeping, found.departures = 6, found.keeping or 6, [5]
    if change:
        change(found.rooms)
    found.rooms.letters = letters or found.rooms.letters
    found.title, found.lent = title, [slice, texts] + [len(r) for r in found.rooms.rows()] + [len(found.rooms.letters)]
    return found


def feature(kind, location, key, value):
    return dict(P318, features=[tables.feature(kind, location, [(key, value)])])


def value(key, text):
    return feature(b"CDS", b"1", key, text)


def edges():
    """A note of letters that ends around the edge: the last columns of a line, and what follows them there."""
    for width in WIDTHS:
        for name, end in ENDS:
            for n in range(width - 33, width - 26):
                yield case("%s after %d columns of a note, at width %d" % (name, n, width), feature(b"misc_feature", b"1..12", b"note", a(n) + end), width)


def kinds():
    for width in (60, 80):
        for n in (15, 16):
            yield case("a kind of %d, at width %d" % (n, width), feature(LETTERS[:n], b"1..12", b"note", b"a"), width)


def keys():
    for width in (60, 80):
        for n, name in ((width - 25, "W - 25"), (width - 24, "one byte more")):
            yield case("a key of %s, at width %d" % (name, width), value((3 * LETTERS)[:n], b"a"), width)
    for key in BARE:
        yield case("the key %s is written bare" % key.decode(), value(key, b"aa1"))
    for key in (b"note", b"numbers"):
        yield case("the key %s is not" % key.decode(), value(key, b"aa1"))
    yield case("a key with =", value(b"a=b", b"a"), 60)


def locations():
    for width in (60, 80):
        for name, location in (("with commas", COMMAS), ("without", TENS + b".1:1"), ("that is empty", b""), ("without a reading", TENS),
                               ("of sixteen words", b"join(" * 16 + b"1" + b")" * 16), ("of seventeen", b"join(" * 17 + b"1" + b")" * 17)):
            yield case("a location %s, at width %d" % (name, width), feature(b"CDS", location, b"note", b"a"), width)
    gaps = b"join(A.1:1..5," + b"gap(,/,)," * 9 + b"gap())"
    yield case("a CONTIG with gaps", dict(P318, contig=gaps, contig_rows=tables.contig_rows(gaps)), 60)


def rows():
    """Location rows that are not those of the text, of a text that has none, and rows elsewhere in their room."""
    def change(*places):
        def changed(r):
            for room, at, value in places:
                getattr(r, room)[at] = value
        return changed

    two = dict(P318, features=[tables.feature(b"gene", b"join(1,2)", []), tables.feature(b"gene", b"1", [])])
    yield case("the second feature's row in the rows of the first", two, change=change(("features", 14, 0)))
    yield case("another base", two, change=change(("features", 14, 1)), number=10)
    yield case("no rows", two, change=change(("features", 15, 0)), number=10)
    yield case("rows past the room", two, change=change(("features", 14, 4)), number=10)
    yield case("the largest first row", two, change=change(("features", 14, lines.LARGEST)), number=10)
    yield case("a number of a row", two, change=change(("locations", 2, 3)), number=10)
    unread = dict(P318, features=[tables.feature(b"gene", b"x", []), tables.feature(b"gene", b"1", [])])
    yield case("no reading and no rows, whose first is not read", unread, change=change(("features", 6, lines.LARGEST)))
    yield case("no reading and any row", unread, change=change(("features", 7, 1)))
    yield case("no reading and rows past the room", unread, change=change(("features", 7, 2)), number=10)
    yield case("no reading, and another feature's rows wrong", unread, change=change(("features", 15, 0)), number=10)


def values():
    yield case("a translation over lines", value(b"translation", a(150)), 60)
    yield case("a comma-broken value", value(b"anticodon", a(40) + b",aa,seq:tgc)"), 60)
    yield case("a bare value with LF", value(b"citation", b"a\nb"), 60)
    yield case("a value that is not UTF-8", value(b"note", b"a\xff"), 60)


def definitions():
    for n in (66, 67, 68, 69):
        yield case("a DEFINITION of %d letters" % n, dict(P318, definition=a(n)))
    for name, text in (("with words", a(60) + b" and more words"), ("with a final LF", b"aaa\n"), ("with a CR", b"aaa\rb"), ("that is empty", b""), ("that begins with a space", b" a")):
        yield case("a DEFINITION " + name, dict(P318, definition=text))


def sequences():
    room = a(120)
    for n in (59, 60, 61, 120):
        yield case("%d letters" % n, dict(P318, length=n, letters=a(n)), texts=7, letters=room)
    yield case("three letters where LOCUS says four", dict(P318, length=4, letters=a(3)), texts=7, letters=room)
    yield case("more letters than the room has", dict(P318, length=121, letters=a(121)), texts=7, letters=room, number=10)


def names():
    """Names beside a molecule type of eight bytes, and no date."""
    for title, name, bases, truncate, escape in (
            ("a name of 24 and a length of three digits", LETTERS[:24], 123, 0, 0), ("of 25", LETTERS[:25], 123, 0, 0), ("of 25, cut", LETTERS[:25], 123, 1, 0),
            ("a name of two words", b"two words", 123, 0, 0), ("escaped", b"two words", 123, 0, 1),
            ("white space of one, two and three bytes, escaped", b" two \xc2\xa0 three\xe2\x80\x83words ", 123, 0, 1), ("one word with white space, escaped", b"one\xc2\xa0", 123, 0, 1),
            ("cut and escaped", b"a long name of more than 28 bytes", 4294967295, 1, 1), ("an empty name", b"", 1, 0, 0)):
        yield case(title, dict(P318, name=name, length=bases, molecule=b"mRNA-ctD", topology="circular", date=None), truncate=truncate, escape=escape)


def slices():
    for width in (59, 60, 132, 133):
        yield case("width %d" % width, P318, width, slice=83, texts=7)
    for slice in (83, 82, 0):
        yield case("a slice of %d bytes for 83" % slice, P318, slice=slice, texts=7)


def spans():
    """Spans of the store's seven bytes: the DEFINITION's, whose length is stored plus one, and the division's, which is stored as it is."""
    def defined(start, length):
        def change(r):
            r.head[11:13] = [start, length + 1]
        return dict(texts=7, number=10, change=change)

    def divided(r):
        r.head[6:8] = [5, lines.LARGEST]

    empty = dict(P318, definition=b"")
    yield case("a span at the store's end", empty, texts=7)
    yield case("a span past the store's end", empty, **defined(0, 8))
    yield case("an empty span past the store's end", empty, **defined(8, 0))
    yield case("a span whose end would wrap", empty, **defined(5, lines.LARGEST - 1))
    yield case("the largest length", P318, texts=7, number=10, change=divided)


def read_back(written, last):
    """The reading of what was written, into one row of each."""
    reading = lines.rust_reading(lines.ask([cases.Reading(written.data, 0)])[0])
    assert last in reading.permitted, written.title
    reading.permitted, reading.title, reading.lent = [last], written.title + ", read back", [lines.TEXT, 14, 2, 8, 4, 7, 16]
    return reading


def run_examples():
    """Document 01's examples of what is written and does not come back."""
    for n, last in ((16, 7), (15, 0)):
        def change(r, n=n):
            r.texts, r.features[:5], r.qualifiers[:] = b"P318SYNabcdefghijklmnop1..12-notex", [7, n, 23, 5, 0], [29, 4, 33, 2]
        written = case("a kind of %d with a note" % n, feature(LETTERS[:n], b"1..12", b"note", b"x"), texts=34, change=change)
        yield from (written, read_back(written, last))
    written = case("a final LF is lost", dict(P318, definition=b"lost\n"), texts=12)
    yield from (written, read_back(written, 0))


def writings():
    return [w for part in (edges, kinds, keys, locations, rows, values, definitions, sequences, names, slices, spans, run_examples) for w in part()]
