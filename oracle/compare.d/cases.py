"""One reading or one writing: what the Rust says about it, what the definitions must compute, and which departures lie between."""
import rules
import rust
import statements
import strays
import tables

AGREES = "agrees with the Rust"
LEFT = "left over"


def _named(departures):
    return "departure %s" % departures[0] if len(departures) == 1 else "departures " + " and ".join(map(str, departures))


class Case:
    departures = ()

    def requests(self):
        masks = [rust.UNCHANGED] + [rust.mask(s) for s in rust.subsets(self.departures)]
        return [self.request(m) for m in masks]

    def take(self, replies):
        self.unchanged = replies[0]
        self.by = dict(zip(rust.subsets(self.departures), replies[1:]))
        if self.by[()] != self.unchanged:
            raise RuntimeError("with no departure on, the oracle's two copies differ: " + self.request("0"))
        self.departed = self.by[self.departures]

    def smallest(self, same):
        """The smallest set of departures with which the Rust gives the fully departed answer."""
        found = next(s for s in rust.subsets(self.departures) if same(self.by[s], self.departed))
        return _named(found) if found else AGREES


class Reading(Case):
    departures = rust.READING

    def __init__(self, data, at, strict=False):
        self.data, self.at, self.strict = data, at, strict
        self.size = len(data)

    def request(self, mask):
        return rust.read_request(mask, self.at, self.data)

    def seventeens(self):
        """The slice up to each bracket from the seventeenth on, closed as if seventeen words were open there, and `//`."""
        brackets = [i + 1 for i in range(self.at, len(self.data)) if self.data[i:i + 1] == b"("]
        return [self.data[self.at:i] + b"1" + b")" * 17 + b"\n//\n" for i in brackets[16:]]

    def requests(self):
        masks = rust.mask(self.departures), rust.mask(self.departures + (rust.SEVENTEEN,))
        closed = [rust.read_request(m, 0, s) for s in self.seventeens() for m in masks]
        return super().requests() + closed + (strays.requests(self.data, self.at) if self.strict else [])

    def take(self, replies):
        """Number 14 is due if one of `seventeens` is read with seventeen words allowed and not with sixteen: up to that bracket there is no other trouble. Number 16 is due, with the
        switch on, if there is a stray letter."""
        closed = len(rust.subsets(self.departures)) + 1
        letters = closed + len(self.seventeens()) * 2
        super().take(replies[:closed])
        self.deep = any(b.startswith("0 ") and not a.startswith("0 ") for a, b in zip(replies[closed:letters:2], replies[closed + 1:letters:2]))
        self.stray = strays.first(self.data, self.at, replies[letters:])

    def show(self):
        return "read%s at %d of %r" % (" strictly" if self.strict else "", self.at, self.data)

    def statements(self):
        how = self.strict, self.data, self.at
        if self.at > len(self.data):
            return [statements.refuses(*how, 3, 0)]
        if self.at == len(self.data):
            return [statements.refuses(*how, 1, self.at)]
        if self.deep:
            return [statements.refuses(*how, 14, self.at)]
        if self.stray is not None:
            return [statements.refuses_in(*how, 16, self.at, *strays.spot(self.data, self.at, self.stray))]
        kind, _, rest = self.departed.partition(" ")
        if kind == "0":
            place, _, table = rest.partition(" ")
            return [statements.reads(*how, tables.from_line(table), int(place))]
        if kind == "panic":
            return [statements.refuses(*how, 2, self.at)]
        if "none" in (kind, self.unchanged):
            return [statements.refuses_by(*how, (2, 4))]
        return [statements.refuses_by(*how, (2, 4, 5, 7, 8, 9))]

    def verdict(self):
        if self.at > len(self.data):
            return _named((5,)) + ", number 3"
        if self.stray is not None:
            return _named((5,)) + ", number 16"
        if self.departed == "panic":
            return _named((5,)) + ", the Rust panics"
        refused = ("err", "none")
        if self.at < len(self.data) and self.unchanged == "none" and self.departed in refused:
            return _named((2,)) + ", None at a cut LOCUS line"
        return self.smallest(lambda a, b: a == b or (a in refused and b in refused))

    def smaller(self):
        """Slices with a piece left out."""
        n = len(self.data)
        piece = n // 2
        while piece:
            step = max(1, piece // 2, n // 100)
            for i in range(0, n - piece + 1, step):
                at = self.at if self.at <= i else max(i, self.at - piece)
                yield Reading(self.data[:i] + self.data[i + piece:], at, self.strict)
            piece //= 2


class Writing(Case):
    departures = rust.WRITING

    def __init__(self, width, truncate, escape, table):
        self.how, self.table = (width, truncate, escape), table
        self.size = len(repr(table))

    def request(self, mask):
        return rust.write_request(mask, *self.how, tables.to_line(self.table))

    def show(self):
        short = {k: v for k, v in self.table.items() if v not in (None, [])}
        return "write at width %d, truncation %s, escaping %s: %r" % (self.how + (short,))

    def refusal(self):
        """The number with which both writers refuse it; 0 if the plain one does not."""
        if not rules.rows_fine(self.table):
            return 10
        return 0 if rules.laid_out(self.table, *self.how) else 11

    def statements(self):
        refusal = self.refusal()
        if refusal:
            return [statements.writes_not(*self.how, self.table, refusal)]
        if not self.departed.startswith("ok "):
            return []
        data = bytes.fromhex(self.departed[len("ok x"):])
        kept = rules.kept(self.table, *self.how)
        out = [statements.writes(*self.how, self.table, 0 if kept else 13, data)]
        if kept:  # what the keeping writer writes is read back
            out.append(statements.reads(False, data, 0, self.table, len(data)))
        return out

    def verdict(self):
        refusal = self.refusal()
        if refusal:
            return _named((5,)) + ", number %d" % refusal
        if not self.departed.startswith("ok "):
            return LEFT
        return self.smallest(lambda a, b: a == b)

    def smaller(self):
        for t in _smaller_tables(self.table):
            yield Writing(*self.how, t)
            yield Writing(*self.how, tables.with_rows(t))


def _smaller_texts(text):
    if len(text) > 1:
        for piece in (len(text) // 2, max(1, len(text) // 8), 1):
            for i in (0, (len(text) - piece) // 2, len(text) - piece):
                yield text[:i] + text[i + piece:]
    elif text:
        yield b""


def _smaller_members(members, smaller):
    for i in range(len(members)):
        yield members[:i] + members[i + 1:]
        for m in smaller(members[i]):
            yield members[:i] + [m] + members[i + 1:]


def _smaller_rows(row, may):
    for k, v in row.items():
        if isinstance(v, bytes):
            if k in may:
                yield dict(row, **{k: None})
            for x in _smaller_texts(v):
                yield dict(row, **{k: x})


def _smaller_qualifiers(q):
    for k in _smaller_texts(q[0]):
        yield (k, q[1])
    if q[1] is not None:
        yield (q[0], None)
        for v in _smaller_texts(q[1]):
            yield (q[0], v)


def _smaller_features(f):
    yield from _smaller_rows(f, ())
    for rows in _smaller_members(f["rows"], lambda row: ()):
        yield dict(f, rows=rows)
    for qs in _smaller_members(f["qualifiers"], _smaller_qualifiers):
        yield dict(f, qualifiers=qs)


def _smaller_tables(t):
    may = tables.TEXTS + ("name", "molecule", "contig")
    for x in _smaller_rows({k: v for k, v in t.items() if k != "letters"}, may):
        x["letters"] = t["letters"]
        if x["source"] is None:
            x["organism"] = None
        if x["contig"] is None:
            x["contig_rows"] = None
        yield x
    for x in _smaller_texts(t["letters"]):
        yield dict(t, letters=x, length=None if t["length"] is None else len(x))
    for k, smaller in (("comments", _smaller_texts), ("features", _smaller_features),
                       ("references", lambda m: _smaller_rows(m, set(tables.REFERENCE) - {"text", "title"}))):
        for members in _smaller_members(t[k], smaller):
            yield dict(t, **{k: members})
