"""A record table and its three forms: the vectors' JSON, the harness's line of tokens, and antt.

A table is a dict with the names of the vectors' README. A text is `bytes`, an absent one None. Where a form has no location rows they are those of the texts.
"""
import locations

TEXTS = ("definition", "accession", "version", "dblink", "keywords", "source", "organism")
REFERENCE = ("text", "authors", "consrtm", "title", "journal", "pubmed", "remark")


def empty():
    t = {k: None for k in TEXTS}
    t.update(name=None, length=None, molecule=None, topology="linear", division=b"UNK", date=None,
             references=[], comments=[], features=[], contig=None, contig_rows=None, letters=b"")
    return t


def feature(kind, location, qualifiers):
    """A feature with the rows of its location."""
    return {"kind": kind, "location": location, "qualifiers": qualifiers, "rows": locations.rows(False, location)}


def contig_rows(contig):
    """The location rows of CONTIG; None where it is absent."""
    return None if contig is None else locations.rows(True, contig)


def with_rows(t):
    """The table with the rows of its locations."""
    features = [feature(f["kind"], f["location"], f["qualifiers"]) for f in t["features"]]
    return dict(t, features=features, contig_rows=contig_rows(t["contig"]))


# ---- the vectors' JSON

def _text(v):
    if v is None:
        return None
    return bytes.fromhex(v["hex"]) if isinstance(v, dict) else v.encode("utf-8")


def from_json(j):
    t = {k: _text(j[k]) for k in TEXTS + ("name", "molecule", "division", "contig", "letters")}
    t["length"] = j["length"]
    t["topology"] = j["topology"]
    t["date"] = tuple(j["date"]) if j["date"] is not None else None
    t["references"] = [{k: _text(r[k]) for k in REFERENCE} for r in j["references"]]
    t["comments"] = [_text(c) for c in j["comments"]]
    t["features"] = []
    for f in j["features"]:
        found = feature(_text(f["kind"]), _text(f["location"]), [(_text(k), _text(v)) for k, v in f["qualifiers"]])
        t["features"].append(dict(found, rows=f.get("rows", found["rows"])))
    t["contig_rows"] = j.get("contig_rows", contig_rows(t["contig"]))
    return t


# ---- the harness's line: see oracle/README.md

def _token(v):
    return "-" if v is None else "x" + v.hex()


def to_line(t):
    out = [_token(t["name"]), "-" if t["length"] is None else str(t["length"]), _token(t["molecule"]),
           "c" if t["topology"] == "circular" else "l", _token(t["division"]),
           "-" if t["date"] is None else ".".join(map(str, t["date"]))]
    out += [_token(t[k]) for k in TEXTS]
    out.append(str(len(t["references"])))
    for r in t["references"]:
        out += [_token(r[k]) for k in REFERENCE]
    out.append(str(len(t["comments"])))
    out += [_token(c) for c in t["comments"]]
    out.append(str(len(t["features"])))
    for f in t["features"]:
        out += [_token(f["kind"]), _token(f["location"]), str(len(f["qualifiers"]))]
        for key, value in f["qualifiers"]:
            out += [_token(key), _token(value)]
    out += [_token(t["contig"]), _token(t["letters"])]
    return " ".join(out)


def from_line(line):
    tokens = iter(line.split(" "))

    def text():
        v = next(tokens)
        return None if v == "-" else bytes.fromhex(v[1:])

    def some():
        return range(int(next(tokens)))

    t = {"name": text()}
    v = next(tokens)
    t["length"] = None if v == "-" else int(v)
    t["molecule"] = text()
    t["topology"] = "circular" if next(tokens) == "c" else "linear"
    t["division"] = text()
    v = next(tokens)
    t["date"] = None if v == "-" else tuple(map(int, v.split(".")))
    for k in TEXTS:
        t[k] = text()
    t["references"] = [{k: text() for k in REFERENCE} for _ in some()]
    t["comments"] = [text() for _ in some()]
    t["features"] = [feature(text(), text(), [(text(), text()) for _ in some()]) for _ in some()]
    t["contig"] = text()
    t["contig_rows"] = contig_rows(t["contig"])
    t["letters"] = text()
    return t


# ---- antt

def _character(b):
    if b in (34, 92):
        return "\\" + chr(b)
    return chr(b) if 32 <= b < 127 else "\\u{%x}" % b


def antt_bytes(v):
    return '(bytes "%s")' % "".join(map(_character, v)) if v else "[]"


def antt_bool(v):
    return "true" if v else "false"


def _may(v):
    return "absent" if v is None else "(is %s)" % antt_bytes(v)


def _list(items):
    return "(" + " ∷ ".join(list(items) + ["[]"]) + ")"


def _fields(pairs):
    return "(record { " + "; ".join("%s = %s" % p for p in pairs) + " })"


ROW = ("form", "marks", "from", "to", "start", "length", "inside")


def antt_rows(rows):
    return _list(_fields(zip(ROW, row)) for row in rows)


def antt_table(t):
    date = "None" if t["date"] is None else "(Some %s)" % _fields(zip(("day", "month", "year"), t["date"]))
    locus = _fields([("name", _may(t["name"])), ("length", "absent" if t["length"] is None else "(is %d)" % t["length"]),
                     ("molecule", _may(t["molecule"])), ("circular", antt_bool(t["topology"] == "circular")),
                     ("division", antt_bytes(t["division"])), ("date", date)])
    source = "absent" if t["source"] is None else \
        "(is %s)" % _fields([("text", antt_bytes(t["source"])), ("organism", _may(t["organism"]))])
    references = _list(_fields([(k, antt_bytes(r[k]) if k in ("text", "title") else _may(r[k])) for k in REFERENCE])
                       for r in t["references"])
    features = _list(_fields([("kind", antt_bytes(f["kind"])), ("location", antt_bytes(f["location"])),
                              ("qualifiers", _list(_fields([("key", antt_bytes(k)), ("value", _may(v))])
                                                   for k, v in f["qualifiers"])), ("rows", antt_rows(f["rows"]))]) for f in t["features"])
    contig = "absent" if t["contig"] is None else "(is %s)" % _fields([("text", antt_bytes(t["contig"])), ("rows", antt_rows(t["contig_rows"]))])
    return _fields([("locus", locus)] + [(k, _may(t[k])) for k in TEXTS[:5]] +
                   [("source", source), ("references", references), ("comments", _list(map(antt_bytes, t["comments"]))),
                    ("features", features), ("contig", contig), ("letters", antt_bytes(t["letters"]))])
