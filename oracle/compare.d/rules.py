"""Numbers 10, 11 and 13 of documents 01 and 02, read a second time, in Python: what the Rust cannot tell about a writing."""
import re

import locations

COMMA = (b"anticodon", b"transl_except")
BARE = COMMA + (b"citation", b"codon_start", b"compare", b"direction", b"estimated_length", b"mod_base", b"number", b"rpt_type",
                b"rpt_unit_range", b"tag_peptide", b"transl_table")
WHITE = re.compile("[\t-\r \u0085\u00a0\u1680\u2000-\u200a\u2028\u2029\u202f\u205f\u3000]+")


def header_texts(t):
    for k in ("definition", "accession", "version", "dblink", "keywords", "source", "organism"):
        yield t[k]
    for r in t["references"]:
        yield from r.values()
    yield from t["comments"]


def printed_name(t, truncate, escape):
    name = t["name"] if t["name"] is not None else t["accession"] if t["accession"] is not None else b"UNTITLED"
    digits = len(str(len(t["letters"]) if t["length"] is None else t["length"]))
    if truncate and len(name) + 1 + digits > 28:
        name = name[:27 - digits]
    words = [w for w in WHITE.split(name.decode("utf-8", "surrogateescape")) if w]
    if escape and len(words) > 1:
        name = "_".join(words).encode("utf-8", "surrogateescape")
    return name


def within(text, low, high):
    return all(low <= b <= high for b in text)


def utf8(text):
    try:
        text.decode("utf-8")
        return True
    except UnicodeDecodeError:
        return False


def visible(text):
    return len(text) > 0 and within(text, 33, 126)


def located(t):
    """Each location of the table: whether it is CONTIG, its text, its rows."""
    for f in t["features"]:
        yield False, f["location"], f["rows"]
    if t["contig"] is not None:
        yield True, t["contig"], t["contig_rows"]


def rows_fine(t):
    """Number 10 is not due for location rows: where a text has its reading, they are that reading's."""
    return all(locations.reading(contig, text) in (rows, locations.NONE, locations.DEEP) for contig, text, rows in located(t))


def laid_out(t, width, truncate, escape):
    """Number 11 is not due."""
    name = printed_name(t, truncate, escape)
    if not name or not all(within(x, 32, 126) for x in (name, t["division"], t["molecule"] or b"")):
        return False
    if not all(utf8(x) for x in header_texts(t) if x is not None):
        return False
    if t["date"] is not None:
        day, month, year = t["date"]
        if not (1 <= day <= 31 and 1 <= month <= 12 and 0 <= year <= 9999):
            return False
    for f in t["features"]:
        if not visible(f["kind"]) or len(f["kind"]) > width - 7 or f["kind"].startswith(b"/"):
            return False
        for key, value in f["qualifiers"]:
            if not visible(key) or len(key) > width - 25 or b"=" in key:
                return False
            if value is not None and not (visible(value) if key in COMMA else utf8(value)):
                return False
    if any(isinstance(locations.reading(contig, text), str) for contig, text, _ in located(t)):
        return False
    if not all(65 <= b <= 90 or 97 <= b <= 122 for b in t["letters"]):
        return False
    return not t["letters"] or t["length"] in (None, len(t["letters"]))


def lines_fit(text, width, indent, first, quoted):
    """No CR, no final LF, each line with all that stands before it shorter than the width."""
    if b"\r" in text or text.endswith(b"\n"):
        return False
    before = first
    for line in text.split(b"\n"):
        if before + len(line) + (line.count(b'"') if quoted else 0) >= width:
            return False
        before = indent
    return True


def value_kept(key, value, width):
    if key in COMMA:
        return b"/" not in value and not value.startswith(b'"')
    if key in BARE:
        return b"\r" not in value and b"\n" not in value and not value.startswith(b'"') and 23 + len(key) + len(value) < width
    if key == b"translation":
        return within(value, 33, 126) and b'"' not in value
    return lines_fit(value, width, 21, 24 + len(key), True)


def kept(t, width, truncate, escape):
    """Number 13 is not due, of a table that can be laid out."""
    if truncate or escape or t["name"] is None or t["length"] is None or t["date"] is None or b":" in t["name"]:
        return False
    words = [t["name"], t["division"]] + ([] if t["molecule"] is None else [t["molecule"]])
    if any(not w or b" " in w for w in words):
        return False
    if any(x is not None and (x.startswith(b" ") or not lines_fit(x, width, 12, 12, False)) for x in header_texts(t)):
        return False
    if any(b"\n" in (r["pubmed"] or b"") for r in t["references"]):
        return False
    for f in t["features"]:
        if len(f["kind"]) > 15:
            return False
        if any(v is not None and not value_kept(k, v, width) for k, v in f["qualifiers"]):
            return False
    return True
