"""Records at the edges of document 01's numbers, by hand.

A case: what it shows, a slice, and the number of its last reading after document 01 (the Rust refuses without a number; the script holds the number against what its
refusal may be). Record after record is read from the slice's start up to a refusal, or, with `at`, only the record at that place. All but that number comes from the Rust.
A case of STRICT is read with the switch on and, where that tells more, with it off; each has the line of its refusal too, which the Rust tells with 16 alone (compare.d/strays.py).
To add a case, add a line and run oracle/store --cases.
"""
import re
import sys

import cases
import lines

ROOMS = [4096, 3 * 14, 3 * 2, 4 * 8, 8 * 4, 24 * 7, 4096]  # enough for every case


def case(title, data, last, at=None):
    return title, data, last, at


P318 = b'''LOCUS       P318                      12 bp    DNA     circular SYN 01-MAR-2024
DEFINITION  Test plasmid.
FEATURES             Location/Qualifiers
     misc_feature    1..12
                     /note="says ""keep"""
                     /pseudo
ORIGIN     \x20
        1 acgtacgtac gt
//
'''
A = b"LOCUS a 3 bp linear SYN 1-JAN-2000\n"
TWO = b"DEFINITION  a\nDEFINITION  b\n"
TABLE = b"FEATURES             Location/Qualifiers\n"
FEATURE = b"     misc_feature    1..3\n"
QUALIFIER = b" " * 21
LOCATED = b"FEATURES Location/Qualifiers\n"
END = b"//\n"

CASES = [
    # The record of document 01, and its run example that is about reading.
    case("P318", P318, 1),
    case("a kind of 16 bytes: the qualifier stands before its indent", A + TABLE + b"     abcdefghijklmnop 1..3\n" + QUALIFIER + b'/note="x"\n' + END, 7),
    # Places, and what stands before LOCUS.
    case("no input", b"", 1),
    case("at the end", A + END, 1, at=38),
    case("beyond the end", A + END, 3, at=39),
    case("lines before LOCUS", b"first\n\nsecond\r\n" + A + END, 1),
    case("a stray CR before LOCUS", b"a\rb\n" + A + END, 4),
    case("no UTF-8 before LOCUS", b"\xff\n" + A + END, 4),
    case("no LOCUS", b"abc\ndef\n", 4),
    case("no line end before LOCUS", b"abcLOCUS x", 4),
    case("a place inside the first record", A + END + A + END, 0, at=5),
    case("the second record from its place", A + END + b"LOCUS b 0 bp linear SYN 1-JAN-2000\n" + END, 0, at=38),
    case("three records one after another", A + END + b"LOCUS x\n" + END + b"\n\r\n" + P318, 1),
    # The LOCUS line.
    case("the bare word", b"LOCUS", 2),
    case("the word and a CR at the end", b"LOCUS\r", 4),
    case("the word and a line end", b"LOCUS\n" + END, 4),
    case("cut after a CR", b"LOCUS x\r", 2),
    case("a stray CR in it", b"LOCUS x\ry\n" + END, 4),
    case("ended by CR LF", b"LOCUS x\r\n//\r\n", 1),
    case("no end", b"LOCUS x", 2),
    case("six tokens, tabs, blanks at the end", b"LOCUS\ta 3 bp\tlinear SYN 1-JAN-2000 \t\n" + END, 1),
    case("seven tokens", b"LOCUS a 4294967295 bp mRNA circular PLN 31-DEC-9999\n" + END, 1),
    case("a length too large", b"LOCUS a 4294967296 bp linear SYN 1-JAN-2000\n" + END, 1),
    case("a colon in the name", b"LOCUS a:b 3 bp linear SYN 1-JAN-2000\n" + END, 1),
    case("a day of 32", b"LOCUS a 3 bp linear SYN 32-JAN-2000\n" + END, 1),
    case("a month in small letters", b"LOCUS a 3 bp linear SYN 1-jan-2000\n" + END, 1),
    case("a byte above 126", b"LOCUS \xc3\xa9 3 bp linear SYN 1-JAN-2000\n" + END, 1),
    # Sections that end early.
    case("nothing after LOCUS", A, 2),
    case("a slash", A + b"/", 2),
    case("two slashes", A + b"//", 1),
    case("two slashes and a CR", A + b"//\r", 4),
    case("empty lines after the slashes", A + b"//\n\r\n\n", 1),
    case("in the header", A + b"DEFINITION  a\n", 2),
    case("in a word", A + b"DEFI", 2),
    case("in FEATURES", A + b"FEATURES ", 2),
    case("in a kind", A + TABLE + b"     misc", 2),
    case("in a qualifier", A + TABLE + FEATURE + QUALIFIER + b'/note="abc', 2),
    case("in CONTIG", A + b"CONTIG      join(", 2),
    case("in ORIGIN", A + b"ORIGIN", 2),
    case("the letters end the input", A + b"ORIGIN\nacg\n", 1),
    case("a line that fits nothing, slashes later", A + TABLE + FEATURE + b"nothing\n" + END, 7),
    case("a line that fits nothing, no slashes later", A + TABLE + FEATURE + b"nothing\n", 2),
    # The header.
    case("all entries", A + b"DEFINITION  d\n            e\nACCESSION   A\nVERSION     A.1\nDBLINK      P: 1\nKEYWORDS    .\nSOURCE      s\n"
         b"  ORGANISM  o\nREFERENCE   1\n  AUTHORS   a\n  CONSRTM   c\n  TITLE     t\n  JOURNAL   j\n   PUBMED   12\n"
         b"            34\n  REMARK    r\nCOMMENT     one\nCOMMENT     two\n" + END, 1),
    case("repeats overwrite, references and comments append", A + b"ACCESSION   A\nACCESSION   B\nSOURCE      s\n  ORGANISM  o\nSOURCE      t\nREFERENCE   1\n  TITLE     t\n"
         b"COMMENT     c\nREFERENCE   2\n  TITLE     u\n" + END, 1),
    case("a reference without TITLE is dropped", A + b"REFERENCE   1\n  JOURNAL   j\n" + END, 1),
    case("two DEFINITIONs", A + TWO + END, 5),
    case("two DEFINITIONs, the second at the end", A + TWO, 2),
    case("two DEFINITIONs and a byte", A + b"DEFINITION  a\nDEFINITION  b\nx", 5),
    case("two DEFINITIONs in a record without an end", A + b"DEFINITION  a\nDEFINITION  b\nnothing\n", 5),
    case("a character split over lines in PUBMED", A + b"REFERENCE   1\n  TITLE     t\n   PUBMED   \xc3\n            \xa9\n" + END, 1),
    case("a character split over lines in a COMMENT", A + b"COMMENT     \xc3\n            \xa9\n" + END, 7),
    case("a line that fits nothing is dropped", A + b"XYZ  a\nDEFINITION  d\n" + END, 1),
    case("a stray CR ends the header", A + b"DEFINITION  d\nXYZ \r a\n" + END, 7),
    # The feature table.
    case("a kind with no location", A + TABLE + b"     misc_feature\n" + END, 7),
    case("a quote split over lines", A + TABLE + FEATURE + QUALIFIER + b'/note="a"\n' + QUALIFIER + b'"b"\n' + END, 1),
    case("a note over lines", A + TABLE + FEATURE + QUALIFIER + b'/note="a\n' + QUALIFIER + b'b"\n' + END, 1),
    case("a translation over lines", A + TABLE + FEATURE + QUALIFIER + b'/translation="MA\n' + QUALIFIER + b'B"\r\n' + END, 1),
    case("a bare reading after a quoted one", A + TABLE + FEATURE + QUALIFIER + b'/note="abc"x\n' + END, 1),
    case("no value, an empty value, an empty text", A + TABLE + FEATURE + QUALIFIER + b"/a\n" + QUALIFIER + b"/b=\n" + QUALIFIER + b'/c=""\n' + END, 1),
    case("a location over lines", A + TABLE + b"     CDS             join(1..2,\n" + QUALIFIER + b"3..3)\n" + END, 1),
    case("slashes inside a location", A + TABLE + b"     CDS             1..2//3\n" + END, 7),
    case("a space in a location", A + TABLE + b"     CDS             1 ..2\n" + END, 7),
    case("two features", A + TABLE + FEATURE + QUALIFIER + b"/x=1\n" + QUALIFIER + b"/y=2\n" + b"     CDS             2..3\n" + QUALIFIER + b"/z=3\n" + END, 1),
    case("a value that is not UTF-8", A + TABLE + FEATURE + QUALIFIER + b'/note="\xff"\n' + END, 7),
    case("BASE COUNT and CONTIG", A + TABLE + FEATURE + b"BASE COUNT  1 a\nCONTIG      join(A.1:1..2,\n            B.1:1..2)\n" + END, 1),
    case("CONTIG with a space", A + b"CONTIG      a b\n" + END, 7),
    # Keys and kinds: whatever they are, the Rust's lists or none.
    case("a key on no list", A + TABLE + FEATURE + QUALIFIER + b'/nickname="x"\n' + END, 1),
    case("keys that begin like listed ones, and the beginning of one", A + TABLE + FEATURE + QUALIFIER + b'/notes="x"\n' + QUALIFIER + b"/gene_=y\n" + QUALIFIER + b"/gen=z\n" + END, 1),
    case("listed keys without a value", A + TABLE + FEATURE + QUALIFIER + b"/gene\n" + QUALIFIER + b"/note\r\n" + END, 1),
    case("a key longer than any listed, one of other bytes", A + TABLE + FEATURE + QUALIFIER + b"/a_key_of_thirty_bytes_and_more_=x\n" + QUALIFIER + b'/my "key"/2\xc3\xa9=x\n' + END, 1),
    case("a key that is not UTF-8", A + TABLE + FEATURE + QUALIFIER + b"/a\xc3=x\n" + END, 7),
    case("a key without a byte", A + TABLE + FEATURE + QUALIFIER + b"/=x\n" + END, 7),
    case("the input ends in a key on no list", A + TABLE + FEATURE + QUALIFIER + b"/nickname", 2),
    case("the input ends in a listed key", A + TABLE + FEATURE + QUALIFIER + b"/gene", 2),
    case("the input ends after a listed key and its byte", A + TABLE + FEATURE + QUALIFIER + b"/gene=", 2),
    case("kinds on no list, kinds that begin like listed ones", A + TABLE + b"     my_own_kind     1..3\n     genes           1\n     CD              2\n" + END, 1),
    case("the input ends in a listed kind", A + TABLE + b"     gene", 2),
    case("a listed kind and no space", A + TABLE + b"     gene\t1..3\n" + END, 7),
    # Locations.
    case("a base, a range with marks, a place between", A + LOCATED + b" a 1\n a <2..>4294967295\n a 5^9\n" + END, 1),
    case("words in words, an accession", A + LOCATED + b" a join(1..3,complement(order(5,A.1:<7..8)))\n" + END, 1),
    case("a word over lines, with CR LF", A + LOCATED + b" a com\r\n   plement(1\n   2)\n" + END, 1),
    case("an accession of digits", A + LOCATED + b" a 9.1:5\n" + END, 1),
    case("no reading", A + LOCATED + b" a 1\n a x\n" + END, 7),
    case("a leading zero", A + LOCATED + b" a 01..2\n" + END, 7),
    case("a number too large", A + LOCATED + b" a 4294967296\n" + END, 7),
    case("something after it", A + LOCATED + b" a 1..x\n" + END, 7),
    case("two members in a complement", A + LOCATED + b" a complement(1,2)\n" + END, 7),
    case("a gap in a feature", A + LOCATED + b" a gap(5)\n" + END, 7),
    case("gaps in CONTIG", A + b"CONTIG      join(A.1:1..5,gap(),gap(unk100),gap(x,/))\n" + END, 1),
    case("a gap in a gap", A + b"CONTIG      gap(gap(5))\n" + END, 7),
    case("the largest 64-bit number, negative", A + LOCATED + b" a -9223372036854775808\n" + END, 7),
    case("sixteen words", A + LOCATED + b" a " + b"join(" * 16 + b"1" + b")" * 16 + b"\n" + END, 1),
    case("seventeen", A + LOCATED + b" a " + b"join(" * 17 + b"1" + b")" * 17 + b"\n" + END, 14),
    case("seventeen in CONTIG", A + b"CONTIG " + b"order(" * 17 + b"1" + b")" * 17 + b"\n" + END, 14),
    case("seventeen, and the slice ends with its bracket", A + LOCATED + b" a " + b"join(" * 17, 14),
    case("seventeen, and the slice ends ahead of its bracket", A + LOCATED + b" a " + b"join(" * 16 + b"join", 2),
    case("seventeen, and the slice ends in the indent", A + LOCATED + b" a " + b"join(" * 17 + b"\n  ", 14),
    case("sixteen, and the slice ends in the indent", A + LOCATED + b" a " + b"join(" * 16 + b"\n  ", 2),
    case("seventeen, and then a stray CR", A + LOCATED + b" a " + b"join(" * 17 + b"\rx\n" + END, 14),
    case("a stray CR ahead of the seventeenth", A + LOCATED + b" a " + b"join(" * 16 + b"\rjoin(\n" + END, 7),
    case("seventeen, and then no UTF-8", A + LOCATED + b" a " + b"join(" * 17 + b"\xff\n" + END, 14),
    case("a fault ahead of the seventeenth", A + LOCATED + b" a join(0," + b"join(" * 16 + b"1\n" + END, 7),
    case("a bad feature ahead of it", A + LOCATED + b" a x\n a " + b"join(" * 17 + b"\n" + END, 7),
    case("the seventeenth on a further line of CONTIG, ahead of a stray CR", A + b"CONTIG " + b"join(" * 16 + b"\n       join(\r\n" + END, 14),
    case("the seventeenth after a gap whose further line begins with a slash", A + b"CONTIG join(gap(\n       /)," + b"join(" * 16 + b"\n" + END, 14),
    case("seventeen, and two DEFINITIONs", A + TWO + LOCATED + b" a " + b"join(" * 17 + b"\n" + END, 5),
    case("seventeen, and then bad letters", A + LOCATED + b" a " + b"complement(" * 17 + b"1\nORIGIN\n-\n" + END, 14),
    # The letters.
    case("three letters", A + b"ORIGIN      \n        1 acg\n" + END, 1),
    case("two letters", A + b"ORIGIN      \n        1 ac\n" + END, 8),
    case("four letters", A + b"ORIGIN      \n        1 acgt\n" + END, 8),
    case("a tab", A + b"ORIGIN      \n        1 ac\tg\n" + END, 9),
    case("the end of the input after three letters", A + b"ORIGIN\n  1 acg", 1),
    case("the end of the input after two letters", A + b"ORIGIN\n  1 ac", 2),
    case("no length in LOCUS, the end of the input", b"LOCUS x\nORIGIN\n  1 ac", 2),
    case("no length in LOCUS, one slash", b"LOCUS x\nORIGIN\n  1 ac\n/x\n", 2),
    case("another length and one slash", A + b"ORIGIN\n  1 ac\n/x\n", 8),
    # The text of ORIGIN: its line alone.
    case("lines 1 and 61 have indent enough", b"LOCUS x 62 bp DNA linear SYN 01-MAR-2024\nORIGIN 1 bp upstream\n        1 " + b"acgtacgtac" * 6 + b"\n       61 gt\n" + END, 1),
    case("the same without a length", b"LOCUS x\nORIGIN 1 bp upstream\n        1 acgt\n       61 ac\n" + END, 1),
    case("as many letters as LOCUS says, but for those of a line at the text's column", A + b"ORIGIN      a text\n            and more\n        1 acg\n" + END, 8),
    case("a letter at the text's column is one", A + b"ORIGIN      a text\n            a\n        1 cg\n" + END, 1),
    case("a slash at the text's column", b"LOCUS x\nORIGIN x\n       a/b\n" + END, 7),
    case("two slashes at the text's column", b"LOCUS x\nORIGIN x\n       a//b\n" + END, 4),
    case("another byte at the text's column", b"LOCUS x\nORIGIN x\n       a-b\n" + END, 9),
    case("another byte there and another length", A + b"ORIGIN x\n       a-b\n" + END, 9),
    case("no UTF-8 at the text's column", b"LOCUS x\nORIGIN x\n       \xff\n" + END, 9),
    case("the input ends after the line, LOCUS says none", b"LOCUS x 0 bp DNA linear SYN 01-MAR-2024\nORIGIN x\n", 1),
    case("the input ends in the text's indent, LOCUS says none", b"LOCUS x 0 bp DNA linear SYN 01-MAR-2024\nORIGIN x\n   ", 1),
    case("the input ends after the line, LOCUS says three", A + b"ORIGIN x\n", 2),
    case("a text with CR LF", A + b"ORIGIN x\r\n        1 acg\r\n" + END, 1),
    case("a text without an end", A + b"ORIGIN x", 2),
    case("a text and a CR at the end", A + b"ORIGIN x\r", 2),
    case("a stray CR in the text", A + b"ORIGIN x\ry\n" + END, 7),
    case("a text that is not UTF-8", A + b"ORIGIN \xff\n" + END, 7),
    case("a tab and a text", A + b"ORIGIN\tx\n" + END, 7),
    case("a space, a tab and a text", A + b"ORIGIN \tx\n        1 acg\n" + END, 1),
    case("a text after the word without a space", A + b"ORIGINx\n" + END, 7),
    case("BASE COUNT and CONTIG keep their further lines", A + b"BASE COUNT 1 a\n           -/\xc3\xa9 2 c\nCONTIG join(A.1:1..2,\n       B.1:1..2)\nORIGIN x\n        1 acg\n" + END, 1),
]


# ---- with the switch on

X = b"LOCUS x\n"
ORIGIN = b"ORIGIN\n"
CODED = b"ACGTURYSWKMBDHVN"
STRAY = b"EFIJLOPQXZ"


def usual(place, letter, end=b"\n", count=180):
    """A record as it is usually laid out, with that letter at a place of its letters."""
    letters = (b"acgtacgtac" * (count // 10 + 1))[:count]
    letters = letters[:place] + letter + letters[place + 1:]
    lines = [b"LOCUS       x                        %d bp    DNA     linear   SYN 01-MAR-2024" % count, b"ORIGIN      "]
    for i in range(0, count, 60):
        lines.append(b"%9d " % (i + 1) + b" ".join(letters[j:j + 10] for j in range(i, min(i + 60, count), 10)))
    return b"".join(line + end for line in lines + [b"//"])


def strictly(title, data, on, off=None, at=0):
    """Number and line with the switch on, and with it off where that tells more; line 0 where none is told."""
    return [(title, data, on[0], at, on[1], True)] + ([(title + ", the switch off", data, off[0], at, off[1], False)] if off else [])


STRICT = [
    # Which letters.
    *(strictly("a stray letter, %c" % b, X + ORIGIN + b"%c\n" % b + END, (16, 3)) for b in STRAY + STRAY.lower()),
    *(strictly("a letter with a code, %c" % b, X + ORIGIN + b"%c\n" % b + END, (0, 0)) for b in CODED + CODED.lower()),
    strictly("U and u stay", A + ORIGIN + b"uUt\n" + END, (0, 0), (0, 0)),
    strictly("all letters", X + ORIGIN + CODED + CODED.lower() + STRAY + b"\n" + STRAY.lower() + END, (16, 3), (0, 0)),
    # Ahead of 9, or behind it.
    strictly("a stray letter, and then a byte that is 9", X + ORIGIN + b" ax\n -\n" + END, (16, 3), (9, 4)),
    strictly("a byte that is 9, and then a stray letter", X + ORIGIN + b" a-\n x\n" + END, (9, 3), (9, 3)),
    strictly("a stray letter and such a byte in one line", X + ORIGIN + b" x-\n" + END, (16, 3), (9, 3)),
    strictly("such a byte and a stray letter in one line", X + ORIGIN + b" -x\n" + END, (9, 3), (9, 3)),
    *(strictly("byte %d is no letter" % b, X + ORIGIN + b" %c\n" % b + END, (9, 3)) for b in b"@[`{*\t\xd8\xf8"),
    # Ahead of 8, 2 and 7.
    strictly("a stray letter, and too few", A + ORIGIN + b" ax\n" + END, (16, 3), (8, 4)),
    strictly("a stray letter, and too many", A + ORIGIN + b" acgx\n" + END, (16, 3), (8, 4)),
    strictly("a stray letter, and as many as LOCUS says", A + ORIGIN + b" acx\n" + END, (16, 3), (0, 0)),
    strictly("too few, none stray", A + ORIGIN + b" ac\n" + END, (8, 4)),
    strictly("the input ends with a stray letter", A + ORIGIN + b" ax", (16, 3), (2, 3)),
    strictly("the input ends with its line", A + ORIGIN + b" ax\n", (16, 3), (2, 4)),
    strictly("the input ends with it, no length in LOCUS", X + ORIGIN + b"x", (16, 3), (2, 3)),
    strictly("the input ends with it, as many as LOCUS says", A + ORIGIN + b"acx", (16, 3), (0, 0)),
    strictly("the input ends, none stray, as many as LOCUS says", A + ORIGIN + b"acg", (0, 0)),
    strictly("the input ends, none stray", A + ORIGIN + b" ac", (2, 3)),
    strictly("a letter behind the slash is none of the sequence", X + ORIGIN + b" a\n/x\n" + END, (7, 4), (7, 4)),
    strictly("the same in one line", X + ORIGIN + b" a/x\n" + END, (7, 3)),
    strictly("the same, no slashes later", X + ORIGIN + b" a/x\n", (2, 4)),
    strictly("the same and another length", A + ORIGIN + b" a/x\n" + END, (8, 3)),
    strictly("a letter behind the two slashes", X + ORIGIN + b" a//x\n", (4, 2), at=None),
    strictly("a stray letter ahead of a slash", X + ORIGIN + b" x\n/x\n" + END, (16, 3), (7, 4)),
    strictly("the same, no slashes later", X + ORIGIN + b" x/x\n", (16, 3), (2, 4)),
    # Where letters are none of the sequence.
    strictly("letters in ORIGIN's text", A + b"ORIGIN      exon of file Z\n        1 acg\n" + END, (0, 0)),
    strictly("a letter at the column of ORIGIN's text", X + b"ORIGIN x\n       x\n" + END, (16, 3), (0, 0)),
    strictly("the input ends in ORIGIN's text", X + b"ORIGIN exon", (2, 2)),
    strictly("ORIGIN without letters", X + ORIGIN + END, (0, 0)),
    strictly("no ORIGIN", X + END, (0, 0)),
    strictly("no ORIGIN, but a line like it", X + b"ORIGINx\nx\n" + END, (7, 2)),
    strictly("letters everywhere else", A + b"DEFINITION  exile\nSOURCE      fox\n" + TABLE + FEATURE + QUALIFIER + b'/note="EFIJLOPQXZ"\n'
             b"BASE COUNT  1 x\nCONTIG      join(FIZ.1:1..2,gap(efijlopqxz))\nORIGIN\n        1 acg\n" + END, (0, 0)),
    # Ahead of it in the file.
    strictly("two DEFINITIONs, and then a stray letter", A + TWO + ORIGIN + b" x\n" + END, (5, 3), (5, 3)),
    strictly("seventeen words, and then a stray letter", A + LOCATED + b" a " + b"join(" * 17 + b"1\n" + ORIGIN + b" x\n" + END, (14, 3)),
    strictly("seventeen words in CONTIG, and then a stray letter", A + b"CONTIG " + b"join(" * 17 + b"1\n" + ORIGIN + b" x\n" + END, (14, 2)),
    strictly("a feature that is not taken, and then a stray letter", A + LOCATED + b" a x\n" + ORIGIN + b" x\n" + END, (7, 3)),
    strictly("no LOCUS", b"x\nORIGIN\nx\n", (4, 4)),
    strictly("the LOCUS line has no end", b"LOCUS x", (2, 1)),
    strictly("at the end", X + ORIGIN + b"x", (1, 0), at=16),
    strictly("beyond the end", X + ORIGIN + b"x", (3, 0), at=17),
    # Places and lines.
    *(strictly("place %d of 180, %c" % (i, b), usual(i, b"%c" % b), (16, 3 + i // 60)) for i in (0, 9, 10, 29, 59, 120, 129, 130, 149, 179) for b in b"xZ"),
    strictly("a letter in the middle of line 3", usual(149, b"p"), (16, 5), (0, 0)),
    *(strictly("place %d of 180, with CR LF" % i, usual(i, b"l", b"\r\n"), (16, 3 + i // 60)) for i in (0, 59, 60, 150, 179)),
    strictly("180 letters, none stray", usual(0, b"N"), (0, 0)),
    strictly("180 letters, none stray, with CR LF", usual(179, b"w", b"\r\n"), (0, 0)),
    strictly("the last letter of a short line", usual(124, b"E", count=125), (16, 5)),
    strictly("the last letter of fifty lines", usual(2999, b"e", count=3000), (16, 52), (0, 0)),
    strictly("a stray CR ends no line", X + ORIGIN + b" a\rx\n" + END, (16, 3), (0, 0)),
    strictly("lines before LOCUS count", b"first\n\r\n" + X + ORIGIN + b"\n\n 1 x\n" + END, (16, 7)),
    strictly("a place in a line", b"first\n" + X + ORIGIN + b" x\n" + END, (16, 4), at=2),
    strictly("the second of two records", X + ORIGIN + b" a\n" + END + X + ORIGIN + b" x\n" + END, (16, 3), (1, 0), at=None),
    strictly("the second of two from its place", X + ORIGIN + b" x\n" + END + X + ORIGIN + b" ax\n" + END, (16, 3), (0, 0), at=21),
    strictly("only the first of two is stray", X + ORIGIN + b" x\n" + END + X + ORIGIN + b" a\n" + END, (0, 0), at=21),
]


def spot(data, place, line):
    """A line, from 1 at the place, and where it begins; 0 and 0 for none."""
    return [line, [place, *(m.end() for m in re.finditer(b"\n", data) if m.end() > place)][line - 1]] if line else [0, 0]


def read_on(title, data, last, at=None, line=None, strict=False):
    """The readings of a case."""
    place, found = at or 0, []
    while True:
        reading = lines.rust_reading(lines.ask([cases.Reading(data, place, strict)])[0])
        reading.title, reading.lent = title, ROOMS
        found.append(reading)
        if at is not None or reading.permitted != [0]:
            break
        reading.spot = None if line is None else spot(data, place, 0)
        place = reading.told[0]
    if last not in reading.permitted:
        sys.exit("store: %s: the Rust does not allow %d" % (title, last))
    reading.permitted = [last]
    if line is not None:
        due = spot(data, place, line)
        if reading.spot not in (None, due):
            sys.exit("store: %s: the line is not %d" % (title, line))
        reading.spot = due
    return found


def short(title, reading):
    """A reading into rooms that just hold its table, or are too short."""
    for r in lines.short_rooms([reading]):
        r.title = title
        yield r


def readings():
    found = [r for c in CASES for r in read_on(*c)]
    found += short("P318 into rooms of the exact size, into none, and with each room that it needs one short", found[0])
    found += [r for cs in STRICT for c in cs for r in read_on(*c)]
    found += short("P318 read strictly into such rooms", read_on("P318", P318, 0, 0, 0, True)[0])
    none = read_on("a stray letter, and no room", X + ORIGIN + b" x\n" + END, 16, 0, 3, True)[0]
    none.lent = [0] * len(ROOMS)
    return found + [none]
