"""Makes inputs from a seed: slices with a place to read from, and tables with a width and the two switches to write with."""
import random
import string

import rules
import tables
from location_texts import LocationTexts

WORDS = ["a", "Test", "plasmid.", "gene", "of", "x-1", "says", '"keep"', "beta-lactamase", "Escherichia coli", "é", "naïve", "€5", "𝄞",
         "/pseudo", "//", "LOCUS", "1..5", "a=b", "(bases 1 to 12)", ";", "No. 7"]
LETTERS = b"acgtnACGTNryk"
KEYS = ["note", "gene", "product", "locus_tag", "translation", "codon_start", "transl_table", "anticodon", "transl_except", "pseudo", "k",
        "db_xref", "citation", "compare", "mod_base", "number", "rpt_type", "EC_number", "odd key", "é"]
KINDS = ["gene", "CDS", "source", "misc_feature", "tRNA", "rRNA", "regulatory", "repeat_region", "x", "5'UTR", "-10_signal"]
MONTHS = "JAN FEB MAR APR MAY JUN JUL AUG SEP OCT NOV DEC".split()
HEADER = ["DEFINITION", "ACCESSION", "VERSION", "DBLINK", "KEYWORDS", "SOURCE", "REFERENCE", "COMMENT"]


def pick_words(r, most):
    return " ".join(r.choice(WORDS) for _ in range(r.randint(0, most))).encode()


# ---- slices

class Slices:
    """Good records, damaged ones, small heaps of lines, and records one after the other."""

    def __init__(self, seed):
        self.r = random.Random("slices %s" % seed)
        self.places = LocationTexts(self.r)

    def chance(self, p):
        return self.r.random() < p

    def gap(self, word, to):
        n = to - len(word)
        return " " * (n if n > 0 and self.chance(0.9) else self.r.randint(1, 4))

    def locus(self, letters):
        r = self.r
        if self.chance(0.08):
            return r.choice(["LOCUS", "LOCUS ", "LOCUS\t", "LOCUS       x", "LOCUS  a 5 bp", "LOCUSx 4 bp", "LOCUS x 4 bp DNA SYN 01-JAN-2001",
                             "LOCUS\tx\t4\tbp\tDNA\tlinear\tSYN\t1-JAN-2001 \t"]).encode()
        name = r.choice(["P318", "x", "AB_1", "NC_000001.11", "a~!b"])
        length = str(letters)
        mol = r.choice(["DNA", "RNA", "ss-RNA", "mRNA", "cRNA"])
        topology = r.choice(["linear", "circular"])
        division = r.choice(["SYN", "BCT", "PRI", "UNK"])
        date = "%02d-%s-%04d" % (r.randint(1, 31), r.choice(MONTHS), r.randint(1, 2999))
        tokens = [name, length, "bp", mol, topology, division, date]
        if self.chance(0.25):
            where = r.randrange(8)
            if where == 7:
                tokens.insert(r.randrange(8), r.choice(["more", "12", "linear"]))
            else:
                tokens[where] = r.choice([
                    ["a:b", "é", "\x7f", "", "bp"], ["", "0", "4294967295", "4294967296", "00000000012", "0000000012", "-4", "+4", "12x", "0012"],
                    ["aa", "BP", "bpx", ""], ["", "", "é", "linear", "DNA RNA", "a\tb"], ["", "Linear", "linearx", "tandem"],
                    ["", "S1N", "12", "é", "syn", "x.y"],
                    ["", "1-JAN-2024", "00-JAN-2024", "32-JAN-2024", "31-FEB-0000", "01-jan-2024", "01-JAN-24", "01-JAN-12345", "001-JAN-2024",
                     "01-JAN-2024x", "01/JAN/2024", "-JAN-2024", "01-JAN--024", "+1-JAN-2024", "01-JAN-+999", "é1-JAN-2024"]][where])
        gaps = [self.r.choice([" ", "  ", "\t", " \t"]) if self.chance(0.1) else " " * r.randint(1, 6) for _ in tokens]
        end = r.choice([" ", "\t", "  "]) if self.chance(0.08) else ""
        return ("LOCUS      " + "".join(g + t for g, t in zip(gaps, tokens) if t) + end).encode()

    def field(self, indent, word):
        start = (" " * indent + word).encode()
        start += self.gap(" " * indent + word, 12).encode()
        lines = [start + pick_words(self.r, 5)]
        while self.chance(0.25):
            n = len(start) + (self.r.choice([-1, 1, 2, -4]) if self.chance(0.15) else 0)
            lines.append(b" " * max(n, 0) + pick_words(self.r, 4))
        return lines

    def reference(self):
        out = self.field(0, "REFERENCE")
        for indent, word, p in ((2, "AUTHORS", 0.6), (2, "CONSRTM", 0.3), (2, "TITLE", 0.92), (2, "JOURNAL", 0.6), (3, "PUBMED", 0.4), (2, "REMARK", 0.4)):
            if self.chance(p):
                out += self.field(indent, word)
        return out

    def header(self):
        out = []
        words = [w for w in HEADER if self.chance(0.35)]
        if self.chance(0.15):
            words.append(self.r.choice(HEADER))
        if self.chance(0.1):
            self.r.shuffle(words)
        for word in words:
            if word == "REFERENCE":
                out += self.reference()
            else:
                out += self.field(0, word)
                if word == "SOURCE" and self.chance(0.7):
                    out += self.field(2, "ORGANISM")
            if self.chance(0.04):
                out.append(self.r.choice([b"", b"UNKNOWN  x", b"  TITLE     lost", b"PROJECT     x", b"SEGMENT 1", "é".encode(), b"BASE COUNT  5 a"]))
        return out

    def location(self, contig):
        r = self.r
        if self.chance(0.3):
            return self.places.text(contig)
        a, b = r.randint(1, 9), r.randint(11, 99)
        plain = "%d..%d" % (a, b)
        kind = r.randrange(10)
        if kind < 4:
            return plain
        if kind < 8:
            return r.choice(["complement(%s)" % plain, "join(%s,20..30)" % plain, "<%d..>%d" % (a, b), "%d" % a, "order(1..2,complement(5..9))", "4^5",
                             "J00194.1:%s" % plain, "gap(10)", "gap()", "gap(unk100)", "bond(1,5)", "one-of(3,7)", "complement(join(1..3,%s,>7..9))" % plain,
                             "join(%s)" % ",".join("%d..%d" % (i, i + 5) for i in range(1, r.randint(2, 40), 3))])
        return r.choice(["5..5", "%d.5" % a, plain + "x", "01..5", "(1..5)", "join(1..2", "a:b:c", "1..", "é", "1 .. 5", "", "1..5 ", "/x", "9..1",
                         "9223372036854775808", "-9223372036854775808", "-9223372036854775808..1", "1^7", "9223372036854775807", "<5", "0", "\x7f"])

    def qualifier(self, indent):
        r = self.r
        key = r.choice(KEYS)
        start = b" " * indent + b"/" + key.encode()
        kind = r.randrange(10)
        if kind == 0:
            return [start]
        if kind < 4:
            value = r.choice(["1", "11", "(pos:1..3,aa:Met)", "abc", "", '"abc"x', "x y", "é", '"', '""', '"a', "[1]"]).encode()
            lines = [start + b"=" + value]
            while self.chance(0.2):
                lines.append(b" " * indent + r.choice([b"more", b"aa:Trp)", b"", b" x", b'"', "é".encode()]))
            return lines
        if self.chance(0.06):  # a doubled quote with a line end in it
            return [start + b'="' + pick_words(r, 1) + b'"', b" " * indent + r.choice([b'"x"', b'"', b'""', b'"x', b'" y"'])]
        parts = [pick_words(r, 4).replace(b'"', b'""') for _ in range(r.choice([1, 1, 1, 2, 3]))]
        if self.chance(0.15):
            parts.insert(r.randrange(len(parts) + 1), r.choice([b'a"', b'"', b'""', b'"b', b'""""', b"", b'a" x', b"/gene"]))
        lines = [start + b'="' + parts[0]] + [b" " * indent + p for p in parts[1:]]
        lines[-1] += r.choice([b'"', b'"', b'"', b'"', b'"', b'"', b'" ', b"", b'""', b'"x'])
        return lines

    def feature(self):
        r = self.r
        before = " " * (5 if self.chance(0.9) else r.randint(1, 7))
        kind = r.choice(KINDS) if self.chance(0.94) else r.choice(["/x", "é", "a" * 15, "b" * 16, "c" * 20, "\x7f", "x\ty"])
        start = before + kind
        start += " " * max(1, 21 - len(start)) if self.chance(0.93) else " " * r.randint(1, 3)
        location = self.location(False)
        lines = [(start + location).encode()]
        if len(location) > 12 and self.chance(0.3):
            cut = location.find(",", 8) + 1 or 9
            lines = [(start + location[:cut]).encode(), (" " * len(start) + location[cut:]).encode()]
        for _ in range(r.choice([0, 0, 1, 1, 2, 3])):
            lines += self.qualifier(len(start))
        return lines

    def record(self):
        r = self.r
        letters = r.choice([0, 0, 1, 4, 9, 12, 60, 61, 75])
        out = [self.locus(letters if self.chance(0.93) else letters + 1)] + self.header()
        if self.chance(0.6):
            out.append(b"FEATURES             Location/Qualifiers" if self.chance(0.96) else
                       r.choice([b"FEATURES Location/Qualifiers", b"FEATURES\tLocation/Qualifiers", b"FEATURES", b"FEATURES  Location/Qualifiers "]))
            for _ in range(r.choice([0, 1, 1, 1, 2, 3])):
                out += self.feature()
        if self.chance(0.08):
            out += self.field(0, "BASE COUNT")
        if self.chance(0.15):
            location = self.location(True)
            out.append(("CONTIG      " + location).encode())
            if self.chance(0.3):
                out.append(b" " * 12 + r.choice([b"x", b",5..6)", b"", b" "]))
        if letters or self.chance(0.2):
            out += [b"ORIGIN" + r.choice([b"", b"      ", b"      ", b" \t", b" chr 1", b"  x"])] if self.chance(0.95) else self.field(0, "ORIGIN")
            for i in range(0, letters, 60):
                part = bytes(r.choice(LETTERS) for _ in range(min(60, letters - i)))
                tens = b" ".join(part[j:j + 10] for j in range(0, len(part), 10))
                out.append(b"%9d %s" % (i + 1, tens))
        out.append(b"//")
        end = b"\r\n" if self.chance(0.12) else b"\n"
        text = b"".join(line + end for line in out)
        return text if self.chance(0.85) else text + r.choice([b"\n", b"\r\n", b"\n\n\r\n", b" ", b"\r", b"\nx", b"\n\r"])

    def small(self):
        """A few lines, the last one often cut."""
        r = self.r
        if self.chance(0.03):  # a byte above 127 that ends the slice after an indent
            return b"LOCUS \nFEATURES  Location/Qualifiers\n g  1..2\n" + r.choice([b"", b"    /k=v\n", b'    /k="v"\n', b'    /k="v\n']) + b"    " + bytes([r.randint(126, 255)])
        bag = [b"LOCUS ", b"LOCUS       x 4 bp DNA linear SYN 01-JAN-2001", b"DEFINITION  a", b"            b", b"  ORGANISM  o", b"SOURCE s", b"       t", b"//",
               b"FEATURES  Location/Qualifiers", b" g  1..2", b"    /k", b'    /k="v"', b"    /k=v", b'    /k="a""', b'    "b"', b"    more", b"    /translation=\"MK",
               b"    LV\"", b"ORIGIN", b"ORIGIN x", b"acgt", b"1 acg t", b"CONTIG 1..5", b"       6", b"BASE COUNT 1", b"REFERENCE 1", b"  TITLE t", b"   PUBMED 5",
               b"          6", b"COMMENT c", b"", b" ", "é".encode(), b"\xff", b"\r", b"KEYWORDS", b"x\ry", b"/", b"    \xc3", b"    \xa9x", b"\t", b'    /k="\xc3', b"    /=", b"    /k=="]
        lines = [b"LOCUS "] if self.chance(0.9) else []
        if self.chance(0.6):
            lines += [b"FEATURES  Location/Qualifiers", b" g  1..2"]
        lines += [r.choice(bag) for _ in range(r.randint(0, 6))]
        if self.chance(0.5):
            lines.append(b"//")
        text = b"".join(line + (b"\r\n" if self.chance(0.05) else b"\n") for line in lines)
        if self.chance(0.4):
            text = text[:len(text) - r.randint(0, min(len(text), 6))]
        return text + (r.choice([b"\r", b"\xe9", b" ", b"/", b'"', b"    \xe9"]) if self.chance(0.15) else b"")

    def broken(self, start, text):
        """A text after `start`, over several lines at any place, now and then with a wrong indent."""
        r = self.r
        out, text = start, text.encode()
        while len(text) > 1 and self.chance(0.4):
            cut = r.randint(0, len(text))
            indent = len(start) + (r.choice([-1, 1]) if self.chance(0.05) else 0)
            out += text[:cut] + r.choice([b"\n", b"\n", b"\r\n"]) + b" " * indent
            text = text[cut:]
        return out + text + b"\n"

    def located(self):
        """A small record with locations over several lines; some have a stray CR, and some end the slice."""
        r = self.r
        out = b"LOCUS x\n"
        if self.chance(0.75):
            out += b"FEATURES Location/Qualifiers\n"
            for _ in range(r.choice([1, 1, 2])):
                start = b" " * r.randint(1, 3) + b"a" + b" " * r.randint(1, 3)
                out += self.broken(start, self.places.text(False))
                if self.chance(0.2):
                    out += b" " * len(start) + r.choice([b"/k\n", b'/k="v"\n', b"/k=join(\n", b"/", b'/k="v'])
        if self.chance(0.1):
            out += r.choice([b"BASE COUNT 1\n", b"BASE COUNT", b"DEFINITION a\nDEFINITION b\n"])
        if self.chance(0.5):
            out += self.broken(b"CONTIG" + b" " * r.randint(1, 3), self.places.text(True))
        out += r.choice([b"//\n", b"//\n", b"//\n", b"", b"x\n", b"x\n//\n", b"ORIGIN\na\n//\n", b"ORIGIN\n-\n//\n", b" b 1\n//\n"])
        at = r.randint(min(len(out), 30), len(out))
        if self.chance(0.15):
            out = out[:at] + r.choice([b"\r", b"\r", b"\n", b"\xff", b"/", b" "]) + out[at:]
        if self.chance(0.25):
            out = out[:r.randint(at, len(out))] + r.choice([b"", b"", b"\r", b"\n", b"\n ", b"\r\n   "])
        return out

    def damaged(self, text):
        r = self.r
        for _ in range(r.randint(1, 3)):
            at = r.randint(0, len(text))
            lines = text.split(b"\n")
            i, j = r.randrange(len(lines)), r.randrange(len(lines))
            kind = r.randrange(14)
            if kind == 0:
                text = text[:at]
            elif kind < 3:
                text = text[:at] + r.choice([b"\r", b"\n", b"\r\n", b"\t", b" ", b'"', b'""', b"/", b"//", b"=", b"\0", b"\xff", b"\xc3\xa9", b"\xc3", b"\x80", b":", b"7"]) + text[at:]
            elif kind == 3:
                text = text[:at] + bytes([r.choice([0, 9, 10, 13, 32, 34, 47, 61, 127, 128, 200, 255])]) + text[at + 1:]
            elif kind == 4:
                text = text[:at] + text[at + r.randint(1, 6):]
            else:
                if kind == 5:
                    lines.insert(i, lines[i])
                elif kind == 6:
                    lines[i], lines[j] = lines[j], lines[i]
                elif kind == 7:
                    del lines[i]
                elif kind == 8:
                    lines[i] = b" " * r.randint(1, 3) + lines[i]
                elif kind == 9:
                    lines[i] = lines[i][r.randint(1, 3):]
                elif kind == 10:
                    lines[i] += r.choice([b"\r", b" ", b"\t", b'"', b"\r\r", b"\xff"])
                elif kind == 11:
                    lines[i] = lines[i].replace(b'"', r.choice([b"", b'""', b"'"]), 1)
                elif kind == 12:
                    lines[i] = lines[i].replace(b" ", r.choice([b"\t", b"", b"  "]), r.choice([1, 99]))
                else:
                    lines.insert(i, r.choice([b"//", b"LOCUS x", b"", b"/", b"FEATURES             Location/Qualifiers", b"ORIGIN", b"DEFINITION  again"]))
                text = b"\n".join(lines)
        return text

    def one(self):
        kind = self.r.random()
        if kind < 0.2:
            return self.small()
        if kind < 0.4:
            return self.located()
        if kind < 0.7:
            return self.record()
        return self.damaged(self.record())

    def next(self):
        r = self.r
        if self.chance(0.8):
            text = self.one()
            if self.chance(0.04):
                text = r.choice([b"header line\n", b"\n", b"\r\n", b"a\rb\n", b"\xff\n", b"LOCU\n", b" LOCUS x\n"]) + text
            if not self.chance(0.05):
                return text, 0
            return text, r.choice([0, len(text), len(text) + 1, len(text) + 20, r.randint(0, len(text))])
        parts = [self.one() for _ in range(r.randint(2, 3))]
        starts = [0]
        for p in parts:
            starts.append(starts[-1] + len(p))
        at = r.choice(starts)
        if self.chance(0.3):
            at = r.randint(0, starts[-1])
        return b"".join(parts), at


class Lettered(Slices):
    """More good records, for reading strictly: any letter, now and then another byte, put behind ORIGIN or in a byte's place there."""

    def one(self):
        text = self.record() if self.chance(0.7) else super().one()
        start = text.rfind(b"ORIGIN") + len(b"ORIGIN")
        for _ in range(self.r.choice([0, 1, 1, 2, 3]) if b"ORIGIN" in text else 0):
            at = self.r.randint(start, max(start, len(text) - len(b"//\n")))
            byte = self.r.choice(string.ascii_letters).encode() if self.chance(0.9) else self.r.choice([b"-", b"*", b"@", b"[", b"`", b"{", b"\t", b"\xff", b"/"])
            text = text[:at] + byte + text[at + self.r.choice([0, 1, 1, 1]):]
        return text


# ---- tables

class Writings:
    """Tables whose texts end near the line's end, with now and then something that cannot be laid out."""

    def __init__(self, seed):
        self.r = random.Random("writings %s" % seed)
        self.places = LocationTexts(self.r)

    def chance(self, p):
        return self.r.random() < p

    def odd(self, p):
        """Something that cannot be laid out, only in the odd table."""
        return self.strange and self.chance(p)

    def maybe(self, p, make):
        return make() if self.chance(p) else None

    def text(self, indent, used):
        """Words, or lines that end at the width, one before or one after it, with a special character there."""
        r = self.r
        if self.gentle:
            return self.gentle_text(indent, used)
        if self.chance(0.45):
            return pick_words(r, 8)
        if indent == 21 and self.chance(0.4):
            return self.quote_at_end(used)
        out, column = "", used
        for _ in range(r.choice([1, 1, 2, 3])):
            room = max(0, self.width - column + r.choice([-3, -2, -1, -1, 0, 0, 1, 2]))
            filling = "".join(r.choice(["a", "b", "é", "€"]) if self.chance(0.05) else "x" for _ in range(room))
            while len(filling.encode()) > room:
                filling = filling[1:]
            if self.chance(0.4) and len(filling) > 4:
                i = r.randrange(len(filling))
                filling = filling[:i] + r.choice([" ", '"', "  ", ' "']) + filling[i + 1:]
            out += filling + r.choice(["", " ", '"', "\n", "é", "€", "𝄞", '""', ' "', '" ', "\n\n", "  ", '"\n', "\t", "z"])
            column = indent
        return (out + r.choice(["", "", "end", " end", "\n"])).encode()

    def quote_at_end(self, used):
        """A quote near the end of the first line, most often where one column is left."""
        r = self.r
        filling = bytearray(b"x" * (self.width - used - r.choice([1, 1, 1, 1, 0, 2, 3])))
        if filling and self.chance(0.5):
            filling[r.randrange(len(filling))] = 32
        return bytes(filling) + b'"' + r.choice([b"", b"", b" ", b"\n", b"x", b" y", b"\nz", b'"', "é".encode(), b"x" * 60])

    def gentle_text(self, indent, used):
        """Lines that are shorter than the width, most of them by one."""
        r = self.r
        out, column = [], used
        for _ in range(r.choice([1, 1, 2, 3])):
            room = self.width - column - r.choice([1, 1, 1, 2, 30])
            line = r.choice([b"x" * room, (b"word " * 30)[:room], b'""', pick_words(r, 4), b'a"' * (room // 3), "é".encode() * (room // 2)])
            out.append(line if len(line) + line.count(b'"') <= room else b"x" * max(room, 0))
            column = indent
        text = b"\n".join(out).lstrip(b" ")
        return text.rstrip(b"\n")

    def header_text(self):
        if self.odd(0.15):
            return self.r.choice([b"\xff", b"a\xc3", b"\xe2\x82", b"\xed\xa0\x80"])
        return self.text(12, 12)

    def commas(self, used):
        r = self.r
        room = self.width - used + r.choice([-2, -1, 0, 1, 2, 30, 90])
        kind = r.randrange(5)
        if kind == 0:
            return b"%d..%d" % (r.randint(1, 9), r.randint(10, 99))
        if kind == 1:
            return b"x" * max(1, room)
        if kind == 2:
            return b"," * max(1, room)
        out = b"join("
        while len(out) < room:
            out += b"%d..%d," % (r.randint(1, 99), r.randint(100, 9999))
        return out[:-1] + b")" if kind == 3 else (out + b"xxxxxxxxx")[:max(1, room)]

    def comma_broken(self, used):
        if self.odd(0.15):
            return self.r.choice([b"", b"a b", "é".encode(), b"\x7f", b"/x"])
        return self.commas(used)

    def location(self, used, contig):
        """A location that ends near a line's end, one of any form, and in an odd table one without a reading."""
        r = self.r
        if self.odd(0.25):
            return self.places.text(contig).encode() if self.chance(0.8) else r.choice([b"", b"a b", b"/x", self.commas(used)])
        if self.chance(0.4):
            return self.places.good(contig, r.choice([0, 1, 2, 3])).encode()
        room = max(20, self.width - used + r.choice([-2, -1, 0, 1, 2, 30, 90]))
        if contig and self.chance(0.3):
            return b"gap(" + bytes(r.choice(b",,x/") for _ in range(room - 5)) + b")"
        out = b"" if self.chance(0.2) else b"join("
        while out and len(out) < room - 12:
            out += b"%d..%d," % (r.randint(1, 99), r.randint(100, 9999))
        return out + b"A" * max(1, room - len(out) - len(".1:5" + ")" * bool(out))) + b".1:5" + b")" * bool(out)

    def wrong_rows(self, rows):
        """Rows that differ from these."""
        r = self.r
        rows = [list(row) for row in rows]
        kind = r.randrange(4)
        if not rows or kind == 0:
            return rows + [[1, 0, 1, 1, 0, 0, 0]]
        at = r.randrange(len(rows))
        if kind == 1:
            return rows[:at] + rows[at + 1:]
        if kind == 2:
            return rows[:at] + [rows[at]] + rows[at:]
        rows[at][r.randrange(7)] += r.choice([1, 2, 18446744073709551000])
        return rows

    def qualifier(self):
        r = self.r
        if self.odd(0.2):
            key = r.choice(["", "a=b", "a b", "é", "k" * (self.width - 24)]).encode()
        elif self.chance(0.02) and not self.gentle:
            key = b"k" * (self.width - 25)
        else:
            key = r.choice(["note", "note", "gene", "translation", "pseudo", "k"] + [k.decode() for k in rules.BARE]).encode()
        if self.chance(0.1):
            return key, None
        if key in rules.COMMA:
            return key, self.comma_broken(23 + len(key))
        if key == b"translation" and self.chance(0.6):
            return key, bytes(r.choice(b"MKLVAG*") for _ in range(r.randint(0, 200)))
        if self.odd(0.1):
            return key, b"a\xff"
        if self.gentle and key in rules.BARE:
            return key, b"7" * r.choice([0, 1, self.width - 24 - len(key)])
        return key, self.text(21, 23 + len(key) + (key not in rules.BARE))

    def kind(self):
        if self.odd(0.2):
            return self.r.choice(["f" * (self.width - 6), "", "/x", "a b", "é"]).encode()
        if self.chance(0.12):
            return self.r.choice([b"a" * 14, b"b" * 15] if self.gentle else [b"c" * 16, b"d" * 17, b"e" * (self.width - 7)])
        return self.r.choice(KINDS).encode()

    def feature(self):
        kind = self.kind()
        f = tables.feature(kind, self.location(max(21, 6 + len(kind)), False), [self.qualifier() for _ in range(self.r.choice([0, 1, 1, 2, 3]))])
        return dict(f, rows=self.wrong_rows(f["rows"])) if self.chance(0.04) else f

    def name(self, digits):
        r = self.r
        kind = r.randrange(10)
        if kind < 5:
            return r.choice([b"P318", b"x", b"NC_000001.11"])
        if kind < 8 or self.gentle:
            return b"n" * max(1, 27 - digits + r.choice([-1, 0, 1, 2, 9]))
        if not self.odd(0.5):
            return r.choice(["a b", " a  b ", " a", "a:b", "abcdefgh ijklmnop qrstuvwx yz"] + (
                ["a\u00a0b", "a\tb", "a b\u3000c", "a\u2028b\u1680c\u205fd\u0085e"] if self.escape else ["a:b"])).encode()
        return r.choice(["", "é", "\x7f", "a\u200bb", "a\x1cb", "a\u00a0b", "a" * 23 + "é" * 3, "b" * 24 + "é", "c" * 30 + "é"]).encode()

    def date(self):
        r = self.r
        if self.odd(0.2):
            return r.choice([(0, 1, 2000), (32, 1, 2000), (1, 0, 2000), (1, 13, 2000), (1, 1, 10000), (1, 1, 65535)])
        if self.chance(0.05):
            return r.choice([(31, 12, 9999), (1, 1, 0)])
        return (r.randint(1, 31), r.randint(1, 12), r.randint(0, 9999))

    def next(self):
        r = self.r
        self.width = r.choice([79, 79, 79, 79, 80, 60, 61, 131, 132, r.randint(60, 132)])
        self.gentle = self.chance(0.25)
        self.strange = not self.gentle and self.chance(0.15)
        truncate, escape = (self.chance(0.3), self.chance(0.3)) if not self.gentle else (False, False)
        self.escape = escape
        t = tables.empty()
        count = r.choice([0, 0, 0, 0, 1, 12, 59, 60, 61, 119, 120, 121])
        t["letters"] = bytes(r.choice(LETTERS) for _ in range(count))
        if count and self.odd(0.1):
            t["letters"] = t["letters"][:-1] + r.choice([b"1", b" ", b"\xff"])
        present = 1 if self.gentle else 0.9
        t["length"] = self.maybe(present, lambda: count if count or self.chance(0.5) else r.choice([0, 7, 99, 100, 123, 99999, 999999999, 4294967295]))
        if t["length"] is not None and self.odd(0.1):
            t["length"] += 1
        t["length"] = None if t["length"] is None else min(t["length"], 4294967295)
        digits = len(str(count if t["length"] is None else t["length"]))
        t["name"] = self.maybe(present, lambda: self.name(digits))
        t["molecule"] = self.maybe(0.85, lambda: r.choice([b"DNA", b"DNA", b"ss-RNA", b"ss-mRNA", b"ss-cRNAx", b"circular"]))
        t["topology"] = r.choice(["linear", "circular", "circular"])
        t["division"] = r.choice([b"SYN", b"SYN", b"SYN", b"longer"])
        if not self.gentle and self.chance(0.1):
            t[r.choice(["molecule", "division"])] = r.choice([b"", b"a b", b"genomic DNA"])
        if self.odd(0.1):
            t[r.choice(["molecule", "division"])] = r.choice(["é", "\x7f", "\n"]).encode()
        t["date"] = self.maybe(present, self.date)
        for k in tables.TEXTS:
            t[k] = self.maybe(0.25, self.header_text)
        if t["source"] is None:
            t["organism"] = None
        for _ in range(r.choice([0, 0, 0, 1, 2])):
            t["references"].append({k: self.header_text() if k in ("text", "title") else self.maybe(0.4, self.header_text) for k in tables.REFERENCE})
        t["comments"] = [self.header_text() for _ in range(r.choice([0, 0, 1, 2]))]
        t["features"] = [self.feature() for _ in range(r.choice([0, 1, 1, 2, 3]))]
        t["contig"] = self.maybe(0.2, lambda: self.location(12, True))
        t["contig_rows"] = tables.contig_rows(t["contig"])
        if t["contig"] is not None and self.chance(0.04):
            t["contig_rows"] = self.wrong_rows(t["contig_rows"])
        return self.width, truncate, escape, t


def distinct(source, count, key):
    seen = set()
    while len(seen) < count:
        item = source.next()
        if key(item) not in seen:
            seen.add(key(item))
            yield item


def slices(seed, count):
    return list(distinct(Slices(seed), count, lambda x: x))


def lettered(seed, count):
    return list(distinct(Lettered("letters %s" % seed), count, lambda x: x))


def writings(seed, count):
    return list(distinct(Writings(seed), count, lambda x: x[:3] + (repr(x[3]),)))
