"""Makes location texts from a random source: good ones of all forms, some nested deep, and damaged ones."""

WORDS = ["complement(", "join(", "order("]
ACCESSIONS = ["A.1:", "J00194.1:", "NC_000001.11:", "9.1:", "_.0:", "join.1:", "gap.7:", "x.007:"]
GAPS = ["gap()", "gap(5)", "gap(unk100)", "gap(x)", "gap(-0)", "gap(1,2)", "gap(a/b)"]
EDGES = [1, 2, 9, 10, 99, 4294967294, 4294967295]
ODD_BASES = ["0", "01", "00", "4294967296", "9999999999", "10000000000", "9223372036854775807", "9223372036854775808", "+1", "-1", "-9223372036854775808", "", "x", "<5", ">5"]
ODD = ["x", "A.1", "A:1", "A-B.1:1", "A.1:", ".1:5", "A.:5", "A.x:5", "A.1:B.2:5", "bond(1,2)", "one-of(1,2)", "gap(5)", "gap(", "gap(1", "gap((5))", "gap(é)", "(1.5)..7", "(1)",
       "Join(1)", "join", "join()", "join(1,)", "join(,1)", "join(1,,2)", "join (1)", "complement(1,2)", "complement()", "A.1:join(1,2)", "A.1:gap(5)", "A.1:complement(1)",
       "5.9", "1...5", "1..", "..5", "1^", "^1", "1..2..3", "1^2^3", "1^2..3", "1..2^3", "<1^2", "<1", ">1..5", "1..<5", "1..>>5", "<<1..5", "1,2", "1)", "1 ", " 1", "1 .. 5",
       "é", "\x7f", ":", "/", "1/2", "9..1", "5..5", "1^7", "5^9", "<5..>5", "[1..5]", "join(1..2", "join(1,2..<5)", "complement(join(1..3,5..x))", "order(1,join)"]


SCRAPS = ["1", "2", "0", "9", "12", ".", "..", "^", "<", ">", ",", "(", ")", ":", "_", "A", "A.1:", "9.1:", "-", "+", "/", " ", "x", "join(", "order(", "complement(", "gap(", "bond(", "one-of("]


class LocationTexts:
    def __init__(self, r):
        self.r = r

    def chance(self, p):
        return self.r.random() < p

    def base(self):
        return str(self.r.choice(EDGES) if self.chance(0.2) else self.r.randint(1, 120))

    def leaf(self, contig):
        r = self.r
        if contig and self.chance(0.3):
            return r.choice(GAPS)
        accession = r.choice(ACCESSIONS) if self.chance(0.5 if contig else 0.15) else ""
        kind = r.randrange(8)
        if kind < 5:
            return accession + r.choice(["", "", "<"]) + self.base() + ".." + r.choice(["", "", ">"]) + self.base()
        return accession + (self.base() if kind < 7 else self.base() + "^" + self.base())

    def good(self, contig, words):
        """A text in which up to so many words are open at once."""
        r = self.r
        if not words or self.chance(0.45):
            return self.leaf(contig)
        word = r.choice(WORDS)
        count = 1 if word == "complement(" else r.choice([1, 1, 2, 2, 3, 5])
        return word + ",".join(self.good(contig, words - 1) for _ in range(count)) + ")"

    def deep(self, contig):
        """Words that open one in the other, around sixteen of them, now and then with members before the inner one."""
        r = self.r
        text, count = "", r.choice([15, 16, 16, 17, 17, 17, 18])
        for _ in range(count):
            word = r.choice(WORDS)
            text += word
            while word != "complement(" and self.chance(0.1):
                text += self.good(contig, r.choice([0, 0, 1, 2])) + ","
        return text + self.leaf(contig) + ")" * count

    def damaged(self, text):
        r = self.r
        for _ in range(r.choice([1, 1, 2])):
            at = r.randint(0, len(text))
            kind = r.randrange(6)
            if kind == 0:
                text = text[:at] + r.choice(list("<>^.,()_:/ 0159A~\t\x7f\x1f") + ["..", "é", "join(", "complement(", "A.1:", "gap(1)", "0"]) + text[at:]
            elif kind == 1:
                text = text[:at] + text[at + 1:]
            elif kind == 2:
                text = text[:at] + r.choice("<>^.,():0x") + text[at + 1:]
            elif kind == 3:
                text = text[:at]
            elif kind == 4:
                text = text[:at] + r.choice(ODD_BASES) + text[at:].lstrip("0123456789")
            else:
                text = text.replace(r.choice(["join", "order", "complement", "..", "(", ","]), r.choice(["Join", "bond", "one-of", "gap", ".", "^", "", "((", ",,"]), 1)
        return text

    def text(self, contig):
        r = self.r
        kind = r.random()
        if kind < 0.4:
            return self.good(contig, r.choice([0, 1, 1, 2, 4]))
        if kind < 0.55:
            return self.deep(contig)
        if kind < 0.65:
            return self.damaged(self.deep(contig))
        if kind < 0.75:
            return "".join(r.choice(SCRAPS) for _ in range(r.randint(1, 9)))
        return r.choice(ODD) if kind < 0.8 else self.damaged(self.good(contig, r.choice([0, 1, 2, 3])))
