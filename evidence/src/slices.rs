//! Slices to read from: good records, damaged ones, small heaps of lines, and records one after the other.
use crate::random::Random;
use crate::words::{escaped, letters, put_words, words, KEYS, KINDS, MONTHS};

const HEADER: [&str; 8] = ["DEFINITION", "ACCESSION", "VERSION", "DBLINK", "KEYWORDS", "SOURCE", "REFERENCE", "COMMENT"];

pub struct Slices {
    r: Random,
    /// the record that is being made
    out: Vec<u8>,
    /// its line end
    end: &'static [u8],
}

impl Slices {
    pub fn new(r: Random) -> Slices {
        Slices { r, out: Vec::new(), end: b"\n" }
    }

    /// A slice and two places in it: where a record may begin, and any.
    pub fn next(&mut self) -> (Vec<u8>, [usize; 2]) {
        if self.r.chance(80) {
            let mut text = self.one();
            if self.r.chance(4) {
                let before: &[u8] = self.r.pick(&[b"header line\n" as &[u8], b"\n", b"\r\n", b"a\rb\n", b"\xff\n", b"LOCU\n", b" LOCUS x\n"]);
                text.splice(0..0, before.iter().copied());
            }
            let any = match self.r.below(25) {
                0 => text.len(),
                1 => self.r.pick(&[text.len() + 1, text.len() + 20, usize::MAX]),
                _ => self.r.from_to(0, text.len()),
            };
            return (text, [0, any]);
        }
        let mut text = Vec::new();
        let mut starts = vec![0];
        for _ in 0..self.r.from_to(2, 3) {
            text.extend(self.one());
            starts.push(text.len());
        }
        let start = self.r.pick(&starts);
        let any = self.r.from_to(0, text.len());
        (text, [start, any])
    }

    fn one(&mut self) -> Vec<u8> {
        match self.r.below(100) {
            0..=24 => self.small(),
            25..=59 => self.record(),
            _ => {
                let text = self.record();
                self.damaged(text)
            }
        }
    }

    fn put(&mut self, text: &[u8]) {
        self.out.extend(text);
    }

    fn spaces(&mut self, n: usize) {
        self.out.resize(self.out.len() + n, b' ');
    }

    fn finish_line(&mut self) {
        self.out.extend(self.end);
    }

    fn line(&mut self, text: &[u8]) {
        self.put(text);
        self.finish_line();
    }

    fn locus(&mut self, letters: usize) {
        if self.r.chance(8) {
            let odd = self.r.pick(&["LOCUS", "LOCUS ", "LOCUS\t", "LOCUS       x", "LOCUS  a 5 bp", "LOCUSx 4 bp", "LOCUS x 4 bp DNA SYN 01-JAN-2001",
                "LOCUS\tx\t4\tbp\tDNA\tlinear\tSYN\t1-JAN-2001 \t"]);
            return self.line(odd.as_bytes());
        }
        let r = &mut self.r;
        let length = letters.to_string();
        let date = format!("{:02}-{}-{:04}", r.from_to(1, 31), r.pick(MONTHS), r.from_to(1, 2999));
        let mut tokens: Vec<&str> = vec![r.pick(&["P318", "x", "AB_1", "NC_000001.11", "a~!b"]), &length, "bp", r.pick(&["DNA", "RNA", "ss-RNA", "mRNA", "cRNA"]),
            r.pick(&["linear", "circular"]), r.pick(&["SYN", "BCT", "PRI", "UNK"]), &date];
        if r.chance(25) {
            let odd: [&[&str]; 7] = [&["a:b", "é", "\x7f", "", "bp"],
                &["", "0", "4294967295", "4294967296", "00000000012", "0000000012", "-4", "+4", "12x", "0012"], &["aa", "BP", "bpx", ""],
                &["", "", "é", "linear", "DNA RNA", "a\tb"], &["", "Linear", "linearx", "tandem"], &["", "S1N", "12", "é", "syn", "x.y"],
                &["", "1-JAN-2024", "00-JAN-2024", "32-JAN-2024", "31-FEB-0000", "01-jan-2024", "01-JAN-24", "01-JAN-12345", "001-JAN-2024", "01-JAN-2024x",
                    "01/JAN/2024", "-JAN-2024", "01-JAN--024", "+1-JAN-2024", "01-JAN-+999", "é1-JAN-2024"]];
            match r.below(8) {
                7 => {
                    let at = r.below(8);
                    tokens.insert(at, r.pick(&["more", "12", "linear"]));
                }
                at => tokens[at] = r.pick(odd[at]),
            }
        }
        self.out.extend(b"LOCUS      ");
        for token in tokens.into_iter().filter(|t| !t.is_empty()) {
            if r.chance(10) {
                self.out.extend(r.pick(&[" ", "  ", "\t", " \t"]).as_bytes());
            } else {
                self.out.resize(self.out.len() + r.from_to(1, 6), b' ');
            }
            self.out.extend(token.as_bytes());
        }
        if r.chance(8) {
            self.out.extend(r.pick(&[" ", "\t", "  "]).as_bytes());
        }
        self.finish_line();
    }

    fn field(&mut self, indent: usize, word: &str) {
        let start = self.out.len();
        self.spaces(indent);
        self.put(word.as_bytes());
        let used = indent + word.len();
        let gap = if used < 12 && self.r.chance(90) { 12 - used } else { self.r.from_to(1, 4) };
        self.spaces(gap);
        let indent = self.out.len() - start;
        put_words(&mut self.r, 5, &mut self.out);
        self.finish_line();
        while self.r.chance(25) {
            let n = if self.r.chance(15) { self.r.pick(&[indent - 1, indent + 1, indent + 2, indent.saturating_sub(4)]) } else { indent };
            self.spaces(n);
            put_words(&mut self.r, 4, &mut self.out);
            self.finish_line();
        }
    }

    fn reference(&mut self) {
        self.field(0, "REFERENCE");
        for (indent, word, percent) in [(2, "AUTHORS", 60), (2, "CONSRTM", 30), (2, "TITLE", 92), (2, "JOURNAL", 60), (3, "PUBMED", 40), (2, "REMARK", 40)] {
            if self.r.chance(percent) {
                self.field(indent, word);
            }
        }
    }

    fn header(&mut self) {
        let mut words: Vec<&str> = HEADER.into_iter().filter(|_| self.r.chance(35)).collect();
        if self.r.chance(15) {
            words.push(self.r.pick(&HEADER));
        }
        if self.r.chance(10) {
            self.r.shuffle(&mut words);
        }
        for word in words {
            if word == "REFERENCE" {
                self.reference();
            } else {
                self.field(0, word);
                if word == "SOURCE" && self.r.chance(70) {
                    self.field(2, "ORGANISM");
                }
            }
            if self.r.chance(4) {
                let lost = self.r.pick(&["", "UNKNOWN  x", "  TITLE     lost", "PROJECT     x", "SEGMENT 1", "é", "BASE COUNT  5 a"]);
                self.line(lost.as_bytes());
            }
        }
    }

    fn location(&mut self) -> String {
        let r = &mut self.r;
        let (a, b) = (r.from_to(1, 9), r.from_to(11, 99));
        match r.below(10) {
            0..=3 => format!("{a}..{b}"),
            4..=7 => match r.below(15) {
                0 => format!("complement({a}..{b})"),
                1 => format!("join({a}..{b},20..30)"),
                2 => format!("<{a}..>{b}"),
                3 => a.to_string(),
                4 => format!("J00194.1:{a}..{b}"),
                5 => format!("complement(join(1..3,{a}..{b},>7..9))"),
                6 => {
                    let parts: Vec<String> = (1..r.from_to(2, 40)).step_by(3).map(|i| format!("{}..{}", i, i + 5)).collect();
                    format!("join({})", parts.join(","))
                }
                7 => nested(r),
                k => ["order(1..2,complement(5..9))", "4^5", "gap(10)", "gap()", "gap(unk100)", "bond(1,5)", "one-of(3,7)"][k - 8].to_string(),
            },
            _ => match r.below(22) {
                0 => format!("{a}.5"),
                1 => format!("{a}..{b}x"),
                k => ["5..5", "01..5", "(1..5)", "join(1..2", "a:b:c", "1..", "é", "1 .. 5", "", "1..5 ", "/x", "9..1", "9223372036854775808", "-9223372036854775808",
                    "-9223372036854775808..1", "1^7", "9223372036854775807", "<5", "0", "\x7f"][k - 2].to_string(),
            },
        }
    }

    fn qualifier(&mut self, indent: usize) {
        self.spaces(indent);
        self.out.push(b'/');
        let key = self.r.pick(KEYS);
        self.put(key.as_bytes());
        match self.r.below(10) {
            0 => self.finish_line(),
            1..=3 => {
                let value = self.r.pick(&["1", "11", "(pos:1..3,aa:Met)", "abc", "", "\"abc\"x", "x y", "é", "\"", "\"\"", "\"a", "[1]"]);
                self.out.push(b'=');
                self.line(value.as_bytes());
                while self.r.chance(20) {
                    self.spaces(indent);
                    let more = self.r.pick(&["more", "aa:Trp)", "", " x", "\"", "é"]);
                    self.line(more.as_bytes());
                }
            }
            _ => self.quoted(indent),
        }
    }

    /// The value of a qualifier in quotes, now and then with one too many or too few.
    fn quoted(&mut self, indent: usize) {
        self.put(b"=\"");
        if self.r.chance(6) {
            put_words(&mut self.r, 1, &mut self.out);
            self.line(b"\"");
            self.spaces(indent);
            let after = self.r.pick(&["\"x\"", "\"", "\"\"", "\"x", "\" y\""]);
            return self.line(after.as_bytes());
        }
        let mut parts: Vec<Vec<u8>> = (0..self.r.pick(&[1, 1, 1, 2, 3])).map(|_| escaped(&words(&mut self.r, 4))).collect();
        if self.r.chance(15) {
            let odd = self.r.pick(&["a\"", "\"", "\"\"", "\"b", "\"\"\"\"", "", "a\" x", "/gene"]);
            let at = self.r.from_to(0, parts.len());
            parts.insert(at, odd.into());
        }
        for (i, part) in parts.iter().enumerate() {
            if i > 0 {
                self.finish_line();
                self.spaces(indent);
            }
            self.put(part);
        }
        let close = self.r.pick(&["\"", "\"", "\"", "\"", "\"", "\"", "\" ", "", "\"\"", "\"x"]);
        self.line(close.as_bytes());
    }

    fn feature(&mut self) {
        let start = self.out.len();
        let before = if self.r.chance(90) { 5 } else { self.r.from_to(1, 7) };
        self.spaces(before);
        let kind = if self.r.chance(94) {
            self.r.pick(KINDS)
        } else {
            self.r.pick(&["/x", "é", "aaaaaaaaaaaaaaa", "bbbbbbbbbbbbbbbb", "cccccccccccccccccccc", "\x7f", "x\ty"])
        };
        self.put(kind.as_bytes());
        let used = self.out.len() - start;
        let gap = if self.r.chance(93) { 21usize.saturating_sub(used).max(1) } else { self.r.from_to(1, 3) };
        self.spaces(gap);
        let indent = self.out.len() - start;
        let location = self.location();
        let mut rest = location.as_bytes();
        if rest.len() > 12 && self.r.chance(30) {
            let cut = 8 + rest[8..].iter().position(|&b| b == b',').unwrap_or(0) + 1;
            self.line(&rest[..cut]);
            self.spaces(indent);
            rest = &rest[cut..];
        }
        self.line(rest);
        for _ in 0..self.r.pick(&[0, 0, 1, 1, 2, 3]) {
            self.qualifier(indent);
        }
    }

    fn sequence(&mut self, count: usize) {
        if self.r.chance(95) {
            let after = self.r.pick(&["", "      ", "      ", " \t", " chr 1", "  x"]);
            self.put(b"ORIGIN");
            self.line(after.as_bytes());
        } else {
            self.field(0, "ORIGIN");
        }
        for (i, letter) in letters(&mut self.r, count).into_iter().enumerate() {
            if i % 60 == 0 {
                if i > 0 {
                    self.finish_line();
                }
                self.out.extend(format!("{:>9}", i + 1).bytes());
            }
            if i % 10 == 0 {
                self.out.push(b' ');
            }
            self.out.push(letter);
        }
        if count > 0 {
            self.finish_line();
        }
    }

    fn record(&mut self) -> Vec<u8> {
        self.out = Vec::with_capacity(1024);
        self.end = if self.r.chance(12) { b"\r\n" } else { b"\n" };
        let letters = self.r.pick(&[0, 0, 1, 4, 9, 12, 60, 61, 75]);
        let wrong = !self.r.chance(93) as usize;
        self.locus(letters + wrong);
        self.header();
        if self.r.chance(60) {
            let opening = if self.r.chance(96) {
                "FEATURES             Location/Qualifiers"
            } else {
                self.r.pick(&["FEATURES Location/Qualifiers", "FEATURES\tLocation/Qualifiers", "FEATURES", "FEATURES  Location/Qualifiers "])
            };
            self.line(opening.as_bytes());
            for _ in 0..self.r.pick(&[0, 1, 1, 1, 2, 3]) {
                self.feature();
            }
        }
        if self.r.chance(8) {
            self.field(0, "BASE COUNT");
        }
        if self.r.chance(15) {
            let location = self.location();
            self.put(b"CONTIG      ");
            self.line(location.as_bytes());
            if self.r.chance(30) {
                self.spaces(12);
                let more = self.r.pick(&["x", ",5..6)", "", " "]);
                self.line(more.as_bytes());
            }
        }
        if letters > 0 || self.r.chance(50) {
            self.sequence(letters);
        }
        self.line(b"//");
        if self.r.chance(15) {
            let after = self.r.pick(&["\n", "\r\n", "\n\n\r\n", " ", "\r", "\nx", "\n\r"]);
            self.put(after.as_bytes());
        }
        std::mem::take(&mut self.out)
    }

    /// A few lines, the last one often cut.
    fn small(&mut self) -> Vec<u8> {
        const BAG: &[&[u8]] = &[b"LOCUS ", b"LOCUS       x 4 bp DNA linear SYN 01-JAN-2001", b"DEFINITION  a", b"            b", b"  ORGANISM  o", b"SOURCE s",
            b"       t", b"//", b"FEATURES  Location/Qualifiers", b" g  1..2", b"    /k", b"    /k=\"v\"", b"    /k=v", b"    /k=\"a\"\"", b"    \"b\"", b"    more",
            b"    /translation=\"MK", b"    LV\"", b"ORIGIN", b"ORIGIN x", b"acgt", b"1 acg t", b"acgx", b"1 e-", b"-q", b"z/", b"CONTIG 1..5", b"       6", b"BASE COUNT 1", b"REFERENCE 1", b"  TITLE t",
            b"   PUBMED 5", b"          6", b"COMMENT c", b"", b" ", "é".as_bytes(), b"\xff", b"\r", b"KEYWORDS", b"x\ry", b"/", b"    \xc3", b"    \xa9x", b"\t",
            b"    /k=\"\xc3", b"    /=", b"    /k=="];
        let r = &mut self.r;
        if r.chance(3) {
            let mut text = b"LOCUS \nFEATURES  Location/Qualifiers\n g  1..2\n".to_vec();
            text.extend(r.pick(&["", "    /k=v\n", "    /k=\"v\"\n", "    /k=\"v\n"]).as_bytes());
            text.extend(b"    ");
            text.push(r.from_to(126, 255) as u8);
            return text;
        }
        let mut lines: Vec<&[u8]> = Vec::new();
        if r.chance(90) {
            lines.push(b"LOCUS ");
        }
        if r.chance(60) {
            lines.extend([b"FEATURES  Location/Qualifiers" as &[u8], b" g  1..2"]);
        }
        for _ in 0..r.from_to(0, 6) {
            lines.push(r.pick(BAG));
        }
        if r.chance(50) {
            lines.push(b"//");
        }
        let mut text = Vec::new();
        for line in lines {
            text.extend(line);
            text.extend(if r.chance(5) { b"\r\n" as &[u8] } else { b"\n" });
        }
        if r.chance(40) {
            text.truncate(text.len() - r.from_to(0, text.len().min(6)));
        }
        if r.chance(15) {
            text.extend(r.pick(&[b"\r" as &[u8], b"\xe9", b" ", b"/", b"\"", b"    \xe9"]));
        }
        text
    }

    fn damaged(&mut self, mut text: Vec<u8>) -> Vec<u8> {
        for _ in 0..self.r.from_to(1, 3) {
            let r = &mut self.r;
            let at = r.from_to(0, text.len());
            match r.below(17) {
                0 => text.truncate(at),
                1 | 2 => {
                    let new: &[u8] = r.pick(&[b"\r" as &[u8], b"\n", b"\r\n", b"\t", b" ", b"\"", b"\"\"", b"/", b"//", b"=", b"\0", b"\xff", b"\xc3\xa9", b"\xc3", b"\x80", b":", b"7"]);
                    text.splice(at..at, new.iter().copied());
                }
                3 if at < text.len() => text[at] = r.pick(&[0, 9, 10, 13, 32, 34, 47, 61, 127, 128, 200, 255]),
                4 => {
                    let end = text.len().min(at + r.from_to(1, 6));
                    text.drain(at..end);
                }
                14.. => self.damage_letters(&mut text),
                kind => text = self.damaged_line(kind, &text),
            }
        }
        text
    }

    /// Behind the last ORIGIN a letter, most often one without a code, a byte that ends the letters or cannot stand there, or the end.
    fn damage_letters(&mut self, text: &mut Vec<u8>) {
        let Some(origin) = text.windows(6).rposition(|w| w == b"ORIGIN") else {
            return;
        };
        let r = &mut self.r;
        let at = r.from_to(origin + 6, text.len());
        if r.chance(20) {
            text.truncate(at);
        }
        let new = r.pick(&[b"e" as &[u8], b"X", b"j", b"N", b"-", b"*", b"\t", b"e-", b"-e", b"L/", b"/l", b"e//", b"\nq", b"x\r\n", b"z\xff", b"\r", b""]);
        text.splice(at..at, new.iter().copied());
    }

    fn damaged_line(&mut self, kind: usize, text: &[u8]) -> Vec<u8> {
        let r = &mut self.r;
        let mut lines: Vec<Vec<u8>> = text.split(|&b| b == b'\n').map(<[u8]>::to_vec).collect();
        let (i, j) = (r.below(lines.len()), r.below(lines.len()));
        match kind {
            5 => lines.insert(i, lines[i].clone()),
            6 => lines.swap(i, j),
            7 => {
                lines.remove(i);
            }
            8 => {
                let n = r.from_to(1, 3);
                lines[i].splice(0..0, std::iter::repeat(b' ').take(n));
            }
            9 => {
                let n = lines[i].len().min(r.from_to(1, 3));
                lines[i].drain(..n);
            }
            10 => lines[i].extend(r.pick(&[b"\r" as &[u8], b" ", b"\t", b"\"", b"\r\r", b"\xff"])),
            11 => replace(&mut lines[i], b'"', r.pick(&["", "\"\"", "'"]), 1),
            12 => replace(&mut lines[i], b' ', r.pick(&["\t", "", "  "]), r.pick(&[1, 99])),
            _ => {
                let new = r.pick(&["//", "LOCUS x", "", "/", "FEATURES             Location/Qualifiers", "ORIGIN", "DEFINITION  again"]);
                lines.insert(i, new.into());
            }
        }
        lines.join(&b'\n')
    }
}

/// The first `most` bytes `old` of a line become `new`.
fn replace(line: &mut Vec<u8>, old: u8, new: &str, most: usize) {
    let mut left = most;
    let mut out = Vec::with_capacity(line.len() + most);
    for &b in line.iter() {
        if b == old && left > 0 {
            left -= 1;
            out.extend(new.as_bytes());
        } else {
            out.push(b);
        }
    }
    *line = out;
}

/// Words in one another, up to two more than may be open at once, now and then with a fault in them.
fn nested(r: &mut Random) -> String {
    let depth = r.pick(&[2, 3, 15, 16, 16, 17, 17, 18]);
    let mut out = String::new();
    for _ in 0..depth {
        out += r.pick(&["join(", "order(", "complement("]);
        if r.chance(4) {
            out += r.pick(&["0", "1", "1,", "x"]);
        }
    }
    out += r.pick(&["1..5", "7", "A.1:<3..>9", "4^5", "01", ""]);
    out + &")".repeat(if r.chance(90) { depth } else { r.below(depth) })
}
