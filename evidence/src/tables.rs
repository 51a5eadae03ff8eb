//! Tables to write: texts that end near the line's end, and now and then something that cannot be laid out or is not kept.
use crate::random::Random;
use crate::rules::{BARE, COMMA};
use crate::table::{Feature, Reference, Table, Text};
use crate::words::{letters, words, KINDS};

pub struct Tables {
    pub r: Random,
    width: usize,
    /// keeps all rules
    gentle: bool,
    /// breaks number 11 somewhere, perhaps
    strange: bool,
    escape: bool,
}

/// A table and how to write it.
pub struct Job {
    pub table: Table,
    pub width: usize,
    pub truncate: bool,
    pub escape: bool,
}

impl Tables {
    pub fn new(r: Random) -> Tables {
        Tables { r, width: 79, gentle: false, strange: false, escape: false }
    }

    /// Any table.
    pub fn next(&mut self) -> Job {
        let gentle = self.r.chance(25);
        self.make(gentle)
    }

    /// A table that keeps the rules.
    pub fn next_kept(&mut self) -> Job {
        self.make(true)
    }

    fn make(&mut self, gentle: bool) -> Job {
        self.width = match self.r.below(10) {
            0..=3 => 79,
            4..=8 => self.r.pick(&[80, 60, 61, 131, 132]),
            _ => self.r.from_to(60, 132),
        };
        self.gentle = gentle;
        self.strange = !gentle && self.r.chance(15);
        self.escape = !gentle && self.r.chance(30);
        let truncate = !gentle && self.r.chance(30);
        Job { table: self.table(), width: self.width, truncate, escape: self.escape }
    }

    /// Something that cannot be laid out, only in the strange table.
    fn odd(&mut self, percent: usize) -> bool {
        self.strange && self.r.chance(percent)
    }

    fn maybe<T>(&mut self, percent: usize, make: impl FnOnce(&mut Self) -> T) -> Option<T> {
        self.r.chance(percent).then(|| make(self))
    }

    /// Words, or lines that end at the width, one before or one after it, with a special character there.
    fn text(&mut self, indent: usize, used: usize) -> Text {
        if self.gentle {
            return self.gentle_text(indent, used);
        }
        if self.r.chance(45) {
            return words(&mut self.r, 8);
        }
        if indent == 21 && self.r.chance(40) {
            return self.quote_at_end(used);
        }
        let mut out = Vec::new();
        let mut column = used;
        for _ in 0..self.r.pick(&[1, 1, 2, 3]) {
            let room = (self.width + self.r.pick(&[0, 1, 2, 2, 3, 3, 4, 5])).saturating_sub(column + 3);
            self.put_filling(room, &mut out);
            out.extend(self.r.pick(&["", " ", "\"", "\n", "é", "€", "𝄞", "\"\"", " \"", "\" ", "\n\n", "  ", "\"\n", "\t", "z"]).as_bytes());
            column = indent;
        }
        out.extend(self.r.pick(&["", "", "end", " end", "\n"]).as_bytes());
        out
    }

    /// Letters, now and then of several bytes or with something else between them.
    fn put_filling(&mut self, room: usize, out: &mut Text) {
        let end = out.len() + room;
        let other = if self.r.chance(40) && room > 4 { out.len() + self.r.below(room) } else { end };
        while out.len() < end {
            let next = match () {
                _ if out.len() == other => self.r.pick(&[" ", "\"", "  ", " \""]),
                _ if self.r.chance(5) => self.r.pick(&["a", "b", "é", "€"]),
                _ => "x",
            };
            out.extend(if out.len() + next.len() <= end { next } else { "x" }.as_bytes());
        }
    }

    /// A quote near the end of the first line, most often where one column is left.
    fn quote_at_end(&mut self, used: usize) -> Text {
        let room = self.width.saturating_sub(used + self.r.pick(&[1, 1, 1, 1, 0, 2, 3]));
        let mut out = vec![b'x'; room];
        if room > 0 && self.r.chance(50) {
            out[self.r.below(room)] = b' ';
        }
        out.push(b'"');
        match self.r.below(10) {
            0 => out.resize(out.len() + 60, b'x'),
            k => out.extend(["", "", " ", "\n", "x", " y", "\nz", "\"", "é"][k - 1].as_bytes()),
        }
        out
    }

    /// Lines that are shorter than the width, most of them by one.
    fn gentle_text(&mut self, indent: usize, used: usize) -> Text {
        let mut lines = Vec::new();
        let mut column = used;
        for _ in 0..self.r.pick(&[1, 1, 2, 3]) {
            let room = self.width.saturating_sub(column + self.r.pick(&[1, 1, 1, 2, 30]));
            let line = match self.r.below(6) {
                0 => vec![b'x'; room],
                1 => b"word ".iter().copied().cycle().take(room).collect(),
                2 => b"\"\"".to_vec(),
                3 => words(&mut self.r, 4),
                4 => b"a\"".repeat(room / 3),
                _ => "é".repeat(room / 2).into_bytes(),
            };
            let columns = line.len() + line.iter().filter(|&&b| b == b'"').count();
            lines.push(if columns <= room { line } else { vec![b'x'; room] });
            column = indent;
        }
        let text = lines.join(&b'\n');
        let start = text.iter().position(|&b| b != b' ').unwrap_or(text.len());
        let end = text.iter().rposition(|&b| b != b'\n').map_or(start, |i| i + 1);
        text[start..end.max(start)].to_vec()
    }

    fn header_text(&mut self) -> Text {
        if self.odd(15) {
            return self.r.pick(&[b"\xff" as &[u8], b"a\xc3", b"\xe2\x82", b"\xed\xa0\x80"]).to_vec();
        }
        self.text(12, 12)
    }

    /// A location, mostly one that has a reading, of one line or several; `used` columns stand before it.
    fn location(&mut self, used: usize, gaps: bool) -> Text {
        if self.odd(15) {
            return self.r.pick(&["", "a b", "é", "\x7f", "/x", "01..2", "gap(5)", "join(1,2", "1..<5", "A:1", "5.9"]).into();
        }
        let more = self.r.pick(&[0, 1, 2, 3, 4, 32, 92]);
        let room = (self.width + more).saturating_sub(used + 2).max(1);
        let leaf = |r: &mut Random| match r.below(if gaps { 8 } else { 7 }) {
            0 => format!("{}^{}", r.from_to(1, 99), r.from_to(1, 99)),
            1 => format!("<{}..>{}", r.from_to(1, 99), r.from_to(1, 9999)),
            2 => format!("{}_{}.{}:{}", r.pick(&["A", "NC", "9"]), r.from_to(1, 999999), r.from_to(0, 9), r.from_to(1, 99)),
            3 => format!("complement({})", r.from_to(1, 4294967295)),
            7 => format!("gap({})", r.pick(&["", "100", "unk100", "a/b,c"])),
            _ => format!("{}..{}", r.from_to(1, 99), r.from_to(100, 9999)),
        };
        if self.r.chance(30) {
            return leaf(&mut self.r).into_bytes();
        }
        if self.r.chance(3) {
            let depth = self.r.pick(&[15, 16, if self.gentle { 16 } else { 17 }]);
            return format!("{}7{}", "join(".repeat(depth), ")".repeat(depth)).into_bytes();
        }
        let mut out = self.r.pick(&["join(", "order(", "complement(join("]).to_string();
        let brackets = out.matches('(').count();
        loop {
            out += &leaf(&mut self.r);
            if out.len() >= room {
                break;
            }
            out.push(',');
        }
        (out + &")".repeat(brackets)).into_bytes()
    }

    /// A text that is broken after commas.
    fn commas(&mut self, used: usize) -> Text {
        if self.odd(15) {
            return self.r.pick(&["", "a b", "é", "\x7f", "/x"]).into();
        }
        let more = self.r.pick(&[0, 1, 2, 3, 4, 32, 92]);
        let room = (self.width + more).saturating_sub(used + 2).max(1);
        let kind = self.r.below(5);
        match kind {
            0 => format!("{}..{}", self.r.from_to(1, 9), self.r.from_to(10, 99)).into_bytes(),
            1 => vec![b'x'; room],
            2 => vec![b','; room],
            _ => {
                let mut out = b"join(".to_vec();
                while out.len() < room.max(6) {
                    out.extend(format!("{}..{},", self.r.from_to(1, 99), self.r.from_to(100, 9999)).bytes());
                }
                if kind == 3 {
                    out.pop();
                    out.push(b')');
                } else {
                    out.truncate(room);
                }
                out
            }
        }
    }

    fn key(&mut self) -> Text {
        if self.odd(20) {
            return match self.r.below(5) {
                0 => vec![b'k'; self.width - 24],
                k => ["", "a=b", "a b", "é"][k - 1].into(),
            };
        }
        if !self.gentle && self.r.chance(2) {
            return vec![b'k'; self.width - 25];
        }
        match self.r.below(19) {
            k @ 0..=5 => ["note", "note", "gene", "translation", "pseudo", "k"][k].into(),
            k @ 6..=7 => COMMA[k - 6].to_vec(),
            k => BARE[k - 8].to_vec(),
        }
    }

    fn qualifier(&mut self) -> (Text, Option<Text>) {
        let key = self.key();
        if self.r.chance(10) {
            return (key, None);
        }
        let bare = BARE.contains(&&key[..]);
        let value = if COMMA.contains(&&key[..]) {
            self.commas(23 + key.len())
        } else if key == b"translation" && (self.gentle || self.r.chance(60)) {
            (0..self.r.from_to(0, 200)).map(|_| self.r.pick(b"MKLVAG*")).collect()
        } else if self.odd(10) {
            b"a\xff".to_vec()
        } else if self.gentle && bare {
            vec![b'7'; self.r.pick(&[0, 1, self.width - 24 - key.len()])]
        } else {
            self.text(21, 23 + key.len() + !bare as usize)
        };
        (key, Some(value))
    }

    fn kind(&mut self) -> Text {
        if self.odd(20) {
            return match self.r.below(5) {
                0 => vec![b'f'; self.width - 6],
                k => ["", "/x", "a b", "é"][k - 1].into(),
            };
        }
        if self.r.chance(12) {
            let length = if self.gentle { self.r.pick(&[14, 15]) } else { self.r.pick(&[16, 17, self.width - 7]) };
            return vec![b'c'; length];
        }
        self.r.pick(KINDS).into()
    }

    fn feature(&mut self) -> Feature {
        let kind = self.kind();
        let location = self.location(21.max(6 + kind.len()), false);
        let qualifiers = (0..self.r.pick(&[0, 1, 1, 2, 3])).map(|_| self.qualifier()).collect();
        Feature { kind, location, qualifiers }
    }

    fn reference(&mut self) -> Reference {
        let mut reference = Reference { text: self.header_text(), title: self.header_text(), ..Reference::default() };
        for text in reference.optional() {
            *text = self.maybe(40, Self::header_text);
        }
        if let (true, Some(pubmed)) = (self.gentle, &mut reference.pubmed) {
            pubmed.retain(|&b| b != b'\n');
            pubmed.truncate(5);
            pubmed.retain(u8::is_ascii);
        }
        reference
    }

    fn name(&mut self, digits: usize) -> Text {
        match self.r.below(10) {
            0..=4 => self.r.pick(&["P318", "x", "NC_000001.11"]).into(),
            k if k < 8 || self.gentle => vec![b'n'; (26usize + self.r.pick(&[0, 1, 2, 3, 10])).saturating_sub(digits).max(1)],
            _ if self.odd(50) => self.r.pick(&["", "é", "\x7f", "a\u{200b}b", "a\x1cb", "a\u{a0}b", "aaaaaaaaaaaaaaaaaaaaaaaééé", "bbbbbbbbbbbbbbbbbbbbbbbbé",
                "ccccccccccccccccccccccccccccccé"]).into(),
            _ if self.escape && self.r.chance(50) => self.r.pick(&["a\u{a0}b", "a\tb", "a b\u{3000}c", "a\u{2028}b\u{1680}c\u{205f}d\u{85}e"]).into(),
            _ => self.r.pick(&["a b", " a  b ", " a", "a:b", "abcdefgh ijklmnop qrstuvwx yz"]).into(),
        }
    }

    fn date(&mut self) -> [usize; 3] {
        if self.odd(20) {
            return self.r.pick(&[[0, 1, 2000], [32, 1, 2000], [1, 0, 2000], [1, 13, 2000], [1, 1, 10000], [1, 1, 65535]]);
        }
        if self.r.chance(5) {
            return self.r.pick(&[[31, 12, 9999], [1, 1, 0]]);
        }
        [self.r.from_to(1, 31), self.r.from_to(1, 12), self.r.from_to(0, 9999)]
    }

    fn locus(&mut self, t: &mut Table) {
        let present = if self.gentle { 100 } else { 90 };
        let count = self.r.pick(&[0, 0, 0, 0, 1, 12, 59, 60, 61, 119, 120, 121]);
        t.letters = letters(&mut self.r, count);
        if count > 0 && self.odd(10) {
            t.letters[count - 1] = self.r.pick(b"1 \xff");
        }
        t.length = self.maybe(present, |s| {
            let length = if count > 0 || s.r.chance(50) { count } else { s.r.pick(&[0, 7, 99, 100, 123, 99999, 999999999, 4294967294]) };
            length + s.odd(10) as usize
        });
        let digits = t.length.unwrap_or(count).to_string().len();
        t.name = self.maybe(present, |s| s.name(digits));
        t.molecule = self.maybe(85, |s| s.r.pick(&["DNA", "DNA", "ss-RNA", "ss-mRNA", "ss-cRNAx", "circular"]).into());
        t.circular = self.r.chance(67);
        t.division = self.r.pick(&["SYN", "SYN", "SYN", "longer"]).into();
        let odd = if self.odd(10) {
            Some(self.r.pick(&["é", "\x7f", "\n"]))
        } else if !self.gentle && self.r.chance(10) {
            Some(self.r.pick(&["", "a b", "genomic DNA"]))
        } else {
            None
        };
        match odd {
            Some(odd) if self.r.chance(50) => t.molecule = Some(odd.into()),
            Some(odd) => t.division = odd.into(),
            None => {}
        }
        t.date = self.maybe(present, Self::date);
    }

    fn table(&mut self) -> Table {
        let mut t = Table::default();
        self.locus(&mut t);
        for text in t.singles_mut() {
            *text = self.maybe(25, Self::header_text);
        }
        if t.source.is_none() {
            t.organism = None;
        }
        t.references = (0..self.r.pick(&[0, 0, 0, 1, 2])).map(|_| self.reference()).collect();
        t.comments = (0..self.r.pick(&[0, 0, 1, 2])).map(|_| self.header_text()).collect();
        t.features = (0..self.r.pick(&[0, 1, 1, 2, 3])).map(|_| self.feature()).collect();
        t.contig = self.maybe(20, |s| s.location(12, true));
        t
    }
}
