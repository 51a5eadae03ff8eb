//! Document 02's reading of a location (ticket 1), written once more in Rust: its rows, or that there are none, or that a seventeenth word opens.

/// Seven numbers: form, marks, from, to, start, length, inside.
pub type Row = [usize; 7];

#[derive(Clone, PartialEq, Debug)]
pub enum Reading {
    One(Vec<Row>),
    None,
    TooDeep,
}

/// What a text, whole, is read as; gap( ) is a location where `gaps`, which is in CONTIG.
pub fn reading(text: &[u8], gaps: bool) -> Reading {
    let mut reader = Reader { text, at: 0, gaps, rows: Vec::new() };
    match reader.location(16) {
        Ok(()) if reader.at == text.len() => Reading::One(reader.rows),
        Err(Stop::Deep) => Reading::TooDeep,
        _ => Reading::None,
    }
}

/// The rows of a text's reading; none where it has none.
pub fn rows(text: &[u8], gaps: bool) -> Vec<Row> {
    match reading(text, gaps) {
        Reading::One(rows) => rows,
        _ => Vec::new(),
    }
}

enum Stop {
    Fault,
    Deep,
}

struct Reader<'a> {
    text: &'a [u8],
    at: usize,
    gaps: bool,
    rows: Vec<Row>,
}

impl Reader<'_> {
    fn past(&mut self, word: &str) -> bool {
        let stands = self.text[self.at..].starts_with(word.as_bytes());
        self.at += if stands { word.len() } else { 0 };
        stands
    }

    fn need(&mut self, word: &str) -> Result<(), Stop> {
        self.past(word).then_some(()).ok_or(Stop::Fault)
    }

    /// How many bytes from here on pass.
    fn run(&self, passes: impl Fn(u8) -> bool) -> usize {
        self.text[self.at..].iter().take_while(|&&b| passes(b)).count()
    }

    fn location(&mut self, left: usize) -> Result<(), Stop> {
        for (form, word) in [(4, "complement("), (5, "join("), (6, "order(")] {
            if self.past(word) {
                let left = left.checked_sub(1).ok_or(Stop::Deep)?;
                let first = self.rows.len();
                self.location(left)?;
                while form != 4 && self.past(",") {
                    self.location(left)?;
                }
                self.need(")")?;
                self.rows.push([form, 0, 0, 0, 0, 0, self.rows.len() - first]);
                return Ok(());
            }
        }
        if self.gaps && self.past("gap(") {
            let (start, length) = (self.at, self.run(|b| (33..=126).contains(&b) && b != b'(' && b != b')'));
            self.at += length;
            self.need(")")?;
            self.rows.push([7, 0, 0, 0, start, length, 0]);
            return Ok(());
        }
        self.leaf()
    }

    fn leaf(&mut self) -> Result<(), Stop> {
        let [start, length] = self.accession().unwrap_or([0, 0]);
        let before = self.past("<");
        let from = self.number()?;
        let row = if self.past("..") {
            let after = self.past(">");
            [2, before as usize + 2 * after as usize, from, self.number()?, start, length, 0]
        } else if before {
            return Err(Stop::Fault);
        } else if self.past("^") {
            [3, 0, from, self.number()?, start, length, 0]
        } else {
            [1, 0, from, from, start, length, 0]
        };
        self.rows.push(row);
        Ok(())
    }

    /// Past an accession, where one stands: its place and its length with the version.
    fn accession(&mut self) -> Option<[usize; 2]> {
        let start = self.at;
        let name = self.run(|b| b.is_ascii_alphanumeric() || b == b'_');
        self.at += name;
        let dot = self.past(".");
        let version = self.run(|b| b.is_ascii_digit());
        self.at += version;
        let length = self.at - start;
        if name > 0 && dot && version > 0 && self.past(":") {
            return Some([start, length]);
        }
        self.at = start;
        None
    }

    fn number(&mut self) -> Result<usize, Stop> {
        let digits = &self.text[self.at..self.at + self.run(|b| b.is_ascii_digit())];
        self.at += digits.len();
        let n: u32 = std::str::from_utf8(digits).ok().and_then(|d| d.parse().ok()).ok_or(Stop::Fault)?;
        if digits[0] == b'0' { Err(Stop::Fault) } else { Ok(n as usize) }
    }
}
