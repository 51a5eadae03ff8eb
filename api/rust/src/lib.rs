//! GenBank records, read and written by proved code.
//!
//! [`records`] goes through a file, [`Record::write`] and [`Record::keep`] give the bytes of a record. What the keeping writer gives
//! reads back as the same record, if it is at most 16,777,216 bytes long, which is all that reading takes; where a keeping rule is broken, it
//! refuses with number 13. [`Record::read_strict`] and [`Records::strict`] refuse with number 16 letters that are no IUPAC codes for bases, as a pasted protein has.
//!
//! ```no_run
//! let file = std::fs::read("plasmids.gb").unwrap();
//! for record in vilggodan::records(&file) {
//!     let record = record.unwrap();
//!     for feature in record.features() {
//!         println!("{}", String::from_utf8_lossy(feature.kind));
//!     }
//! }
//! ```

mod location;
mod raw;

pub use location::{Location, Stretch};

use std::fmt;

/// Why a record was not read or not written. It is printed as `line 12: 7, this line is no feature, qualifier, section or //`, or without the line where it has none.
#[derive(Clone, Copy, Debug, PartialEq, Eq)]
pub struct Error {
    /// The number of the answer, 1 to 14 or 16.
    pub number: usize,
    /// The same in words.
    pub reason: &'static str,
    /// The line that it is about. Refusals to write have none, nor have 1 and 3.
    pub line: Option<Line>,
}

/// A line of the input.
#[derive(Clone, Copy, Debug, PartialEq, Eq)]
pub struct Line {
    /// Its number. [`Record::read`] counts from 1 at the place that it was given, [`records`] from 1 at the file's first byte.
    pub number: usize,
    /// The offset in the input of its first byte.
    pub offset: usize,
}

impl Line {
    /// The line of a file that begins at an offset, counted from the file's first byte.
    pub fn of_file(s: &[u8], offset: usize) -> Line {
        let number = 1 + s[..offset].iter().filter(|&&b| b == b'\n').count();
        Line { number, offset }
    }

    /// Its bytes, without the LF, or CR and LF, that end it.
    pub fn bytes<'a>(&self, s: &'a [u8]) -> &'a [u8] {
        let rest = &s[self.offset..];
        match rest.iter().position(|&b| b == b'\n') {
            Some(end) => rest[..end].strip_suffix(b"\r").unwrap_or(&rest[..end]),
            None => rest,
        }
    }
}

impl Error {
    fn of(number: usize, line: Option<Line>) -> Error {
        let reason = match number {
            1 => "the place is the end of the input: no more records",
            2 => "the input ends inside the record",
            3 => "the place is beyond the input, or the input is longer than 16,777,216 bytes",
            4 => "no LOCUS line",
            5 => "a second DEFINITION",
            6 => "the room is too small",
            7 => "this line is no feature, qualifier, section or //",
            8 => "the letters are not as many as LOCUS says",
            9 => "a byte that cannot stand among the letters",
            10 => "a text or row of the table lies outside its room, or location rows are not those of their text",
            11 => "a text, date or sequence that cannot be laid out",
            12 => "the width is not 60 to 132",
            13 => "a keeping rule is broken: it may not read back the same",
            14 => "a location opens more than 16 words of complement, join and order",
            _ => "a letter that is no IUPAC code for bases",
        };
        Error { number, reason, line }
    }
}

impl fmt::Display for Error {
    fn fmt(&self, f: &mut fmt::Formatter<'_>) -> fmt::Result {
        if let Some(line) = self.line {
            write!(f, "line {}: ", line.number)?;
        }
        write!(f, "{}, {}", self.number, self.reason)
    }
}

impl std::error::Error for Error {}

/// How a record is laid out.
#[derive(Clone, Copy, Debug, PartialEq, Eq)]
pub struct Layout {
    /// 60 to 132; any other width is refused with number 12.
    pub width: usize,
    /// Cuts a name and leaves out a molecule type that are too long for the LOCUS line.
    pub truncate: bool,
    /// Joins the words of a name by `_`.
    pub escape: bool,
}

impl Default for Layout {
    /// Width 80, nothing cut and nothing joined.
    fn default() -> Layout {
        Layout {
            width: 80,
            truncate: false,
            escape: false,
        }
    }
}

#[derive(Clone, Copy, Debug, PartialEq, Eq)]
pub struct Date {
    pub day: u8,
    pub month: u8,
    pub year: u16,
}

/// A literature reference.
#[derive(Clone, Copy, Debug, PartialEq, Eq)]
pub struct Reference<'a> {
    pub text: &'a [u8],
    pub authors: Option<&'a [u8]>,
    pub consrtm: Option<&'a [u8]>,
    pub title: &'a [u8],
    pub journal: Option<&'a [u8]>,
    pub pubmed: Option<&'a [u8]>,
    pub remark: Option<&'a [u8]>,
}

/// A feature: its kind, where it lies, and its qualifiers. Any kind is read that has one or more bytes 33 to 126 and does not begin with `/`: there is no list of allowed kinds.
#[derive(Clone, Copy)]
pub struct Feature<'a> {
    pub kind: &'a [u8],
    pub location: &'a [u8],
    record: &'a Record,
    first: usize,
    count: usize,
    row: usize,
    rows: usize,
}

impl<'a> Feature<'a> {
    pub fn qualifiers(&self) -> impl Iterator<Item = Qualifier<'a>> {
        let record = self.record;
        (self.first..self.first + self.count).map(move |i| record.qualifier(4 * i))
    }

    /// The location as a tree.
    pub fn tree(&self) -> Location<'a> {
        self.record.location(self.location, self.row, self.rows)
    }
}

/// A key with a value or without one. Any key is read that has one or more bytes but `=`, CR and LF and is UTF-8: there is no list of allowed keys.
#[derive(Clone, Copy, Debug, PartialEq, Eq)]
pub struct Qualifier<'a> {
    pub key: &'a [u8],
    pub value: Option<&'a [u8]>,
}

/// A record in rooms of its own, which grow as reading needs it.
#[derive(Clone, Debug)]
pub struct Record {
    texts: Vec<u8>,
    references: Vec<usize>,
    comments: Vec<usize>,
    features: Vec<raw::Feature>,
    qualifiers: Vec<usize>,
    locations: Vec<usize>,
    letters: Vec<u8>,
    head: [usize; raw::HEAD],
}

impl Default for Record {
    fn default() -> Record {
        Record::new()
    }
}

impl Record {
    /// A record without any text, row or letter.
    pub fn new() -> Record {
        Record {
            texts: Vec::new(),
            references: Vec::new(),
            comments: Vec::new(),
            features: Vec::new(),
            qualifiers: Vec::new(),
            locations: Vec::new(),
            letters: Vec::new(),
            head: [0; raw::HEAD],
        }
    }

    /// Reads the record at a place of `s` in place of this one, and gives the place after it. The rooms are used again, and grow where they are too
    /// small. Where no record is read this one stays as it is. Any ASCII letter is taken into the sequence.
    pub fn read(&mut self, s: &[u8], at: usize) -> Result<usize, Error> {
        self.filled(s, at, false)
    }

    /// Reads it strictly: the same, if the letters of the sequence are A C G T U R Y S W K M B D H V N, in either case. Any other letter is number 16, with its line;
    /// of it and a byte that is 9 the first in the file decides, and both go ahead of 8, 2 and 7.
    ///
    /// ```
    /// let pasted = b"LOCUS       P318 9 bp DNA linear SYN 01-MAR-2024\nORIGIN\n        1 mskgeelft\n//\n";
    /// let mut record = vilggodan::Record::new();
    /// assert_eq!(record.read(pasted, 0), Ok(pasted.len()));
    /// let error = record.read_strict(pasted, 0).unwrap_err();
    /// assert_eq!(error.to_string(), "line 3: 16, a letter that is no IUPAC code for bases");
    /// ```
    pub fn read_strict(&mut self, s: &[u8], at: usize) -> Result<usize, Error> {
        self.filled(s, at, true)
    }

    fn filled(&mut self, s: &[u8], at: usize, strict: bool) -> Result<usize, Error> {
        loop {
            // Safety: each pointer is that of a slice with the length beside it, and those of one that is written to are borrowed here alone.
            let answer = unsafe {
                raw::vilggodan_read(
                    s.as_ptr(),
                    s.len(),
                    at,
                    strict,
                    self.texts.as_mut_ptr(),
                    self.texts.len(),
                    self.references.as_mut_ptr(),
                    self.references.len(),
                    self.comments.as_mut_ptr(),
                    self.comments.len(),
                    self.features.as_mut_ptr(),
                    self.features.len(),
                    self.qualifiers.as_mut_ptr(),
                    self.qualifiers.len(),
                    self.locations.as_mut_ptr(),
                    self.locations.len(),
                    self.letters.as_mut_ptr(),
                    self.letters.len(),
                )
            };
            match answer.number {
                0 => {
                    self.head = answer.head;
                    return Ok(answer.place);
                }
                6 => self.grow(answer.sizes),
                number => {
                    let line = Line { number: answer.line, offset: answer.offset };
                    return Err(Error::of(number, Some(line).filter(|line| line.number != 0)));
                }
            }
        }
    }

    /// Makes each room at least as large as the sizes say.
    fn grow(&mut self, sizes: raw::Sizes) {
        grow(&mut self.texts, sizes.texts);
        grow(&mut self.references, 14 * sizes.references);
        grow(&mut self.comments, 2 * sizes.comments);
        grow(&mut self.features, sizes.features);
        grow(&mut self.qualifiers, 4 * sizes.qualifiers);
        grow(&mut self.locations, 7 * sizes.locations);
        grow(&mut self.letters, sizes.letters);
    }

    /// The record's bytes by the plain writer.
    pub fn write(&self, layout: Layout) -> Result<Vec<u8>, Error> {
        self.written(false, layout)
    }

    /// The record's bytes by the keeping writer, or 13 where a keeping rule is broken. They read back as this record if they are at most 16,777,216: of
    /// 13,250,000 letters the bytes are more, and reading them is answered by 3.
    pub fn keep(&self, layout: Layout) -> Result<Vec<u8>, Error> {
        self.written(true, layout)
    }

    fn written(&self, keep: bool, layout: Layout) -> Result<Vec<u8>, Error> {
        let mut out = Vec::new();
        loop {
            // Safety: each pointer is that of a slice with the length beside it, and `out` is borrowed here alone.
            let answer = unsafe {
                raw::vilggodan_write(
                    out.as_mut_ptr(),
                    out.len(),
                    self.texts.as_ptr(),
                    self.texts.len(),
                    self.references.as_ptr(),
                    self.references.len(),
                    self.comments.as_ptr(),
                    self.comments.len(),
                    self.features.as_ptr(),
                    self.features.len(),
                    self.qualifiers.as_ptr(),
                    self.qualifiers.len(),
                    self.locations.as_ptr(),
                    self.locations.len(),
                    self.letters.as_ptr(),
                    self.letters.len(),
                    self.head.as_ptr(),
                    self.head.len(),
                    layout.width,
                    keep,
                    layout.truncate,
                    layout.escape,
                )
            };
            match answer.number {
                0 => {
                    out.truncate(answer.count);
                    return Ok(out);
                }
                6 => grow(&mut out, answer.count),
                number => return Err(Error::of(number, None)),
            }
        }
    }

    fn span(&self, start: usize, length: usize) -> &[u8] {
        &self.texts[start..start + length]
    }

    /// The text whose start and length stand at a place of a row.
    fn text_in(&self, row: &[usize], at: usize) -> &[u8] {
        self.span(row[at], row[at + 1])
    }

    /// The same of one that may be absent: it has its length plus one.
    fn may_text_in(&self, row: &[usize], at: usize) -> Option<&[u8]> {
        row[at + 1]
            .checked_sub(1)
            .map(|length| self.span(row[at], length))
    }

    pub fn name(&self) -> Option<&[u8]> {
        self.may_text_in(&self.head, 0)
    }

    /// The length that the LOCUS line gives.
    pub fn length(&self) -> Option<usize> {
        self.head[2].checked_sub(1)
    }

    pub fn molecule(&self) -> Option<&[u8]> {
        self.may_text_in(&self.head, 3)
    }

    pub fn is_circular(&self) -> bool {
        self.head[5] != 0
    }

    pub fn division(&self) -> &[u8] {
        self.text_in(&self.head, 6)
    }

    pub fn date(&self) -> Option<Date> {
        match self.head[8] {
            0 => None,
            day => Some(Date {
                day: day as u8,
                month: self.head[9] as u8,
                year: self.head[10] as u16,
            }),
        }
    }

    /// DEFINITION, ACCESSION, VERSION, DBLINK, KEYWORDS, SOURCE, ORGANISM and CONTIG, each with its word, those that are there.
    pub fn texts(&self) -> impl Iterator<Item = (&'static str, &[u8])> {
        const PLACES: [(&str, usize); 8] = [
            ("DEFINITION", 11),
            ("ACCESSION", 13),
            ("VERSION", 15),
            ("DBLINK", 17),
            ("KEYWORDS", 19),
            ("SOURCE", 21),
            ("ORGANISM", 23),
            ("CONTIG", 28),
        ];
        PLACES
            .into_iter()
            .filter_map(|(word, at)| self.may_text_in(&self.head, at).map(|text| (word, text)))
    }

    /// The one of [`Record::texts`] that has this word.
    pub fn text(&self, word: &str) -> Option<&[u8]> {
        self.texts().find(|(w, _)| *w == word).map(|(_, text)| text)
    }

    pub fn references(&self) -> impl Iterator<Item = Reference<'_>> {
        self.references
            .chunks_exact(14)
            .take(self.head[25])
            .map(|row| Reference {
                text: self.text_in(row, 0),
                authors: self.may_text_in(row, 2),
                consrtm: self.may_text_in(row, 4),
                title: self.text_in(row, 6),
                journal: self.may_text_in(row, 8),
                pubmed: self.may_text_in(row, 10),
                remark: self.may_text_in(row, 12),
            })
    }

    pub fn comments(&self) -> impl Iterator<Item = &[u8]> {
        self.comments
            .chunks_exact(2)
            .take(self.head[26])
            .map(|row| self.text_in(row, 0))
    }

    pub fn features(&self) -> impl Iterator<Item = Feature<'_>> {
        self.features
            .iter()
            .take(self.head[27])
            .map(|row| Feature {
                kind: self.span(row.kind.start, row.kind.length),
                location: self.span(row.location.start, row.location.length),
                record: self,
                first: row.first,
                count: row.count,
                row: row.row,
                rows: row.rows,
            })
    }

    fn qualifier(&self, at: usize) -> Qualifier<'_> {
        let row = &self.qualifiers[at..at + 4];
        Qualifier {
            key: self.text_in(row, 0),
            value: self.may_text_in(row, 2),
        }
    }

    /// CONTIG as a tree.
    pub fn contig(&self) -> Option<Location<'_>> {
        let text = self.may_text_in(&self.head, 28)?;
        Some(self.location(text, self.head[30], self.head[31]))
    }

    fn location<'a>(&'a self, text: &'a [u8], row: usize, rows: usize) -> Location<'a> {
        Location::of(text, &self.locations[7 * row..7 * (row + rows)])
    }

    /// The letters of the sequence.
    pub fn letters(&self) -> &[u8] {
        &self.letters[..self.head[32]]
    }
}

fn grow<T: Copy + Default>(room: &mut Vec<T>, size: usize) {
    if room.len() < size {
        room.resize(size, T::default());
    }
}

/// The records of a file, one after the other. A refusal is the last item, and its line is the file's: the lines of the records before it are counted in.
pub fn records(s: &[u8]) -> Records<'_> {
    Records { s, next: Some(0), strict: false }
}

/// See [`records`].
#[derive(Clone, Debug)]
pub struct Records<'a> {
    s: &'a [u8],
    next: Option<usize>,
    strict: bool,
}

impl Records<'_> {
    /// The same, each read by [`Record::read_strict`].
    pub fn strict(self) -> Self {
        Records { strict: true, ..self }
    }
}

impl Iterator for Records<'_> {
    type Item = Result<Record, Error>;

    fn next(&mut self) -> Option<Self::Item> {
        let mut record = Record::new();
        match record.filled(self.s, self.next?, self.strict) {
            Ok(place) => {
                self.next = Some(place);
                Some(Ok(record))
            }
            Err(error) => {
                self.next = None;
                if error.number == 1 {
                    None
                } else {
                    let line = error.line.map(|line| Line::of_file(self.s, line.offset));
                    Some(Err(Error { line, ..error }))
                }
            }
        }
    }
}
