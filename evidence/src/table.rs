//! A record table, whose locations have the rows of their readings, and the rooms that hold it: crates/spec_format/specs/Rooms.antt says what stands where, crates/api_head the head's 33 numbers.

use crate::location::{reading, rows, Reading, Row};

pub type Text = Vec<u8>;

#[derive(Clone, PartialEq, Default)]
pub struct Table {
    pub name: Option<Text>,
    pub length: Option<usize>,
    pub molecule: Option<Text>,
    pub circular: bool,
    pub division: Text,
    /// day, month, year
    pub date: Option<[usize; 3]>,
    pub definition: Option<Text>,
    pub accession: Option<Text>,
    pub version: Option<Text>,
    pub dblink: Option<Text>,
    pub keywords: Option<Text>,
    pub source: Option<Text>,
    pub organism: Option<Text>,
    pub references: Vec<Reference>,
    pub comments: Vec<Text>,
    pub features: Vec<Feature>,
    pub contig: Option<Text>,
    pub letters: Text,
}

#[derive(Clone, PartialEq, Default)]
pub struct Reference {
    pub text: Text,
    pub authors: Option<Text>,
    pub consrtm: Option<Text>,
    pub title: Text,
    pub journal: Option<Text>,
    pub pubmed: Option<Text>,
    pub remark: Option<Text>,
}

#[derive(Clone, PartialEq, Default)]
pub struct Feature {
    pub kind: Text,
    pub location: Text,
    pub qualifiers: Vec<(Text, Option<Text>)>,
}

impl Reference {
    pub fn optional(&mut self) -> [&mut Option<Text>; 5] {
        [&mut self.authors, &mut self.consrtm, &mut self.journal, &mut self.pubmed, &mut self.remark]
    }
}

impl Table {
    /// The header's single texts.
    pub fn singles(&self) -> [&Option<Text>; 7] {
        [&self.definition, &self.accession, &self.version, &self.dblink, &self.keywords, &self.source, &self.organism]
    }

    pub fn singles_mut(&mut self) -> [&mut Option<Text>; 7] {
        [&mut self.definition, &mut self.accession, &mut self.version, &mut self.dblink, &mut self.keywords, &mut self.source, &mut self.organism]
    }

    /// All header texts that are there.
    pub fn header_texts(&self) -> Vec<&Text> {
        let singles = self.singles().into_iter().flatten();
        let mut texts: Vec<&Text> = singles.chain(&self.comments).collect();
        for r in &self.references {
            let may = [&r.authors, &r.consrtm, &r.journal, &r.pubmed, &r.remark];
            texts.extend([&r.text, &r.title]);
            texts.extend(may.into_iter().flatten());
        }
        texts
    }
}

/// What the seven rooms hold, and the head.
#[derive(Clone, PartialEq, Default)]
pub struct Rooms {
    pub texts: Vec<u8>,
    pub references: Vec<usize>,
    pub comments: Vec<usize>,
    pub features: Vec<usize>,
    pub qualifiers: Vec<usize>,
    pub locations: Vec<usize>,
    pub letters: Vec<u8>,
    pub head: Vec<usize>,
}

pub const HEAD: usize = 33;

/// How many numbers a row has: references, comments, features, qualifiers, locations.
pub const ROWS: [usize; 5] = [14, 2, 8, 4, 7];

impl Rooms {
    /// The table laid out; before each text `gap()` bytes are left unused.
    pub fn of(t: &Table, gap: impl FnMut() -> usize) -> Rooms {
        let mut p = Placing { texts: Vec::new(), gap };
        let name = p.perhaps(&t.name);
        let molecule = p.perhaps(&t.molecule);
        let division = p.always(&t.division);
        let singles: Vec<[usize; 2]> = t.singles().into_iter().map(|text| p.perhaps(text)).collect();
        let mut rooms = Rooms::default();
        for r in &t.references {
            let row = [p.always(&r.text), p.perhaps(&r.authors), p.perhaps(&r.consrtm), p.always(&r.title), p.perhaps(&r.journal), p.perhaps(&r.pubmed),
                p.perhaps(&r.remark)];
            rooms.references.extend(row.concat());
        }
        for c in &t.comments {
            rooms.comments.extend(p.always(c));
        }
        for f in &t.features {
            rooms.features.extend(p.always(&f.kind));
            rooms.features.extend(p.always(&f.location));
            rooms.features.extend([rooms.qualifiers.len() / ROWS[3], f.qualifiers.len()]);
            rooms.features.extend(place(&mut rooms.locations, rows(&f.location, false)));
            for (key, value) in &f.qualifiers {
                rooms.qualifiers.extend(p.always(key));
                rooms.qualifiers.extend(p.perhaps(value));
            }
        }
        let contig = p.perhaps(&t.contig);
        let contig_rows = t.contig.as_ref().map_or([0, 0], |text| place(&mut rooms.locations, rows(text, true)));
        let head = &mut rooms.head;
        head.extend(name);
        head.push(t.length.map_or(0, |n| n + 1));
        head.extend(molecule);
        head.push(t.circular as usize);
        head.extend(division);
        head.extend(t.date.unwrap_or([0, 0, 0]));
        head.extend(singles.concat());
        head.extend([t.references.len(), t.comments.len(), t.features.len()]);
        head.extend(contig);
        head.extend(contig_rows);
        head.push(t.letters.len());
        rooms.texts = p.texts;
        rooms.letters = t.letters.clone();
        rooms
    }

    /// The sizes that answer 6 gives: bytes of text, rows, letters.
    pub fn sizes(&self) -> [usize; 7] {
        let rows = [&self.references, &self.comments, &self.features, &self.qualifiers, &self.locations];
        let counts = [0, 1, 2, 3, 4].map(|i| rows[i].len() / ROWS[i]);
        [self.texts.len(), counts[0], counts[1], counts[2], counts[3], counts[4], self.letters.len()]
    }
}

impl Rooms {
    /// The table in the rooms; None where a text or row is outside its room, or location rows are not those of their text, which is number 10.
    pub fn table(&self) -> Option<Table> {
        let h = &self.head;
        let counts = [h[25], h[26], h[27]];
        let rows = [&self.references, &self.comments, &self.features];
        if h[2] > 1 << 32 || (0..3).any(|i| counts[i] > rows[i].len() / ROWS[i]) {
            return None;
        }
        let source = self.perhaps(&h[21..])?;
        Some(Table {
            name: self.perhaps(h)?,
            length: h[2].checked_sub(1),
            molecule: self.perhaps(&h[3..])?,
            circular: h[5] != 0,
            division: self.always(&h[6..])?,
            date: Some([h[8], h[9], h[10]]).filter(|date| *date != [0, 0, 0]),
            definition: self.perhaps(&h[11..])?,
            accession: self.perhaps(&h[13..])?,
            version: self.perhaps(&h[15..])?,
            dblink: self.perhaps(&h[17..])?,
            keywords: self.perhaps(&h[19..])?,
            organism: if source.is_some() { self.perhaps(&h[23..])? } else { None },
            source,
            references: self.references.chunks(ROWS[0]).take(counts[0]).map(|row| self.reference(row)).collect::<Option<_>>()?,
            comments: self.comments.chunks(ROWS[1]).take(counts[1]).map(|row| self.always(row)).collect::<Option<_>>()?,
            features: self.features_in(counts[2])?,
            contig: self.contig(&h[28..32])?,
            letters: self.letters.get(..h[32])?.to_vec(),
        })
    }

    fn always(&self, row: &[usize]) -> Option<Text> {
        self.texts.get(row[0]..row[0].checked_add(row[1])?).map(<[u8]>::to_vec)
    }

    fn perhaps(&self, row: &[usize]) -> Option<Option<Text>> {
        match row[1].checked_sub(1) {
            None => Some(None),
            Some(length) => self.always(&[row[0], length]).map(Some),
        }
    }

    fn contig(&self, row: &[usize]) -> Option<Option<Text>> {
        match self.perhaps(row)? {
            Some(text) => self.rows_are(&text, true, row[2], row[3]).then_some(Some(text)),
            None => Some(None),
        }
    }

    /// The `count` location rows from `first` on lie in their room, and are those of the text's reading, where it has one.
    fn rows_are(&self, text: &[u8], gaps: bool, first: usize, count: usize) -> bool {
        let there: Option<Vec<Row>> = match count {
            0 => Some(Vec::new()),
            _ => first.checked_add(count).filter(|&end| end <= self.locations.len() / ROWS[4]).map(|end| {
                self.locations[first * ROWS[4]..end * ROWS[4]].chunks(ROWS[4]).map(|row| row.try_into().expect("seven numbers")).collect()
            }),
        };
        match (there, reading(text, gaps)) {
            (Some(there), Reading::One(rows)) => there == rows,
            (there, _) => there.is_some(),
        }
    }

    fn reference(&self, row: &[usize]) -> Option<Reference> {
        Some(Reference {
            text: self.always(row)?,
            authors: self.perhaps(&row[2..])?,
            consrtm: self.perhaps(&row[4..])?,
            title: self.always(&row[6..])?,
            journal: self.perhaps(&row[8..])?,
            pubmed: self.perhaps(&row[10..])?,
            remark: self.perhaps(&row[12..])?,
        })
    }

    /// No feature's qualifiers start before the end of an earlier one's.
    fn features_in(&self, count: usize) -> Option<Vec<Feature>> {
        let mut from = 0;
        self.features.chunks(ROWS[2]).take(count).map(|row| {
            let mut qualifiers = Vec::new();
            if row[5] > 0 {
                let end = row[4].checked_add(row[5]).filter(|&end| from <= row[4] && end <= self.qualifiers.len() / ROWS[3])?;
                for q in self.qualifiers[row[4] * ROWS[3]..end * ROWS[3]].chunks(ROWS[3]) {
                    qualifiers.push((self.always(q)?, self.perhaps(&q[2..])?));
                }
                from = end;
            }
            let location = self.always(&row[2..])?;
            self.rows_are(&location, false, row[6], row[7]).then_some(())?;
            Some(Feature { kind: self.always(row)?, location, qualifiers })
        }).collect()
    }
}

/// Rows put behind those of a room: the first of them, and how many.
fn place(room: &mut Vec<usize>, rows: Vec<Row>) -> [usize; 2] {
    let first = room.len() / ROWS[4];
    room.extend(rows.concat());
    [first, rows.len()]
}

/// The store of texts as it is filled.
struct Placing<G> {
    texts: Vec<u8>,
    gap: G,
}

impl<G: FnMut() -> usize> Placing<G> {
    fn always(&mut self, text: &[u8]) -> [usize; 2] {
        let start = self.texts.len() + (self.gap)();
        self.texts.resize(start, b'?');
        self.texts.extend(text);
        [start, text.len()]
    }

    fn perhaps(&mut self, text: &Option<Text>) -> [usize; 2] {
        match text {
            None => [0, 0],
            Some(text) => {
                let [start, length] = self.always(text);
                [start, length + 1]
            }
        }
    }
}

// ---- to show what is left over

impl Table {
    /// The fields that are there.
    pub fn shown(&self) -> String {
        let text = |t: &[u8]| format!("\"{}\"", t.escape_ascii());
        let mut out = vec![format!("length {:?}, circular {}, division {}, date {:?}", self.length, self.circular, text(&self.division), self.date)];
        let singles = ["definition", "accession", "version", "dblink", "keywords", "source", "organism"].into_iter().zip(self.singles());
        for (name, value) in singles.chain([("name", &self.name), ("molecule", &self.molecule), ("contig", &self.contig)]) {
            out.extend(value.as_ref().map(|t| format!("{name} {}", text(t))));
        }
        for r in &self.references {
            let may = [&r.authors, &r.consrtm, &r.journal, &r.pubmed, &r.remark].map(|t| t.as_ref().map_or("none".into(), |t| text(t)));
            out.push(format!("reference {} title {} others {}", text(&r.text), text(&r.title), may.join(" ")));
        }
        out.extend(self.comments.iter().map(|c| format!("comment {}", text(c))));
        for f in &self.features {
            let value = |v: &Option<Text>| v.as_ref().map_or(String::new(), |v| format!("={}", text(v)));
            let qualifiers: Vec<String> = f.qualifiers.iter().map(|(k, v)| format!("/{}{}", text(k), value(v))).collect();
            out.push(format!("feature {} {} {}", text(&f.kind), text(&f.location), qualifiers.join(" ")));
        }
        out.push(format!("letters {}", text(&self.letters)));
        out.join(", ")
    }

    /// A smaller table that is still `wrong`.
    pub fn shrunk(mut self, mut wrong: impl FnMut(&Table) -> bool) -> Table {
        while let Some(less) = self.smaller().into_iter().find(|t| wrong(t)) {
            self = less;
        }
        self
    }

    /// Tables with one thing less.
    fn smaller(&self) -> Vec<Table> {
        let mut out = Vec::new();
        let mut without = |change: &dyn Fn(&mut Table)| {
            let mut t = self.clone();
            change(&mut t);
            if t != *self {
                out.push(t);
            }
        };
        for i in 0..self.features.len() {
            without(&|t| drop(t.features.remove(i)));
            for j in 0..self.features[i].qualifiers.len() {
                without(&|t| drop(t.features[i].qualifiers.remove(j)));
                without(&|t| t.features[i].qualifiers[j].1.iter_mut().for_each(halve));
            }
            without(&|t| halve(&mut t.features[i].location));
        }
        for i in 0..self.references.len() {
            without(&|t| drop(t.references.remove(i)));
            for j in 0..5 {
                without(&|t| *t.references[i].optional()[j] = None);
            }
            without(&|t| halve(&mut t.references[i].text));
            without(&|t| halve(&mut t.references[i].title));
        }
        for i in 0..self.comments.len() {
            without(&|t| drop(t.comments.remove(i)));
            without(&|t| halve(&mut t.comments[i]));
        }
        for i in [0, 1, 2, 3, 4, 6, 5] {
            without(&|t| {
                *t.singles_mut()[i] = None;
                t.organism = t.organism.take().filter(|_| t.source.is_some());
            });
            without(&|t| t.singles_mut()[i].iter_mut().for_each(halve));
        }
        without(&|t| t.contig = None);
        without(&|t| t.contig.iter_mut().for_each(halve));
        without(&|t| {
            t.length = t.length.filter(|_| t.letters.is_empty()).or(Some(0));
            t.letters.clear();
        });
        out
    }
}

fn halve(text: &mut Text) {
    text.truncate(text.len() / 2);
}
