//! A location as a tree, made from the rows that reading gives (api/vilggodan.h says what they hold).
use std::fmt;

/// A location, after the INSDC feature table. `of` is the accession with its version, where the bases are another record's.
#[derive(Clone, Debug, PartialEq, Eq)]
pub enum Location<'a> {
    Base {
        of: Option<&'a [u8]>,
        base: usize,
    },
    /// `from..to`; `before` where `<` stands before the first, `after` where `>` stands before the second.
    Range {
        of: Option<&'a [u8]>,
        from: usize,
        to: usize,
        before: bool,
        after: bool,
    },
    /// `from^to`, a place that covers no base.
    Between {
        of: Option<&'a [u8]>,
        from: usize,
        to: usize,
    },
    Complement(Box<Location<'a>>),
    Join(Vec<Location<'a>>),
    Order(Vec<Location<'a>>),
    /// gap( ), which only CONTIG has, with the text in its brackets.
    Gap(&'a [u8]),
}

impl<'a> Location<'a> {
    /// The tree of a text and its rows, seven numbers each, members before their word.
    pub(crate) fn of(text: &'a [u8], rows: &[usize]) -> Location<'a> {
        // each location that is not yet in a word, with the number of its first row
        let mut open: Vec<(usize, Location)> = Vec::new();
        for (i, row) in rows.chunks_exact(7).enumerate() {
            let inner = &text[row[4]..row[4] + row[5]];
            let of = Some(inner).filter(|accession| !accession.is_empty());
            let (from, to) = (row[2], row[3]);
            let first = i - row[6];
            let inside = open.partition_point(|(start, _)| *start < first);
            let mut members = open.drain(inside..).map(|(_, member)| member);
            let made = match row[0] {
                1 => Location::Base { of, base: from },
                2 => Location::Range {
                    of,
                    from,
                    to,
                    before: row[1] & 1 != 0,
                    after: row[1] & 2 != 0,
                },
                3 => Location::Between { of, from, to },
                4 => Location::Complement(Box::new(members.next().expect("complement( ) of one"))),
                5 => Location::Join(members.by_ref().collect()),
                6 => Location::Order(members.by_ref().collect()),
                _ => Location::Gap(inner),
            };
            drop(members);
            open.push((first, made));
        }
        open.pop().expect("a location has a row").1
    }

    /// The bases that it covers, stretch by stretch, in the order of its text.
    pub fn stretches(&self) -> Vec<Stretch<'a>> {
        let mut found = Vec::new();
        self.gather(false, &mut found);
        found
    }

    fn gather(&self, reverse: bool, found: &mut Vec<Stretch<'a>>) {
        match self {
            Location::Base { of, base } => found.push(Stretch {
                of: *of,
                from: *base,
                to: *base,
                before: false,
                after: false,
                reverse,
            }),
            Location::Range { of, from, to, before, after } => found.push(Stretch {
                of: *of,
                from: *from,
                to: *to,
                before: *before,
                after: *after,
                reverse,
            }),
            Location::Between { .. } | Location::Gap(_) => {}
            Location::Complement(inner) => inner.gather(!reverse, found),
            Location::Join(members) | Location::Order(members) => members.iter().for_each(|member| member.gather(reverse, found)),
        }
    }
}

/// Bases that follow one another, on the strand as written or on the other one.
#[derive(Clone, Copy, Debug, PartialEq, Eq)]
pub struct Stretch<'a> {
    pub of: Option<&'a [u8]>,
    pub from: usize,
    pub to: usize,
    /// It may begin before its first base, or end after its last.
    pub before: bool,
    pub after: bool,
    pub reverse: bool,
}

impl fmt::Display for Stretch<'_> {
    fn fmt(&self, f: &mut fmt::Formatter<'_>) -> fmt::Result {
        if let Some(accession) = self.of {
            write!(f, "{}:", String::from_utf8_lossy(accession))?;
        }
        if self.before {
            f.write_str("<")?;
        }
        write!(f, "{}", self.from)?;
        if self.to != self.from || self.before || self.after {
            write!(f, "..{}{}", if self.after { ">" } else { "" }, self.to)?;
        }
        Ok(())
    }
}
