// Ours, only in the departed copy: which departures of documents 01 and 02 are on, the width, and what
// the patched lines call.
use std::sync::atomic::{AtomicU32, AtomicUsize, Ordering::Relaxed};

use nom::bytes::streaming::{is_a, tag};
use nom::character::streaming::{line_ending, not_line_ending};
use nom::combinator::map_res;
use nom::error::{Error, ErrorKind};
use nom::sequence::{preceded, terminated};
use nom::{IResult, Parser};

use super::field::field_string;
use super::locus::Locus;
use crate::seq::{Date, Location, Topology};

static MASK: AtomicU32 = AtomicU32::new(0);
static WIDTH: AtomicUsize = AtomicUsize::new(79);

/// Bit d of `mask` switches departure d on; bits 16, 17 and 18 are no departures.
pub fn set(mask: u32, width: usize) {
    MASK.store(mask, Relaxed);
    WIDTH.store(width, Relaxed);
}

pub fn on(departure: u32) -> bool {
    MASK.load(Relaxed) >> departure & 1 == 1
}

/// Departure 6: the width asked for, else the Rust's.
pub fn width(rust: usize) -> usize {
    if on(6) { WIDTH.load(Relaxed) } else { rust }
}

/// Departure 6: written without quotes besides the Rust's own list.
pub fn more_bare_keys(key: &str) -> bool {
    let more = ["citation", "compare", "direction", "mod_base", "rpt_unit_range", "tag_peptide"];
    on(6) && more.contains(&key)
}

/// Departure 3: a feature's location is taken if document 02 reads it (ticket 1); the text itself stands for it.
pub fn location(text: &[u8]) -> IResult<&[u8], Location> {
    taken(text, false)
}

/// The same for CONTIG, where gap( ) is a location too.
pub fn contig_location(text: &[u8]) -> IResult<&[u8], Location> {
    taken(text, true)
}

fn taken(text: &[u8], contig: bool) -> IResult<&[u8], Location> {
    if !on(3) {
        return super::location::location(text);
    }
    let words = if on(16) { 17 } else { 16 }; // 16 is no departure: it tells a seventeenth word from a fault
    match after_location(text, contig, words) {
        Some([]) => Ok((&[], Location::External(text.iter().map(|&b| b as char).collect(), None))),
        _ => Err(nom::Err::Error(Error::new(text, ErrorKind::MapRes))),
    }
}

/// What follows the location that `s` begins with; `words` more may open.
fn after_location(s: &[u8], contig: bool, words: usize) -> Option<&[u8]> {
    for (word, several) in [("complement(", false), ("join(", true), ("order(", true)] {
        if let Some(mut s) = s.strip_prefix(word.as_bytes()) {
            let words = words.checked_sub(1)?;
            loop {
                s = after_location(s, contig, words)?;
                match s.strip_prefix(b",") {
                    Some(next) if several => s = next,
                    _ => return s.strip_prefix(b")"),
                }
            }
        }
    }
    match s.strip_prefix(b"gap(") {
        Some(gap) if contig => some(gap, |b| (33..=126).contains(&b) && !b"()".contains(&b)).unwrap_or(gap).strip_prefix(b")"),
        _ => after_bases(after_accession(s).unwrap_or(s)),
    }
}

/// What follows one or more bytes that pass.
fn some(s: &[u8], passes: impl Fn(u8) -> bool) -> Option<&[u8]> {
    let n = s.iter().take_while(|&&b| passes(b)).count();
    (n > 0).then(|| &s[n..])
}

fn after_accession(s: &[u8]) -> Option<&[u8]> {
    let version = some(s, |b| b.is_ascii_alphanumeric() || b == b'_')?.strip_prefix(b".")?;
    some(version, |b| b.is_ascii_digit())?.strip_prefix(b":")
}

fn after_bases(s: &[u8]) -> Option<&[u8]> {
    if let Some(s) = s.strip_prefix(b"<") {
        return after_last(after_base(s)?.strip_prefix(b"..")?);
    }
    let s = after_base(s)?;
    match (s.strip_prefix(b".."), s.strip_prefix(b"^")) {
        (Some(last), _) => after_last(last),
        (_, Some(next)) => after_base(next),
        _ => Some(s),
    }
}

fn after_last(s: &[u8]) -> Option<&[u8]> {
    after_base(s.strip_prefix(b">").unwrap_or(s))
}

fn after_base(s: &[u8]) -> Option<&[u8]> {
    let rest = some(s, |b| b.is_ascii_digit())?;
    let digits = std::str::from_utf8(&s[..s.len() - rest.len()]).ok()?;
    number(digits, 1..=10, 4_294_967_295).filter(|_| !digits.starts_with('0')).map(|_| rest)
}

/// Departure 3: what a feature's kind may be.
pub fn kind_ok(kind: &str) -> bool {
    !on(3) || (visible(kind.as_bytes()).is_some() && !kind.starts_with('/'))
}

fn visible(text: &[u8]) -> Option<String> {
    let fits = !text.is_empty() && text.iter().all(|b| (33..=126).contains(b));
    fits.then(|| text.iter().map(|&b| b as char).collect())
}

/// Departure 2: the LOCUS line after its word and the space there, without its end.
pub fn locus_line(line: &[u8]) -> Locus {
    locus_tokens(line).unwrap_or(Locus {
        name: None,
        len: None,
        topology: Topology::Linear,
        date: None,
        molecule_type: None,
        division: "UNK".into(),
    })
}

fn locus_tokens(line: &[u8]) -> Option<Locus> {
    let parts = line.split(|b| b" \t".contains(b)).filter(|t| !t.is_empty());
    let tokens: Vec<String> = parts.map(visible).collect::<Option<_>>()?;
    let (start, molecule, rest) = match tokens.len() {
        6 => (&tokens[..3], None, &tokens[3..]),
        7 => (&tokens[..3], Some(tokens[3].clone()), &tokens[4..]),
        _ => return None,
    };
    if start[0].contains(':') || start[2] != "bp" {
        return None;
    }
    let topology = match rest[0].as_str() {
        "linear" => Topology::Linear,
        "circular" => Topology::Circular,
        _ => return None,
    };
    Some(Locus {
        name: Some(start[0].clone()),
        len: Some(number(&start[1], 1..=10, 4_294_967_295)?),
        topology,
        date: Some(date(&rest[2])?),
        molecule_type: molecule,
        division: rest[1].clone(),
    })
}

fn number(text: &str, lengths: std::ops::RangeInclusive<usize>, most: usize) -> Option<usize> {
    let digits = text.bytes().all(|b| b.is_ascii_digit()) && lengths.contains(&text.len());
    let value = if digits { text.parse().ok()? } else { return None };
    (value <= most).then_some(value)
}

fn date(text: &str) -> Option<Date> {
    let months = "JAN FEB MAR APR MAY JUN JUL AUG SEP OCT NOV DEC";
    let parts: Vec<&str> = text.split('-').collect();
    if parts.len() != 3 {
        return None;
    }
    let day = number(parts[0], 1..=2, 31)?;
    let month = months.split(' ').position(|m| m == parts[1])? + 1;
    let year = number(parts[2], 4..=4, 9999)?;
    Date::from_ymd(year as i32, month as u32, day as u32).ok() // day 0 is refused here
}

/// Departure 7: the text of ORIGIN is its line alone.
pub fn origin_text(i: &[u8]) -> IResult<&[u8], String> {
    if !on(7) {
        return field_string(0, "ORIGIN", true).parse(i);
    }
    let line = preceded((tag("ORIGIN"), is_a(" ")), terminated(not_line_ending, line_ending));
    map_res(line, |text: &[u8]| String::from_utf8(text.to_vec())).parse(i)
}
