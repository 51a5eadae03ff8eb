//! Numbers 11 and 13 of document 01, read once more in Rust: what gb-io cannot tell about a writing.
use crate::library::How;
use crate::location::{reading, Reading};
use crate::table::{Table, Text};
use std::str::from_utf8;

/// Keys whose values break after commas.
pub const COMMA: [&[u8]; 2] = [b"anticodon", b"transl_except"];

/// The other keys whose values stand without quotes.
pub const BARE: [&[u8]; 11] = [b"citation", b"codon_start", b"compare", b"direction", b"estimated_length", b"mod_base", b"number", b"rpt_type",
    b"rpt_unit_range", b"tag_peptide", b"transl_table"];

fn printed_name(t: &Table, how: How) -> Text {
    let mut name = t.name.clone().or_else(|| t.accession.clone()).unwrap_or_else(|| b"UNTITLED".to_vec());
    let digits = t.length.unwrap_or(t.letters.len()).to_string().len();
    if how.truncate && name.len() + 1 + digits > 28 {
        name.truncate(27 - digits);
    }
    match from_utf8(&name) {
        Ok(text) if how.escape && text.split_whitespace().count() > 1 => text.split_whitespace().collect::<Vec<_>>().join("_").into_bytes(),
        _ => name,
    }
}

fn within(text: &[u8], low: u8, high: u8) -> bool {
    text.iter().all(|b| (low..=high).contains(b))
}

fn visible(text: &[u8]) -> bool {
    !text.is_empty() && within(text, 33, 126)
}

fn locates(text: &[u8], gaps: bool) -> bool {
    matches!(reading(text, gaps), Reading::One(_))
}

/// Number 11 is not due.
pub fn laid_out(t: &Table, how: How) -> bool {
    let name = printed_name(t, how);
    let words = [&name, &t.division, t.molecule.as_ref().unwrap_or(&t.division)];
    let date_fits = |[day, month, year]: [usize; 3]| (1..=31).contains(&day) && (1..=12).contains(&month) && year <= 9999;
    let value_fits = |key: &[u8], value: &Text| if COMMA.contains(&key) { visible(value) } else { from_utf8(value).is_ok() };
    !name.is_empty()
        && words.iter().all(|w| within(w, 32, 126))
        && t.header_texts().iter().all(|text| from_utf8(text).is_ok())
        && t.date.map_or(true, date_fits)
        && t.features.iter().all(|f| {
            visible(&f.kind) && f.kind.len() <= how.width - 7 && f.kind[0] != b'/' && locates(&f.location, false) && f.qualifiers.iter().all(|(key, value)| {
                visible(key) && key.len() <= how.width - 25 && !key.contains(&b'=') && value.as_ref().map_or(true, |v| value_fits(key, v))
            })
        })
        && t.contig.as_ref().map_or(true, |c| locates(c, true))
        && t.letters.iter().all(u8::is_ascii_alphabetic)
        && (t.letters.is_empty() || t.length.map_or(true, |n| n == t.letters.len()))
}

/// No CR, no final LF, each line with all that stands before it shorter than the width.
fn lines_fit(text: &[u8], width: usize, indent: usize, first: usize, quoted: bool) -> bool {
    let quotes = |line: &[u8]| if quoted { line.iter().filter(|&&b| b == b'"').count() } else { 0 };
    let before = std::iter::once(first).chain(std::iter::repeat(indent));
    !text.contains(&b'\r')
        && !text.ends_with(b"\n")
        && text.split(|&b| b == b'\n').zip(before).all(|(line, before)| before + line.len() + quotes(line) < width)
}

fn value_kept(key: &[u8], value: &[u8], width: usize) -> bool {
    if COMMA.contains(&key) {
        return !value.contains(&b'/') && !value.starts_with(b"\"");
    }
    if BARE.contains(&key) {
        return !value.contains(&b'\r') && !value.contains(&b'\n') && !value.starts_with(b"\"") && 23 + key.len() + value.len() < width;
    }
    if key == b"translation" {
        return within(value, 33, 126) && !value.contains(&b'"');
    }
    lines_fit(value, width, 21, 24 + key.len(), true)
}

/// Number 13 is not due, of a table that can be laid out.
pub fn kept(t: &Table, how: How) -> bool {
    let (Some(name), Some(_), Some(_)) = (&t.name, t.length, t.date) else {
        return false;
    };
    let words = [name, &t.division, t.molecule.as_ref().unwrap_or(&t.division)];
    !how.truncate
        && !how.escape
        && !name.contains(&b':')
        && words.iter().all(|w| !w.is_empty() && !w.contains(&b' '))
        && t.header_texts().iter().all(|text| !text.starts_with(b" ") && lines_fit(text, how.width, 12, 12, false))
        && t.references.iter().all(|r| r.pubmed.as_ref().map_or(true, |p| !p.contains(&b'\n')))
        && t.features.iter().all(|f| {
            f.kind.len() <= 15
                && !f.location.contains(&b'/')
                && f.qualifiers.iter().all(|(key, value)| value.as_ref().map_or(true, |v| value_kept(key, v, how.width)))
        })
}
