//! Which line a refusal tells, found again from the words of document 02's ticket 2: the line is a count of LF from the place given, and each number has a line of its own. For 2, 4, 5 and 6 that
//! line is found here; for 7, 8, 9 and 14 it is held that what is told can be such a line, and gb-io is asked whether all is well up to it.
use crate::reading::departed_reading;
use crate::Reading;
use std::str::from_utf8;

/// The line and the offset are those due with the number; with 0, 1 and 3 there are none.
pub fn right(slice: &[u8], at: usize, number: usize, line: usize, offset: usize) -> Result<(), &'static str> {
    if matches!(number, 0 | 1 | 3) {
        return held((line, offset) == (0, 0), "a line or an offset with 0, 1 or 3");
    }
    held(at <= offset && offset <= slice.len(), "an offset ahead of the place or past the slice")?;
    held(offset == at || slice[offset - 1] == b'\n', "an offset that is no line's first byte")?;
    held(line == 1 + feeds(&slice[at..offset]), "another line than that of the offset")?;
    if number == 2 {
        return held(feeds(&slice[offset..]) == 0, "2: not the line of the slice's end");
    }
    let locus = stopped(slice, at);
    if number == 4 {
        return held(offset == locus, "4: not the line that stopped the search");
    }
    held(slice[locus..].starts_with(b"LOCUS"), "no LOCUS line, and another number than 2 and 4")?;
    if number == 6 {
        return held(offset == locus, "6: not the LOCUS line");
    }
    held(locus < offset, "a line ahead of the header")?;
    let origin = origin(slice, at).filter(|&origin| origin < offset);
    let text = first_line(&slice[offset..]);
    // not where that line is no UTF-8: it may have spoilt a DEFINITION before it, which is one without it
    held(origin.is_some() || from_utf8(text).is_err() || well_up_to(slice, at, offset), "a trouble before that line")?;
    match number {
        5 => {
            held(text.starts_with(b"DEFINITION "), "5: not a DEFINITION")?;
            held(begin(&slice[locus..offset], b"DEFINITION ").count() == 1, "5: not the second DEFINITION")
        }
        7 => {
            held(slice[offset..].windows(3).any(|w| w == b"\n//"), "7: no later line begins //")?;
            let next = offset + text.len() + 1;
            let (here, there) = (indent(text), indent(&slice[next..]));
            // then what is wrong may stand in a further line of it; two quotes with a line end and an indent between them are one quote, so the second one may be what is wrong
            let quote = slice[next + there..].starts_with(b"\"");
            let goes_on = quote || there > here && !text.starts_with(b"FEATURES") || there == here && text[here..].starts_with(b"/");
            match origin {
                None => held(!text.starts_with(b"//") && (goes_on || !well_up_to(slice, at, next)), "7: nothing is wrong with that line"),
                Some(origin) => ends_letters(slice, origin, offset, |b, next| b == b'/' && next != Some(b'/'), "7: no single / after the letters"),
            }
        }
        8 | 9 => {
            let origin = origin.ok_or("8 or 9: no ORIGIN before that line")?;
            ends_letters(slice, origin, offset, |b, _| (b == b'/') == (number == 8), "8 or 9: not the line of the / or of the byte")
        }
        14 => {
            held(origin.is_none(), "14: a line after ORIGIN")?;
            held(text.starts_with(b" ") || text.starts_with(b"CONTIG"), "14: neither a feature's line nor CONTIG's")?;
            held(slice[offset..].iter().filter(|&&b| b == b'(').count() > 16, "14: no seventeen brackets from that line on")
        }
        _ => Err("another number than those of reading"),
    }
}

fn held(so: bool, otherwise: &'static str) -> Result<(), &'static str> {
    so.then_some(()).ok_or(otherwise)
}

fn feeds(bytes: &[u8]) -> usize {
    bytes.iter().filter(|&&b| b == b'\n').count()
}

/// The bytes before the first LF.
pub fn first_line(bytes: &[u8]) -> &[u8] {
    bytes.split(|&b| b == b'\n').next().unwrap_or(b"")
}

fn indent(line: &[u8]) -> usize {
    line.iter().take_while(|&&b| b == b' ').count()
}

/// Where lines begin with this.
fn begin<'a>(bytes: &'a [u8], with: &'a [u8]) -> impl Iterator<Item = usize> + 'a {
    (0..bytes.len()).filter(move |&i| bytes[i..].starts_with(with) && (i == 0 || bytes[i - 1] == b'\n'))
}

/// The first line from the place on that begins LOCUS, is not UTF-8, has a stray CR or has no end.
fn stopped(slice: &[u8], at: usize) -> usize {
    let mut start = at;
    loop {
        let line = first_line(&slice[start..]);
        let end = start + line.len();
        let text = line.strip_suffix(b"\r").unwrap_or(line);
        if end == slice.len() || line.starts_with(b"LOCUS") || text.contains(&b'\r') || from_utf8(line).is_err() {
            return start;
        }
        start = end + 1;
    }
}

/// The line and the offset told of a trouble at a place.
pub fn spot(slice: &[u8], at: usize, place: usize) -> (usize, usize) {
    let before = &slice[at..place];
    (1 + feeds(before), before.iter().rposition(|&b| b == b'\n').map_or(at, |i| at + i + 1))
}

/// The record, if `//` stood at a line: gb-io reads it.
pub fn well_up_to(slice: &[u8], at: usize, line: usize) -> bool {
    matches!(departed_reading(&[&slice[at..line], b"//\n"].concat()), Reading::Done(..))
}

/// ORIGIN's line, if the reading comes so far: the first after LOCUS that begins so. In the sections before it each further line of a text is indented.
pub fn origin(slice: &[u8], at: usize) -> Option<usize> {
    let locus = stopped(slice, at);
    begin(&slice[locus..], b"ORIGIN").next().map(|start| locus + start)
}

/// Where the letters begin, if ORIGIN's line is one: blanks alone stand on it, or a text in UTF-8 after a space, and it has an end.
pub fn letters_begin(slice: &[u8], origin: usize) -> Option<usize> {
    let line = first_line(&slice[origin..]);
    let end = Some(origin + line.len()).filter(|&end| end < slice.len())?;
    let rest = &line.strip_suffix(b"\r").unwrap_or(line)[b"ORIGIN".len()..];
    let blank = rest.iter().all(|&b| matches!(b, b' ' | b'\t'));
    let text = rest.starts_with(b" ") && !rest.contains(&b'\r') && from_utf8(rest).is_ok();
    (blank || text).then_some(end + 1)
}

/// A byte that does not end the letters.
pub fn passed(b: u8) -> bool {
    b.is_ascii_alphanumeric() || matches!(b, b' ' | b'\r' | b'\n')
}

/// The line at the offset has the first byte after ORIGIN's line that ends the letters, and with what follows it is as `due` says.
fn ends_letters(slice: &[u8], origin: usize, offset: usize, due: impl Fn(u8, Option<u8>) -> bool, otherwise: &'static str) -> Result<(), &'static str> {
    let before = &slice[origin + first_line(&slice[origin..]).len()..offset];
    let end = offset + first_line(&slice[offset..]).len();
    let first = (offset..end).find(|&i| !passed(slice[i]));
    held(before.iter().all(|&b| passed(b)) && first.is_some_and(|i| due(slice[i], slice.get(i + 1).copied())), otherwise)
}
