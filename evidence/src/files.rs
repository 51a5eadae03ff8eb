//! Files of records: each record held against gb-io, strictly too, and through the keeping writer at width 80 where that keeps it.
use crate::library::{write, How};
use crate::lines::{first_line, spot};
use crate::random::Random;
use crate::reading::{departed_reading, judged, MOST};
use crate::roundtrip::round;
use crate::rules::{kept, laid_out};
use crate::table::{Rooms, Table};
use crate::tally::Tally;
use crate::{asis, Reading};

const HOW: How = How { keeping: true, width: 80, truncate: false, escape: false };

/// Nothing is left over.
pub fn run(paths: &[String]) -> bool {
    let mut tally = Tally::default();
    let mut r = Random::new(1, 0, 8);
    for path in paths {
        match std::fs::read(path) {
            Ok(slice) => one_file(path, &slice, &mut r, &mut tally),
            Err(_) => tally.count("files that cannot be opened"),
        }
    }
    println!("files: {}", paths.len());
    tally.show();
    tally.left() == 0
}

fn one_file(path: &str, slice: &[u8], r: &mut Random, tally: &mut Tally) {
    let name = path.rsplit('/').next().unwrap_or(path);
    let mut at = 0;
    let mut ordinal = 0;
    while at < slice.len() {
        ordinal += 1;
        let stray = match judged(slice, at, r) {
            Ok(judged) => {
                judged.count(tally);
                judged.stray
            }
            Err(why) => {
                println!("left over: {name} at {at}: {why}");
                tally.count_left();
                None
            }
        };
        if slice.len() > MOST {
            return tally.count("files: over 16,777,216 bytes");
        }
        let Reading::Done(table, used) = departed_reading(&slice[at..]) else {
            return tally.count("files: ended by a refusal");
        };
        let locus = locus_line(&slice[at..]);
        strictly(&format!("{name}, record {ordinal}"), slice, locus, stray, tally);
        lost_locus(name, &slice[at..], locus, &table, tally);
        keeping(&table, name, r, tally);
        at += used;
    }
    tally.count("files: read to the end");
}

fn locus_line(bytes: &[u8]) -> &[u8] {
    bytes.split(|&b| b == b'\n').find(|line| line.starts_with(b"LOCUS")).unwrap_or(b"")
}

fn has(locus: &[u8], words: &[&str]) -> bool {
    String::from_utf8_lossy(locus).split_whitespace().any(|token| words.contains(&token))
}

/// Of a record that is read, whether it is read strictly too, and if not, its first letter without a code, with the file's line.
fn strictly(record: &str, slice: &[u8], locus: &[u8], stray: Option<usize>, tally: &mut Tally) {
    let Some(place) = stray else {
        return tally.count("records: read strictly too");
    };
    let (line, offset) = spot(slice, 0, place);
    let shown = [first_line(&slice[offset..]), locus].map(<[u8]>::escape_ascii);
    println!("16 with the switch on, {record}: {} in line {line}, {}; {}", slice[place] as char, shown[0], shown[1]);
    tally.count(if has(locus, &["aa"]) { "records: 16 strictly, a protein, its length in aa" } else { "records: 16 strictly, no protein by its LOCUS line" });
}

/// Document 01's LOCUS rule may cost values that gb-io reads.
fn lost_locus(name: &str, bytes: &[u8], locus: &[u8], table: &Table, tally: &mut Tally) {
    tally.count("records");
    if table.name.is_some() {
        return;
    }
    println!("LOCUS values lost in {name}: {}", locus.escape_ascii());
    let has = |words: &[&str]| has(locus, words);
    let why = match () {
        _ if has(&["aa"]) => "a protein, its length in aa",
        _ if !has(&["bp"]) => "no length",
        _ if !has(&["linear", "circular"]) => "no topology",
        _ => "no division or date",
    };
    let gb_io = match asis::read(bytes) {
        Reading::Done(whole, _) if whole.name.is_some() => "gb-io has them",
        _ => "gb-io has none",
    };
    tally.count(&format!("records: LOCUS values lost, {why}; {gb_io}"));
}

fn keeping(table: &Table, name: &str, r: &mut Random, tally: &mut Tally) {
    let (number, _) = write(&mut [], &Rooms::of(table, || 0), HOW);
    let due = match (laid_out(table, HOW), kept(table, HOW)) {
        (false, _) => 11,
        (true, false) => 13,
        (true, true) => 6,
    };
    let equal = due != 6 || round(table, HOW, r).is_ok();
    match number {
        _ if number != due || !equal => {
            println!("left over: {name}: the keeping writer, or what it wrote");
            tally.count_left();
        }
        6 => tally.count("records: kept at width 80, written, read back, equal"),
        _ => tally.count(&format!("records: the keeping writer refuses, number {number}")),
    }
}
