//! Differential writing: each table by both writers, laid out in order or scattered, into rooms empty, one short, exact and too large.
use crate::library::{write, Guarded, How};
use crate::random::Random;
use crate::rules::{kept, laid_out};
use crate::table::{Rooms, Table};
use crate::tables::{Job, Tables};
use crate::tally::Tally;
use crate::{asis, departed, Writing};

/// Sets of departures by their masks, the small ones first, and what they are called.
const DEPARTURES: [(u32, &str); 3] = [(16, "departure 4"), (64, "departure 6"), (ALL, "departures 4 and 6")];
const ALL: u32 = 80;

pub fn run(count: u64, seed: u64, worker: u64) -> Tally {
    let mut tables = Tables::new(Random::new(seed, worker, 3));
    let mut r = Random::new(seed, worker, 4);
    let mut tally = Tally::default();
    let mut first = None;
    for _ in 0..count {
        let Job { table, width, truncate, escape } = tables.next();
        let how = How { keeping: false, width, truncate, escape };
        let rooms = laid(&table, &mut r);
        match judged(&rooms, how, &mut r) {
            Ok((plain, keeping)) => {
                tally.count(plain);
                tally.count(keeping);
            }
            Err(why) => {
                tally.count_left();
                first.get_or_insert((rooms, how, why));
            }
        }
    }
    if let Some((rooms, how, why)) = first {
        show(rooms, how, why, &mut r);
    }
    tally
}

/// The table in order or scattered, now and then with one number changed.
fn laid(table: &Table, r: &mut Random) -> Rooms {
    let scattered = r.chance(30);
    let mut rooms = Rooms::of(table, || if scattered { r.below(3) } else { 0 });
    if r.chance(12) {
        let store = rooms.texts.len();
        let numbers = match r.below(6) {
            0 => &mut rooms.references,
            1 => &mut rooms.comments,
            2 => &mut rooms.features,
            3 => &mut rooms.qualifiers,
            4 => &mut rooms.locations,
            _ => &mut rooms.head,
        };
        if !numbers.is_empty() {
            let i = r.below(numbers.len());
            numbers[i] = r.pick(&[0, 1, numbers[i].wrapping_add(1), numbers[i].wrapping_sub(1), store, store + 1, usize::MAX, 1 << 63]);
        }
    }
    rooms
}

/// What is left over, as small a table as can be found for it.
fn show(rooms: Rooms, how: How, why: &str, r: &mut Random) {
    let How { width, truncate, escape, .. } = how;
    let start = format!("left over: write at width {width}, truncation {truncate}, escaping {escape}, of");
    match rooms.table().filter(|table| judged(&Rooms::of(table, || 0), how, r).is_err()) {
        Some(table) => {
            let table = table.shrunk(|t| judged(&Rooms::of(t, || 0), how, r).is_err());
            eprintln!("{start} {}: {why}", table.shown());
        }
        None => eprintln!("{start} the head {:?}, {} bytes of texts \"{}\", rows {:?} {:?} {:?} {:?} {:?}: {why}", rooms.head, rooms.texts.len(),
            rooms.texts.escape_ascii(), rooms.references, rooms.comments, rooms.features, rooms.qualifiers, rooms.locations),
    }
}

/// The departures that lie between the library and the Rust, and what the keeping writer says; or what is wrong.
fn judged(rooms: &Rooms, how: How, r: &mut Random) -> Result<(&'static str, &'static str), &'static str> {
    let keeping = How { keeping: true, ..how };
    for how in [how, keeping] {
        refused(rooms, How { width: r.pick(&[0, 59, 133, usize::MAX]), ..how }, 12)?;
    }
    let Some(table) = &rooms.table() else {
        refused(rooms, how, 10)?;
        refused(rooms, keeping, 10)?;
        return Ok(("departure 5, number 10", "keeping writer: 10"));
    };
    if !laid_out(table, how) {
        refused(rooms, how, 11)?;
        refused(rooms, keeping, 11)?;
        return Ok(("departure 5, number 11", "keeping writer: 11"));
    }
    let held = &held(table);
    departed::set(ALL, how.width);
    let Writing::Done(bytes) = departed::write(held, how.truncate, how.escape) else {
        return Err("the departed Rust writes nothing");
    };
    written(rooms, how, &bytes, r)?;
    let kept = if kept(table, how) {
        written(rooms, keeping, &bytes, r)?;
        "keeping writer: writes the same"
    } else {
        refused(rooms, keeping, 13)?;
        "keeping writer: 13"
    };
    if held != table {
        return Ok(("departure 5, a name that the Rust cannot hold", kept));
    }
    let expected = Writing::Done(bytes);
    if asis::write(table, how.truncate, how.escape) == expected {
        return Ok(("agrees with the Rust", kept));
    }
    for (mask, name) in DEPARTURES {
        departed::set(mask, how.width);
        if departed::write(table, how.truncate, how.escape) == expected {
            return Ok((name, kept));
        }
    }
    Err("no set of departures gives this answer")
}

/// The table with as much of its name as is UTF-8: the Rust holds no other names. Of a name that can be printed, truncation cuts off what is not.
fn held(table: &Table) -> Table {
    let mut held = table.clone();
    if let Some(name) = &mut held.name {
        if let Err(e) = std::str::from_utf8(name) {
            let n = e.valid_up_to();
            name.truncate(n);
        }
    }
    held
}

fn refused(rooms: &Rooms, how: How, number: usize) -> Result<(), &'static str> {
    for length in [0, 300] {
        let mut out = Guarded::new(length, 0xa5);
        if write(out.room(), rooms, how) != (number, 0) {
            return Err("not the refusal that is due");
        }
        if !out.holds(&[]) {
            return Err("a refusal touched the room");
        }
    }
    Ok(())
}

fn written(rooms: &Rooms, how: How, bytes: &[u8], r: &mut Random) -> Result<(), &'static str> {
    for length in [0, bytes.len() - 1] {
        let mut out = Guarded::new(length, 0xa5);
        if write(out.room(), rooms, how) != (6, bytes.len()) {
            return Err("not 6 and the size");
        }
        if !out.holds(&[]) {
            return Err("6 touched the room");
        }
    }
    for length in [bytes.len(), bytes.len() + r.below(200)] {
        let mut out = Guarded::new(length, 0xa5);
        if write(out.room(), rooms, how) != (0, bytes.len()) {
            return Err("not 0 and the size");
        }
        if !out.holds(bytes) {
            return Err("other bytes, or a canary is dead");
        }
    }
    Ok(())
}
