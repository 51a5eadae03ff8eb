//! Round trip: a kept table is written by the keeping writer after another text, read back from its place, and must be the same; strictly too, if its letters have codes.
use crate::library::{write, How, Lent};
use crate::random::Random;
use crate::rules::{kept, laid_out};
use crate::strict::{coded, sixteen, stray};
use crate::table::{Rooms, Table, ROWS};
use crate::tables::{Job, Tables};
use crate::tally::Tally;

pub fn run(count: u64, seed: u64, worker: u64) -> Tally {
    let mut tables = Tables::new(Random::new(seed, worker, 5));
    let mut r = Random::new(seed, worker, 6);
    let mut tally = Tally::default();
    let mut first = None;
    let mut done = 0;
    while done < count {
        let Job { table, width, .. } = tables.next_kept();
        let how = How { keeping: true, width, truncate: false, escape: false };
        if !(laid_out(&table, how) && kept(&table, how)) {
            tally.count("made, but not kept (not counted as a round trip)");
            continue;
        }
        done += 1;
        match round(&table, how, &mut r) {
            Ok(()) if table.letters.iter().all(coded) => tally.count("kept, written, read back, equal; strictly too"),
            Ok(()) => tally.count("kept, written, read back, equal; strictly 16"),
            Err(_) => {
                tally.count_left();
                first.get_or_insert((table, how));
            }
        }
    }
    if let Some((table, how)) = first {
        let table = table.shrunk(|t| laid_out(t, how) && kept(t, how) && round(t, how, &mut r).is_err());
        let why = round(&table, how, &mut r).err().unwrap_or("shrunk away");
        eprintln!("left over: round trip at width {}, of {}: {why}", how.width, table.shown());
    }
    tally
}

/// Written, and read back from its place.
pub fn round(table: &Table, how: How, r: &mut Random) -> Result<(), &'static str> {
    let rooms = Rooms::of(table, || 0);
    let (number, size) = write(&mut [], &rooms, how);
    if number != 6 {
        return Err("the keeping writer does not ask for room");
    }
    let at = r.pick(&[0, 0, 1, 70]);
    let after = r.pick(&["", "", "LOCUS x\n", "x"]);
    let mut slice = vec![b'#'; at + size];
    if write(&mut slice[at..], &rooms, how) != (0, size) {
        return Err("the keeping writer does not write");
    }
    let end = slice.len();
    slice.extend(after.as_bytes());
    let [texts, references, comments, features, qualifiers, locations, letters] = rooms.sizes();
    let rows = [references * ROWS[0], comments * ROWS[1], features * ROWS[2], qualifiers * ROWS[3], locations * ROWS[4]];
    let lengths = [texts, rows[0], rows[1], rows[2], rows[3], rows[4], letters];
    let mut lent = Lent::new(lengths);
    let answer = lent.read(&slice, at, false);
    if answer.number != 0 {
        return Err("the reader does not read it");
    }
    if !answer.done(&rooms, end) || !lent.holds(&rooms) {
        return Err("the reader reads another table");
    }
    let (due, left) = match stray(&slice, at, &answer) {
        None => (answer, rooms),
        Some(place) => (sixteen(&slice, at, place), Rooms::default()),
    };
    let mut lent = Lent::new(lengths);
    let strictly = lent.read(&slice, at, true);
    if (strictly.number == 0) != table.letters.iter().all(coded) || strictly != due || !lent.holds(&left) {
        return Err("the reader does otherwise with the switch on");
    }
    Ok(())
}
