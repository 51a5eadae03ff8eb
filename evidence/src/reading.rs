//! Differential reading: each slice from two places, with rooms empty, exact, one short and too large.
use crate::library::{Answer, Lent};
use crate::lines;
use crate::random::Random;
use crate::slices::Slices;
use crate::strict;
use crate::table::{Rooms, ROWS};
use crate::tally::Tally;
use crate::{asis, departed, Reading};

/// The departures for reading, 1, 2, 3 and 7, as a mask: bit d for departure d.
const ALL: u32 = 1 << 1 | 1 << 2 | 1 << 3 | 1 << 7;

/// The longest slice.
pub const MOST: usize = 16_777_216;

pub fn run(count: u64, seed: u64, worker: u64) -> Tally {
    let mut slices = Slices::new(Random::new(seed, worker, 1));
    let mut r = Random::new(seed, worker, 2);
    let mut tally = Tally::default();
    let mut smallest: Option<(Vec<u8>, usize)> = None;
    for _ in 0..count {
        let (slice, places) = slices.next();
        for at in places {
            match judged(&slice, at, &mut r) {
                Ok(judged) => judged.count(&mut tally),
                Err(_) => {
                    tally.count_left();
                    if smallest.as_ref().map_or(true, |(s, _)| slice.len() < s.len()) {
                        smallest = Some((slice.clone(), at));
                    }
                }
            }
        }
    }
    if let Some((slice, at)) = smallest {
        let (slice, at) = shrunk(slice, at, &mut r);
        let why = judged(&slice, at, &mut r).err().unwrap_or("shrunk away");
        eprintln!("left over: read at {} of \"{}\": {}", at, slice.escape_ascii(), why);
    }
    tally
}

/// A smaller slice that is still left over.
fn shrunk(mut slice: Vec<u8>, mut at: usize, r: &mut Random) -> (Vec<u8>, usize) {
    let mut piece = slice.len() / 2;
    while piece > 0 {
        let mut i = 0;
        while i + piece <= slice.len() {
            let less = [&slice[..i], &slice[i + piece..]].concat();
            let place = if at <= i { at } else { i.max(at.saturating_sub(piece)) };
            if judged(&less, place, r).is_err() {
                (slice, at) = (less, place);
            } else {
                i += piece;
            }
        }
        piece /= 2;
    }
    (slice, at)
}

/// The number that the library answers, the departures that lie between it and the Rust, and where the letter stands that strict reading refuses.
pub struct Judged {
    number: usize,
    verdict: String,
    pub stray: Option<usize>,
}

impl Judged {
    pub fn count(&self, tally: &mut Tally) {
        tally.count(&self.verdict);
        tally.count(&format!("number {}", self.number));
        tally.count(&match (self.stray, self.number) {
            (Some(_), number) => format!("strict: 16, {number} without the switch"),
            (None, 0) => "strict: 0".into(),
            (None, _) => "strict: the same refusal".into(),
        });
    }
}

/// What gb-io reads with the departures for reading on.
pub fn departed_reading(bytes: &[u8]) -> Reading {
    departed::set(ALL, 0);
    departed::read(bytes)
}

/// The verdict, or what is wrong.
pub fn judged(slice: &[u8], at: usize, r: &mut Random) -> Result<Judged, &'static str> {
    if at > slice.len() || slice.len() > MOST {
        let answer = refused(slice, at, &[3], 0)?;
        refused_alike(slice, at, answer)?;
        return Ok(Judged { number: 3, verdict: "departure 5, a place beyond the slice or a slice too long".into(), stray: None });
    }
    let bytes = &slice[at..];
    let unchanged = asis::read(bytes);
    let expected = departed_reading(bytes);
    let answer = match &expected {
        Reading::Done(table, used) => done(slice, at, false, &Rooms::of(table, || 0), at + used, r)?,
        _ if bytes.is_empty() => refused(slice, at, &[1], at)?,
        Reading::Panicked => refused(slice, at, &[2], at)?,
        Reading::Refused => refused(slice, at, &[2, 4, 5, 7, 8, 9, 14], at)?,
        Reading::None => refused(slice, at, &[2, 4], at)?,
    };
    let verdict = match expected {
        Reading::Panicked => "departure 5, the Rust panics".into(),
        Reading::None | Reading::Refused if unchanged == Reading::None && !bytes.is_empty() => "departure 2, None at a cut LOCUS line".into(),
        _ if same(&unchanged, &expected) => "agrees with the Rust".into(),
        _ => named(between(bytes, &expected).ok_or("no set of departures gives this answer")?),
    };
    let stray = strict::stray(slice, at, &answer);
    match (&expected, stray) {
        (Reading::Done(table, _), _) if table.letters.iter().all(strict::coded) != stray.is_none() => {
            return Err("a stray letter in the slice and not in the table, or the other way round");
        }
        (_, Some(place)) => refused_alike(slice, at, strict::sixteen(slice, at, place))?,
        (Reading::Done(table, used), None) => {
            done(slice, at, true, &Rooms::of(table, || 0), at + used, r)?;
        }
        (_, None) => refused_alike(slice, at, answer)?,
    }
    Ok(Judged { number: answer.number, verdict, stray })
}

/// The smallest set of departures, as a mask, with which gb-io reads this.
fn between(bytes: &[u8], expected: &Reading) -> Option<u32> {
    let mut sets: Vec<u32> = (1..=ALL).filter(|set| set & !ALL == 0).collect();
    sets.sort_by_key(|set| set.count_ones());
    sets.into_iter().find(|&set| {
        departed::set(set, 0);
        same(&departed::read(bytes), expected)
    })
}

fn named(set: u32) -> String {
    let names: Vec<String> = (0..u32::BITS).filter(|d| set >> d & 1 == 1).map(|d| d.to_string()).collect();
    format!("departure{} {}", if names.len() == 1 { "" } else { "s" }, names.join(" and "))
}

fn same(a: &Reading, b: &Reading) -> bool {
    let refusal = |x: &Reading| matches!(x, Reading::None | Reading::Refused);
    a == b || (refusal(a) && refusal(b))
}

/// How long the rooms must be, in bytes and numbers.
fn lengths(rooms: &Rooms) -> [usize; 7] {
    let sizes = rooms.sizes();
    [sizes[0], sizes[1] * ROWS[0], sizes[2] * ROWS[1], sizes[3] * ROWS[2], sizes[4] * ROWS[3], sizes[5] * ROWS[4], sizes[6]]
}

/// What the library answers, the same with rooms empty and large; it is a refusal, and touches nothing.
fn refusal(slice: &[u8], at: usize, strict: bool) -> Result<Answer, &'static str> {
    let answers = [0, slice.len().min(1000)].map(|length| {
        let mut rooms = Lent::new([length; 7]);
        let answer = rooms.read(slice, at, strict);
        rooms.holds(&Rooms::default()).then_some(answer)
    });
    match answers {
        [Some(one), Some(other)] if one == other => Ok(one),
        [Some(_), Some(_)] => Err("another refusal with other rooms"),
        _ => Err("a refusal touched a room"),
    }
}

/// The library refuses with one of the numbers.
fn refused(slice: &[u8], at: usize, numbers: &[usize], place: usize) -> Result<Answer, &'static str> {
    let answer = refusal(slice, at, false)?;
    let Answer { number, line, offset, .. } = answer;
    if !numbers.contains(&number) {
        return Err("another number than a refusal that is due");
    }
    if answer != (Answer { line, offset, ..Answer::new(number, place) }) {
        return Err("another place with a refusal, or a head or sizes");
    }
    lines::right(slice, at, number, line, offset)?;
    Ok(answer)
}

/// With the switch on the library gives this refusal.
fn refused_alike(slice: &[u8], at: usize, due: Answer) -> Result<(), &'static str> {
    if refusal(slice, at, true)? == due {
        Ok(())
    } else {
        Err("with the switch on another answer than is due")
    }
}

/// The library, strictly or not, reads these rooms and this place, and asks for exactly that much room.
fn done(slice: &[u8], at: usize, strict: bool, rooms: &Rooms, place: usize, r: &mut Random) -> Result<Answer, &'static str> {
    let exact = lengths(rooms);
    let mut short = exact;
    let needed: Vec<usize> = (0..7).filter(|&i| exact[i] > 0).collect();
    let i = r.pick(&needed);
    short[i] -= 1;
    for small in [[0; 7], short] {
        let mut room = Lent::new(small);
        let answer = room.read(slice, at, strict);
        if answer.number != 6 {
            return Err("not 6, though the rooms are too small");
        }
        let Answer { line, offset, .. } = answer;
        if answer != (Answer { line, offset, sizes: rooms.sizes(), ..Answer::new(6, at) }) {
            return Err("other sizes with 6, or another place, or a head");
        }
        lines::right(slice, at, 6, line, offset)?;
        if !room.holds(&Rooms::default()) {
            return Err("6 touched a room");
        }
    }
    let more = exact.map(|n| n + r.below(20));
    for large in [exact, more] {
        let mut room = Lent::new(large);
        let answer = room.read(slice, at, strict);
        if answer.number != 0 {
            return Err("not 0, though the rooms are large enough");
        }
        if !answer.done(rooms, place) {
            return Err("another place or head, or a line, or sizes");
        }
        if !room.holds(rooms) {
            return Err("other texts, rows or letters, or a canary is dead");
        }
    }
    Ok(Answer::new(0, place))
}
