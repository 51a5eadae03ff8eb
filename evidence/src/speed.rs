//! Speed: gb-io, the proved library, that of another landing if one is named, and memcpy on the same inputs, turn by turn.
use crate::library::{self, How, Library, THIS};
use crate::random::Random;
use crate::table::{Feature, Reference, Rooms, Table, ROWS};
use crate::{asis, Writing};
use gb_io_asis::reader::{parse_slice, SeqReader};
use gb_io_asis::seq::Seq;
use gb_io_asis::writer::SeqWriter;
use std::hint::black_box;
use std::time::Instant;

const WIDTH: usize = 80;

/// Bytes that one contender goes through in one round, at least.
const ROUND: usize = 4 << 20;

const GB_IO: [&str; 2] = ["gb-io, parse_slice", "gb-io, SeqReader"];
const GB_IO_WRITES: [&str; 1] = ["gb-io, SeqWriter"];
const OTHERS: [&str; 4] = ["library, asked for sizes first", "library, room at hand", "the other, room at hand", "memcpy"];

/// The library and that of another landing, as shared objects, if `evidence/run` was given one; else the library twice, which shows what two equal ones differ by.
fn libraries() -> (Library, Library) {
    let named = |name| std::env::var(name).ok().map_or(THIS, |path| library::opened(&path).expect("a library as a shared object"));
    (named("EVIDENCE_THIS"), named("EVIDENCE_BEFORE"))
}

/// False where the library and gb-io do not do the same work.
pub fn run(rounds: u64) -> bool {
    let mut r = Random::new(1, 0, 7);
    let inputs = [("genome, 10 MB", table(&mut r, 7_560_000, 4_000)), ("plasmid, 12 kB", table(&mut r, 5_000, 28)),
        ("feature-heavy, 4 MB", table(&mut r, 6_000, 19_500)), ("letters alone, 10 MB", table(&mut r, 8_280_000, 0)),
        ("letters alone, 64 KiB", table(&mut r, 51_700, 0)), ("letters alone, 16 MiB", table(&mut r, 13_244_000, 0))];
    println!("speed: {rounds} rounds, turn by turn; nanoseconds for a byte of the record's text, best and worst round;");
    println!("how many times the speed of the faster gb-io (best against best; worst round), and how many times memcpy's time;");
    println!("the other is {}", if std::env::var("EVIDENCE_BEFORE").is_ok() { "the library of another landing" } else { "the same library" });
    inputs.into_iter().all(|(name, table)| measured(name, &table, rounds).is_some())
        && strict_letters(&mut r).into_iter().all(|(name, table)| measured_strict(name, &table, rounds).is_some())
        && headers().into_iter().chain(locations()).all(|(name, text)| measured_reading(name, &text, rounds).is_some())
}

/// Records of letters, which are read strictly and not: of bases alone, and with another code three times in each line of sixty.
fn strict_letters(r: &mut Random) -> [(&'static str, Table); 5] {
    let mut salted = |letters: usize, codes: &[u8]| {
        let mut t = table(r, letters, 0);
        for line in t.letters.chunks_mut(60).filter(|_| !codes.is_empty()) {
            (0..3).for_each(|_| line[r.below(line.len())] = r.pick(codes));
        }
        t
    };
    [("letters strictly, 64 KiB", salted(51_700, b"")), ("letters strictly, 10 MB", salted(8_280_000, b"")), ("letters strictly, 16 MiB", salted(13_244_000, b"")),
        ("letters strictly, 10 MB, n in each line", salted(8_280_000, b"n")), ("letters strictly, 10 MB, other codes in each line", salted(8_280_000, b"ryswkmbdhv"))]
}

/// With the switch on and off turn by turn, room at hand.
fn measured_strict(name: &str, table: &Table, rounds: u64) -> Option<()> {
    let Writing::Done(text) = asis::write(table, false, false) else {
        return None;
    };
    let (this, _) = libraries();
    let mut room = read_asked(&text)?;
    let repeats = ROUND / text.len() + 1;
    let mut times = [Vec::new(), Vec::new()];
    for _ in 0..rounds {
        for (own, strict) in times.iter_mut().zip([false, true]) {
            own.push(timed(repeats, || read_at_hand(this, black_box(&text), strict, &mut room).unwrap()));
        }
    }
    let [off, on] = &times;
    let mut ratios: Vec<f64> = off.iter().zip(on).map(|(off, on)| on / off).collect();
    ratios.sort_by(f64::total_cmp);
    let each = 1e9 / text.len() as f64;
    println!("\n{name}: {} bytes", text.len());
    for (what, own) in [("off", off), ("on", on)] {
        println!("  reading library, room at hand, the switch {what:<4} {:>8.3} to {:>8.3} ns", least(own) * each, most(own) * each);
    }
    println!("  on / off, best against best {:.2}, by the rounds' median {:.2}", least(on) / least(off), ratios[ratios.len() / 2]);
    Some(())
}

/// Records of very many header lines, which are only read.
fn headers() -> [(&'static str, Vec<u8>); 4] {
    let record = |before: String, header: String| format!("{before}LOCUS       x 1 bp    DNA     linear   SYN 01-JAN-2024\n{header}ORIGIN\n        1 a\n//\n").into_bytes();
    let header = |n: usize, line: &str| record(String::new(), line.repeat(n));
    [("a million unknown header lines", header(1_000_000, "UNKNOWN     a\n")), ("half a million comments", header(500_000, "COMMENT     a\n")),
        ("half a million REFERENCE lines without TITLE", header(500_000, "REFERENCE   1\n")), ("four million empty lines before LOCUS", record("\n".repeat(4_000_000), String::new()))]
}

/// Records of one feature whose location has very many members, of one, two and four times as many, also 16 words deep; and of features with some members each.
fn locations() -> [(&'static str, Vec<u8>); 5] {
    let record = |features: String| format!("LOCUS       x 1 bp    DNA     linear   SYN 01-JAN-2024\nFEATURES             Location/Qualifiers\n{features}ORIGIN\n        1 a\n//\n").into_bytes();
    let members = |n: usize| (0..n).map(|i| format!("{}..{}", 10 + i % 90, 100 + i % 900)).collect::<Vec<_>>();
    // seven members to a line
    let lines = |open: &str, n: usize, close: &str| {
        let text: Vec<String> = members(n).chunks(7).map(|line| line.join(",")).collect();
        format!("     CDS             {open}{}{close}\n                     /gene=\"a\"\n", text.join(",\n                     "))
    };
    let deep = |n: usize| record(lines(&"complement(join(".repeat(8), n, &")".repeat(16)));
    [("a location of 350,000 members", record(lines("join(", 350_000, ")"))), ("a location of 700,000 members", record(lines("join(", 700_000, ")"))),
        ("a location of 1,400,000 members", record(lines("join(", 1_400_000, ")"))), ("the same, 16 words deep", deep(1_400_000)),
        ("40,000 features of six members", record(lines("join(", 6, ")").repeat(40_000)))]
}

fn measured_reading(name: &str, text: &[u8], rounds: u64) -> Option<()> {
    let (seq, both) = (parse_slice(text).ok()?.pop()?, libraries());
    let mut room = read_asked(text)?;
    let mut out = vec![0; text.len()];
    let mut reading = vec![Vec::new(); GB_IO.len() + OTHERS.len()];
    for _ in 0..rounds {
        time_reading(both, &mut reading, text, &mut room, &mut out, 1);
    }
    println!("\n{name}: {} bytes, {} comments, {} features", text.len(), seq.comments.len(), seq.features.len());
    show("reading", text.len(), &GB_IO, &reading);
    Some(())
}

/// A turn of each contender.
fn time_reading((this, other): (Library, Library), reading: &mut [Vec<f64>], text: &[u8], room: &mut Rooms, out: &mut [u8], repeats: usize) {
    reading[0].push(timed(repeats, || parse_slice(black_box(text)).unwrap()));
    reading[1].push(timed(repeats, || SeqReader::new(black_box(text)).next().unwrap().unwrap()));
    reading[2].push(timed(repeats, || read_asked(black_box(text)).unwrap()));
    reading[3].push(timed(repeats, || read_at_hand(this, black_box(text), false, room)));
    reading[4].push(timed(repeats, || read_at_hand(other, black_box(text), false, room)));
    reading[5].push(timed(repeats, || out[..text.len()].copy_from_slice(black_box(text))));
}

fn measured(name: &str, table: &Table, rounds: u64) -> Option<()> {
    let Writing::Done(text) = asis::write(table, false, false) else {
        return None;
    };
    let (seq, (this, other)) = (parse_slice(&text).ok()?.pop()?, libraries());
    let rooms = read_asked(&text)?;
    let mut room = rooms.clone();
    let size = size_of(&rooms)?;
    let mut out = vec![0; text.len().max(size)];
    let repeats = ROUND / text.len() + 1;
    let mut reading = vec![Vec::new(); GB_IO.len() + OTHERS.len()];
    let mut writing = vec![Vec::new(); GB_IO_WRITES.len() + OTHERS.len()];
    for _ in 0..rounds {
        time_reading((this, other), &mut reading, &text, &mut room, &mut out, repeats);
        writing[0].push(timed(repeats, || write_gb_io(black_box(&seq))));
        writing[1].push(timed(repeats, || write_asked(black_box(&rooms)).unwrap()));
        writing[2].push(timed(repeats, || this.write(&mut out[..size], black_box(&rooms), HOW)));
        writing[3].push(timed(repeats, || other.write(&mut out[..size], black_box(&rooms), HOW)));
        writing[4].push(timed(repeats, || out[..text.len()].copy_from_slice(black_box(&text))));
    }
    if room.texts != rooms.texts || room.letters != rooms.letters || rooms.letters != seq.seq {
        return None;
    }
    println!("\n{name}: {} bytes, {} features, {} letters", text.len(), seq.features.len(), seq.seq.len());
    show("reading", text.len(), &GB_IO, &reading);
    show("writing", text.len(), &GB_IO_WRITES, &writing);
    Some(())
}

fn least(times: &[f64]) -> f64 {
    times.iter().copied().fold(f64::INFINITY, f64::min)
}

fn most(times: &[f64]) -> f64 {
    times.iter().copied().fold(0.0, f64::max)
}

fn show(what: &str, bytes: usize, gb_io: &[&str], times: &[Vec<f64>]) {
    let rounds = times[0].len();
    let gb_io_rounds: Vec<f64> = (0..rounds).map(|i| least(&times[..gb_io.len()].iter().map(|own| own[i]).collect::<Vec<_>>())).collect();
    let memcpy = least(&times[times.len() - 1]);
    for (name, own) in gb_io.iter().chain(&OTHERS).zip(times) {
        let ratios: Vec<f64> = gb_io_rounds.iter().zip(own).map(|(gb_io, own)| gb_io / own).collect();
        let each = 1e9 / bytes as f64;
        println!("  {what} {name:<31} {:>8.3} to {:>8.3} ns   {:>6.2} times gb-io, worst {:>6.2}   {:>7.1} memcpy", least(own) * each, most(own) * each,
            least(&gb_io_rounds) / least(own), least(&ratios), least(own) / memcpy);
    }
}

/// Seconds for one call.
fn timed<T>(repeats: usize, mut call: impl FnMut() -> T) -> f64 {
    let start = Instant::now();
    for _ in 0..repeats {
        black_box(call());
    }
    start.elapsed().as_secs_f64() / repeats as f64
}

const HOW: How = How { keeping: false, width: WIDTH, truncate: false, escape: false };

/// Sizes first, then rooms of these sizes, then the record.
fn read_asked(text: &[u8]) -> Option<Rooms> {
    let answer = library::read(text, 0, false, &mut [], [&mut [], &mut [], &mut [], &mut [], &mut []], &mut []);
    if answer.number != 6 {
        return None;
    }
    let sizes = answer.sizes;
    let row = |i: usize| vec![0; sizes[1 + i] * ROWS[i]];
    let mut rooms = Rooms { texts: vec![0; sizes[0]], references: row(0), comments: row(1), features: row(2), qualifiers: row(3), locations: row(4),
        letters: vec![0; sizes[6]], head: Vec::new() };
    rooms.head = read_at_hand(THIS, text, false, &mut rooms)?;
    Some(rooms)
}

/// The head of the record that is read into these rooms.
fn read_at_hand(by: Library, text: &[u8], strict: bool, rooms: &mut Rooms) -> Option<Vec<usize>> {
    let Rooms { texts, references, comments, features, qualifiers, locations, letters, .. } = rooms;
    let answer = by.read(text, 0, strict, texts, [references, comments, features, qualifiers, locations], letters);
    (answer.number == 0).then(|| answer.head.to_vec())
}

fn size_of(rooms: &Rooms) -> Option<usize> {
    match library::write(&mut [], rooms, HOW) {
        (6, size) => Some(size),
        _ => None,
    }
}

fn write_asked(rooms: &Rooms) -> Option<Vec<u8>> {
    let mut out = vec![0; size_of(rooms)?];
    (library::write(&mut out, rooms, HOW).0 == 0).then_some(out)
}

fn write_gb_io(seq: &Seq) -> Vec<u8> {
    let mut out = Vec::new();
    SeqWriter::new(&mut out).write(seq).unwrap();
    out
}

/// A record with this many letters and features, in the manner of a bacterial genome.
fn table(r: &mut Random, letters: usize, features: usize) -> Table {
    let some = |text: &str| Some(text.as_bytes().to_vec());
    let mut t = Table {
        name: some("NC_000001"),
        length: Some(letters),
        molecule: some("DNA"),
        circular: true,
        division: b"BCT".to_vec(),
        date: Some([1, 3, 2024]),
        definition: some("A record made to be measured, complete genome."),
        accession: some("NC_000001"),
        version: some("NC_000001.1"),
        letters: (0..letters).map(|_| r.pick(b"acgt")).collect(),
        ..Table::default()
    };
    if features > 0 {
        t.source = some("Escherichia coli");
        t.organism = some("Escherichia coli\nBacteria; Pseudomonadota; Gammaproteobacteria.");
        t.references = vec![Reference { text: b"1  (bases 1 to 5000)".to_vec(), title: b"Direct Submission".to_vec(), journal: some("Unpublished"), ..Reference::default() }];
    }
    t.features = (0..features).map(|i| feature(r, i)).collect();
    t
}

/// Every fourth is a CDS with a translation, the others are short.
fn feature(r: &mut Random, i: usize) -> Feature {
    let start = 1 + 300 * i;
    let range = format!("{}..{}", start, start + 299);
    let location = if r.chance(40) { format!("complement({range})") } else { range };
    let mut qualifiers = vec![(b"gene".to_vec(), format!("gen{i}")), (b"locus_tag".to_vec(), format!("B_{i:05}"))];
    if i % 4 == 0 {
        let translation: Vec<u8> = (0..99).map(|_| r.pick(b"MKLVAGDERSTIP")).collect();
        qualifiers.extend([(b"codon_start".to_vec(), "1".into()), (b"transl_table".to_vec(), "11".into()),
            (b"product".to_vec(), "a protein of some length that needs more than one line to be told".into()),
            (b"translation".to_vec(), String::from_utf8(translation).unwrap())]);
    }
    let kind = if i % 4 == 0 { "CDS" } else { "gene" };
    Feature { kind: kind.into(), location: location.into_bytes(), qualifiers: qualifiers.into_iter().map(|(k, v)| (k, Some(v.into_bytes()))).collect() }
}
