//! Holds the proved library against the Rust gb-io in one process, and measures both. `evidence/run` says how to call it.
mod files;
mod library;
mod lines;
mod location;
mod random;
mod reading;
mod roundtrip;
mod rules;
mod slices;
mod speed;
mod strict;
mod table;
mod tables;
mod tally;
mod words;
mod writing;

mod asis {
    use gb_io_asis as gb;
    include!("copy.rs");
}

mod departed {
    use gb_io_departed as gb;
    include!("copy.rs");
    pub use gb::reader::switch::set;
}

use std::panic::set_hook;
use std::path::PathBuf;
use std::process::{exit, Command, Stdio};
use std::time::Instant;
use table::Table;
use tally::Tally;

/// What a copy of gb-io answers to a reading: the table and how many bytes it took.
#[derive(PartialEq)]
pub enum Reading {
    Done(Box<Table>, usize),
    None,
    Refused,
    Panicked,
}

/// What a copy of gb-io answers to a writing.
#[derive(PartialEq)]
pub enum Writing {
    Done(Vec<u8>),
    Refused,
    Panicked,
}

/// gb-io reads locations by recursion.
const STACK: usize = 1 << 28;

struct Asked {
    mode: String,
    count: u64,
    seed: u64,
    worker: Option<u64>,
}

fn asked() -> Option<Asked> {
    let mut words = std::env::args().skip(1);
    let mode = words.next()?;
    let (small, full) = match mode.as_str() {
        "reading" => (500_000, 5_000_000),
        "writing" | "roundtrip" => (200_000, 1_000_000),
        "speed" => (15, 60),
        _ => return None,
    };
    let mut asked = Asked { mode, count: small, seed: 1, worker: None };
    while let Some(word) = words.next() {
        match word.as_str() {
            "--full" => asked.count = full,
            "--count" => asked.count = words.next()?.parse().ok()?,
            "--seed" => asked.seed = words.next()?.parse().ok()?,
            "--worker" => asked.worker = Some(words.next()?.parse().ok()?),
            _ => return None,
        }
    }
    Some(asked)
}

fn main() {
    set_hook(Box::new(|_| {}));
    let words: Vec<String> = std::env::args().skip(1).collect();
    if words.first().map_or(false, |word| word == "files") {
        on_large_stack(move || files::run(&words[1..]));
    }
    let Some(asked) = asked() else {
        eprintln!("usage: evidence/run reading|writing|roundtrip|speed [--count N | --full] [--seed S]\n       evidence/run files PATH...");
        exit(2);
    };
    on_large_stack(move || match (asked.mode.as_str(), asked.worker) {
        ("speed", _) => speed::run(asked.count),
        (_, None) => all_workers(&asked),
        (mode, Some(worker)) => {
            let tally = match mode {
                "reading" => reading::run(asked.count, asked.seed, worker),
                "writing" => writing::run(asked.count, asked.seed, worker),
                _ => roundtrip::run(asked.count, asked.seed, worker),
            };
            tally.hand_over();
            true
        }
    });
}

/// Does the work and ends the program with its verdict.
fn on_large_stack(work: impl FnOnce() -> bool + Send + 'static) -> ! {
    let done = std::thread::Builder::new().stack_size(STACK).spawn(work).unwrap().join();
    exit(if done.unwrap_or(false) { 0 } else { 1 });
}

/// The program, under the emulator that evidence/run names on a machine that is no x86-64 one.
fn under_emulator(program: PathBuf) -> Command {
    match std::env::var_os("EVIDENCE_EMULATOR") {
        None => Command::new(program),
        Some(emulator) => {
            let mut command = Command::new(emulator);
            command.arg(program);
            command
        }
    }
}

/// The departures of a copy of gb-io are switches of the whole process, so each worker is a process.
fn all_workers(asked: &Asked) -> bool {
    let start = Instant::now();
    let workers = std::thread::available_parallelism().map_or(1, |n| n.get() as u64);
    let children: Vec<_> = (0..workers).map(|worker| {
        let count = asked.count / workers + (worker < asked.count % workers) as u64;
        let numbers = [count, asked.seed, worker].map(|n| n.to_string());
        under_emulator(std::env::current_exe().unwrap())
            .args([&asked.mode, "--count", &numbers[0], "--seed", &numbers[1], "--worker", &numbers[2]])
            .stdout(Stdio::piped())
            .spawn()
            .unwrap()
    }).collect();
    let mut tally = Tally::default();
    let mut well = true;
    for child in children {
        let output = child.wait_with_output().unwrap();
        well &= output.status.success();
        tally.take_over(&output.stdout);
    }
    println!("{}: {} made from seed {}, {} workers, {:.0} s", asked.mode, asked.count, asked.seed, workers, start.elapsed().as_secs_f64());
    tally.show();
    if !well {
        println!("a worker did not end well");
    }
    well && tally.left() == 0
}
