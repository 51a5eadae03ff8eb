//! Answers of the Rust gb-io: one request a line, one reply a line. See README.md.
mod location;
mod table;

mod asis {
    use gb_io_asis as gb;
    include!("copy.rs");
}

mod departed {
    use gb_io_departed as gb;
    include!("copy.rs");
    pub use gb::reader::switch::set;
}

use std::io::{self, BufRead, Write};
use std::panic::{catch_unwind, set_hook};
use table::{number, tokens, Bad, Tokens};

/// The Rust reads locations by recursion, so deep ones need room.
const STACK: usize = 1 << 31;

fn main() {
    set_hook(Box::new(|_| {}));
    let worker = std::thread::Builder::new().stack_size(STACK).spawn(answer_all);
    worker.unwrap().join().unwrap().unwrap();
}

fn answer_all() -> io::Result<()> {
    let mut input = io::BufReader::with_capacity(1 << 16, io::stdin());
    let mut output = io::BufWriter::with_capacity(1 << 16, io::stdout());
    let mut line = Vec::new();
    while input.read_until(b'\n', &mut line)? > 0 {
        if line.last() == Some(&b'\n') {
            line.pop();
        }
        let reply = match catch_unwind(|| answer(&line)) {
            Ok(Ok(reply)) => reply,
            Ok(Err(Bad::Value)) => "err".into(),
            Ok(Err(Bad::Form(why))) => format!("bad {}", why),
            Err(_) => "panic".into(),
        };
        writeln!(output, "{}", reply)?;
        if input.buffer().is_empty() {
            output.flush()?; // whoever asks may be waiting
        }
        line.clear();
    }
    output.flush()
}

fn answer(line: &[u8]) -> Result<String, Bad> {
    let mut t = tokens(line);
    match t.next()? {
        b"R" => read(&mut t),
        b"W" => write(&mut t),
        b"L" => locate(&mut t),
        _ => Err(Bad::Form("not R, W or L")),
    }
}

/// No mask, `-`, is the unchanged copy.
fn mask(t: &mut Tokens) -> Result<Option<u32>, Bad> {
    match t.next()? {
        b"-" => Ok(None),
        token => Ok(Some(number(token)? as u32)),
    }
}

fn flag(t: &mut Tokens) -> Result<bool, Bad> {
    match t.next()? {
        b"0" => Ok(false),
        b"1" => Ok(true),
        _ => Err(Bad::Form("not 0 or 1")),
    }
}

fn read(t: &mut Tokens) -> Result<String, Bad> {
    let mask = mask(t)?;
    let at = t.number()?;
    let slice = t.bytes()?;
    t.end()?;
    let bytes = slice.get(at..).ok_or(Bad::Value)?;
    Ok(match mask {
        None => asis::read(bytes, at),
        Some(mask) => {
            departed::set(mask, 0);
            departed::read(bytes, at)
        }
    })
}

fn locate(t: &mut Tokens) -> Result<String, Bad> {
    let text = t.bytes()?;
    t.end()?;
    Ok(location::read(&text))
}

fn write(t: &mut Tokens) -> Result<String, Bad> {
    let mask = mask(t)?;
    let width = t.number()?;
    let truncate = flag(t)?;
    let escape = flag(t)?;
    Ok(match mask {
        None => asis::write(&asis::take_table(t)?, truncate, escape),
        Some(mask) => {
            if mask >> 6 & 1 == 1 && !(60..=132).contains(&width) {
                return Err(Bad::Value); // the Rust's loop might not end
            }
            departed::set(mask, width);
            departed::write(&departed::take_table(t)?, truncate, escape)
        }
    })
}
