//! The program `rewrite` for inputs of up to 16,777,216 bytes: the rooms grow as a record needs it. The top script of that name starts it where the proved
//! program's rooms are too small. Its answers are the proved library's; this loop around them is not proved.
mod arguments;

use std::io::{stderr, stdout, Write};
use std::process::exit;
use vilggodan::Record;

fn main() -> std::io::Result<()> {
    let Some(asked) = arguments::asked() else {
        eprintln!("usage: rewrite [FILE] [WIDTH] [keep] [truncate] [escape] [strict]   (WIDTH: 60 to 132, else 80)");
        exit(2)
    };
    let input = arguments::input()?;
    let mut record = Record::new();
    let mut at = 0;
    for ordinal in 1.. {
        let next = match asked.read(&mut record, &input, at) {
            Ok(next) => next,
            Err(error) if error.number == 1 => break,
            Err(error) => {
                stderr().write_all(&asked.unread(&input, ordinal, error))?;
                exit(1)
            }
        };
        match if asked.keep { record.keep(asked.layout) } else { record.write(asked.layout) } {
            Ok(text) => stdout().write_all(&text)?,
            Err(error) => {
                stderr().write_all(&asked.unwritten(&input, at, ordinal, error))?;
                exit(1)
            }
        }
        at = next;
    }
    Ok(())
}
