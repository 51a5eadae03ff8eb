//! The program `still` for inputs of up to 16,777,216 bytes: read, written by the keeping writer and read again, is each record still the same? Here each one
//! is written and read again. The top script of that name starts it where the proved program's rooms are too small.
mod arguments;

use arguments::Asked;
use std::io::{stdout, Write};
use std::process::exit;
use vilggodan::Record;

/// What is said of a record that was written as this text.
fn judged(text: &[u8], asked: &Asked) -> String {
    if text.len() > 16_777_216 {
        return "longer than 16,777,216 bytes when written".to_string();
    }
    let mut again = Record::new();
    match asked.read(&mut again, text, 0) {
        Err(error) => format!("written, and then {error}"),
        Ok(place) if place != text.len() || again.keep(asked.layout).as_deref() != Ok(text) => "written, and read again as another".to_string(),
        Ok(_) => "kept".to_string(),
    }
}

fn main() -> std::io::Result<()> {
    let Some(asked) = arguments::asked().filter(|asked| !asked.keep && !asked.layout.truncate && !asked.layout.escape) else {
        eprintln!("usage: still [FILE] [WIDTH] [strict]   (WIDTH: 60 to 132, else 80)");
        exit(2)
    };
    let input = arguments::input()?;
    let mut record = Record::new();
    let mut at = 0;
    let mut status = 0;
    for ordinal in 1.. {
        let next = match asked.read(&mut record, &input, at) {
            Ok(next) => next,
            Err(error) if error.number == 1 => break,
            Err(error) => {
                stdout().write_all(&asked.unread(&input, ordinal, error))?;
                exit(1)
            }
        };
        let told = record.keep(asked.layout).map(|text| judged(&text, &asked));
        match &told {
            Ok(told) => {
                let name = record.name().map(|name| [b", ", name].concat());
                let line = [format!("record {ordinal}").as_bytes(), &name.unwrap_or_default(), b": ", told.as_bytes(), b"\n"].concat();
                stdout().write_all(&line)?;
            }
            Err(error) => stdout().write_all(&asked.unwritten(&input, at, ordinal, *error))?,
        }
        if told.as_deref() != Ok("kept") {
            status = 1;
        }
        at = next;
    }
    exit(status)
}
