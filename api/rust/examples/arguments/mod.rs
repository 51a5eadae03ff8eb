//! The arguments of the programs and the messages that they print, as the proved programs take and print them: byte for byte the same (crates app_options and app_lines).
use std::io::Read;
use std::os::unix::ffi::OsStrExt;
use vilggodan::{Error, Layout, Line, Record};

/// What was asked for: how a record is laid out, whether the keeping writer and strict reading are wanted, how many columns a message's line may take, and the input's name.
pub struct Asked {
    pub layout: Layout,
    pub keep: bool,
    strict: bool,
    columns: usize,
    name: Option<Vec<u8>>,
}

/// The number that two or three digits say.
fn number(word: &[u8]) -> Option<usize> {
    let digits = (2..=3).contains(&word.len()) && word.iter().all(u8::is_ascii_digit);
    std::str::from_utf8(word).ok().filter(|_| digits)?.parse().ok()
}

/// None where an argument was not understood.
pub fn asked() -> Option<Asked> {
    let mut asked = Asked { layout: Layout::default(), keep: false, strict: false, columns: 80, name: None };
    for word in std::env::args_os().skip(1) {
        match word.as_bytes() {
            b"keep" => asked.keep = true,
            b"truncate" => asked.layout.truncate = true,
            b"escape" => asked.layout.escape = true,
            b"strict" => asked.strict = true,
            word => {
                if let Some(name) = word.strip_prefix(b"name=") {
                    asked.name = Some(name.to_vec()).filter(|name| name.len() <= 4_091);
                } else if let Some(columns) = word.strip_prefix(b"columns=") {
                    asked.columns = number(columns).filter(|columns| (20..=999).contains(columns))?;
                } else {
                    asked.layout.width = number(word).filter(|width| (60..=132).contains(width))?;
                }
            }
        }
    }
    Some(asked)
}

/// A byte as it is shown: a space to `~` as it is, three others by a letter after a backslash, the rest by two digits.
fn shown(b: u8) -> Vec<u8> {
    match b {
        b' '..=b'~' => vec![b],
        b'\t' => b"\\t".to_vec(),
        b'\n' => b"\\n".to_vec(),
        b'\r' => b"\\r".to_vec(),
        _ => format!("\\x{b:02x}").into_bytes(),
    }
}

/// A line as far as the columns go; a byte that does not fit whole is left out, and what comes after it.
fn cut(line: &[u8], columns: usize) -> Vec<u8> {
    let mut out = Vec::new();
    for &b in line {
        let bytes = shown(b);
        if columns - out.len() < bytes.len() {
            break;
        }
        out.extend(bytes);
    }
    out
}

/// Where the LOCUS line stands of the record that was read at a place: the first line that begins so.
fn locus(input: &[u8], at: usize) -> usize {
    let mut place = at;
    while place < input.len() && !input[place..].starts_with(b"LOCUS") {
        let rest = &input[place..];
        place += rest.iter().position(|&b| b == b'\n').map_or(rest.len(), |end| end + 1);
    }
    place
}

impl Asked {
    /// Reads the record at a place, strictly if that was asked for, and gives the place after it.
    pub fn read(&self, record: &mut Record, input: &[u8], at: usize) -> Result<usize, Error> {
        if self.strict {
            record.read_strict(input, at)
        } else {
            record.read(input, at)
        }
    }

    /// The message about a record that was not read.
    pub fn unread(&self, input: &[u8], ordinal: usize, error: Error) -> Vec<u8> {
        self.message(input, error.line.map(|line| line.offset), ordinal, error)
    }

    /// The message about a record that was read at a place and not written: it tells the LOCUS line.
    pub fn unwritten(&self, input: &[u8], at: usize, ordinal: usize, error: Error) -> Vec<u8> {
        self.message(input, Some(locus(input, at)), ordinal, error)
    }

    fn message(&self, input: &[u8], offset: Option<usize>, ordinal: usize, error: Error) -> Vec<u8> {
        let mut out = Vec::new();
        if let Some(name) = &self.name {
            // bytes above 127 stay as they are: whoever gave the name can read it
            out.extend(name.iter().flat_map(|&b| if b > 127 { vec![b] } else { shown(b) }));
            out.extend(b": ");
        }
        let line = offset.map(|offset| Line::of_file(input, offset));
        let record = match line {
            Some(line) => format!("line {} (record {ordinal})", line.number),
            None => format!("record {ordinal}"),
        };
        out.extend(format!("{record}: {}, {}\n", error.number, error.reason).bytes());
        if let Some(line) = line {
            match line.bytes(input) {
                [] if line.offset == input.len() => out.extend(b"(the end of the input)"),
                [] => out.extend(b"(an empty line)"),
                bytes => out.extend(cut(bytes, self.columns)),
            }
            out.push(b'\n');
        }
        out
    }
}

/// All of standard input.
pub fn input() -> std::io::Result<Vec<u8>> {
    let mut input = Vec::new();
    std::io::stdin().read_to_end(&mut input)?;
    Ok(input)
}
