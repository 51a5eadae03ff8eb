// Ours: a way in for the harness. As a child of stream_parser.rs it sees the private buffer.
use super::StreamParser;
use crate::errors::GbParserError;
use crate::reader::location::location;
use crate::seq::{Location, Seq};

/// Reads one record of `bytes`; with it, how many bytes are used up.
/// The buffer holds all of `bytes` and one more, so it never grows.
pub fn read_one(bytes: &[u8]) -> Result<Option<(Seq, usize)>, GbParserError> {
    let mut parser = StreamParser::new(bytes, bytes.len() + 1);
    let record = parser.read_one_record()?;
    let left = parser.buffer.available_data() + parser.stream.len();
    Ok(record.map(|seq| (seq, bytes.len() - left)))
}

/// Reads a location's text as features and CONTIG do; with it, how many bytes are left and ignored.
pub fn read_location(text: &[u8]) -> Option<(Location, usize)> {
    location(text).ok().map(|(left, read)| (read, left.len()))
}
