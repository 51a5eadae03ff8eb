//! The strict switch, from the words of document 02's ticket 7: "a letter without an IUPAC code" is 16, "in file order at the same standing as 9, hence before 8, with the letter's line".
//! Every other answer is the one without the switch.
use crate::library::Answer;
use crate::lines::{letters_begin, origin, passed, spot, well_up_to};

/// The letter has a code.
pub fn coded(letter: &u8) -> bool {
    b"ACGTURYSWKMBDHVN".contains(&letter.to_ascii_uppercase())
}

/// The answer for a stray letter at a place.
pub fn sixteen(slice: &[u8], at: usize, place: usize) -> Answer {
    let (line, offset) = spot(slice, at, place);
    Answer { line, offset, ..Answer::new(16, at) }
}

/// Where the letter stands that strict reading refuses, if there is one, beside the answer without the switch: the first without a code, with none but letters and what is skipped
/// before it.
pub fn stray(slice: &[u8], at: usize, answer: &Answer) -> Option<usize> {
    // whether the reading without the switch came to the letters; of 2 its line does not say that
    let came = |origin: usize| match answer.number {
        0 => origin < answer.place,
        2 => well_up_to(slice, at, origin),
        7 => origin < answer.offset,
        8 | 9 => true,
        _ => false,
    };
    let origin = origin(slice, at).filter(|&origin| came(origin))?;
    let letters = letters_begin(slice, origin)?;
    (letters..slice.len()).take_while(|&i| passed(slice[i])).find(|&i| slice[i].is_ascii_alphabetic() && !coded(&slice[i]))
}
