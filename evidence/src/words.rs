//! What generated records and tables are made of.
use crate::random::Random;

pub const WORDS: &[&str] = &["a", "Test", "plasmid.", "gene", "of", "x-1", "says", "\"keep\"", "beta-lactamase", "Escherichia coli", "é", "naïve", "€5", "𝄞",
    "/pseudo", "//", "LOCUS", "1..5", "a=b", "(bases 1 to 12)", ";", "No. 7"];
/// Letters that are IUPAC codes, each of them, the bases more often; and all letters.
pub const LETTERS: &[u8] = b"acgtacgtacgtnACGTNuUryswkmbdhvRYSWKMBDHV";
const ALPHABET: &[u8] = b"abcdefghijklmnopqrstuvwxyzABCDEFGHIJKLMNOPQRSTUVWXYZ";
pub const KEYS: &[&str] = &["note", "gene", "product", "locus_tag", "translation", "codon_start", "transl_table", "anticodon", "transl_except", "pseudo", "k",
    "db_xref", "citation", "compare", "mod_base", "number", "rpt_type", "EC_number", "odd key", "é"];
pub const KINDS: &[&str] = &["gene", "CDS", "source", "misc_feature", "tRNA", "rRNA", "regulatory", "repeat_region", "x", "5'UTR", "-10_signal"];
pub const MONTHS: &[&str] = &["JAN", "FEB", "MAR", "APR", "MAY", "JUN", "JUL", "AUG", "SEP", "OCT", "NOV", "DEC"];

/// Letters of a sequence: half of the time codes alone, else any letter rarely, often or always.
pub fn letters(r: &mut Random, count: usize) -> Vec<u8> {
    let any = r.pick(&[0, 0, 0, 2, 20, 100]);
    (0..count).map(|_| if r.chance(any) { r.pick(ALPHABET) } else { r.pick(LETTERS) }).collect()
}

/// Up to `most` words, one space between them.
pub fn put_words(r: &mut Random, most: usize, out: &mut Vec<u8>) {
    for i in 0..r.from_to(0, most) {
        if i > 0 {
            out.push(b' ');
        }
        out.extend(r.pick(WORDS).as_bytes());
    }
}

pub fn words(r: &mut Random, most: usize) -> Vec<u8> {
    let mut out = Vec::new();
    put_words(r, most, &mut out);
    out
}

/// Each quote written twice.
pub fn escaped(text: &[u8]) -> Vec<u8> {
    let mut out = Vec::with_capacity(text.len() + 4);
    for &b in text {
        out.push(b);
        if b == b'"' {
            out.push(b);
        }
    }
    out
}
