//! What the unchanged Rust reads in a location's text, as JSON. See README.md.
use gb_io_asis::reader::place::read_location;
use gb_io_asis::seq::{After, Before, GapLength, Location};

pub fn read(text: &[u8]) -> String {
    match read_location(text) {
        Some((location, left)) => format!("0 {} {}", left, tree(&location)),
        None => "err".into(),
    }
}

fn tree(location: &Location) -> String {
    match location {
        Location::Range((a, Before(before)), (b, After(after))) => format!("[\"range\",{},{},{},{}]", a + 1, b, before, after),
        Location::Between(a, b) => format!("[\"between\",{},{}]", a + 1, b + 1),
        Location::Complement(inner) => format!("[\"complement\",[{}]]", tree(inner)),
        Location::Join(inner) => trees("join", inner),
        Location::Order(inner) => trees("order", inner),
        Location::Bond(inner) => trees("bond", inner),
        Location::OneOf(inner) => trees("one-of", inner),
        Location::Gap(GapLength::Known(length)) => format!("[\"gap\",\"{}\"]", length),
        Location::Gap(GapLength::Unknown) => "[\"gap\",\"\"]".into(),
        Location::Gap(GapLength::Unk100) => "[\"gap\",\"unk100\"]".into(),
        Location::External(name, None) => format!("[\"external\",\"{}\",null]", hex(name)),
        Location::External(name, Some(inner)) => format!("[\"external\",\"{}\",{}]", hex(name), tree(inner)),
    }
}

fn trees(word: &str, inner: &[Location]) -> String {
    let inner: Vec<String> = inner.iter().map(tree).collect();
    format!("[\"{}\",[{}]]", word, inner.join(","))
}

fn hex(text: &str) -> String {
    text.bytes().map(|b| format!("{:02x}", b)).collect()
}
