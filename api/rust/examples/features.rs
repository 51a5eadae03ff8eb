//! Lists the features of each record on standard input: kind, location and the bases that it covers, as `3..9, 20..25 (-)`, and each qualifier's key and value.
use std::io::Read;
use vilggodan::{Location, Stretch};

fn shown(text: &[u8]) -> String {
    String::from_utf8_lossy(text).escape_debug().to_string()
}

/// The stretches one after the other; (-) after those of the other strand, once if it is all of them.
fn covered(location: &Location) -> String {
    let stretches = location.stretches();
    let all_reverse = stretches.iter().all(|s| s.reverse);
    let strand = |s: &Stretch| if s.reverse && !all_reverse { " (-)" } else { "" };
    let listed: Vec<String> = stretches.iter().map(|s| format!("{s}{}", strand(s))).collect();
    match (listed.is_empty(), all_reverse) {
        (true, _) => "no base".to_string(),
        (false, true) => listed.join(", ") + " (-)",
        (false, false) => listed.join(", "),
    }
}

fn main() -> std::io::Result<()> {
    let mut input = Vec::new();
    std::io::stdin().read_to_end(&mut input)?;
    for record in vilggodan::records(&input) {
        let record = record.map_err(std::io::Error::other)?;
        println!("{}", record.name().map_or("without a name".to_string(), shown));
        for feature in record.features() {
            println!("    {} {}: {}", shown(feature.kind), shown(feature.location), covered(&feature.tree()));
            for qualifier in feature.qualifiers() {
                println!("        {} {}", shown(qualifier.key), qualifier.value.map_or(String::new(), shown));
            }
        }
    }
    Ok(())
}
