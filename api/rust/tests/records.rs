//! The safe wrapper on the examples of document 01 and at the edges of its answers.
use vilggodan::{records, Error, Layout, Line, Location, Record};

const P318: &[u8] = b"LOCUS       P318                      12 bp    DNA     circular SYN 01-MAR-2024
DEFINITION  Test plasmid.
FEATURES             Location/Qualifiers
     misc_feature    1..12
                     /note=\"says \"\"keep\"\"\"
                     /pseudo
ORIGIN      
        1 acgtacgtac gt
//
";

fn first(s: &[u8]) -> Record {
    records(s).next().expect("a record").expect("that is read")
}

#[test]
fn texts_and_rows() {
    let record = first(P318);
    assert_eq!(record.name(), Some(&b"P318"[..]));
    assert_eq!(record.length(), Some(12));
    assert!(record.is_circular());
    assert_eq!(record.text("DEFINITION"), Some(&b"Test plasmid."[..]));
    assert_eq!(record.text("KEYWORDS"), None);
    assert_eq!(record.letters(), b"acgtacgtacgt");
    let features: Vec<_> = record.features().collect();
    assert_eq!(features.len(), 1);
    assert_eq!((features[0].kind, features[0].location), (&b"misc_feature"[..], &b"1..12"[..]));
    let qualifiers: Vec<_> = features[0].qualifiers().map(|q| (q.key, q.value)).collect();
    assert_eq!(qualifiers, [(&b"note"[..], Some(&b"says \"keep\""[..])), (&b"pseudo"[..], None)]);
}

#[test]
fn written_again() {
    let record = first(P318);
    assert_eq!(record.write(Layout::default()).unwrap(), P318);
    assert_eq!(record.keep(Layout::default()).unwrap(), P318);
}

#[test]
fn an_old_origin_line() {
    let old = String::from_utf8(P318.to_vec()).unwrap().replace("ORIGIN      ", "ORIGIN 1 bp upstream");
    let record = first(old.as_bytes());
    assert_eq!(record.letters(), b"acgtacgtacgt");
    assert_eq!(record.keep(Layout::default()).unwrap(), P318);
}

#[test]
fn record_after_record() {
    let file = [P318, b"\n", P318].concat();
    assert_eq!(records(&file).filter(Result::is_ok).count(), 2);
}

#[test]
fn refusals_have_numbers() {
    let number = |s: &[u8]| records(s).next().unwrap().unwrap_err().number;
    assert_eq!(number(b"no record\n"), 4);
    assert_eq!(number(&P318[..200]), 2);
    assert_eq!(number(&vec![b' '; 16_777_217]), 3);
    let record = first(P318);
    let layout = |width| Layout { width, ..Layout::default() };
    assert_eq!(record.write(layout(59)).unwrap_err().number, 12);
    assert_eq!(record.write(layout(133)).unwrap_err().number, 12);
    let no_date = String::from_utf8(P318.to_vec()).unwrap().replace(" 01-MAR-2024", "");
    let unread_locus = first(no_date.as_bytes());
    assert_eq!(unread_locus.keep(Layout::default()).unwrap_err().number, 13);
    assert!(unread_locus.write(Layout::default()).is_ok());
}

/// The line and the offset of the refusal at a place.
fn spot(s: &[u8], at: usize) -> Option<(usize, usize)> {
    let error = Record::new().read(s, at).unwrap_err();
    error.line.map(|line| (line.number, line.offset))
}

#[test]
fn refusals_have_lines() {
    // 2: the end of the input, whose line may have bytes
    assert_eq!(spot(&P318[..106], 0), Some((3, 106)));
    assert_eq!(spot(&P318[..200], 0), Some((5, 174)));
    // 4: the line that stopped the search, or the end
    assert_eq!(spot(b"no record\n", 0), Some((2, 10)));
    assert_eq!(spot(b"a line\nno \xff record\nLOCUS", 0), Some((2, 7)));
    // 8: the line of the `/`; 9: that of the byte, and CR alone ends no line
    let fewer = String::from_utf8(P318.to_vec()).unwrap().replace(" gt\n", " g\n");
    assert_eq!(spot(fewer.as_bytes(), 0), Some((9, P318.len() - 4)));
    let stray = [&P318[..P318.len() - 3], b"\r!\r\n//\n"].concat();
    assert_eq!(spot(&stray, 0), Some((9, P318.len() - 3)));
    // 14: the feature's line
    let deep = located(&("join(".repeat(17) + "1" + &")".repeat(17)));
    assert_eq!(spot(&deep, 0), Some((4, 147)));
    // 1 and 3 have none
    assert_eq!(spot(P318, P318.len()), None);
    assert_eq!(spot(P318, P318.len() + 1), None);
    // nor has a refusal to write
    let wide = Layout { width: 133, ..Layout::default() };
    assert_eq!(first(P318).write(wide).unwrap_err().line, None);
}

#[test]
fn lines_are_counted_from_the_place_or_of_the_file() {
    let two = [P318, &located("1..x")].concat();
    let offset = P318.len() + 147;
    assert_eq!(spot(&two, P318.len()), Some((4, offset)));
    let error = records(&two).nth(1).unwrap().unwrap_err();
    let line = Line { number: 13, offset };
    assert_eq!(error.line, Some(line));
    assert_eq!(Line::of_file(&two, offset), line);
    assert_eq!(line.bytes(&two), b"     misc_feature    1..x");
    assert_eq!(error.to_string(), "line 13: 7, this line is no feature, qualifier, section or //");
    let unlined = Error { line: None, ..error };
    assert_eq!(unlined.to_string(), "7, this line is no feature, qualifier, section or //");
}

#[test]
fn a_refusal_leaves_the_record() {
    let mut record = first(P318);
    assert_eq!(record.read(b"no record\n", 0).unwrap_err().number, 4);
    assert_eq!(record.read(P318, P318.len()).unwrap_err().number, 1);
    assert_eq!(record.read(P318, P318.len() + 1).unwrap_err().number, 3);
    assert_eq!(record.write(Layout::default()).unwrap(), P318);
}

#[test]
fn larger_and_smaller_by_turns() {
    let mut record = Record::new();
    let small = b"LOCUS       S 0 bp linear SYN 01-MAR-2024\n//\n";
    for s in [&small[..], P318, &small[..]] {
        assert_eq!(record.read(s, 0), Ok(s.len()));
    }
    assert_eq!(record.features().count(), 0);
    assert_eq!(record.letters(), b"");
}

#[test]
fn kept_and_too_long_to_read() {
    let count = 13_250_000;
    let mut file = format!("LOCUS       LONG {count} bp linear SYN 01-MAR-2024\nORIGIN\n").into_bytes();
    file.resize(file.len() + count, b'a');
    file.extend(b"\n//\n");
    let text = first(&file).keep(Layout::default()).unwrap();
    assert!(text.len() > 16_777_216);
    assert_eq!(Record::new().read(&text, 0).unwrap_err().number, 3);
}

/// P318 with other lines of letters, which begin at byte 259, in line 8.
fn lettered(lines: &str) -> Vec<u8> {
    String::from_utf8(P318.to_vec()).unwrap().replace("        1 acgtacgtac gt\n", lines).into_bytes()
}

/// What reading strictly answers: the place, or the number, the line and the offset.
fn strictly(s: &[u8]) -> Result<usize, (usize, usize, usize)> {
    let told = |error: Error| error.line.map_or((error.number, 0, 0), |line| (error.number, line.number, line.offset));
    Record::new().read_strict(s, 0).map_err(told)
}

#[test]
fn a_pasted_protein_is_refused_strictly() {
    let pasted = lettered("        1 mskgeelftg vv\n");
    assert_eq!(first(&pasted).letters(), b"mskgeelftgvv");
    assert_eq!(strictly(&pasted), Err((16, 8, 259)));
    // the line is the letter's, and in a file the file's
    assert_eq!(strictly(&lettered("        1 acgtacgtac\n       11 gX\n")), Err((16, 9, 280)));
    let two = [P318, &pasted].concat();
    let error = records(&two).strict().nth(1).unwrap().unwrap_err();
    assert_eq!(error.to_string(), "line 17: 16, a letter that is no IUPAC code for bases");
    assert_eq!(error.line.unwrap().bytes(&two), b"        1 mskgeelftg vv");
    // a refusal leaves the record
    let mut record = first(P318);
    assert_eq!(record.read_strict(&pasted, 0).unwrap_err().number, 16);
    assert_eq!(record.write(Layout::default()).unwrap(), P318);
}

#[test]
fn codes_are_read_strictly() {
    for letters in ["ACGTURYSWKMBDHVN", "acgturyswkmbdhvn"] {
        let text = lettered(&format!("        1 {letters}\n"));
        let coded = String::from_utf8(text).unwrap().replace("  12 bp", "  16 bp");
        assert_eq!(strictly(coded.as_bytes()), Ok(coded.len()));
        let record = records(coded.as_bytes()).strict().next().unwrap().unwrap();
        assert_eq!(record.letters(), letters.as_bytes());
        assert_eq!(record.keep(Layout::default()), first(coded.as_bytes()).keep(Layout::default()));
    }
    for stray in "EFIJLOPQXZefijlopqxz".chars() {
        assert_eq!(strictly(&lettered(&format!("        1 acgtacgtac g{stray}\n"))), Err((16, 8, 259)), "{stray}");
    }
}

#[test]
fn sixteen_in_file_order() {
    // ahead of 8, 2 and 7
    assert_eq!(strictly(&lettered("        1 acgtx\n")), Err((16, 8, 259)));
    assert_eq!(strictly(&lettered("        1 acgtx\n")[..274]), Err((16, 8, 259)));
    assert_eq!(strictly(&lettered("        1 acgtx/\n")), Err((16, 8, 259)));
    // of it and a byte that is 9 the first
    assert_eq!(strictly(&lettered("x\n-\n")), Err((16, 8, 259)));
    assert_eq!(strictly(&lettered("-\nx\n")), Err((9, 8, 259)));
    // behind the `/` there are no letters, nor on ORIGIN's line, and what comes before them comes first
    assert_eq!(strictly(&lettered("        1 acgtac/x\n")), Err((8, 8, 259)));
    let old = String::from_utf8(P318.to_vec()).unwrap().replace("ORIGIN      ", "ORIGIN 1 bp from the XbaI site");
    assert_eq!(strictly(old.as_bytes()), Ok(old.len()));
    let twice = String::from_utf8(lettered("x\n")).unwrap().replace("FEATURES", "DEFINITION  Again.\nFEATURES");
    assert_eq!(strictly(twice.as_bytes()), Err((5, 3, 106)));
}

/// P318 with another location.
fn located(location: &str) -> Vec<u8> {
    String::from_utf8(P318.to_vec()).unwrap().replace("1..12", location).into_bytes()
}

#[test]
fn locations_are_trees() {
    let file = located("join(1..3,complement(order(5,A.1:<7..8)))");
    let record = first(&file);
    let tree = record.features().next().unwrap().tree();
    let range = |of, from, to, before| Location::Range { of, from, to, before, after: false };
    let order = Location::Order(vec![Location::Base { of: None, base: 5 }, range(Some(&b"A.1"[..]), 7, 8, true)]);
    assert_eq!(tree, Location::Join(vec![range(None, 1, 3, false), Location::Complement(Box::new(order))]));
    let listed: Vec<_> = tree.stretches().iter().map(|s| (s.to_string(), s.reverse)).collect();
    assert_eq!(listed, [("1..3".to_string(), false), ("5".to_string(), true), ("A.1:<7..8".to_string(), true)]);
    assert_eq!(record.keep(Layout::default()).unwrap(), file);
}

#[test]
fn contig_is_a_tree() {
    let file = b"LOCUS       C 0 bp linear CON 01-MAR-2024\nCONTIG      join(A.1:1..5,gap(100))\n//\n";
    let record = first(file);
    let of = Some(&b"A.1"[..]);
    let range = Location::Range { of, from: 1, to: 5, before: false, after: false };
    assert_eq!(record.contig(), Some(Location::Join(vec![range, Location::Gap(b"100")])));
    assert_eq!(first(P318).contig(), None);
}

#[test]
fn bad_locations_have_numbers() {
    let number = |location: &str| records(&located(location)).next().unwrap().unwrap_err().number;
    assert_eq!(number("01..2"), 7);
    assert_eq!(number("gap(5)"), 7);
    assert_eq!(number(&("join(".repeat(17) + "1" + &")".repeat(17))), 14);
    assert!(records(&located(&("join(".repeat(16) + "1" + &")".repeat(16)))).next().unwrap().is_ok());
}
