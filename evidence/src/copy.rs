// Included once for each copy of gb-io, which is `gb` here: its answers as tables and bytes.
use crate::table::{Feature, Reference, Table, Text};
use crate::{Reading, Writing};
use gb::reader::place::read_one;
use gb::seq::{self, Date, Location, Seq, Source, Topology};
use gb::writer::SeqWriter;
use std::panic::catch_unwind;

/// One record of `bytes`.
pub fn read(bytes: &[u8]) -> Reading {
    let done = catch_unwind(|| read_one(bytes).map(|record| record.map(|(seq, used)| (table(seq), used))));
    match done {
        Ok(Ok(Some((table, used)))) => Reading::Done(Box::new(table), used),
        Ok(Ok(None)) => Reading::None,
        Ok(Err(_)) => Reading::Refused,
        Err(_) => Reading::Panicked,
    }
}

/// The record of `t`, as far as the Rust has such a record.
pub fn write(t: &Table, truncate: bool, escape: bool) -> Writing {
    let Some(seq) = seq(t) else {
        return Writing::Refused;
    };
    let done = catch_unwind(|| {
        let mut bytes = Vec::new();
        let mut writer = SeqWriter::new(&mut bytes);
        writer.truncate_locus(truncate).escape_locus(escape);
        writer.write(&seq).map(|()| bytes)
    });
    match done {
        Ok(Ok(bytes)) => Writing::Done(bytes),
        Ok(Err(_)) => Writing::Refused,
        Err(_) => Writing::Panicked,
    }
}

fn table(seq: Seq) -> Table {
    let some = |text: Option<String>| text.map(String::into_bytes);
    let circular = seq.is_circular();
    let (source, organism) = match seq.source {
        Some(s) => (Some(s.source), s.organism),
        None => (None, None),
    };
    Table {
        name: some(seq.name),
        length: seq.len,
        molecule: some(seq.molecule_type),
        circular,
        division: seq.division.into_bytes(),
        date: seq.date.map(|d| [d.day() as usize, d.month() as usize, d.year() as usize]),
        definition: some(seq.definition),
        accession: some(seq.accession),
        version: some(seq.version),
        dblink: some(seq.dblink),
        keywords: some(seq.keywords),
        source: some(source),
        organism: some(organism),
        references: seq.references.into_iter().map(reference).collect(),
        comments: seq.comments.into_iter().map(String::into_bytes).collect(),
        features: seq.features.into_iter().map(feature).collect(),
        contig: seq.contig.map(location),
        letters: seq.seq,
    }
}

fn reference(r: seq::Reference) -> Reference {
    let some = |text: Option<String>| text.map(String::into_bytes);
    Reference {
        text: r.description.into_bytes(),
        authors: some(r.authors),
        consrtm: some(r.consortium),
        title: r.title.into_bytes(),
        journal: some(r.journal),
        pubmed: some(r.pubmed),
        remark: some(r.remark),
    }
}

fn feature(f: seq::Feature) -> Feature {
    Feature {
        kind: f.kind.as_bytes().to_vec(),
        location: location(f.location),
        qualifiers: f.qualifiers.into_iter().map(|(key, value)| (key.as_bytes().to_vec(), value.map(String::into_bytes))).collect(),
    }
}

/// An external location without an inner one is a text that is printed as it is.
fn location(l: Location) -> Text {
    match l {
        Location::External(text, None) => text.into_bytes(),
        other => other.to_gb_format().into_bytes(),
    }
}

/// None where a text is not UTF-8 or the date is none that the Rust makes.
pub fn seq(t: &Table) -> Option<Seq> {
    let some = |text: &Option<Text>| match text {
        None => Some(None),
        Some(text) => string(text).map(Some),
    };
    Some(Seq {
        name: some(&t.name)?,
        len: t.length,
        molecule_type: some(&t.molecule)?,
        topology: if t.circular { Topology::Circular } else { Topology::Linear },
        division: string(&t.division)?,
        date: match t.date {
            None => None,
            Some([day, month, year]) => Some(Date::from_ymd(year as i32, month as u32, day as u32).ok()?),
        },
        definition: some(&t.definition)?,
        accession: some(&t.accession)?,
        version: some(&t.version)?,
        dblink: some(&t.dblink)?,
        keywords: some(&t.keywords)?,
        source: match &t.source {
            None => None,
            Some(text) => Some(Source { source: string(text)?, organism: some(&t.organism)? }),
        },
        references: t.references.iter().map(|r| {
            Some(seq::Reference {
                description: string(&r.text)?,
                authors: some(&r.authors)?,
                consortium: some(&r.consrtm)?,
                title: string(&r.title)?,
                journal: some(&r.journal)?,
                pubmed: some(&r.pubmed)?,
                remark: some(&r.remark)?,
            })
        }).collect::<Option<_>>()?,
        comments: t.comments.iter().map(|c| string(c)).collect::<Option<_>>()?,
        features: t.features.iter().map(|f| {
            Some(seq::Feature {
                kind: string(&f.kind)?.into(),
                location: Location::External(string(&f.location)?, None),
                qualifiers: f.qualifiers.iter().map(|(key, value)| Some((string(key)?.into(), some(value)?))).collect::<Option<_>>()?,
            })
        }).collect::<Option<_>>()?,
        contig: match &t.contig {
            None => None,
            Some(text) => Some(Location::External(string(text)?, None)),
        },
        seq: t.letters.clone(),
    })
}

fn string(text: &[u8]) -> Option<String> {
    String::from_utf8(text.to_vec()).ok()
}
