// Included once for each copy of gb-io, which is `gb` here.
use crate::table::{Bad, Put, Tokens};
use gb::reader::place::read_one;
use gb::seq::{Date, Feature, Location, Qualifier, Reference, Seq, Source, Topology};
use gb::writer::SeqWriter;

/// Reads one record of `bytes`, which stand at `at` in the slice.
pub fn read(bytes: &[u8], at: usize) -> String {
    match read_one(bytes) {
        Ok(Some((seq, used))) => {
            let mut reply = String::from("0");
            reply.put(at + used);
            put_table(&mut reply, &seq);
            reply
        }
        Ok(None) => "none".into(),
        Err(_) => "err".into(),
    }
}

/// Writes the table.
pub fn write(seq: &Seq, truncate: bool, escape: bool) -> String {
    let mut bytes = Vec::new();
    let mut writer = SeqWriter::new(&mut bytes);
    writer.truncate_locus(truncate).escape_locus(escape);
    match writer.write(seq) {
        Ok(()) => {
            let mut reply = String::from("ok");
            reply.put_text(&bytes);
            reply
        }
        Err(_) => "err".into(),
    }
}

fn put_table(out: &mut String, seq: &Seq) {
    out.put_maybe(seq.name.as_deref());
    match seq.len {
        Some(len) => out.put(len),
        None => out.put('-'),
    }
    out.put_maybe(seq.molecule_type.as_deref());
    out.put(if seq.is_circular() { 'c' } else { 'l' });
    out.put_text(seq.division.as_bytes());
    match &seq.date {
        Some(d) => out.put(format_args!("{}.{}.{}", d.day(), d.month(), d.year())),
        None => out.put('-'),
    }
    for text in [&seq.definition, &seq.accession, &seq.version, &seq.dblink, &seq.keywords] {
        out.put_maybe(text.as_deref());
    }
    out.put_maybe(seq.source.as_ref().map(|s| s.source.as_str()));
    out.put_maybe(seq.source.as_ref().and_then(|s| s.organism.as_deref()));
    out.put(seq.references.len());
    for r in &seq.references {
        out.put_text(r.description.as_bytes());
        out.put_maybe(r.authors.as_deref());
        out.put_maybe(r.consortium.as_deref());
        out.put_text(r.title.as_bytes());
        out.put_maybe(r.journal.as_deref());
        out.put_maybe(r.pubmed.as_deref());
        out.put_maybe(r.remark.as_deref());
    }
    out.put(seq.comments.len());
    for comment in &seq.comments {
        out.put_text(comment.as_bytes());
    }
    out.put(seq.features.len());
    for f in &seq.features {
        out.put_text(f.kind.as_bytes());
        out.put_text(f.location.to_gb_format().as_bytes());
        out.put(f.qualifiers.len());
        for (key, value) in &f.qualifiers {
            out.put_text(key.as_bytes());
            out.put_maybe(value.as_deref());
        }
    }
    out.put_maybe(seq.contig.as_ref().map(|c| c.to_gb_format()).as_deref());
    out.put_text(&seq.seq);
}

pub fn take_table(t: &mut Tokens) -> Result<Seq, Bad> {
    let seq = Seq {
        name: t.maybe(Tokens::text)?,
        len: t.maybe(Tokens::number)?,
        molecule_type: t.maybe(Tokens::text)?,
        topology: match t.next()? {
            b"l" => Topology::Linear,
            b"c" => Topology::Circular,
            _ => return Err(Bad::Form("topology is not l or c")),
        },
        division: t.text()?,
        date: t.maybe(take_date)?,
        definition: t.maybe(Tokens::text)?,
        accession: t.maybe(Tokens::text)?,
        version: t.maybe(Tokens::text)?,
        dblink: t.maybe(Tokens::text)?,
        keywords: t.maybe(Tokens::text)?,
        source: take_source(t)?,
        references: t.many(take_reference)?,
        comments: t.many(Tokens::text)?,
        features: t.many(take_feature)?,
        contig: t.maybe(take_location)?,
        seq: t.bytes()?,
    };
    t.end()?;
    Ok(seq)
}

fn take_date(t: &mut Tokens) -> Result<Date, Bad> {
    let token = std::str::from_utf8(t.next()?).map_err(|_| Bad::Form("not a date"))?;
    let parts: Option<Vec<i64>> = token.split('.').map(|p| p.parse().ok()).collect();
    match parts.as_deref() {
        Some(&[day, month, year]) => {
            let day = u32::try_from(day).map_err(|_| Bad::Value)?;
            let month = u32::try_from(month).map_err(|_| Bad::Value)?;
            let year = i32::try_from(year).map_err(|_| Bad::Value)?;
            Date::from_ymd(year, month, day).map_err(|_| Bad::Value)
        }
        _ => Err(Bad::Form("not a date")),
    }
}

fn take_source(t: &mut Tokens) -> Result<Option<Source>, Bad> {
    let source = t.maybe(Tokens::text)?;
    let organism = t.maybe(Tokens::text)?;
    match (source, organism) {
        (Some(source), organism) => Ok(Some(Source { source, organism })),
        (None, None) => Ok(None),
        (None, Some(_)) => Err(Bad::Form("organism without source")),
    }
}

fn take_reference(t: &mut Tokens) -> Result<Reference, Bad> {
    Ok(Reference {
        description: t.text()?,
        authors: t.maybe(Tokens::text)?,
        consortium: t.maybe(Tokens::text)?,
        title: t.text()?,
        journal: t.maybe(Tokens::text)?,
        pubmed: t.maybe(Tokens::text)?,
        remark: t.maybe(Tokens::text)?,
    })
}

/// Any text is a location here: `to_gb_format` prints this variant as it is.
fn take_location(t: &mut Tokens) -> Result<Location, Bad> {
    Ok(Location::External(t.text()?, None))
}

fn take_feature(t: &mut Tokens) -> Result<Feature, Bad> {
    Ok(Feature {
        kind: t.text()?.into(),
        location: take_location(t)?,
        qualifiers: t.many(take_qualifier)?,
    })
}

fn take_qualifier(t: &mut Tokens) -> Result<Qualifier, Bad> {
    Ok((t.text()?.into(), t.maybe(Tokens::text)?))
}
