//! The layout of the C records: what the Rattle records come to by the rules of C is what include/guobbarel.h and src/ffi.rs assert.
use guobbarel::Frame;
use std::collections::BTreeMap;

const RATTLE: [&str; 2] = [
    include_str!("../../crates/gateway_frame/src/records.rt"), // first: the other's records have a Span
    include_str!("../../crates/gateway/src/records.rt"),
];
const HEADER: &str = include_str!("../../include/guobbarel.h");
const HOST: &str = include_str!("../src/ffi.rs");

/// A record's bytes, and its fields, each with its place and its bytes.
#[derive(Debug, Default, PartialEq)]
struct Layout {
    bytes: usize,
    fields: Vec<(String, usize, usize)>,
}

type Layouts = BTreeMap<String, Layout>;

/// The bytes of a type and what it is aligned to.
fn measured(ty: &str, known: &BTreeMap<String, (usize, usize)>) -> (usize, usize) {
    match ty {
        "u8" => (1, 1),
        "u32" => (4, 4),
        "u64" | "usize" => (8, 8),
        record => known[record],
    }
}

/// The records of the Rattle text, laid out as C does: each field at the next place that its type may stand at, and the whole a
/// multiple of what its widest is aligned to. The six values of a frame stand for an array.
fn of_rattle() -> Layouts {
    let mut known = BTreeMap::new();
    let mut layouts = Layouts::new();
    for text in RATTLE {
        for record in text.split("#[repr(C)]\n").skip(1) {
            let (_, record) = record.split_once("pub struct ").expect("a record is a struct");
            let (name, rest) = record.split_once(" {\n").expect("a struct has fields");
            let mut layout = Layout::default();
            let mut widest = 1;
            for line in rest.lines().take_while(|line| *line != "}") {
                let (field, ty) =
                    line.trim().trim_end_matches(',').trim_start_matches("pub ").split_once(": ").unwrap();
                let (bytes, aligned) = measured(ty, &known);
                widest = widest.max(aligned);
                let place = layout.bytes.next_multiple_of(aligned);
                layout.bytes = place + bytes;
                match (field.strip_prefix("value").map(str::parse::<u8>), layout.fields.last_mut()) {
                    (Some(Ok(1..)), Some(values)) => values.2 += bytes,
                    (Some(Ok(_)), _) => layout.fields.push(("value".into(), place, bytes)),
                    _ => layout.fields.push((field.into(), place, bytes)),
                }
            }
            layout.bytes = layout.bytes.next_multiple_of(widest);
            known.insert(name.to_string(), (layout.bytes, widest));
            layouts.insert(name.into(), layout);
        }
    }
    layouts
}

/// By what the C header calls a record.
fn name_of(c: &str) -> String {
    let mut name = String::new();
    for word in c.split('_') {
        name += &word[..1].to_uppercase();
        name += &word[1..];
    }
    if name == "Header" { "HeaderGiven".into() } else { name }
}

/// GUOBBAREL_RECORD(record, bytes); and, a line each, GUOBBAREL_FIELD(record, field, place, bytes);
fn of_header() -> Layouts {
    let mut layouts = Layouts::new();
    let words = |line: &'static str, what: &str| {
        let inner = line.strip_prefix(what)?.strip_suffix(");")?;
        Some(inner.split(", ").collect::<Vec<_>>())
    };
    for line in HEADER.lines() {
        if let Some([record, bytes]) = words(line, "GUOBBAREL_RECORD(").as_deref() {
            layouts.entry(name_of(record)).or_default().bytes = bytes.parse().unwrap();
        } else if let Some([record, field, place, bytes]) = words(line, "GUOBBAREL_FIELD(").as_deref() {
            let row = (field.to_string(), place.parse().unwrap(), bytes.parse().unwrap());
            layouts.entry(name_of(record)).or_default().fields.push(row);
        }
    }
    layouts
}

/// layout!(Record bytes: field place bytes, ..);
fn of_host() -> Layouts {
    let row = |text: &str| {
        let words: Vec<&str> = text.split_whitespace().collect();
        (words[0].to_string(), words[1].parse().unwrap(), words[2].parse().unwrap())
    };
    let record = |text: &str| {
        let (head, fields) = text.split_once(':').unwrap();
        let (name, bytes) = head.split_once(' ').unwrap();
        let fields = fields.split(',').map(row).collect();
        (name.to_string(), Layout { bytes: bytes.parse().unwrap(), fields })
    };
    HOST.split("\nlayout!(").skip(1).map(|text| record(text.split_once(");").unwrap().0)).collect()
}

#[test]
fn the_records_are_laid_out_alike() {
    let rattle = of_rattle();
    assert_eq!(rattle.len(), 11);
    assert_eq!(rattle["FrameAnswer"].fields.last(), Some(&("value".into(), 40, 192)));
    assert_eq!(of_header(), rattle);
    assert_eq!(of_host(), rattle);
}

#[test]
fn every_record_of_the_header_is_asserted() {
    let mut declared: Vec<String> = HEADER
        .lines()
        .filter_map(|line| line.strip_prefix("typedef struct guobbarel_")?.strip_suffix(" {"))
        .map(name_of)
        .collect();
    declared.sort();
    assert!(declared.iter().eq(of_header().keys()));
}

/// Its table of values has, at the head of a line or past a comma, the first type and the name of each kind of frame.
#[test]
fn the_header_names_every_kind_of_frame() {
    let (_, table) = HEADER.split_once("/* By `name`").expect("the table");
    let lines = table.lines().skip(1).map_while(|line| line.strip_prefix(" *")).take_while(|line| !line.is_empty());
    let first = |piece: &str| u64::from_str_radix(piece.trim_start().split_once(' ')?.0, 16).ok();
    let mut named: Vec<u64> = lines.flat_map(|line| line.split(", ")).filter_map(first).collect();
    named.sort();
    assert!(named.iter().copied().eq(Frame::KINDS.iter().map(|kind| kind.get())), "{named:x?}");
}
