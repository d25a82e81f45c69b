//! Cases of field tables and lone values: their edges, long ones, tables that were recorded.
use crate::comparison::Cases;
use crate::frame::{Frame, FrameType};
use crate::inputs::{DEEPEST, LETTERS, edge_numbers, flat_table, long_string, short_string};
use crate::inputs::{Rng, chain, nested, table_octets, value_octets};
use crate::methods;
use crate::operation::Operation::*;
use crate::tape::{Table, number};
use crate::types::{FieldValue, Reader};

/// Seconds of 2026-11-16, its first and last, and of the days beside it.
const DATES: [u64; 5] = [1_794_787_199, 1_794_787_200, 1_794_787_201, 1_794_873_599, 1_794_873_600];

pub fn edges(cases: &mut Cases) {
    for letter in LETTERS {
        leaves(*letter).iter().for_each(|value| value_cases(cases, value));
    }
    for table in tables() {
        table_cases(cases, &table);
        value_cases(cases, &FieldValue::Table(table.clone()));
        let values: Vec<FieldValue> = table.into_iter().map(|(_, value)| value).collect();
        value_cases(cases, &FieldValue::Array(values));
    }
    for depth in 13..=17 {
        for kind in ["F", "A", "FA", "AFF"] {
            deep_cases(cases, &nested(depth, kind, Table::new()));
            deep_cases(cases, &nested(depth, kind, vec![("v".into(), FieldValue::U8(7))]));
        }
    }
    booleans(cases);
    lengths(cases);
    names(cases);
}

/// The values of a letter at which something changes; none for F and A.
fn leaves(letter: u8) -> Vec<FieldValue> {
    let of = |first: &u64, second: u64| number(letter, *first, second).expect("a leaf's letter");
    let all = |width| edge_numbers(width).iter().map(|first| of(first, 0)).collect();
    match letter {
        b't' => vec![of(&0, 0), of(&1, 0)],
        b'b' | b'B' => all(1),
        b's' | b'u' => all(2),
        b'I' | b'i' | b'f' => all(4),
        b'l' | b'd' => all(8),
        b'T' => edge_numbers(8).iter().chain(&DATES).map(|first| of(first, 0)).collect(),
        b'D' => {
            let values = |scale| edge_numbers(4).iter().map(move |value| of(scale, *value));
            [0, 3, 255].iter().flat_map(values).collect()
        }
        b'S' => CONTENTS.iter().map(|octets| FieldValue::LongStr(octets.to_vec())).collect(),
        b'x' => CONTENTS.iter().map(|octets| FieldValue::Bytes(octets.to_vec())).collect(),
        b'V' => vec![FieldValue::Void],
        _ => Vec::new(),
    }
}

/// Of S and x, which need no UTF-8.
const CONTENTS: [&[u8]; 5] = [b"", b"a", b"\0", b"caf\xc3\xa9", b"\xff\x80"];

/// Small tables: names of every kind, equal names, tables and arrays in each other.
fn tables() -> Vec<Table> {
    let one = |name: &str, value: FieldValue| vec![(name.to_string(), value)];
    let inner = one("i", FieldValue::U16(258));
    let table = |entries: &Table| FieldValue::Table(entries.clone());
    let mut tables = vec![
        Table::new(),
        one("", FieldValue::Void),
        one("n\0n", FieldValue::Void),
        one("caf\u{e9} \u{10ffff}", FieldValue::Void),
        one("9 $#_", FieldValue::Void),
        one(&"n".repeat(255), FieldValue::Void),
        one("e", FieldValue::Table(Table::new())),
        one("e", FieldValue::Array(Vec::new())),
        one("l", FieldValue::Array(vec![table(&inner), table(&Table::new()), table(&inner)])),
        one("l", FieldValue::Array(vec![FieldValue::Array(Vec::new()), FieldValue::Void])),
        one("t", table(&one("", FieldValue::Array(vec![table(&inner), FieldValue::Bool(true)])))),
    ];
    tables.push([one("d", FieldValue::Bool(true)), one("d", FieldValue::Bool(true))].concat());
    tables.push([one("", FieldValue::Void), one("", FieldValue::Void)].concat());
    tables.push([one("b", table(&inner)), one("b", table(&inner)), inner].concat());
    tables
}

/// A table read and written.
fn table_cases(cases: &mut Cases, table: &Table) {
    cases.case(ReadFieldTable, &[&table_octets(table)]);
    cases.table_case(WriteFieldTable, &[], table);
}

/// A value alone and as the entry of a table; read whole, read cut by an octet, and written.
fn value_cases(cases: &mut Cases, value: &FieldValue) {
    let octets = value_octets(value);
    cases.case(ReadFieldValue, &[&octets]);
    cases.case(ReadFieldValue, &[&octets[..octets.len() - 1]]);
    cases.table_case(WriteFieldValue, &[], &[(String::new(), value.clone())]);
    table_cases(cases, &vec![("n".into(), value.clone())]);
}

/// A table of one entry that may be too deep, and the entry's value alone, read and written.
fn deep_cases(cases: &mut Cases, table: &Table) {
    let [(_, value)] = table.as_slice() else { return };
    cases.case(ReadFieldTable, &[&table_octets(table)]);
    cases.case(ReadFieldValue, &[&value_octets(value)]);
    cases.table_case(WriteFieldTable, &[], table);
    cases.table_case(WriteFieldValue, &[], &[(String::new(), value.clone())]);
}

/// Every octet as a boolean.
fn booleans(cases: &mut Cases) {
    for octet in 0..=255 {
        cases.case(ReadFieldValue, &[&[b't', octet]]);
    }
}

/// Every declared length of a table, of a table in it and of an array in it, from none to two octets
/// more than there are: entries that run past the end, entries left out, too few octets.
fn lengths(cases: &mut Cases) {
    let entries = b"\x01at\x01\x01bs\x01\x02\x00S\x00\x00\x00\x02hi\x01cV";
    let values = b"t\x01s\x01\x02S\x00\x00\x00\x02hiV";
    for length in 0..=entries.len() as u32 + 2 {
        let table = [&length.to_be_bytes(), entries.as_slice()].concat();
        cases.case(ReadFieldTable, &[&table]);
        cases.case(
            ReadFieldTable,
            &[&long_string(&[b"\x01tF", table.as_slice(), b"\x01zB\x07"].concat())],
        );
        cases.case(ReadFieldValue, &[&[b"F", table.as_slice()].concat()]);
    }
    for length in 0..=values.len() as u32 + 2 {
        let array = [b"A", length.to_be_bytes().as_slice(), values].concat();
        cases.case(ReadFieldValue, &[&array]);
        cases.case(
            ReadFieldTable,
            &[&long_string(&[b"\x01a", array.as_slice(), b"\x01zB\x07"].concat())],
        );
        cases.case(ReadFieldValue, &[&array_octets(&[&array, b"B\x07".as_slice()].concat())]);
    }
}

fn array_octets(values: &[u8]) -> Vec<u8> {
    [b"A", long_string(values).as_slice()].concat()
}

/// What stands behind a name: values whole and cut, letters that are unknown, nothing.
const BEHIND_NAMES: [&[u8]; 8] =
    [b"V", b"z", b"", b"t", b"F\0\0\0\x09", b"S\0\0\0\x01", b"U\0\x01", b"L"];

/// Names that are cut or are not UTF-8, before letters that are known, unknown and missing.
fn names(cases: &mut Cases) {
    let names = [short_string(b"\xff"), short_string(b"a\xc3"), short_string(b"a"), vec![2, b'a']];
    for name in names {
        for rest in BEHIND_NAMES {
            cases.case(ReadFieldTable, &[&long_string(&[name.as_slice(), rest].concat())]);
        }
    }
}

/// Tables and arrays of many values, strings around 65,536 octets in a table.
pub fn long(cases: &mut Cases, r: &mut Rng) {
    table_cases(cases, &flat_table(r, 1000));
    for length in [65_535, 65_536] {
        let value = FieldValue::LongStr(r.octets(length));
        value_cases(cases, &value);
    }
    value_cases(cases, &FieldValue::Array(vec![FieldValue::Void; 3000]));
    let many = vec![FieldValue::Table(vec![(String::new(), FieldValue::Array(Vec::new()))]); 1000];
    value_cases(cases, &FieldValue::Array(many));
    // More values than a case for a writer has room for.
    let values = array_octets(&[b'V'; 60_000]);
    cases.case(ReadFieldValue, &[&values]);
    cases.case(ReadFieldTable, &[&long_string(&[b"\0", values.as_slice()].concat())]);
}

/// A table that was recorded, as a table and as a value, read and written.
pub fn recorded(cases: &mut Cases, octets: &[u8]) {
    let table = Reader::new(octets).field_table().expect("recorded.txt: a table");
    assert_eq!(table_octets(&table), octets, "recorded.txt: a table as the Rust writes it");
    table_cases(cases, &table);
    value_cases(cases, &FieldValue::Table(table));
}

/// Small tables and deep ones as the only property of a content header, which has these flags.
pub fn headers(cases: &mut Cases, flags: u16) {
    let deep = (13..=17).map(|depth| nested(depth, "FA", Table::new()));
    for table in tables().into_iter().chain(deep) {
        methods::property_read(cases, flags, &table_octets(&table));
        methods::property_written(cases, flags, &[], &table);
    }
}

// The kind `deep`.

/// `count` rounds of 13 to 17 tables and arrays one in another, other values beside them.
pub fn deep(cases: &mut Cases, seed: u64, count: u64) {
    let mut r = Rng(seed);
    for _ in 0..count {
        let depth = u64::from(DEEPEST) - 2 + r.below(5);
        let table = chain(&mut r, depth);
        deep_cases(cases, &table);
        let flags = r.pick(&[0x2000, 0xe400, 0x2008]);
        deep_header(cases, &mut r, flags, &table);
    }
}

/// The same as the table of a content header, with short strings around it.
fn deep_header(cases: &mut Cases, r: &mut Rng, flags: u16, table: &Table) {
    let (class, size) = (r.octets(2), r.octets(8));
    let before: &[&[u8]] = if flags >> 14 == 3 { &[b"a", b"bc"] } else { &[] };
    let behind: &[&[u8]] = if flags & 0x1fff == 0 { &[] } else { &[b"yz"] };
    let fixed: &[&[u8]] = &[&class, &size, &flags.to_be_bytes()];
    cases.table_case(WriteContentHeader, &[fixed, before, behind].concat(), table);
    let strings =
        |texts: &[&[u8]]| texts.iter().map(|text| short_string(text)).collect::<Vec<_>>().concat();
    let fixed = [class.as_slice(), &[0, 0], &size, &flags.to_be_bytes()].concat();
    let payload = [fixed, strings(before), table_octets(table), strings(behind)].concat();
    cases.case(ReadContentHeader, &[&payload]);
    let frame = Frame { frame_type: FrameType::Header, channel: 1, payload };
    cases.case(ReadFrame, &[&frame.encode()]);
}
