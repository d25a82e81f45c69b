//! The kinds of cases. Those in which seed and count say nothing:
//!   sheet     the bench sheet of document 01 and its neighbours
//!   edges     least, largest and odd values, lengths at their limits, well-formed inputs cut short
//!   recorded  tables, content headers, replies and frames that were sent, of recorded.txt
//!   short     edges, every input of 0 to 2 octets of a reader, every value letter with 0 to 10
//!   commands  every command with every set of flags, numbers 0 and largest, strings of 0, 3, 255
//!             and 256 octets and texts of odd characters in every place
//!   headers   content headers with every set of flags, written and read: whole, cut, damaged; each
//!             property alone
//!   replies   payloads for each reply reader: whole, cut, damaged; random octets
//!   frames    every type octet with 0 to 8 octets; sizes around the octets left, and the largest; every
//!             frame end; every type with payloads of 0, 1, 255 and 65,536 octets, written and read
//!   utf8      every text of 1 and 2 octets, those of 3 and 4 over the octets where RFC 3629 decides
//!   utf8-3    every text of 3 octets
//!   long      strings, bodies, logins and tables around 255, 256, 65,535 and 65,536 octets
//! Kinds of `count` random cases, each of an operation drawn by chance:
//!   good      well-formed inputs of readers, arguments of writers
//!   damaged   well-formed inputs of readers, cut, or with octets changed, removed or inserted
//!   random    random octets for readers
//!   mixed     a third of each
//! Kinds of `count` random rounds of several cases, of exported operations alone:
//!   deep      13 to 17 tables and arrays one in another: read and written alone, in a content header
//!             and in a frame
//!   exact     tapes with exactly the records needed and one fewer, outputs and inputs with exactly the
//!             octets needed and one fewer, at any position, behind any number of used records
//!   positions every position from the end of the memory on where a sum could go wrong
//!   walks     lists of frames cut at any place, walked with room to spare, with exactly enough, with
//!             an entry too few and a record too few; each frame read at its place
use crate::comparison::Cases;
use crate::inputs::{self, Rng, long_string, nested, table_octets};
use crate::line::Word;
use crate::main::fail;
use crate::operation::Operation::{self, *};
use crate::random::{Drawing, drawn};
use crate::strings::{self, NOT_UTF8, TEXTS};
use crate::tape::Table;
use crate::{frames, limits, methods, tables, walks};

pub fn make(cases: &mut Cases, kind: &str, seed: u64, count: u64) {
    match kind {
        "sheet" => sheet(cases),
        "edges" => edges(cases),
        "recorded" => recorded(cases),
        "short" => short(cases),
        "commands" => methods::commands(cases),
        "headers" => methods::headers(cases),
        "replies" => methods::replies(cases),
        "frames" => frames::frames(cases),
        "utf8" => strings::utf8(cases),
        "utf8-3" => strings::utf8_3(cases),
        "long" => long(cases),
        "good" => drawn(cases, seed, count, &[Drawing::Good]),
        "damaged" => drawn(cases, seed, count, &[Drawing::Damaged]),
        "random" => drawn(cases, seed, count, &[Drawing::Random]),
        "mixed" => drawn(cases, seed, count, &[Drawing::Good, Drawing::Damaged, Drawing::Random]),
        "deep" => tables::deep(cases, seed, count),
        "exact" => limits::exact(cases, seed, count),
        "positions" => limits::positions(cases, seed, count),
        "walks" => walks::walks(cases, seed, count),
        _ => fail(&format!("differential: there is no kind {kind}")),
    }
}

// The bench sheet.

fn sheet(cases: &mut Cases) {
    cases.case(ReadFieldTable, &[&[0, 0, 0, 0]]);
    cases.case(ReadFieldTable, &[&[0, 0, 0, 3, 1, b'a', b'V']]);
    cases.case(WriteShortStr, &[&[b'a'; 255]]);
    cases.case(WriteShortStr, &[&[b'a'; 256]]);
    cases.case(Decode, &[&[9; 6]]);
    cases.case(Decode, &[&[9, 0, 0, 0, 0, 0, 0]]);
    cases.case(Decode, &[&[8, 0, 0, 0, 0, 0, 0, 0xce]]);
    cases.case(Decode, &[&[8, 0, 0, 0, 0, 0, 0, 0xcd]]);
    cases.case(WriteCommand, &[&[0, 60], &[0, 80], &[0, 0, 0, 0, 0, 0, 0, 5], &[1]]);
    cases.case(ReadFieldTable, &[&[0, 0, 0, 2, 1, b'a', b't', 1]]);
    cases.case(ReadFieldValue, &[&[b't', 2]]);
    cases.case(ReadFieldValue, &[&[b'f', 0x7f, 0xc0, 0, 1]]);
    cases.case(WriteContentHeader, &[&[0, 60], &[0; 8], &[0x10, 0], &[2]]);
    cases.case(ReadFieldValue, &[&[b'T', 0, 0, 0, 0, 0x65, 0x53, 0xf1, 1]]);
    cases.case(WriteCommand, &[&[0, 10], &[0, 11], b"a", b"b\0c"]);
    cases.case(WriteCommand, &[&[0, 10], &[0, 11], b"a\0b", b"c"]);
    for depth in 14..=16 {
        cases.case(ReadFieldTable, &[&table_octets(&nested(depth, "F", Table::new()))]);
    }
    cases.case(ProtocolHeader, &[]);
}

// What was recorded.

/// On a line the operation that reads it, and its octets.
const RECORDED: &str = include_str!("recorded.txt");

fn recorded(cases: &mut Cases) {
    for line in RECORDED.lines().filter(|line| !line.is_empty() && !line.starts_with('#')) {
        let (name, octets) = line.split_once(' ').expect("recorded.txt: two words");
        let octets = Word(octets).octets().expect("recorded.txt: octets in hexadecimal");
        match Operation::of_name(name) {
            Some(ReadFieldTable) => tables::recorded(cases, &octets),
            Some(Decode) => frames::recorded(cases, &octets),
            Some(ReadContentHeader) => methods::recorded_header(cases, &octets),
            Some(operation) => methods::recorded_reply(cases, operation, &octets),
            None => fail("recorded.txt: no operation"),
        }
    }
}

// Short inputs and edges.

fn short(cases: &mut Cases) {
    edges(cases);
    for operation in cases.readers() {
        cases.case(operation, &[&[]]);
        for first in 0..=255 {
            cases.case(operation, &[&[first]]);
            (0..=255).for_each(|second| cases.case(operation, &[&[first, second]]));
        }
    }
    for letter in 0..=255 {
        (0..=10).for_each(|length| letter_with_octets(cases, letter, length));
    }
}

/// A letter with `length` octets after it, as a lone value and as the only entry of a table.
fn letter_with_octets(cases: &mut Cases, letter: u8, length: u8) {
    let mut octets = vec![letter];
    // The first three are 0, so that a length is small.
    octets.extend((0..length).map(|place| if place < 3 { 0 } else { place }));
    cases.case(ReadFieldValue, &[&octets]);
    cases.case(ReadFieldTable, &[&long_string(&[&[0], octets.as_slice()].concat())]);
}

fn edges(cases: &mut Cases) {
    for operation in cases.readers() {
        match operation {
            _ if operation.number_width().is_some() => strings::number_edges(cases, operation),
            ShortStr => strings::short_string_edges(cases),
            LongStr | SkipFieldTable => strings::long_string_edges(cases, operation),
            ScanUtf8 => NOT_UTF8.iter().for_each(|octets| cases.case(operation, &[octets])),
            _ => prefixes(cases, operation),
        }
    }
    for operation in cases.writers() {
        strings::numbers_written(cases, operation);
    }
    tables::edges(cases);
    frames::edges(cases);
    for flags in 0..=255u8 {
        let flags: Vec<u8> = (0..8).map(|place| flags >> place & 1).collect();
        cases.case(PackBits, &[&flags]);
    }
    for text in TEXTS {
        cases.case(WriteShortStr, &[text.as_bytes()]);
    }
    for octets in TEXTS.iter().map(|text| text.as_bytes()).chain(NOT_UTF8) {
        cases.case(WriteLongStr, &[octets]);
        cases.case(WriteOctets, &[octets]);
    }
}

/// Some well-formed inputs, whole and cut at each of the last 64 places.
fn prefixes(cases: &mut Cases, operation: Operation) {
    let mut r = Rng(operation as u64);
    for _ in 0..8 {
        let octets = inputs::reader_input(&mut r, operation);
        let shortest = octets.len().saturating_sub(64);
        (shortest..=octets.len()).for_each(|length| cases.case(operation, &[&octets[..length]]));
    }
}

// Long inputs.

fn long(cases: &mut Cases) {
    let mut r = Rng(1);
    for length in 253..=258 {
        for last in ["a", "\u{e9}", "\u{20ac}", "\u{10348}"] {
            let text = "x".repeat(length - last.len()) + last;
            cases.case(WriteShortStr, &[text.as_bytes()]);
            strings::long_short_string(cases, text.as_bytes());
        }
    }
    for length in [0, 1, 254, 255, 256, 257, 65_535, 65_536, 65_537] {
        let octets = r.octets(length);
        strings::long_long_string(cases, &octets);
        frames::long(cases, &octets);
    }
    tables::long(cases, &mut r);
    methods::long(cases, &mut r);
}
