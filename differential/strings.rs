//! Cases of numbers and strings: their edges, long ones, and the texts at which RFC 3629 decides.
use crate::comparison::Cases;
use crate::inputs::{BOUNDARY_CHARACTERS, big_endian, edge_numbers, long_string, short_string};
use crate::operation::Operation::{self, *};

/// Each number whole, cut by one octet, and with one octet after it.
pub fn number_edges(cases: &mut Cases, operation: Operation) {
    let Some(width) = operation.number_width() else { return };
    for number in edge_numbers(width) {
        let octets = big_endian(*number, width);
        cases.case(operation, &[&octets]);
        cases.case(operation, &[&octets[..width - 1]]);
        cases.case(operation, &[&[octets.as_slice(), &[0xa5]].concat()]);
    }
}

/// Each number written.
pub fn numbers_written(cases: &mut Cases, operation: Operation) {
    let Some(width) = operation.number_width() else { return };
    for number in edge_numbers(width) {
        cases.case(operation, &[&big_endian(*number, width)]);
    }
}

pub const TEXTS: [&str; 8] =
    ["", "a", "ab", "a\0b", "caf\u{e9}", "\u{20ac}5", "\u{10348}", "\u{feff}"];

/// The shortest of each fault in RFC 3629's grammar, alone and after a character.
pub const NOT_UTF8: [&[u8]; 20] = [
    b"\x80",             // a continuation without a lead
    b"\xbf",             // the same
    b"\xc0\x80",         // overlong, two octets
    b"\xc1\xbf",         // the same
    b"\xc2",             // cut
    b"\xc2\x41",         // no continuation
    b"\xe0\x9f\xbf",     // overlong, three octets
    b"\xe0\xa0",         // cut
    b"\xed\xa0\x80",     // a surrogate
    b"\xed\xbf\xbf",     // the same
    b"\xef\xbf\x41",     // no continuation
    b"\xf0\x8f\xbf\xbf", // overlong, four octets
    b"\xf0\x90\x80",     // cut
    b"\xf4\x90\x80\x80", // beyond 10FFFF
    b"\xf5\x80\x80\x80", // the same
    b"\xff",             // never in UTF-8
    b"a\x80",
    b"a\xc3",
    b"a\xf0\x90\x80\x41",
    b"\xc3\xa9\xff",
];

/// Each text whole, with its last octet missing, with an octet after it, and with a length that
/// leaves its last octet out.
pub fn short_string_edges(cases: &mut Cases) {
    let mut texts: Vec<Vec<u8>> = TEXTS.iter().map(|text| text.as_bytes().to_vec()).collect();
    texts.extend(BOUNDARY_CHARACTERS.map(|character| character.to_string().into_bytes()));
    texts.extend(NOT_UTF8.map(<[u8]>::to_vec));
    texts.extend([vec![b'a'; 127], vec![b'a'; 128]]);
    for text in texts {
        let octets = short_string(&text);
        cases.case(ShortStr, &[&octets]);
        cases.case(ShortStr, &[&octets[..text.len()]]);
        cases.case(ShortStr, &[&[octets.as_slice(), &[0x80]].concat()]);
        let shorter = octets[0].saturating_sub(1);
        cases.case(ShortStr, &[&[&[shorter], text.as_slice()].concat()]);
    }
}

/// Lengths cut short; lengths with fewer octets than they say, with as many, and with more.
pub fn long_string_edges(cases: &mut Cases, operation: Operation) {
    for length in 0..4 {
        cases.case(operation, &[&vec![0; length]]);
        cases.case(operation, &[&vec![0xff; length]]);
    }
    for length in [0u32, 1, 2, 3, 127, 128] {
        for left in length.saturating_sub(1)..=length + 1 {
            length_and_octets(cases, operation, length, left);
        }
    }
    for length in [0x100, 0x1_0000, 0x100_0000, 0x7fff_ffff, 0x8000_0000, 0xffff_ffff] {
        for left in [0, 1, 4, 8] {
            length_and_octets(cases, operation, length, left);
        }
    }
}

/// A length field and `left` octets after it, which are neither a text nor a table.
fn length_and_octets(cases: &mut Cases, operation: Operation, length: u32, left: u32) {
    let octets = vec![0xff; left as usize];
    cases.case(operation, &[&[&length.to_be_bytes(), octets.as_slice()].concat()]);
}

// Texts.

/// The octets next to which RFC 3629 decides otherwise.
const DECIDING: [u8; 25] = [
    0, 0x41, 0x7f, 0x80, 0x8f, 0x90, 0x9f, 0xa0, 0xbf, 0xc0, 0xc1, 0xc2, 0xdf, 0xe0, 0xe1, 0xec,
    0xed, 0xee, 0xef, 0xf0, 0xf1, 0xf3, 0xf4, 0xf5, 0xff,
];

pub fn utf8(cases: &mut Cases) {
    for a in 0..=255 {
        scanned_text(cases, &[a]);
        (0..=255).for_each(|b| scanned_text(cases, &[a, b]));
    }
    for a in 0x80..=255 {
        for b in DECIDING {
            DECIDING.iter().for_each(|c| scanned_text(cases, &[a, b, *c]));
        }
    }
    for a in 0xe0..=255 {
        for b in DECIDING {
            for c in DECIDING {
                DECIDING.iter().for_each(|d| text_case(cases, &[a, b, c, *d]));
            }
        }
    }
}

pub fn utf8_3(cases: &mut Cases) {
    for a in 0..=255 {
        for b in 0..=255 {
            (0..=255).for_each(|c| text_case(cases, &[a, b, c]));
        }
    }
}

/// A text to be read; and to be written, where the Rust can hold it.
fn text_case(cases: &mut Cases, text: &[u8]) {
    cases.case(ShortStr, &[&short_string(text)]);
    if std::str::from_utf8(text).is_ok() {
        cases.case(WriteShortStr, &[text]);
    }
}

/// The same, and to be scanned: by the port's program, which is slower.
fn scanned_text(cases: &mut Cases, text: &[u8]) {
    text_case(cases, text);
    cases.case(ScanUtf8, &[text]);
}

// Long inputs.

/// A text read with the length 255, which may cut it; and, where it fits, with its own length:
/// whole, with its last octet missing, and with an octet after it.
pub fn long_short_string(cases: &mut Cases, text: &[u8]) {
    cases.case(ShortStr, &[&[&[255], text].concat()]);
    if text.len() <= 255 {
        let octets = short_string(text);
        cases.case(ShortStr, &[&octets]);
        cases.case(ShortStr, &[&octets[..text.len()]]);
        cases.case(ShortStr, &[&[octets.as_slice(), b"a"].concat()]);
    }
}

pub fn long_long_string(cases: &mut Cases, octets: &[u8]) {
    let whole = long_string(octets);
    for operation in [LongStr, SkipFieldTable] {
        cases.case(operation, &[&whole]);
        cases.case(operation, &[&whole[..whole.len() - 1]]);
        cases.case(operation, &[&[whole.as_slice(), &[0]].concat()]);
    }
    cases.case(WriteLongStr, &[octets]);
    cases.case(WriteOctets, &[octets]);
}
