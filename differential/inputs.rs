//! Well-formed inputs of readers and arguments of writers, drawn at random with a weight on the
//! limits; and the pieces of which others are made.
use crate::frame::{Frame, FrameType};
use crate::line::Arguments;
use crate::methods;
use crate::operation::Operation::{self, *};
use crate::tape::{TOO_DEEP, Table};
use crate::types::{FieldValue, Writer};

/// A splitmix64 generator: the same numbers for the same seed on every machine.
pub struct Rng(pub u64);

impl Rng {
    pub fn next(&mut self) -> u64 {
        self.0 = self.0.wrapping_add(0x9e37_79b9_7f4a_7c15);
        let mut z = self.0;
        z = (z ^ (z >> 30)).wrapping_mul(0xbf58_476d_1ce4_e5b9);
        z = (z ^ (z >> 27)).wrapping_mul(0x94d0_49bb_1331_11eb);
        z ^ (z >> 31)
    }

    pub fn below(&mut self, limit: u64) -> u64 {
        self.next() % limit
    }

    pub fn octet(&mut self) -> u8 {
        self.next() as u8
    }

    pub fn octets(&mut self, length: usize) -> Vec<u8> {
        let mut octets = Vec::with_capacity(length + 7);
        while octets.len() < length {
            octets.extend(self.next().to_le_bytes());
        }
        octets.truncate(length);
        octets
    }

    pub fn one_in(&mut self, times: u64) -> bool {
        self.below(times) == 0
    }

    /// A place in a list of this length, which must not be 0.
    pub fn place(&mut self, length: usize) -> usize {
        self.below(length as u64) as usize
    }

    pub fn pick<T: Copy>(&mut self, of: &[T]) -> T {
        of[self.place(of.len())]
    }
}

/// A well-formed input of a reader, with nothing after it.
pub fn reader_input(r: &mut Rng, operation: Operation) -> Vec<u8> {
    if let Some(width) = operation.number_width() {
        return number(r, width);
    }
    match operation {
        ReadFieldTable if r.one_in(4) => loose_table(r),
        ReadFieldTable => table_octets(&table_to_read(r)),
        ReadFieldValue if r.one_in(4) => loose_value(r),
        ReadFieldValue => value_octets(&value_to_read(r)),
        ShortStr => short_string(text_up_to(r, 255).as_bytes()),
        // What skip_field_table skips need not be a table.
        SkipFieldTable if r.one_in(2) => table_octets(&table(r)),
        LongStr | SkipFieldTable => long_string(&long_content(r)),
        ScanUtf8 => long_content(r),
        Decode => frame(r).encode(),
        ReadContentHeader => {
            let flags = methods::flags(r);
            methods::header(r, flags)
        }
        _ => methods::reply(r, operation),
    }
}

/// A writer's arguments: such as the Rust can hold, so any refusal is 2.
pub fn writer_arguments(r: &mut Rng, operation: Operation) -> Arguments {
    let fields = match operation {
        WriteCommand => methods::command(r),
        WriteContentHeader => {
            let flags = methods::flags(r);
            return methods::header_arguments(r, flags);
        }
        WriteFrame => return methods::frame_arguments(r),
        WriteFieldTable => return Arguments::of_table(table_to_write(r)),
        WriteFieldValue => {
            return Arguments::of_table(vec![(String::new(), lone_value(r))]);
        }
        Encode => frame_fields(&frame(r)),
        PackBits => vec![(0..8).map(|_| r.below(2) as u8).collect()],
        ProtocolHeader => Vec::new(),
        WriteShortStr => vec![short_or_too_long(r)],
        _ => match operation.number_width() {
            Some(width) => vec![number(r, width)],
            None => vec![long_content(r)],
        },
    };
    Arguments::of_fields(fields)
}

/// Numbers of a width at which something changes, among them the odd floats by their bits.
pub fn edge_numbers(width: usize) -> &'static [u64] {
    match width {
        1 => &[0, 1, 0x7f, 0x80, 0x81, 0xfe, 0xff],
        2 => &[0, 1, 0xff, 0x100, 0x102, 0x7fff, 0x8000, 0x8001, 0xfffe, 0xffff],
        4 => EDGES_32,
        _ => EDGES_64,
    }
}

const EDGES_32: &[u64] = &[
    0,
    1, // as a float the least subnormal
    0x7f,
    0x80,
    0xffff,
    0x1_0000,
    0x0102_0304,
    0x7fff_ffff,
    0x8000_0000, // -0
    0x8000_0001, // the negative subnormal nearest to it
    0xffff_fffe,
    0xffff_ffff,
    0x3f80_0000, // 1
    0x007f_ffff, // the largest subnormal
    0x0080_0000, // the least normal
    0x7f7f_ffff, // the largest number
    0x7f80_0000, // infinity
    0xff80_0000, // -infinity
    0x7fc0_0000, // quiet NaN
    0x7fc0_0001,
    0xffc0_0000, // negative quiet NaN
    0xffc0_0001,
    0x7f80_0001, // signalling NaN
    0x7fbf_ffff,
    0xff80_0001, // negative signalling NaN
    0xffbf_ffff,
];

const EDGES_64: &[u64] = &[
    0,
    1, // as a float the least subnormal
    0x7f,
    0x80,
    0xffff_ffff,
    0x1_0000_0000,
    0x0102_0304_0506_0708,
    0x7fff_ffff_ffff_ffff,
    0x8000_0000_0000_0000, // -0
    0x8000_0000_0000_0001, // the negative subnormal nearest to it
    0xffff_ffff_ffff_fffe,
    0xffff_ffff_ffff_ffff,
    0x3ff0_0000_0000_0000, // 1
    0x000f_ffff_ffff_ffff, // the largest subnormal
    0x0010_0000_0000_0000, // the least normal
    0x7fef_ffff_ffff_ffff, // the largest number
    0x7ff0_0000_0000_0000, // infinity
    0xfff0_0000_0000_0000, // -infinity
    0x7ff8_0000_0000_0000, // quiet NaN
    0x7ff8_0000_0000_0001,
    0xfff8_0000_0000_0000, // negative quiet NaN
    0xfff8_0000_0000_0001,
    0x7ff0_0000_0000_0001, // signalling NaN
    0x7ff7_ffff_ffff_ffff,
    0xfff0_0000_0000_0001, // negative signalling NaN
    0xfff7_ffff_ffff_ffff,
    // POSIX seconds: the bench sheet's, then the day of 2026-11-15 (UTC) with its neighbours
    1_700_000_001,
    1_794_700_799,
    1_794_700_800, // 00:00:00
    1_794_700_801,
    1_794_744_000, // 12:00:00
    1_794_787_199, // 23:59:59
    1_794_787_200,
];

/// A number of `width` octets, often an edge or small.
pub fn number(r: &mut Rng, width: usize) -> Vec<u8> {
    let number = match r.below(6) {
        0 | 1 => r.pick(edge_numbers(width)),
        2 => r.below(16),
        _ => r.next() >> r.below(64),
    };
    big_endian(number, width)
}

/// The lowest `width` octets of a number.
pub fn big_endian(number: u64, width: usize) -> Vec<u8> {
    number.to_be_bytes()[8 - width..].to_vec()
}

fn u16(r: &mut Rng) -> u16 {
    u16::from_be_bytes(number(r, 2).try_into().unwrap())
}

fn u32(r: &mut Rng) -> u32 {
    u32::from_be_bytes(number(r, 4).try_into().unwrap())
}

fn u64(r: &mut Rng) -> u64 {
    u64::from_be_bytes(number(r, 8).try_into().unwrap())
}

/// First and last characters of each length that UTF-8 has, and the neighbours of the surrogates.
#[rustfmt::skip]
pub const BOUNDARY_CHARACTERS: [char; 16] = [
    '\0', '\u{7f}', '\u{80}', '\u{7ff}', '\u{800}', '\u{fff}', '\u{1000}', '\u{d7ff}', '\u{e000}', '\u{ffff}',
    '\u{10000}', '\u{3ffff}', '\u{40000}', '\u{fffff}', '\u{100000}', '\u{10ffff}',
];

/// A text of exactly `length` octets, mostly small letters. Five characters come from one number.
fn text(r: &mut Rng, length: usize) -> String {
    let mut text = String::with_capacity(length);
    let (mut number, mut left) = (0, 0);
    while text.len() < length {
        if left == 0 {
            (number, left) = (r.next(), 5);
        }
        let drawn = (number & 0xfff) as usize;
        (number, left) = (number >> 12, left - 1);
        let character = match drawn % 12 {
            0 => BOUNDARY_CHARACTERS[drawn / 12 % BOUNDARY_CHARACTERS.len()],
            _ => char::from(b'a' + (drawn / 12 % 26) as u8),
        };
        let fits = text.len() + character.len_utf8() <= length;
        text.push(if fits { character } else { 'z' });
    }
    text
}

pub fn text_up_to(r: &mut Rng, most: usize) -> String {
    let length = length_up_to(r, most);
    text(r, length)
}

/// A length up to `most`: often small, and each end more often than the rest.
fn length_up_to(r: &mut Rng, most: usize) -> usize {
    match r.below(20) {
        0 => 0,
        1 => most,
        2 => most - 1,
        3..=6 => r.place(most + 1),
        _ => r.place(12).min(most),
    }
}

/// A text for a writer of short strings: up to 258 octets, so that some are too long.
fn short_or_too_long(r: &mut Rng) -> Vec<u8> {
    let exact = r.pick(&[254, 255, 256]);
    let length = if r.one_in(4) { exact } else { length_up_to(r, 258) };
    text(r, length).into_bytes()
}

/// The content of a long string: a text or any octets.
fn long_content(r: &mut Rng) -> Vec<u8> {
    let exact = r.pick(&[254, 255, 256]);
    let length = if r.one_in(8) { exact } else { length_up_to(r, 258) };
    if r.one_in(2) { text(r, length).into_bytes() } else { r.octets(length) }
}

/// A short string as it stands on the wire; the octets may be no text.
pub fn short_string(octets: &[u8]) -> Vec<u8> {
    [&[octets.len() as u8], octets].concat()
}

/// A long string as it stands on the wire.
pub fn long_string(octets: &[u8]) -> Vec<u8> {
    [&(octets.len() as u32).to_be_bytes(), octets].concat()
}

/// The value letters that document 01 reads.
pub const LETTERS: &[u8] = b"tbBsuIilfdDSxTVFA";

/// The greatest depth at which a table or an array may stand.
pub const DEEPEST: u32 = TOO_DEEP - 1;

/// A value that stands at `depth`. `budget` bounds the tables and arrays in and beside it.
fn value(r: &mut Rng, depth: u32, budget: &mut u32) -> FieldValue {
    *budget = budget.saturating_sub(1);
    let leaves_only = depth > DEEPEST || *budget == 0;
    match r.pick(LETTERS) {
        b'F' | b'A' if leaves_only => FieldValue::Void,
        b'F' => FieldValue::Table(entries(r, depth + 1, budget)),
        b'A' => {
            let count = r.below(5);
            FieldValue::Array((0..count).map(|_| value(r, depth + 1, budget)).collect())
        }
        letter => leaf(r, letter),
    }
}

fn leaf(r: &mut Rng, letter: u8) -> FieldValue {
    match letter {
        b't' => FieldValue::Bool(r.one_in(2)),
        b'b' => FieldValue::I8(r.octet() as i8),
        b'B' => FieldValue::U8(r.octet()),
        b's' => FieldValue::I16(u16(r) as i16),
        b'u' => FieldValue::U16(u16(r)),
        b'I' => FieldValue::I32(u32(r) as i32),
        b'i' => FieldValue::U32(u32(r)),
        b'l' => FieldValue::I64(u64(r) as i64),
        b'f' => FieldValue::F32(f32::from_bits(u32(r))),
        b'd' => FieldValue::F64(f64::from_bits(u64(r))),
        b'D' => FieldValue::Decimal { scale: r.octet(), value: u32(r) as i32 },
        b'S' => FieldValue::LongStr(leaf_octets(r)),
        b'x' => FieldValue::Bytes(leaf_octets(r)),
        b'T' => FieldValue::Timestamp(u64(r)),
        _ => FieldValue::Void,
    }
}

fn leaf_octets(r: &mut Rng) -> Vec<u8> {
    let most = if r.one_in(10) { 300 } else { 12 };
    let length = r.place(most);
    r.octets(length)
}

fn lone_value(r: &mut Rng) -> FieldValue {
    value(r, 1, &mut 20)
}

/// Entries whose values stand at `depth`.
fn entries(r: &mut Rng, depth: u32, budget: &mut u32) -> Table {
    let count = r.below(6);
    (0..count).map(|_| (name(r), value(r, depth, budget))).collect()
}

fn name(r: &mut Rng) -> String {
    let most = if r.one_in(30) { 255 } else { 8 };
    text_up_to(r, most)
}

fn table(r: &mut Rng) -> Table {
    if r.one_in(12) {
        let depth = r.below(u64::from(DEEPEST) + 1);
        return chain(r, depth);
    }
    let mut budget = r.pick(&[0, 3, 10, 40]);
    entries(r, 1, &mut budget)
}

/// Tables and arrays one in another, `depth` of them, now and then with a leaf beside one.
pub fn chain(r: &mut Rng, depth: u64) -> Table {
    let mut table = Table::new();
    for _ in 0..depth {
        if r.one_in(4) {
            let place = r.place(table.len() + 1);
            table.insert(place, (name(r), value(r, 1, &mut 0)));
        }
        let kind = r.pick(&["F", "A"]);
        table = nested(1, kind, table);
    }
    table
}

/// A table in `depth` others, tables (F) and arrays (A) by the letters of `kinds` in turn.
pub fn nested(depth: u64, kinds: &str, table: Table) -> Table {
    let kinds = kinds.chars().cycle().take(depth as usize);
    kinds.fold(table, |table, kind| {
        let outer = match kind {
            'F' => FieldValue::Table(table),
            _ => FieldValue::Array(table.into_iter().map(|(_, value)| value).collect()),
        };
        vec![("c".into(), outer)]
    })
}

/// A table, now and then too deep for document 01 by one or two.
fn table_to_read(r: &mut Rng) -> Table {
    if r.one_in(12) {
        let depth = u64::from(DEEPEST) - 2 + r.below(5);
        return chain(r, depth);
    }
    table(r)
}

fn value_to_read(r: &mut Rng) -> FieldValue {
    if r.one_in(12) {
        let depth = u64::from(DEEPEST) - 2 + r.below(5);
        let (_, value) = chain(r, depth).remove(0);
        return value;
    }
    lone_value(r)
}

/// A table on the wire in which some declared lengths are too small.
fn loose_table(r: &mut Rng) -> Vec<u8> {
    let table = table(r);
    loose_entries(r, &table)
}

fn loose_value(r: &mut Rng) -> Vec<u8> {
    let value = lone_value(r);
    loose(r, &value)
}

fn loose_entries(r: &mut Rng, table: &[(String, FieldValue)]) -> Vec<u8> {
    let mut body = Vec::new();
    for (name, value) in table {
        body.extend(short_string(name.as_bytes()));
        body.extend(loose(r, value));
    }
    with_loose_length(r, &body)
}

fn loose(r: &mut Rng, value: &FieldValue) -> Vec<u8> {
    match value {
        FieldValue::Table(entries) => [vec![b'F'], loose_entries(r, entries)].concat(),
        FieldValue::Array(items) => {
            let body: Vec<u8> = items.iter().flat_map(|item| loose(r, item)).collect();
            [vec![b'A'], with_loose_length(r, &body)].concat()
        }
        _ => value_octets(value),
    }
}

/// Octets behind their number, or behind a smaller one.
fn with_loose_length(r: &mut Rng, body: &[u8]) -> Vec<u8> {
    let less = r.pick(&[0, 0, 0, 0, 1, 2, 3, 9]);
    let length = body.len().saturating_sub(less) as u32;
    [&length.to_be_bytes(), body].concat()
}

/// Makes octets begin as a table whose length is a little less or more than what is left.
pub fn likely_table(r: &mut Rng, octets: &mut [u8]) {
    let Some(left) = octets.len().checked_sub(4) else { return };
    let length = (left + 1).saturating_sub(r.place(5)) as u32;
    octets[..4].copy_from_slice(&length.to_be_bytes());
    // A short name, so that a letter is reached.
    if let Some(name) = octets.get_mut(4) {
        *name = r.below(3) as u8;
    }
}

/// Makes octets begin with a letter.
pub fn likely_value(r: &mut Rng, octets: &mut [u8]) {
    if let Some(letter) = octets.first_mut() {
        *letter = r.pick(LETTERS);
    }
    if let (Some(b'F' | b'A'), true) = (octets.first(), octets.len() > 4) {
        likely_table(r, &mut octets[1..]);
    }
}

/// A table, now and then with a name that is too long.
pub fn table_to_write(r: &mut Rng) -> Table {
    let mut table = table(r);
    if r.one_in(20) {
        let place = r.place(table.len() + 1);
        table.insert(place, (text(r, 256), FieldValue::Void));
    }
    table
}

/// A table of many entries, none of which has others beneath it.
pub fn flat_table(r: &mut Rng, count: usize) -> Table {
    (0..count).map(|place| (format!("k{place}"), value(r, 1, &mut 0))).collect()
}

pub fn table_octets(table: &[(String, FieldValue)]) -> Vec<u8> {
    let entries: Vec<_> = table.iter().map(|(k, v)| (k.as_str(), v.clone())).collect();
    let mut w = Writer::new();
    w.field_table(&entries).expect("names of at most 255 octets");
    w.into_bytes()
}

pub fn value_octets(value: &FieldValue) -> Vec<u8> {
    let mut w = Writer::new();
    w.field_value(value).expect("names of at most 255 octets");
    w.into_bytes()
}

fn frame(r: &mut Rng) -> Frame {
    let types = [FrameType::Method, FrameType::Header, FrameType::Body, FrameType::Heartbeat];
    let length = r.place(60);
    Frame { frame_type: r.pick(&types), channel: u16(r), payload: r.octets(length) }
}

/// Type, channel and payload.
pub fn frame_fields(frame: &Frame) -> Vec<Vec<u8>> {
    let channel = frame.channel.to_be_bytes().to_vec();
    vec![vec![frame.frame_type as u8], channel, frame.payload.clone()]
}
