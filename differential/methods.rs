//! Commands, content headers and replies: random ones, and the kinds of cases made of them.
use crate::comparison::Cases;
use crate::inputs::{BOUNDARY_CHARACTERS, Rng, big_endian, edge_numbers, flat_table, likely_table};
use crate::inputs::{number, reader_input, short_string, text_up_to};
use crate::inputs::{table_octets, table_to_write};
use crate::layouts::{COMMANDS, REPLIES, present, properties};
use crate::line::Arguments;
use crate::operation::Operation::{self, *};
use crate::random::{damage, likely_octet};
use crate::strings::{NOT_UTF8, TEXTS};
use crate::tables;
use crate::tape::Table;
use crate::types::{FieldValue, Reader, WireError};

// Random inputs.

/// Class, method and arguments of a command.
pub fn command(r: &mut Rng) -> Vec<Vec<u8>> {
    let (class, method, letters) = r.pick(&COMMANDS);
    let arguments = letters.chars().map(|letter| argument(r, letter)).collect();
    command_fields(class, method, arguments)
}

/// Class, method, then the arguments.
fn command_fields(class: u16, method: u16, arguments: Vec<Vec<u8>>) -> Vec<Vec<u8>> {
    let ids = [class.to_be_bytes().to_vec(), method.to_be_bytes().to_vec()];
    ids.into_iter().chain(arguments).collect()
}

/// An argument by its letter; a few short strings are too long.
fn argument(r: &mut Rng, letter: char) -> Vec<u8> {
    match letter {
        'o' => number(r, 1),
        'H' => number(r, 2),
        'L' => number(r, 4),
        'Q' => number(r, 8),
        'b' => vec![r.below(2) as u8],
        'p' => text_up_to(r, 300).into_bytes(),
        _ => {
            let most = r.pick(&[12, 12, 12, 12, 12, 12, 255, 257]);
            text_up_to(r, most).into_bytes()
        }
    }
}

/// An item as it stands on the wire.
fn item(r: &mut Rng, letter: char) -> Vec<u8> {
    match letter {
        's' => {
            let most = r.pick(&[12, 12, 12, 12, 12, 12, 12, 255]);
            short_string(text_up_to(r, most).as_bytes())
        }
        't' => reader_input(r, ReadFieldTable),
        _ => argument(r, letter),
    }
}

/// A payload of the kind that a reply reader reads.
pub fn reply(r: &mut Rng, operation: Operation) -> Vec<u8> {
    let known = REPLIES.iter().find(|(of, _)| *of == operation);
    let (_, letters) = known.expect("a reply reader");
    let mut octets = r.octets(4);
    letters.chars().for_each(|letter| octets.extend(item(r, letter)));
    octets
}

/// All flags, few, or any.
pub fn flags(r: &mut Rng) -> u16 {
    match r.below(4) {
        0 => 0xffff,
        1 => (r.next() & r.next() & r.next()) as u16,
        _ => r.next() as u16,
    }
}

/// A content header on the wire, of any class and weight; its table may run past its length or be
/// too deep.
pub fn header(r: &mut Rng, flags: u16) -> Vec<u8> {
    let weight = if r.one_in(2) { vec![0, 0] } else { number(r, 2) };
    let mut octets = [number(r, 2), weight, number(r, 8), flags.to_be_bytes().to_vec()].concat();
    present(flags).for_each(|(_, letter)| octets.extend(item(r, letter)));
    octets
}

/// Class, body size, flags 15 to 3, then the present properties; and the table, if it is among them.
pub fn header_arguments(r: &mut Rng, flags: u16) -> Arguments {
    let flags = flags & !7;
    let mut fields = vec![number(r, 2), number(r, 8), flags.to_be_bytes().to_vec()];
    let mut table = Table::new();
    for (_, letter) in present(flags) {
        match letter {
            't' => table = table_to_write(r),
            _ => fields.push(argument(r, letter)),
        }
    }
    Arguments { fields, table }
}

/// Channel, type, and the payload's arguments.
pub fn frame_arguments(r: &mut Rng) -> Arguments {
    let frame_type = r.pick(&[1, 2, 3, 8]);
    let payload = match frame_type {
        1 => Arguments::of_fields(command(r)),
        2 => {
            let flags = flags(r);
            header_arguments(r, flags)
        }
        3 => {
            let length = r.place(60);
            Arguments::of_fields(vec![r.octets(length)])
        }
        _ => Arguments::default(),
    };
    let fields = [number(r, 2), vec![frame_type]].into_iter().chain(payload.fields).collect();
    Arguments { fields, table: payload.table }
}

/// Puts what stands before the properties before most octets, with few flags.
pub fn likely_header(r: &mut Rng, octets: &mut Vec<u8>) {
    if r.one_in(8) {
        return;
    }
    let flags = (r.next() & r.next() & r.next()) as u16;
    if flags >> 13 == 1 {
        likely_table(r, octets);
    }
    octets.splice(..0, [r.octets(12), flags.to_be_bytes().to_vec()].concat());
}

// The kind `commands`.

pub fn commands(cases: &mut Cases) {
    for command in COMMANDS {
        let (_, _, letters) = command;
        let fills: &[u8] = if letters.contains(['H', 'L', 'Q']) { &[0, 1, 0xff] } else { &[0] };
        for mask in 0..1 << letters.matches('b').count() {
            for fill in fills {
                lengths(letters).for_each(|of| command_case(cases, command, mask, *fill, &of));
            }
            texts(letters).for_each(|of| command_case(cases, command, mask, 0, &of));
        }
    }
}

/// Strings for the arguments of a command: each of them of 0, 3, 255 and 256 octets.
fn lengths(letters: &str) -> impl Iterator<Item = Vec<Vec<u8>>> {
    let strings = letters.matches(['s', 'p']).count();
    let string = |set: u32, place: usize| {
        vec![b'a' + place as u8; [3, 0, 255, 256][(set >> (2 * place) & 3) as usize]]
    };
    (0..1 << (2 * strings)).map(move |set| (0..strings).map(|place| string(set, place)).collect())
}

/// The same: one of them each text at which something changes, the others short.
fn texts(letters: &str) -> impl Iterator<Item = Vec<Vec<u8>>> {
    let strings = letters.matches(['s', 'p']).count();
    (0..strings).flat_map(move |place| {
        edge_texts().into_iter().map(move |text| {
            let mut of = vec![b"z".to_vec(); strings];
            of[place] = text;
            of
        })
    })
}

fn edge_texts() -> Vec<Vec<u8>> {
    let characters = BOUNDARY_CHARACTERS.map(|character| character.to_string().into_bytes());
    TEXTS.iter().map(|text| text.as_bytes().to_vec()).chain(characters).collect()
}

/// A command with these strings, whose flags are the bits of `mask`. Its numbers are 0, have octets
/// 1, 2, 3 and so on, or are the largest.
fn command_case(
    cases: &mut Cases,
    (class, method, letters): (u16, u16, &str),
    mut mask: u8,
    fill: u8,
    strings: &[Vec<u8>],
) {
    let number =
        |width: u8| (1..=width).map(|place| if fill == 1 { place } else { fill }).collect();
    let mut flag = || {
        let lowest = mask & 1;
        mask >>= 1;
        lowest
    };
    let mut strings = strings.iter();
    let argument = |letter| match letter {
        'H' => number(2),
        'L' => number(4),
        'Q' => number(8),
        'b' => vec![flag()],
        _ => strings.next().expect("a string for each letter s and p").clone(),
    };
    let arguments = letters.chars().map(argument).collect();
    let fields = command_fields(class, method, arguments);
    cases.case_of(WriteCommand, &Arguments::of_fields(fields));
}

// The kind `headers`.

pub fn headers(cases: &mut Cases) {
    let mut r = Rng(7);
    for flags in 0..=0xffff {
        every_flags(cases, &mut r, flags);
    }
    for flags in (0..=0xffff).step_by(8) {
        (0..4).for_each(|_| cases.case_of(WriteContentHeader, &header_arguments(&mut r, flags)));
    }
    for flags in [0, 7, 0x2000, 0xdff8, 0xfff8, 0xffff] {
        let octets = header(&mut r, flags);
        (0..=octets.len()).for_each(|length| cases.case(ReadContentHeader, &[&octets[..length]]));
    }
    for (flag, letter) in properties() {
        lone_property(cases, 1 << flag, letter);
    }
}

/// A header with these flags: whole or with octets after it, cut, and damaged.
fn every_flags(cases: &mut Cases, r: &mut Rng, flags: u16) {
    let mut octets = header(r, flags);
    let cut = r.place(octets.len());
    cases.case(ReadContentHeader, &[&octets[..cut]]);
    if r.one_in(3) {
        let after = r.place(5);
        octets.extend(r.octets(after));
    }
    cases.case(ReadContentHeader, &[&octets]);
    cases.case(ContentHeaderBodySize, &[&octets]);
    damage(r, &mut octets);
    cases.case(ReadContentHeader, &[&octets]);
}

/// The values of one property at which something changes, no other being present.
fn lone_property(cases: &mut Cases, flags: u16, letter: char) {
    match letter {
        'o' => (0..=255).for_each(|octet| property_case(cases, flags, &[octet], &[&[octet]])),
        'Q' => {
            for octets in edge_numbers(8).iter().map(|number| big_endian(*number, 8)) {
                property_case(cases, flags, &octets, &[&octets]);
            }
        }
        't' => tables::headers(cases, flags),
        _ => {
            let long = [127, 128, 254, 255].map(|length| vec![b'x'; length]);
            for text in edge_texts().into_iter().chain(long) {
                property_case(cases, flags, &short_string(&text), &[&text]);
            }
            for text in NOT_UTF8 {
                property_read(cases, flags, &short_string(text));
            }
            property_written(cases, flags, &[&[b'x'; 256]], &[]);
        }
    }
}

/// A header with one property, by its octets and by the fields of a writer's case.
fn property_case(cases: &mut Cases, flags: u16, octets: &[u8], fields: &[&[u8]]) {
    property_read(cases, flags, octets);
    property_written(cases, flags, fields, &[]);
}

/// The header read whole, cut by an octet, and with an octet after it.
pub fn property_read(cases: &mut Cases, flags: u16, octets: &[u8]) {
    let fixed = [&[0, 60, 0, 0, 0, 0, 0, 0, 0, 0, 0, 9], flags.to_be_bytes().as_slice()].concat();
    let whole = [fixed.as_slice(), octets, &[0x80]].concat();
    for left in 0..=2 {
        cases.case(ReadContentHeader, &[&whole[..whole.len() - left]]);
    }
}

pub fn property_written(
    cases: &mut Cases,
    flags: u16,
    fields: &[&[u8]],
    table: &[(String, FieldValue)],
) {
    let (class, size, flags) = ([0, 60], [0, 0, 0, 0, 0, 0, 0, 9], flags.to_be_bytes());
    let fixed: [&[u8]; 3] = [&class, &size, &flags];
    cases.table_case(WriteContentHeader, &[&fixed, fields].concat(), table);
}

// The kind `replies`.

/// How many payloads of each kind.
const PAYLOADS: u32 = 4000;

pub fn replies(cases: &mut Cases) {
    let mut r = Rng(32);
    for (operation, letters) in REPLIES {
        (0..PAYLOADS).for_each(|_| reply_cases(cases, &mut r, operation));
        if letters.starts_with('s') {
            reply_texts(cases, operation);
        }
    }
}

/// A payload whole, cut, with octets after it, and damaged; and random octets.
fn reply_cases(cases: &mut Cases, r: &mut Rng, operation: Operation) {
    let mut octets = reply(r, operation);
    cases.case(operation, &[&octets]);
    let (cut, after) = (r.place(octets.len()), r.place(5));
    cases.case(operation, &[&octets[..cut]]);
    octets.extend(r.octets(after));
    cases.case(operation, &[&octets]);
    damage(r, &mut octets);
    cases.case(operation, &[&octets]);
    let length = r.place(24);
    let random: Vec<u8> = (0..length).map(|_| likely_octet(r)).collect();
    cases.case(operation, &[&random]);
}

/// Texts behind the ids, and octets that are none: whole with what follows, and cut by an octet.
fn reply_texts(cases: &mut Cases, operation: Operation) {
    let long = [127, 128, 254, 255].map(|length| vec![b'x'; length]);
    let octets = NOT_UTF8.map(<[u8]>::to_vec);
    for text in edge_texts().into_iter().chain(long).chain(octets) {
        let payload = [&[0, 60, 0, 60], short_string(&text).as_slice()].concat();
        cases.case(operation, &[&[payload.as_slice(), &[1, 2, 3, 4, 5, 6, 7, 8]].concat()]);
        cases.case(operation, &[&payload]);
        cases.case(operation, &[&payload[..payload.len() - 1]]);
    }
}

// Long inputs.

/// Logins with long texts; headers with a long table, alone and before a string.
pub fn long(cases: &mut Cases, r: &mut Rng) {
    for length in [254, 255, 256, 257, 65_535, 65_536] {
        let (long, short) = (vec![b'u'; length], vec![b'p']);
        login(cases, &long, &short);
        login(cases, &short, &long);
    }
    let table = flat_table(r, 1000);
    let (octets, text) = (table_octets(&table), [b'x'; 255]);
    property_read(cases, 0x2000, &octets);
    property_written(cases, 0x2000, &[], &table);
    property_read(cases, 0x2400, &[octets, short_string(&text)].concat());
    property_written(cases, 0x2400, &[&text], &table);
}

fn login(cases: &mut Cases, user: &[u8], password: &[u8]) {
    cases.case(WriteCommand, &[&[0, 10], &[0, 11], user, password]);
}

// What was recorded.

/// A header read, whole and cut by an octet, and written.
pub fn recorded_header(cases: &mut Cases, octets: &[u8]) {
    let fields = header_fields(octets).expect("recorded.txt: a content header");
    cases.case(ReadContentHeader, &[octets]);
    cases.case(ReadContentHeader, &[&octets[..octets.len() - 1]]);
    cases.case(ContentHeaderBodySize, &[octets]);
    cases.case_of(WriteContentHeader, &fields);
}

/// The arguments with which a writer gives these octets back.
fn header_fields(octets: &[u8]) -> Result<Arguments, WireError> {
    let mut r = Reader::new(octets);
    let (class, _weight, size, flags) = (r.u16()?, r.u16()?, r.u64()?, r.u16()?);
    let (class, size) = (class.to_be_bytes().to_vec(), size.to_be_bytes().to_vec());
    let mut fields = vec![class, size, flags.to_be_bytes().to_vec()];
    let mut table = Table::new();
    for (_, letter) in present(flags) {
        match letter {
            's' => fields.push(r.short_str()?.into_bytes()),
            't' => table = r.field_table()?,
            'o' => fields.push(vec![r.u8()?]),
            _ => fields.push(big_endian(r.u64()?, 8)),
        }
    }
    assert_eq!(r.remaining(), 0, "recorded.txt: a content header with nothing after it");
    Ok(Arguments { fields, table })
}

/// A reply by its reader, whole and cut by an octet, and by the reader of ids.
pub fn recorded_reply(cases: &mut Cases, operation: Operation, octets: &[u8]) {
    cases.case(operation, &[octets]);
    cases.case(operation, &[&octets[..octets.len() - 1]]);
    cases.case(MethodId, &[octets]);
}
