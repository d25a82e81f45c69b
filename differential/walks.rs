//! The kind walks: lists of frames that the Rust writes, cut at any place. The frames that a walk must
//! give are those that the Rust decodes one behind another.
use crate::answer::{Answer, Value};
use crate::comparison::Cases;
use crate::frame::{Frame, FrameType};
use crate::inputs::{Rng, writer_arguments};
use crate::layouts;
use crate::library::{ENTRY_WORDS, walked};
use crate::line::{Arguments, Case};
use crate::method::parse_content_header;
use crate::operation::Operation::{ReadFrame, WriteFrame};
use crate::original;
use crate::tape::{Table, Tape};

/// A frame that the Rust has written, and from what.
struct Made {
    arguments: Arguments,
    octets: Vec<u8>,
}

/// A whole frame that the Rust finds: where it begins and ends, and its table.
struct Found {
    first: usize,
    end: usize,
    table: Table,
}

/// `count` lists of up to eight frames.
pub fn walks(cases: &mut Cases, seed: u64, count: u64) {
    let mut r = Rng(seed);
    for _ in 0..count {
        let frames = r.place(9);
        let made: Vec<Made> = (0..frames).map(|_| frame(&mut r)).collect();
        let octets: Vec<u8> = made.iter().flat_map(|frame| frame.octets.iter().copied()).collect();
        let cut = if r.one_in(3) { octets.len() } else { r.place(octets.len() + 1) };
        let found = find(&octets[..cut]);
        walk_cases(cases, &octets[..cut], &found);
        for (frame, made) in found.iter().zip(&made) {
            read_alone(cases, &octets[..cut], frame, made);
        }
    }
}

/// A command, a content header, a body or a heartbeat that the Rust writes without a refusal.
fn frame(r: &mut Rng) -> Made {
    loop {
        let arguments = writer_arguments(r, WriteFrame);
        let fields = arguments.slices();
        let table = arguments.table.as_slice();
        let case = Case { operation: WriteFrame, at: 0, lent: None, fields: &fields, table };
        if let Some(Answer::Given { mut values, .. }) = original::answer(&case)
            && let Some(Value::Octets(octets)) = values.pop()
        {
            return Made { arguments, octets };
        }
    }
}

/// What the Rust decodes from octet 0 on.
fn find(octets: &[u8]) -> Vec<Found> {
    let (mut found, mut first) = (Vec::new(), 0);
    while let Ok((frame, consumed)) = Frame::decode(&octets[first..]) {
        let table = match frame.frame_type {
            FrameType::Header => {
                let (_, properties) =
                    parse_content_header(&frame.payload).expect("a header that the Rust wrote");
                properties.headers.unwrap_or_default()
            }
            _ => Table::new(),
        };
        found.push(Found { first, end: first + consumed, table });
        first += consumed;
    }
    found
}

/// With room to spare; with the entries and records that are needed; with an entry too few; with a
/// record too few.
fn walk_cases(cases: &mut Cases, octets: &[u8], found: &[Found]) {
    let records = found.iter().map(|frame| Tape::of_table(&frame.table).records.len()).sum();
    let mut put = |records, entries| {
        let expected = expected(octets.len(), found, records, entries);
        cases.walk(octets, records, entries, &expected);
    };
    put(records + 2, found.len() + 2);
    put(records, found.len());
    if !found.is_empty() {
        put(records, found.len() - 1);
    }
    if records > 0 {
        put(records - 1, found.len());
    }
}

/// The frames for which there are entries and records, up to the first for which there are none. Behind
/// them no octets are left, or a part of a frame (1), or a frame without an entry or records (10).
fn expected(length: usize, found: &[Found], records: usize, entries: usize) -> Answer {
    let (mut tape, mut consumed) = (Tape::default(), 0);
    let mut read: Vec<[u64; ENTRY_WORDS]> = Vec::new();
    for frame in found {
        let before = tape.records.len();
        let own = Tape::of_table(&frame.table).records.len();
        if read.len() == entries || before + own > records {
            return walked(consumed, &read, (10, [0, 0]), tape);
        }
        tape.push_table(&frame.table);
        read.push([frame.first as u64, before as u64, own as u64]);
        consumed = frame.end;
    }
    let stop = if consumed == length { 0 } else { 1 };
    walked(consumed, &read, (stop, [0, 0]), tape)
}

/// A frame read at its place. The Rust reads no commands: those must give back what they were made of.
fn read_alone(cases: &mut Cases, octets: &[u8], found: &Found, made: &Made) {
    let fields = [octets];
    let case =
        Case { operation: ReadFrame, at: found.first, lent: None, fields: &fields, table: &[] };
    match made.arguments.fields.as_slice() {
        [channel, frame_type, command @ ..] if frame_type == &[FrameType::Method as u8] => {
            let values =
                [Value::Number(1), number(channel)].into_iter().chain(command_values(command));
            let expected = Answer::Given { next: found.end, values: values.collect() };
            cases.expect(&case, &expected, 1);
        }
        _ => cases.put_behind(&case, 1),
    }
}

fn number(octets: &[u8]) -> Value {
    Value::Number(octets.iter().fold(0, |n, octet| n << 8 | u64::from(*octet)))
}

/// Class, method and arguments of a command, as the reader of commands gives them. A login's user ends
/// at the first octet 0 (RFC 4616), so one with such an octet in it comes back shorter.
fn command_values(fields: &[Vec<u8>]) -> Vec<Value> {
    let id = |place: usize| u16::from_be_bytes([fields[place][0], fields[place][1]]);
    let letters = layouts::arguments(id(0), id(1)).expect("a command");
    let argument = |(letter, octets): (char, &Vec<u8>)| match letter {
        's' | 'p' => Value::Octets(octets.clone()),
        _ => number(octets),
    };
    let ids = [number(&fields[0]), number(&fields[1])];
    if letters == "pp" {
        let login = [fields[2].as_slice(), &fields[3]].join(&0);
        let parts = login.splitn(2, |octet| *octet == 0).map(|part| Value::Octets(part.to_vec()));
        return ids.into_iter().chain(parts).collect();
    }
    ids.into_iter().chain(letters.chars().zip(&fields[2..]).map(argument)).collect()
}
