//! The kinds good, damaged and random: cases of operations drawn by chance.
use crate::comparison::Cases;
use crate::frames;
use crate::inputs::{self, LETTERS, Rng, likely_table, likely_value};
use crate::line::Arguments;
use crate::methods;
use crate::operation::Operation::{self, *};

#[derive(Clone, Copy)]
pub enum Drawing {
    Good,
    Damaged,
    Random,
}

/// The arguments of a random case of an operation.
type Draw = fn(&mut Rng, Operation) -> Arguments;

/// `count` cases, by each of the drawings in turn.
pub fn drawn(cases: &mut Cases, seed: u64, count: u64, drawings: &[Drawing]) {
    let mut r = Rng(seed);
    let readers = ballot(cases.readers());
    let all = [readers.as_slice(), ballot(cases.writers()).as_slice()].concat();
    for (drawing, _) in drawings.iter().cycle().zip(0..count) {
        let (among, draw): (_, Draw) = match drawing {
            Drawing::Good => (&all, good),
            Drawing::Damaged => (&readers, damaged),
            Drawing::Random => (&readers, random),
        };
        let operation = r.pick(among);
        let arguments = draw(&mut r, operation);
        cases.case_of(operation, &arguments);
    }
}

/// The operations to draw from, those with more to go wrong several times. The protocol header is a
/// constant: its one case is in the sheet.
fn ballot(operations: Vec<Operation>) -> Vec<Operation> {
    let weight = |operation: Operation| match operation {
        ProtocolHeader => 0,
        ReadFieldTable | ReadContentHeader | WriteCommand | WriteContentHeader
        | WriteFieldTable => 6,
        ReadFieldValue | ShortStr | Decode | WriteShortStr => 3,
        LongStr | SkipFieldTable | Encode | WriteFieldValue | WriteLongStr | WriteFrame => 2,
        _ => 1,
    };
    operations.iter().flat_map(|operation| vec![*operation; weight(*operation)]).collect()
}

fn octets(octets: Vec<u8>) -> Arguments {
    Arguments::of_fields(vec![octets])
}

/// A reader's input, in a third of the cases with octets after it; or a writer's arguments.
fn good(r: &mut Rng, operation: Operation) -> Arguments {
    if operation.is_writer() {
        return inputs::writer_arguments(r, operation);
    }
    let mut input = inputs::reader_input(r, operation);
    if r.one_in(3) {
        let length = r.place(5);
        input.extend(r.octets(length));
    }
    octets(input)
}

fn damaged(r: &mut Rng, operation: Operation) -> Arguments {
    let mut input = inputs::reader_input(r, operation);
    for _ in 0..1 + r.below(2) {
        damage(r, &mut input);
    }
    octets(input)
}

pub fn damage(r: &mut Rng, octets: &mut Vec<u8>) {
    if octets.is_empty() {
        return octets.push(r.octet());
    }
    let place = r.place(octets.len());
    match r.below(7) {
        0 => octets.truncate(place),
        1 => octets[place] = r.octet(),
        2 => octets[place] ^= 1 << r.below(8),
        3 => drop(octets.remove(place)),
        4 => octets.insert(place, r.octet()),
        5 => octets[place] = r.pick(LETTERS),
        _ => change_a_length(r, octets),
    }
}

/// Adds to an octet near the beginning, where lengths stand.
fn change_a_length(r: &mut Rng, octets: &mut [u8]) {
    let place = r.place(octets.len().min(24));
    octets[place] = octets[place].wrapping_add(r.pick(&[1, 255, 2, 128]));
}

fn random(r: &mut Rng, operation: Operation) -> Arguments {
    let lengths = [0, 1, 2, 3, 4, 5, 6, 7, 8, 9, 11, 12, 13, 14, 15, 20];
    let length = r.pick(&lengths) + r.place(3);
    let mut input: Vec<u8> = (0..length).map(|_| likely_octet(r)).collect();
    match operation {
        ReadFieldTable => likely_table(r, &mut input),
        ReadFieldValue => likely_value(r, &mut input),
        Decode => frames::likely(r, &mut input),
        ReadContentHeader => methods::likely_header(r, &mut input),
        _ => {}
    }
    octets(input)
}

/// Small numbers and letters more often, so that more than a reader's first test is reached.
pub fn likely_octet(r: &mut Rng) -> u8 {
    match r.below(4) {
        0 => 0,
        1 => r.below(8) as u8,
        2 => r.pick(LETTERS),
        _ => r.octet(),
    }
}
