//! The kinds exact and positions: memory that is exactly large enough or just too small, and positions
//! at the end of memory, past it, and where a sum could wrap.
use crate::answer::Answer;
use crate::comparison::Cases;
use crate::frame::{Frame, FrameType};
use crate::inputs::{Rng, reader_input, writer_arguments};
use crate::line::{Arguments, Case};
use crate::methods;
use crate::operation::Operation::{self, *};
use crate::original;
use crate::tape::Table;

/// What is tried in both kinds.
fn operations(cases: &Cases) -> Vec<Operation> {
    let all = cases.readers().into_iter().chain([ReadFrame]).chain(cases.writers());
    all.filter(|operation| operation.is_exported()).collect()
}

/// A well-formed input or a writer's arguments.
fn arguments(r: &mut Rng, operation: Operation) -> Arguments {
    let input = match operation {
        _ if operation.is_writer() => return writer_arguments(r, operation),
        ReadFrame => {
            let flags = methods::flags(r);
            let (payload, channel) = (methods::header(r, flags), r.next() as u16);
            Frame { frame_type: FrameType::Header, channel, payload }.encode()
        }
        _ => reader_input(r, operation),
    };
    Arguments::of_fields(vec![input])
}

/// A case from its arguments, at a position and with so much lent.
fn put(
    cases: &mut Cases,
    operation: Operation,
    (fields, table): (&[&[u8]], &Table),
    at: usize,
    lent: Option<usize>,
    used: usize,
) {
    cases.put_behind(&Case { operation, at, lent, fields, table }, used);
}

/// How many records a reader fills; none where it refuses.
fn records(operation: Operation, fields: &[&[u8]], at: usize) -> Option<usize> {
    let case = Case { operation, at, lent: None, fields, table: &[] };
    original::answer(&case)?.records()
}

// Exactly large enough.

/// `count` rounds: a reader with exactly the records that it fills and one fewer, or with exactly its
/// octets and one fewer; a writer with exactly its octets and one fewer.
pub fn exact(cases: &mut Cases, seed: u64, count: u64) {
    let mut r = Rng(seed);
    let operations = operations(cases);
    for _ in 0..count {
        let operation = r.pick(&operations);
        let mut arguments = arguments(&mut r, operation);
        let (at, used) = (r.place(20), r.place(5));
        if operation.is_writer() {
            exact_output(cases, operation, &arguments, at);
        } else {
            let front = r.octets(at);
            arguments.fields[0].splice(..0, front);
            exact_input(cases, operation, &arguments.fields[0], at, used);
        }
    }
}

/// Behind `at` octets and `used` records.
fn exact_input(cases: &mut Cases, operation: Operation, octets: &[u8], at: usize, used: usize) {
    let (fields, table) = ([octets], Table::new());
    let of = (fields.as_slice(), &table);
    let records = records(operation, &fields, at);
    if let (true, Some(records)) = (operation.fills_a_tape(), records) {
        put(cases, operation, of, at, Some(records), used);
        if records > 0 {
            put(cases, operation, of, at, Some(records - 1), used);
        }
    } else {
        put(cases, operation, of, at, None, used);
    }
    put(cases, operation, (&[&octets[..octets.len() - 1]], &table), at, None, used);
}

/// From position `at` on.
fn exact_output(cases: &mut Cases, operation: Operation, arguments: &Arguments, at: usize) {
    let fields = arguments.slices();
    let of = (fields.as_slice(), &arguments.table);
    let case = Case { operation, at, lent: None, fields: &fields, table: &arguments.table };
    let end = match original::answer(&case) {
        Some(Answer::Given { next, .. }) => next,
        // Arguments are judged before the space.
        _ => at + 1,
    };
    put(cases, operation, of, at, Some(end), 0);
    put(cases, operation, of, at, Some(end - 1), 0);
}

// Positions.

/// Where a sum of 64 bits, or a signed one, could wrap.
const FAR: [usize; 4] = [1 << 63, (1 << 63) - 1, usize::MAX, usize::MAX - 6];

/// `count` rounds: the position at the end, one past it, and far beyond; for readers of tables the same
/// of the records that are used.
pub fn positions(cases: &mut Cases, seed: u64, count: u64) {
    let mut r = Rng(seed);
    let operations = operations(cases);
    for _ in 0..count {
        let operation = r.pick(&operations);
        let arguments = arguments(&mut r, operation);
        let fields = arguments.slices();
        let of = (fields.as_slice(), &arguments.table);
        let length = if operation.is_writer() { r.place(400) } else { fields[0].len() };
        let lent = operation.is_writer().then_some(length);
        for at in [length, length + 1].into_iter().chain(FAR) {
            put(cases, operation, of, at, lent, 1);
        }
        if operation.fills_a_tape() && records(operation, &fields, 0).is_some() {
            FAR.iter().for_each(|used| put(cases, operation, of, 0, Some(0), *used));
        }
    }
}
