//! The port's answers, from its library. All memory that is lent has a pattern before a call; after it
//! a refusal must have left everything, a success everything beyond what it tells.
use crate::answer::{Answer, Value};
use crate::ffi::*;
use crate::frame::{Frame, FrameType};
use crate::line::{Case, Fields};
use crate::memory::Lent;
use crate::operation::Operation::{self, *};
use crate::payload::{self, ARGUMENT_WORDS, PAYLOAD_WORDS, Payload};
use crate::tape::{RECORD_WORDS, Tape};

/// What no answer has: cells that were not written show.
const PATTERN: u64 = 0xa5b6_c7d8_e9fa_0b1c;

/// A register's entry: first octet, records before, own records.
pub const ENTRY_WORDS: usize = 3;

/// The octets of a frame around its payload: those before it, and the frame end.
const HEAD: usize = 7;
const AROUND: usize = 8;

/// The channel of the frames that are made around content headers.
const CHANNEL: u16 = 0x1234;

/// What is lent beyond the records or octets that the answer needs.
const SPARE: usize = 2;

/// The answer, or in words what is wrong with it: memory that was changed, words that mean nothing.
pub type Checked = Result<Answer, &'static str>;

const CHANGED_TAPE: &str = "(the tape is changed beyond what was told)";
const CHANGED_OUTPUT: &str = "(the output is changed beyond what was told)";
const CHANGED_REGISTER: &str = "(the register is changed beyond what was told)";
const CHANGED_PAYLOAD: &str = "(a refusal has changed the payload's words)";
const NO_MEANING: &str = "(the words, the tape or the octets mean nothing)";

pub struct Library {
    out: Lent<u8>,
    tape: Lent<u64>,
    register: Lent<u64>,
}

/// What a reader of tables is lent: the octets, the position; the used and the free records, and words
/// behind them that are no record.
#[derive(Clone, Copy)]
struct Input<'a> {
    octets: &'a [u8],
    at: usize,
    used: usize,
    free: usize,
    loose: usize,
}

/// The code and the words of a call.
type Reply = (u32, Words);

fn refused((number, values): Reply) -> Answer {
    Answer::Refused { number, values }
}

/// The next position and `N` values, behind which all words are 0.
fn given<const N: usize>(words: Words) -> Result<(usize, [u64; N]), &'static str> {
    let next = usize::try_from(words[0]).map_err(|_| NO_MEANING)?;
    let values = words[1..=N].try_into().map_err(|_| NO_MEANING)?;
    if words[N + 1..].iter().any(|word| *word != 0) {
        return Err(NO_MEANING);
    }
    Ok((next, values))
}

impl Library {
    pub fn new() -> Library {
        let octet = PATTERN as u8;
        Library { out: Lent::new(octet), tape: Lent::new(PATTERN), register: Lent::new(PATTERN) }
    }

    /// The port's answer to a case of an exported operation. Where the case does not say how much is
    /// lent, it is a little more than what is expected takes. `used` records stand on the tape before.
    pub fn answer(&mut self, case: &Case, expected: &Answer, used: usize) -> Checked {
        if case.operation.is_writer() {
            return self.write(case, expected);
        }
        let octets = case.fields[0];
        if !case.operation.fills_a_tape() {
            return read(case.operation, octets, case.at);
        }
        // No value takes less than an octet, so as many records are never too few.
        let enough = || expected.records().map_or(octets.len() + 1, |records| records + SPARE);
        let free = case.lent.unwrap_or_else(enough);
        let loose = octets.len() % RECORD_WORDS;
        let input = Input { octets, at: case.at, used, free, loose };
        match case.operation {
            ReadFieldTable => self.read_records(amqp_field_table, input),
            ReadFieldValue => self.read_records(amqp_field_value, input),
            ReadContentHeader => self.read_header(input),
            _ => self.read_frame(input),
        }
    }

    // Readers of tables.

    /// Calls with the tape lent. The word `told_in` tells how many records were filled.
    fn with_tape(
        &mut self,
        input: Input,
        told_in: usize,
        call: impl FnOnce(*mut u64, usize, usize, &mut Words) -> u32,
    ) -> Result<(Reply, Tape), &'static str> {
        // Where so many records are used that there can't be that many, the tape has some others.
        let there = if input.used > 1 << 20 { SPARE } else { input.used };
        let (tape, length) = self.tape.lend((there + input.free) * RECORD_WORDS + input.loose);
        let mut words = [PATTERN; 4];
        let code = call(tape, length, input.used, &mut words);
        let records =
            if code == 0 { usize::try_from(words[told_in]).unwrap_or(usize::MAX) } else { 0 };
        let (start, length) = (there * RECORD_WORDS, records.saturating_mul(RECORD_WORDS));
        let filled =
            self.tape.filled(start, length).and_then(|words| Tape::of_words(input.octets, words));
        if !self.tape.only_filled(start, length) {
            return Err(CHANGED_TAPE);
        }
        Ok(((code, words), filled.ok_or(NO_MEANING)?))
    }

    fn read_records(&mut self, function: TapeReader, input: Input) -> Checked {
        let Input { octets, at, .. } = input;
        let (reply, tape) = self.with_tape(input, 1, |tape, length, used, words| unsafe {
            function(octets.as_ptr(), octets.len(), at, tape, length, used, words)
        })?;
        if reply.0 != 0 {
            return Ok(refused(reply));
        }
        let (next, [_records]) = given(reply.1)?;
        Ok(Answer::Given { next, values: vec![Value::Records(tape)] })
    }

    /// A content header alone, and as the payload of a frame: the first tells its end, the second its
    /// properties, and in everything else both must agree.
    fn read_header(&mut self, input: Input) -> Checked {
        let Input { octets, at, .. } = input;
        let (alone, tape) = self.with_tape(input, 3, |tape, length, used, words| unsafe {
            amqp_content_header(octets.as_ptr(), octets.len(), at, tape, length, used, words)
        })?;
        let framed = match octets.get(at..) {
            Some(payload) => self.read_framed_header(input, payload)?,
            None => self.read_frame(input)?,
        };
        let Answer::Given { values, .. } = framed else {
            let same = framed == refused(alone);
            return if same { Ok(framed) } else { Err("(alone and in a frame it differs)") };
        };
        let (next, [class, size, _records]) = given(alone.1)?;
        let mut own = vec![Value::Number(class), Value::Number(size)];
        if alone.0 != 0 || values[2..4] != own[..] || !has_records(&values, &tape) {
            return Err("(alone and in a frame it differs)");
        }
        own.extend(values.into_iter().skip(4));
        Ok(Answer::Given { next, values: own })
    }

    /// The header behind as many octets as stand before it, in a frame.
    fn read_framed_header(&mut self, input: Input, payload: &[u8]) -> Checked {
        let frame =
            Frame { frame_type: FrameType::Header, channel: CHANNEL, payload: payload.to_vec() };
        let octets = [&input.octets[..input.at], &frame.encode()].concat();
        let answer = self.read_frame(Input { octets: &octets, ..input })?;
        match &answer {
            Answer::Given { next, values }
                if *next != octets.len()
                    || values[..2] != [Value::Number(2), Value::Number(CHANNEL.into())] =>
            {
                Err("(type, channel or end of the frame around it is another)")
            }
            _ => Ok(answer),
        }
    }

    /// Type, channel, and what the payload says.
    fn read_frame(&mut self, input: Input) -> Checked {
        let Input { octets, at, .. } = input;
        let mut payload = [PATTERN; PAYLOAD_WORDS];
        let (reply, tape) = self.with_tape(input, 3, |tape, length, used, words| unsafe {
            amqp_read_frame(
                octets.as_ptr(),
                octets.len(),
                at,
                tape,
                length,
                used,
                &mut payload,
                words,
            )
        })?;
        if reply.0 != 0 {
            let untouched = payload == [PATTERN; PAYLOAD_WORDS];
            return if untouched { Ok(refused(reply)) } else { Err(CHANGED_PAYLOAD) };
        }
        let (next, [frame_type, channel, _records]) = given(reply.1)?;
        let of_payload = payload::values(&payload, octets, tape).ok_or(NO_MEANING)?;
        if payload[0] != frame_type {
            return Err(NO_MEANING);
        }
        let values = [Value::Number(frame_type), Value::Number(channel)];
        Ok(Answer::Given { next, values: values.into_iter().chain(of_payload).collect() })
    }

    // The walk.

    /// Octets consumed; frames read, what stopped it, the entries and the records.
    pub fn walk(&mut self, octets: &[u8], records: usize, entries: usize) -> Checked {
        let (tape, tape_length) =
            self.tape.lend(records * RECORD_WORDS + octets.len() % RECORD_WORDS);
        let (register, length) =
            self.register.lend(entries * ENTRY_WORDS + octets.len() % ENTRY_WORDS);
        let mut words = [PATTERN; 4];
        let code = unsafe {
            amqp_walk(
                octets.as_ptr(),
                octets.len(),
                tape,
                tape_length,
                register,
                length,
                &mut words,
            )
        };
        let frames = usize::try_from(words[1]).map_err(|_| NO_MEANING)?.saturating_mul(ENTRY_WORDS);
        let filled = self.register.filled(0, frames).ok_or(NO_MEANING)?;
        let read: Vec<[u64; ENTRY_WORDS]> = filled.as_chunks().0.to_vec();
        if !self.register.only_filled(0, frames) {
            return Err(CHANGED_REGISTER);
        }
        let told: u64 = read.iter().map(|[_, _, own]| own).sum();
        let told = usize::try_from(told).map_err(|_| NO_MEANING)?.saturating_mul(RECORD_WORDS);
        let tape = self.tape.filled(0, told).and_then(|words| Tape::of_words(octets, words));
        if !self.tape.only_filled(0, told) {
            return Err(CHANGED_TAPE);
        }
        let tape = tape.ok_or(NO_MEANING)?;
        Ok(walked(words[0] as usize, &read, (code, [words[2], words[3]]), tape))
    }

    // Writers.

    fn write(&mut self, case: &Case, expected: &Answer) -> Checked {
        let enough = match expected {
            Answer::Given { next, .. } => next + SPARE,
            _ => 64,
        };
        let framed = case.operation == WriteContentHeader;
        let (out, length) =
            self.out.lend(case.lent.unwrap_or(enough) + if framed { AROUND } else { 0 });
        let mut words = [PATTERN; 4];
        let tape = Tape::of_table(case.table);
        let code =
            call_writer(case, &tape, Output { out, length }, &mut words).ok_or("(no arguments)")?;
        let next = if code == 0 { given::<0>(words)?.0 } else { case.at };
        let length = next.checked_sub(case.at).ok_or(NO_MEANING)?;
        let octets = self.out.filled(case.at.min(next), length).map(<[u8]>::to_vec);
        if !self.out.only_filled(case.at, length) {
            return Err(CHANGED_OUTPUT);
        }
        match (code, octets) {
            (0, Some(octets)) if framed => payload_of(octets, case.at),
            (0, Some(octets)) => Ok(Answer::written(octets, case.at)),
            (0, None) => Err(NO_MEANING),
            _ => Ok(refused((code, words))),
        }
    }
}

/// The answer of a walk, from either side.
pub fn walked(
    consumed: usize,
    entries: &[[u64; ENTRY_WORDS]],
    stop: (u32, [u64; 2]),
    tape: Tape,
) -> Answer {
    let stopped = match stop {
        (0, [0, 0]) => "-".into(),
        (number, [0, 0]) => format!("{number}"),
        (number, [first, second]) => format!("{number},{first:x},{second:x}"),
    };
    let mut values = vec![Value::Number(entries.len() as u64), Value::Word(stopped)];
    values.extend(entries.iter().map(|[a, b, c]| Value::Word(format!("{a:x}:{b:x}:{c:x}"))));
    values.push(Value::Records(tape));
    Answer::Given { next: consumed, values }
}

fn has_records(values: &[Value], tape: &Tape) -> bool {
    let of =
        values.iter().find_map(|v| if let Value::Records(tape) = v { Some(tape) } else { None });
    of.map_or(tape.records.is_empty(), |of| of == tape)
}

/// Readers without a tape.
fn read(operation: Operation, octets: &[u8], at: usize) -> Checked {
    let function: Reader = match operation {
        U8 => amqp_u8,
        U16 => amqp_u16,
        U32 => amqp_u32,
        U64 => amqp_u64,
        ShortStr => amqp_short_str,
        LongStr => amqp_long_str,
        _ => amqp_decode,
    };
    let mut words = [PATTERN; 4];
    let code = unsafe { function(octets.as_ptr(), octets.len(), at, &mut words) };
    if code != 0 {
        return Ok(refused((code, words)));
    }
    let span = |start: usize, length: u64| {
        let end = start.checked_add(usize::try_from(length).ok()?)?;
        Some(Value::Octets(octets.get(start..end)?.to_vec()))
    };
    let (next, values) = match operation {
        ShortStr | LongStr => {
            let (next, [start, length]) = given(words)?;
            (next, vec![span(start as usize, length).ok_or(NO_MEANING)?])
        }
        Decode => {
            let (next, [frame_type, channel, length]) = given(words)?;
            let payload = span(at + HEAD, length).ok_or(NO_MEANING)?;
            (next, vec![Value::Number(frame_type), Value::Number(channel), payload])
        }
        _ => {
            let (next, [number]) = given(words)?;
            (next, vec![Value::Number(number)])
        }
    };
    Ok(Answer::Given { next, values })
}

struct Output {
    out: *mut u8,
    length: usize,
}

/// Calls the writer of a case; none where its fields are not those of the operation.
fn call_writer(case: &Case, tape: &Tape, to: Output, words: &mut Words) -> Option<u32> {
    let (out, length, at) = (to.out, to.length, case.at);
    let mut a = Fields(case.fields);
    Some(match case.operation {
        WriteU32 => unsafe { amqp_write_u32(out, length, at, a.u32()?, words) },
        WriteU64 => unsafe { amqp_write_u64(out, length, at, a.u64()?, words) },
        WriteShortStr | WriteLongStr => {
            let short = case.operation == WriteShortStr;
            let function: StringWriter =
                if short { amqp_write_short_str } else { amqp_write_long_str };
            let octets = a.octets()?;
            unsafe { function(out, length, at, octets.as_ptr(), octets.len(), words) }
        }
        WriteFieldTable | WriteFieldValue => {
            let whole = case.operation == WriteFieldTable;
            let function: TapeWriter =
                if whole { amqp_write_field_table } else { amqp_write_field_value };
            let (pool, records) = (&tape.pool, tape.words());
            let (pool, pool_length) = (pool.as_ptr(), pool.len());
            unsafe {
                function(out, length, at, pool, pool_length, records.as_ptr(), records.len(), words)
            }
        }
        WriteCommand => call_command(a, to, at, words)?,
        WriteContentHeader => {
            let payload = payload::header(a, tape)?;
            call_frame(CHANNEL, &payload.words, &payload.pool, tape, to, at, words)
        }
        _ => {
            let channel = a.u16()?;
            let payload = payload::frame(a, tape)?;
            call_frame(channel, &payload.words, &payload.pool, tape, to, at, words)
        }
    })
}

fn call_command(a: Fields, to: Output, at: usize, words: &mut Words) -> Option<u32> {
    let payload::Given { words: [_, class, method, arguments @ ..], pool } = payload::command(a)?;
    let arguments: &[u64; ARGUMENT_WORDS] = arguments.first_chunk()?;
    let (class, method) = (class as u16, method as u16);
    let (out, length, tape) = (to.out, to.length, [0u64; 0]);
    let (pool, pool_length) = (pool.as_ptr(), pool.len());
    Some(unsafe {
        let tape = tape.as_ptr();
        amqp_write_command(
            out,
            length,
            at,
            class,
            method,
            arguments,
            pool,
            pool_length,
            tape,
            0,
            words,
        )
    })
}

fn call_frame(
    channel: u16,
    payload: &Payload,
    pool: &[u8],
    tape: &Tape,
    to: Output,
    at: usize,
    words: &mut Words,
) -> u32 {
    let (out, length, records) = (to.out, to.length, tape.words());
    let (pool, pool_length) = (pool.as_ptr(), pool.len());
    let (tape, tape_length) = (records.as_ptr(), records.len());
    unsafe {
        amqp_write_frame(
            out,
            length,
            at,
            channel,
            payload,
            pool,
            pool_length,
            tape,
            tape_length,
            words,
        )
    }
}

/// The payload of a header's frame that was written, once the frame around it has been looked at.
fn payload_of(octets: Vec<u8>, at: usize) -> Checked {
    let wrong = "(the frame around the header is another)";
    let (frame, consumed) = Frame::decode(&octets).map_err(|_| wrong)?;
    if (frame.frame_type, frame.channel, consumed) != (FrameType::Header, CHANNEL, octets.len()) {
        return Err(wrong);
    }
    Ok(Answer::written(frame.payload, at))
}
