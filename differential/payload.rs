//! Payloads as the words that the port's library takes and gives: 26 of them, the first the frame type.
use crate::answer::Value;
use crate::layouts::{HEADERS, arguments, present};
use crate::line::Fields;
use crate::tape::Tape;

pub const PAYLOAD_WORDS: usize = 26;
pub const ARGUMENT_WORDS: usize = 8;

pub type Payload = [u64; PAYLOAD_WORDS];

/// Words in order, and the pool in which the strings among them stand.
struct Words {
    words: Vec<u64>,
    pool: Vec<u8>,
}

impl Words {
    fn string(&mut self, octets: &[u8]) {
        self.words.extend([self.pool.len() as u64, octets.len() as u64]);
        self.pool.extend_from_slice(octets);
    }

    /// Numbers by their octets, strings by their span.
    fn field(&mut self, letter: char, octets: &[u8]) {
        match letter {
            's' | 'p' => self.string(octets),
            _ => self.words.push(octets.iter().fold(0, |n, octet| n << 8 | u64::from(*octet))),
        }
    }
}

/// A payload and the pool of its strings; the records of a header's table come before them in the pool.
pub struct Given {
    pub words: Payload,
    pub pool: Vec<u8>,
}

fn given(words: Words) -> Given {
    let mut payload = [0; PAYLOAD_WORDS];
    payload[..words.words.len()].copy_from_slice(&words.words);
    Given { words: payload, pool: words.pool }
}

/// A command from the fields of its case. The flags of an octet are one word, the first flag lowest.
pub fn command(mut a: Fields) -> Option<Given> {
    let (class, method) = (a.u16()?, a.u16()?);
    let mut words = Words { words: vec![1, class.into(), method.into()], pool: Vec::new() };
    let (mut flags, mut count) = (0, 0);
    for letter in arguments(class, method)?.chars() {
        match letter {
            'b' => {
                flags |= u64::from(a.u8()?) << count;
                count += 1;
            }
            _ => words.field(letter, a.octets()?),
        }
    }
    // The flags stand last in every command.
    if count > 0 {
        words.words.push(flags);
    }
    Some(given(words))
}

/// A content header from the fields of its case and the tape of its table.
pub fn header(mut a: Fields, tape: &Tape) -> Option<Given> {
    let (class, size, flags) = (a.u16()?, a.u64()?, a.u16()?);
    let fixed = vec![2, class.into(), size, u64::from(flags >> 3)];
    let mut words = Words { words: fixed, pool: tape.pool.clone() };
    for (flag, letter) in present(flags) {
        match flag {
            HEADERS => words.words.push(tape.records.len() as u64),
            _ => words.field(letter, a.octets()?),
        }
    }
    Some(given(words))
}

/// A frame's payload from the fields behind its channel.
pub fn frame(mut a: Fields, tape: &Tape) -> Option<Given> {
    match a.u8()? {
        1 => command(a),
        2 => header(a, tape),
        3 => {
            let body = a.octets()?.to_vec();
            let length = body.len() as u64;
            Some(given(Words { words: vec![3, 0, length], pool: body }))
        }
        8 => Some(given(Words { words: vec![8], pool: Vec::new() })),
        _ => None,
    }
}

/// What a payload says that was read from octets, behind its type: as answers have it. None where a
/// span leaves the octets, a number of records is not that of the tape, or a word is left that is not 0.
pub fn values(payload: &Payload, octets: &[u8], tape: Tape) -> Option<Vec<Value>> {
    let mut words = payload.iter().copied();
    let values = match words.next()? {
        1 => command_values(&mut words, octets)?,
        2 => header_values(&mut words, octets, tape)?,
        3 => vec![Value::Number(words.next()?), Value::Number(words.next()?)],
        8 => Vec::new(),
        _ => return None,
    };
    words.all(|word| word == 0).then_some(values)
}

fn command_values(words: &mut impl Iterator<Item = u64>, octets: &[u8]) -> Option<Vec<Value>> {
    let (class, method) = (words.next()?, words.next()?);
    let mut values = vec![Value::Number(class), Value::Number(method)];
    let letters = arguments(class.try_into().ok()?, method.try_into().ok()?)?;
    for letter in letters.trim_end_matches('b').chars() {
        values.push(value(letter, words, octets)?);
    }
    let flags = letters.matches('b').count();
    if flags > 0 {
        let octet = words.next()?;
        values.extend((0..flags).map(|place| Value::Number(octet >> place & 1)));
        (octet >> flags == 0).then_some(())?;
    }
    Some(values)
}

fn header_values(
    words: &mut impl Iterator<Item = u64>,
    octets: &[u8],
    tape: Tape,
) -> Option<Vec<Value>> {
    let mut values = vec![Value::Number(words.next()?), Value::Number(words.next()?)];
    let flags = u16::try_from(words.next()?).ok()?.checked_mul(8)?;
    let mut tape = Some(tape);
    for (flag, letter) in present(flags) {
        values.push(Value::Flag(flag));
        match flag {
            HEADERS => {
                let tape = tape.take()?;
                (words.next()? == tape.records.len() as u64).then_some(())?;
                values.push(Value::Records(tape));
            }
            _ => values.push(value(letter, words, octets)?),
        }
    }
    // Without a table there are no records.
    tape.is_none_or(|tape| tape.records.is_empty()).then_some(values)
}

fn value(letter: char, words: &mut impl Iterator<Item = u64>, octets: &[u8]) -> Option<Value> {
    let first = words.next()?;
    if !matches!(letter, 's' | 'p') {
        return Some(Value::Number(first));
    }
    let (start, length) = (usize::try_from(first).ok()?, usize::try_from(words.next()?).ok()?);
    Some(Value::Octets(octets.get(start..start.checked_add(length)?)?.to_vec()))
}
