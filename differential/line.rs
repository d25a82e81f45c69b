//! Cases as the lines that the port's program `conformance` reads, both ways: README.md has the grammar.
use crate::operation::Operation;
use crate::tape::{Table, Tape};
use crate::types::FieldValue;
use std::fmt::Write;

const DIGITS: &[u8; 16] = b"0123456789abcdef";

/// A case as it is made: the values that stand behind `/` are the Rust's.
pub struct Case<'a> {
    pub operation: Operation,
    pub at: usize,
    /// The octets that a writer, or the free records that a reader is lent; as many as needed where none
    /// are told.
    pub lent: Option<usize>,
    pub fields: &'a [&'a [u8]],
    pub table: &'a [(String, FieldValue)],
}

impl Case<'_> {
    pub fn push_text(&self, line: &mut String) {
        line.push_str(self.operation.name());
        if self.at != 0 {
            write!(line, " +{:x}", self.at).unwrap();
        }
        if let Some(lent) = self.lent {
            write!(line, " @{lent:x}").unwrap();
        }
        for field in self.fields {
            line.push(' ');
            push_field(line, field);
        }
        if !self.table.is_empty() {
            line.push_str(" /");
            Tape::of_table(self.table).push_text(line);
        }
    }

    pub fn text(&self) -> String {
        let mut line = String::new();
        self.push_text(&mut line);
        line
    }
}

/// The fields and the table of a case, where they have no other owner.
#[derive(Default)]
pub struct Arguments {
    pub fields: Vec<Vec<u8>>,
    pub table: Table,
}

impl Arguments {
    pub fn of_fields(fields: Vec<Vec<u8>>) -> Arguments {
        Arguments { fields, table: Table::new() }
    }

    pub fn of_table(table: Table) -> Arguments {
        Arguments { fields: Vec::new(), table }
    }

    pub fn slices(&self) -> Vec<&[u8]> {
        self.fields.iter().map(Vec::as_slice).collect()
    }
}

/// A case that was read.
pub struct Parsed {
    pub operation: Operation,
    pub lent: Option<u64>,
    pub arguments: Arguments,
}

impl Parsed {
    /// None where the line is no case, and where no arguments of the Rust stand for it: a position, a
    /// malformed tape, a record that is repeated.
    pub fn of(line: &str) -> Option<Parsed> {
        let mut words = line.split(' ').peekable();
        let operation = Operation::of_name(words.next()?)?;
        let lent = words.next_if(|word| word.starts_with('@'));
        let lent = match lent {
            Some(word) => Some(Word(&word[1..]).number()?),
            None => None,
        };
        let fields: Option<Vec<Vec<u8>>> = words
            .by_ref()
            .take_while(|word| *word != "/")
            .map(|word| Word(word).octets())
            .collect();
        let mut tape = Tape::default();
        for word in words {
            tape.push_parsed(word)?;
        }
        if !tape.records.is_empty() && !operation.writes_a_tape() {
            return None;
        }
        let table = match operation {
            Operation::WriteFieldValue => {
                tape.values()?.into_iter().map(|value| (String::new(), value)).collect()
            }
            _ => tape.table()?,
        };
        Some(Parsed { operation, lent, arguments: Arguments { fields: fields?, table } })
    }
}

/// A word of a line.
pub struct Word<'a>(pub &'a str);

impl Word<'_> {
    /// Pairs of digits, `-` for none; `*N` behind them gives the last octet N times in all.
    pub fn octets(&self) -> Option<Vec<u8>> {
        let (digits, times) = match self.0.split_once('*') {
            Some((digits, times)) => (digits, Some(Word(times).number()?)),
            None => (self.0, None),
        };
        if digits == "-" && times.is_none() {
            return Some(Vec::new());
        }
        let octets: Option<Vec<u8>> = digits.as_bytes().chunks(2).map(octet).collect();
        let (mut octets, last) = (octets?, octet(digits.as_bytes().chunks(2).last()?)?);
        if let Some(times) = times {
            let more = usize::try_from(times).ok()?.checked_sub(1)?;
            octets.resize(octets.len() + more, last);
        }
        Some(octets)
    }

    /// Hexadecimal digits, small ones.
    pub fn number(&self) -> Option<u64> {
        let small = self.0.bytes().all(|character| digit(character).is_some());
        if small { u64::from_str_radix(self.0, 16).ok() } else { None }
    }
}

/// The octet of two digits; none for an odd digit at the end.
fn octet(characters: &[u8]) -> Option<u8> {
    let [high, low] = characters else { return None };
    Some(digit(*high)? << 4 | digit(*low)?)
}

/// The value of a hexadecimal digit. Capitals are none.
fn digit(character: u8) -> Option<u8> {
    match character {
        b'0'..=b'9' => Some(character - b'0'),
        b'a'..=b'f' => Some(character - b'a' + 10),
        _ => None,
    }
}

/// Appends octets as answers have them: two digits each, `-` for none.
pub fn push_octets(line: &mut String, octets: &[u8]) {
    if octets.is_empty() {
        line.push('-');
    }
    for octet in octets {
        line.push(DIGITS[usize::from(octet >> 4)] as char);
        line.push(DIGITS[usize::from(octet & 15)] as char);
    }
}

/// From as many equal octets at the end on a field is written with `*`.
const RUN: usize = 12;

/// Appends octets as cases have them.
fn push_field(line: &mut String, octets: &[u8]) {
    let run = octets.iter().rev().take_while(|octet| octets.last() == Some(octet)).count();
    if run < RUN {
        return push_octets(line, octets);
    }
    push_octets(line, &octets[..octets.len() - run + 1]);
    write!(line, "*{run:x}").unwrap();
}

/// The fields of a case, taken one by one. Each method gives none where no field is left or the field
/// is not of that kind and width: then the case is none of the Rust's.
pub struct Fields<'a>(pub &'a [&'a [u8]]);

impl<'a> Fields<'a> {
    pub fn octets(&mut self) -> Option<&'a [u8]> {
        let (first, rest) = self.0.split_first()?;
        self.0 = rest;
        Some(first)
    }

    fn number<const WIDTH: usize>(&mut self) -> Option<[u8; WIDTH]> {
        self.octets()?.try_into().ok()
    }

    pub fn u8(&mut self) -> Option<u8> {
        Some(u8::from_be_bytes(self.number()?))
    }

    pub fn u16(&mut self) -> Option<u16> {
        Some(u16::from_be_bytes(self.number()?))
    }

    pub fn u32(&mut self) -> Option<u32> {
        Some(u32::from_be_bytes(self.number()?))
    }

    pub fn u64(&mut self) -> Option<u64> {
        Some(u64::from_be_bytes(self.number()?))
    }

    /// A flag is 00 or 01.
    pub fn flag(&mut self) -> Option<bool> {
        flag(self.u8()?)
    }

    /// A text, which the Rust holds as a `&str`: none where it is not UTF-8.
    pub fn text(&mut self) -> Option<&'a str> {
        std::str::from_utf8(self.octets()?).ok()
    }

    /// None where a field is left over.
    pub fn end(&self) -> Option<()> {
        self.0.is_empty().then_some(())
    }
}

pub fn flag(octet: u8) -> Option<bool> {
    match octet {
        0 => Some(false),
        1 => Some(true),
        _ => None,
    }
}
