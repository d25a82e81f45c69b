//! Answers to cases, from either side: compared as values, shown as the text of answer lines.
use crate::line::push_octets;
use crate::tape::Tape;
use crate::types::WireError;
use std::fmt::Write;

#[derive(Debug, PartialEq)]
pub enum Answer {
    /// The next position, or the end of what was written, and the values.
    Given { next: usize, values: Vec<Value> },
    /// The number of a refusal and its values; words that it does not use are 0.
    Refused { number: u32, values: [u64; 4] },
    /// The Rust goes on where document 01 refuses with 8, which the port must answer.
    ReadsOn,
}

#[derive(Debug, PartialEq)]
pub enum Value {
    Number(u64),
    Octets(Vec<u8>),
    Records(Tape),
    /// The flag of the property whose value follows.
    Flag(u32),
    /// What stands as it is in the line.
    Word(String),
}

/// How many values document 01 gives a refusal.
fn values_of(number: u32) -> usize {
    match number {
        3 | 5 | 7 => 1,
        6 => 2,
        _ => 0,
    }
}

impl Answer {
    pub fn refused(number: u32) -> Answer {
        Answer::Refused { number, values: [0; 4] }
    }

    /// Octets that were written from a position on.
    pub fn written(octets: Vec<u8>, at: usize) -> Answer {
        Answer::Given { next: at + octets.len(), values: vec![Value::Octets(octets)] }
    }

    /// The same answer where what is read or written stands `by` octets further on.
    pub fn moved(mut self, by: usize) -> Answer {
        if let Answer::Given { next, .. } = &mut self {
            *next += by;
        }
        self
    }

    /// Whether the port's answer is the one that is expected.
    pub fn is_met_by(&self, port: &Answer) -> bool {
        match self {
            Answer::ReadsOn => *port == Answer::refused(8),
            _ => self == port,
        }
    }

    /// How many tape records the answer has; none where there are no values.
    pub fn records(&self) -> Option<usize> {
        let Answer::Given { values, .. } = self else { return None };
        let of =
            |value: &Value| if let Value::Records(tape) = value { tape.records.len() } else { 0 };
        Some(values.iter().map(of).sum())
    }

    pub fn push_text(&self, line: &mut String) {
        match self {
            Answer::ReadsOn => line.push_str("! 8"),
            Answer::Given { next, values } => {
                write!(line, "= {next:x}").unwrap();
                push_values(line, values);
            }
            Answer::Refused { number, values } => {
                write!(line, "! {number}").unwrap();
                values[..values_of(*number)].iter().for_each(|v| write!(line, " {v:x}").unwrap());
                if values[values_of(*number)..].iter().any(|v| *v != 0) {
                    line.push_str(" (and words that are not 0)");
                }
            }
        }
    }

    pub fn text(&self) -> String {
        let mut line = String::new();
        self.push_text(&mut line);
        line
    }
}

fn push_values(line: &mut String, values: &[Value]) {
    let mut between = " ";
    for value in values {
        line.push_str(between);
        between = " ";
        match value {
            Value::Number(n) => write!(line, "{n:x}").unwrap(),
            Value::Octets(octets) => push_octets(line, octets),
            Value::Records(tape) => {
                write!(line, "{:x}", tape.records.len()).unwrap();
                tape.push_text(line);
            }
            Value::Flag(flag) => {
                write!(line, "{flag}=").unwrap();
                between = "";
            }
            Value::Word(word) => line.push_str(word),
        }
    }
}

impl From<WireError> for Answer {
    fn from(error: WireError) -> Answer {
        let (number, value) = match error {
            WireError::Truncated => (1, 0),
            WireError::ShortStrTooLong => (2, 0),
            WireError::UnsupportedFieldType(octet) => (3, u64::from(octet)),
            WireError::NotUtf8 => (4, 0),
        };
        Answer::Refused { number, values: [value, 0, 0, 0] }
    }
}
