//! Field tables as records over a pool of octets, as the port's tape has them: to and from the Rust's
//! nested values, to and from words, to and from text.
use crate::line::{Word, push_octets};
use crate::types::FieldValue;
use std::fmt::Write;

pub type Table = Vec<(String, FieldValue)>;

/// The width of a record in 64-bit words: the only place here that says it.
pub const RECORD_WORDS: usize = 6;

/// The depth at which document 01 refuses a table or an array.
pub const TOO_DEEP: u32 = 16;

#[derive(Clone, Copy, Debug, Default, PartialEq)]
pub struct Span {
    pub start: u64,
    pub length: u64,
}

/// One value. `first` and `second` are its number; of S and x they are the start and length of octets.
#[derive(Clone, Copy, Debug, PartialEq)]
pub struct Record {
    pub letter: u64,
    pub name: Span,
    pub first: u64,
    pub second: u64,
    pub beneath: u64,
}

impl Record {
    fn words(&self) -> [u64; RECORD_WORDS] {
        let Record { letter, name, first, second, beneath } = *self;
        [letter, name.start, name.length, first, second, beneath]
    }

    fn of_words(words: [u64; RECORD_WORDS]) -> Record {
        let [letter, start, length, first, second, beneath] = words;
        Record { letter, name: Span { start, length }, first, second, beneath }
    }

    fn has_octets(&self) -> bool {
        self.letter == u64::from(b'S') || self.letter == u64::from(b'x')
    }

    fn is_array(&self) -> bool {
        self.letter == u64::from(b'A')
    }

    fn octets(&self) -> Span {
        Span { start: self.first, length: self.second }
    }
}

/// Records whose names and octets stand in the pool one behind another; of no octets start and length
/// are 0. So two tapes of the same values are equal.
#[derive(Clone, Debug, Default, PartialEq)]
pub struct Tape {
    pub pool: Vec<u8>,
    pub records: Vec<Record>,
}

fn slice(pool: &[u8], span: Span) -> Option<&[u8]> {
    let start = usize::try_from(span.start).ok()?;
    pool.get(start..start.checked_add(usize::try_from(span.length).ok()?)?)
}

impl Tape {
    pub fn of_table(table: &[(String, FieldValue)]) -> Tape {
        let mut tape = Tape::default();
        tape.push_table(table);
        tape
    }

    pub fn push_table(&mut self, table: &[(String, FieldValue)]) {
        table.iter().for_each(|(name, value)| self.push(name.as_bytes(), value));
    }

    pub fn of_value(value: &FieldValue) -> Tape {
        let mut tape = Tape::default();
        tape.push(b"", value);
        tape
    }

    /// Appends the records of a value.
    fn push(&mut self, name: &[u8], value: &FieldValue) {
        let (letter, first, second) = words(value);
        let own = self.records.len();
        let name = self.span(name);
        self.records.push(Record { letter: letter.into(), name, first, second, beneath: 0 });
        match value {
            FieldValue::LongStr(octets) | FieldValue::Bytes(octets) => {
                let span = self.span(octets);
                (self.records[own].first, self.records[own].second) = (span.start, span.length);
            }
            FieldValue::Table(entries) => {
                entries.iter().for_each(|(name, value)| self.push(name.as_bytes(), value));
            }
            FieldValue::Array(items) => items.iter().for_each(|item| self.push(b"", item)),
            _ => {}
        }
        self.records[own].beneath = (self.records.len() - own - 1) as u64;
    }

    fn span(&mut self, octets: &[u8]) -> Span {
        let start = if octets.is_empty() { 0 } else { self.pool.len() as u64 };
        self.pool.extend_from_slice(octets);
        Span { start, length: octets.len() as u64 }
    }

    /// What the words of a tape over a pool say. None where a span leaves the pool, or where a value in
    /// an array has a name: document 01 gives these the words 0 and 0.
    pub fn of_words(pool: &[u8], words: &[u64]) -> Option<Tape> {
        let mut tape = Tape::default();
        let mut around: Vec<(usize, bool)> = Vec::new();
        for (place, words) in words.chunks(RECORD_WORDS).enumerate() {
            let mut record = Record::of_words(words.try_into().ok()?);
            while around.last().is_some_and(|(end, _)| *end <= place) {
                around.pop();
            }
            if around.last().is_some_and(|(_, is_array)| *is_array)
                && record.name != Span::default()
            {
                return None;
            }
            let end = place.checked_add(1)?.checked_add(usize::try_from(record.beneath).ok()?)?;
            around.push((end, record.is_array()));
            record.name = tape.span(slice(pool, record.name)?);
            if record.has_octets() {
                let span = tape.span(slice(pool, record.octets())?);
                (record.first, record.second) = (span.start, span.length);
            }
            tape.records.push(record);
        }
        Some(tape)
    }

    pub fn words(&self) -> Vec<u64> {
        self.records.iter().flat_map(Record::words).collect()
    }

    /// Appends ` LETTER:NAME:VALUE:BENEATH` for each record.
    pub fn push_text(&self, line: &mut String) {
        let push = |line: &mut String, span| match slice(&self.pool, span) {
            Some(octets) => push_octets(line, octets),
            None => line.push('?'),
        };
        for record in &self.records {
            write!(line, " {}:", record.letter as u8 as char).unwrap();
            push(line, record.name);
            line.push(':');
            match record.letter as u8 {
                b'S' | b'x' => push(line, record.octets()),
                b'V' | b'F' | b'A' => line.push('-'),
                b'D' => write!(line, "{:x},{:x}", record.first, record.second).unwrap(),
                _ => write!(line, "{:x}", record.first).unwrap(),
            }
            write!(line, ":{:x}", record.beneath).unwrap();
        }
    }

    /// Appends the record that a word of a line describes; none where it is none.
    pub fn push_parsed(&mut self, word: &str) -> Option<()> {
        let parts: Vec<&str> = word.split(':').collect();
        let [letter, name, value, beneath] = parts.as_slice() else { return None };
        let [letter] = letter.as_bytes() else { return None };
        let name = self.span(&Word(name).octets()?);
        let (first, second) = match letter {
            b'S' | b'x' => {
                let span = self.span(&Word(value).octets()?);
                (span.start, span.length)
            }
            b'V' | b'F' | b'A' => (0, 0),
            b'D' => {
                let (scale, mantissa) = value.split_once(',')?;
                (Word(scale).number()?, Word(mantissa).number()?)
            }
            _ => (Word(value).number()?, 0),
        };
        let beneath = Word(beneath).number()?;
        self.records.push(Record { letter: u64::from(*letter), name, first, second, beneath });
        Some(())
    }

    /// The table that the records describe. None where document 01 refuses the tape with 5 or 8, or a
    /// name with 4: no Rust value stands for these.
    pub fn table(&self) -> Option<Table> {
        Loader { tape: self, at: 0 }.entries(self.records.len(), 1)
    }

    /// The same as values without names.
    pub fn values(&self) -> Option<Vec<FieldValue>> {
        Loader { tape: self, at: 0 }.items(self.records.len(), 1)
    }
}

/// Letter, first and second word of a value; for S and x the words are those of an empty span.
fn words(value: &FieldValue) -> (u8, u64, u64) {
    match value {
        FieldValue::Bool(b) => (b't', u64::from(*b), 0),
        FieldValue::I8(n) => (b'b', u64::from(*n as u8), 0),
        FieldValue::U8(n) => (b'B', u64::from(*n), 0),
        FieldValue::I16(n) => (b's', u64::from(*n as u16), 0),
        FieldValue::U16(n) => (b'u', u64::from(*n), 0),
        FieldValue::I32(n) => (b'I', u64::from(*n as u32), 0),
        FieldValue::U32(n) => (b'i', u64::from(*n), 0),
        FieldValue::I64(n) => (b'l', *n as u64, 0),
        FieldValue::F32(n) => (b'f', u64::from(n.to_bits()), 0),
        FieldValue::F64(n) => (b'd', n.to_bits(), 0),
        FieldValue::Decimal { scale, value } => (b'D', u64::from(*scale), u64::from(*value as u32)),
        FieldValue::LongStr(_) => (b'S', 0, 0),
        FieldValue::Bytes(_) => (b'x', 0, 0),
        FieldValue::Timestamp(n) => (b'T', *n, 0),
        FieldValue::Void => (b'V', 0, 0),
        FieldValue::Table(_) => (b'F', 0, 0),
        FieldValue::Array(_) => (b'A', 0, 0),
    }
}

/// Reads records in order; `at` is the next one.
struct Loader<'a> {
    tape: &'a Tape,
    at: usize,
}

impl Loader<'_> {
    /// The named values of the records before `end`, which stand at `depth`.
    fn entries(&mut self, end: usize, depth: u32) -> Option<Table> {
        let mut entries = Vec::new();
        while self.at < end {
            let name = self.octets(self.tape.records[self.at].name)?;
            entries.push((String::from_utf8(name).ok()?, self.value(end, depth)?));
        }
        Some(entries)
    }

    /// The values without names of the records before `end`, which stand at `depth`.
    fn items(&mut self, end: usize, depth: u32) -> Option<Vec<FieldValue>> {
        let mut items = Vec::new();
        while self.at < end {
            if self.tape.records[self.at].name != Span::default() {
                return None;
            }
            items.push(self.value(end, depth)?);
        }
        Some(items)
    }

    /// The value of the next record, which with all beneath it must stand before `limit`.
    fn value(&mut self, limit: usize, depth: u32) -> Option<FieldValue> {
        let record = self.tape.records[self.at];
        self.at += 1;
        let end = self.at.checked_add(usize::try_from(record.beneath).ok()?)?;
        if end > limit {
            return None;
        }
        let letter = u8::try_from(record.letter).ok()?;
        let value = match letter {
            b'S' => FieldValue::LongStr(self.octets(record.octets())?),
            b'x' => FieldValue::Bytes(self.octets(record.octets())?),
            b'F' if depth < TOO_DEEP => FieldValue::Table(self.entries(end, depth + 1)?),
            b'A' if depth < TOO_DEEP => FieldValue::Array(self.items(end, depth + 1)?),
            _ => number(letter, record.first, record.second)?,
        };
        // A number too large for its letter and an unused word that is not 0 don't come back.
        let kept = record.has_octets() || words(&value) == (letter, record.first, record.second);
        (kept && self.at == end).then_some(value)
    }

    fn octets(&self, span: Span) -> Option<Vec<u8>> {
        slice(&self.tape.pool, span).map(<[u8]>::to_vec)
    }
}

/// The value of a letter that has no octets and nothing beneath.
pub fn number(letter: u8, first: u64, second: u64) -> Option<FieldValue> {
    Some(match letter {
        b't' => FieldValue::Bool(first != 0),
        b'b' => FieldValue::I8(first as i8),
        b'B' => FieldValue::U8(first as u8),
        b's' => FieldValue::I16(first as i16),
        b'u' => FieldValue::U16(first as u16),
        b'I' => FieldValue::I32(first as i32),
        b'i' => FieldValue::U32(first as u32),
        b'l' => FieldValue::I64(first as i64),
        b'f' => FieldValue::F32(f32::from_bits(first as u32)),
        b'd' => FieldValue::F64(f64::from_bits(first)),
        b'D' => FieldValue::Decimal { scale: first as u8, value: second as i32 },
        b'T' => FieldValue::Timestamp(first),
        b'V' => FieldValue::Void,
        _ => return None,
    })
}
