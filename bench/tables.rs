//! Field tables: the Rust, the port and, where it is installed, librabbitmq on the same octets.
use crate::bench::{Side, Words, heading};
use crate::types::{FieldValue, Reader, Writer};
use std::hint::black_box;

unsafe extern "C" {
    fn amqp_field_table(
        s: *const u8,
        len: usize,
        at: usize,
        tape: *mut u64,
        tape_len: usize,
        used: usize,
        words: &mut Words,
    ) -> u32;
    fn amqp_write_field_table(
        out: *mut u8,
        len: usize,
        at: usize,
        pool: *const u8,
        pool_len: usize,
        tape: *const u64,
        tape_len: usize,
        words: &mut Words,
    ) -> u32;
}

#[cfg(librabbitmq)]
unsafe extern "C" {
    fn librabbitmq_read(octets: *const u8, len: usize) -> usize;
    fn librabbitmq_keep(slot: usize, octets: *const u8, len: usize) -> usize;
    fn librabbitmq_write(slot: usize, out: *mut u8, len: usize) -> usize;
}

/// Words of a tape record.
const RECORD: usize = 6;

pub struct Line {
    pub what: String,
    pub octets: usize,
    pub rust: Side,
    pub librabbitmq: Option<Side>,
    pub port: Side,
}

type Entries = Vec<(&'static str, FieldValue)>;

/// The headers of a message that a Python client (pika) sent: every type that it writes, a name of 255 octets and an empty one.
fn recorded() -> Entries {
    let digits: String = include_str!("headers.hex").split_whitespace().collect();
    let octets: Vec<u8> = (0..digits.len() / 2)
        .map(|i| u8::from_str_radix(&digits[2 * i..2 * i + 2], 16).unwrap())
        .collect();
    let entries = Reader::new(&octets).field_table().unwrap();
    entries.into_iter().map(|(name, value)| (&*name.leak(), value)).collect()
}

/// So many values of all kinds in turn, among them small tables and arrays.
fn mixed(count: usize) -> Entries {
    let text = |s: &str| FieldValue::LongStr(s.as_bytes().to_vec());
    let mut n = 0x9e37_79b9_7f4a_7c15_u64;
    (0..count)
        .map(|i| {
            n = n.rotate_left(23).wrapping_mul(0x2545_f491_4f6c_dd1d).wrapping_add(i as u64);
            let value = match i % 16 {
                0 => FieldValue::Bool(n % 2 == 1),
                1 => FieldValue::I8(n as i8),
                2 => FieldValue::U8(n as u8),
                3 => FieldValue::I16(n as i16),
                4 => FieldValue::U16(n as u16),
                5 => FieldValue::I32(n as i32),
                6 => FieldValue::U32(n as u32),
                7 => FieldValue::I64(n as i64),
                8 => FieldValue::F32(1.5),
                9 => FieldValue::F64(2.5),
                10 => FieldValue::Decimal { scale: 2, value: n as i32 },
                11 => text("setter cabinet 4, tilt"),
                12 => FieldValue::Timestamp(1_794_787_201 + i as u64),
                13 => FieldValue::Void,
                14 => FieldValue::Table(vec![("a".into(), FieldValue::I32(1)), ("b".into(), text("x"))]),
                _ => FieldValue::Array(vec![FieldValue::I32(1), text("yz")]),
            };
            (&*format!("name-{i}").leak(), value)
        })
        .collect()
}

fn written(entries: &Entries) -> Vec<u8> {
    let mut writer = Writer::new();
    writer.field_table(entries).unwrap();
    writer.into_bytes()
}

/// How many records the port fills, from a table's octets onto a tape.
fn read_port(octets: &[u8], tape: &mut [u64]) -> usize {
    let mut words = [0; 4];
    let code = unsafe {
        amqp_field_table(octets.as_ptr(), octets.len(), 0, tape.as_mut_ptr(), tape.len(), 0, &mut words)
    };
    assert_eq!((code, words[0]), (0, octets.len() as u64));
    words[1] as usize
}

fn write_port(out: &mut [u8], pool: &[u8], tape: &[u64]) -> u64 {
    let mut words = [0; 4];
    let code = unsafe {
        amqp_write_field_table(
            out.as_mut_ptr(),
            out.len(),
            0,
            pool.as_ptr(),
            pool.len(),
            tape.as_ptr(),
            tape.len(),
            &mut words,
        )
    };
    assert_eq!(code, 0);
    words[0]
}

/// Reading and writing; a table is kept in a slot of its own.
#[cfg(librabbitmq)]
fn librabbitmq(slot: usize, octets: &'static [u8]) -> [Option<Side>; 2] {
    let mut out = vec![0; octets.len()];
    unsafe {
        assert_eq!(librabbitmq_keep(slot, octets.as_ptr(), octets.len()), octets.len());
        assert_eq!(librabbitmq_write(slot, out.as_mut_ptr(), out.len()), octets.len());
    }
    assert_eq!(out, octets, "librabbitmq writes other octets");
    let read = move || unsafe { librabbitmq_read(octets.as_ptr(), octets.len()) as u64 };
    let write = move || unsafe { librabbitmq_write(slot, out.as_mut_ptr(), out.len()) as u64 };
    [Some(Side::new(1, read)), Some(Side::new(1, write))]
}

#[cfg(not(librabbitmq))]
fn librabbitmq(_: usize, _: &'static [u8]) -> [Option<Side>; 2] {
    [None, None]
}

/// Reading a table and writing it, after a look whether all agree.
fn lines(slot: usize, what: &str, entries: Entries) -> [Line; 2] {
    let octets: &'static [u8] = written(&entries).leak();
    let mut tape = vec![0; octets.len() * RECORD];
    let records = read_port(octets, &mut tape);
    let filled: &'static [u64] = tape[..records * RECORD].to_vec().leak();
    let mut out = vec![0; octets.len()];
    assert_eq!(write_port(&mut out, octets, filled), octets.len() as u64);
    assert_eq!(out, octets, "{what}: the port writes other octets");
    let [reader, writer] = librabbitmq(slot, octets);
    let read = Line {
        what: format!("read {what}"),
        octets: octets.len(),
        rust: Side::new(1, move || black_box(Reader::new(black_box(octets)).field_table()).unwrap().len() as u64),
        librabbitmq: reader,
        port: Side::new(1, move || read_port(black_box(octets), &mut tape) as u64),
    };
    let write = Line {
        what: format!("write {what}"),
        octets: octets.len(),
        rust: Side::new(1, move || written(black_box(&entries)).len() as u64),
        librabbitmq: writer,
        port: Side::new(1, move || write_port(&mut out, octets, black_box(filled))),
    };
    [read, write]
}

/// Measures the sides of every line in turn.
pub fn sample(lines: &mut [Line], samples: usize) {
    for _ in 0..samples {
        for line in &mut *lines {
            line.rust.sample();
            if let Some(side) = &mut line.librabbitmq {
                side.sample();
            }
            line.port.sample();
        }
    }
}

pub fn print(lines: Vec<Line>) {
    let [rust, librabbitmq, port] = ["Rust", "librabbitmq", "port"].map(heading);
    println!("| {:<42} | octets | {rust} | {librabbitmq} | {port} | Rust/port | librabbitmq/port |", "");
    println!("|{:-<44}|-------:|---------:|----------------:|---------:|----------:|-----------------:|", "");
    for line in lines {
        let (rust, port) = (line.rust.best, line.port.best);
        let (other, ratio) = match line.librabbitmq {
            Some(side) => (format!("{:.0}", side.best), format!("{:.2}", side.best / port)),
            None => ("-".to_string(), "-".to_string()),
        };
        let ratios = format!("{:>9.2} | {ratio:>16}", rust / port);
        println!("| {:<42} | {:>6} | {rust:>8.0} | {other:>15} | {port:>8.0} | {ratios} |", line.what, line.octets);
    }
}

pub fn run(samples: usize) {
    let tables = [
        ("the recorded headers, 19 entries", recorded()),
        ("1 value, S of 3 octets", vec![("colour", FieldValue::LongStr(b"red".to_vec()))]),
        ("1,000 values of all kinds", mixed(1000)),
        ("10,000 values of all kinds", mixed(10_000)),
    ];
    let mut all: Vec<Line> = tables
        .into_iter()
        .enumerate()
        .flat_map(|(slot, (what, entries))| lines(slot, what, entries))
        .collect();
    sample(&mut all, samples);
    all.sort_by_key(|line| line.what.starts_with("write"));
    print(all);
}
