//! The Rust and the port on the same inputs, in one process. README.md says what is measured and how.
use crate::types::{Reader, WireError, Writer};
use std::cell::RefCell;
use std::hint::black_box;
use std::time::{Duration, Instant};

/// The port's answer: the next position, then the number, or the start and length of octets.
pub type Words = [u64; 4];

// A slice is passed as a pointer and a length. What is returned is 0, or the number of a refusal.
unsafe extern "C" {
    fn amqp_u16(s: *const u8, len: usize, at: usize, words: &mut Words) -> u32;
    fn amqp_u32(s: *const u8, len: usize, at: usize, words: &mut Words) -> u32;
    fn amqp_u64(s: *const u8, len: usize, at: usize, words: &mut Words) -> u32;
    fn amqp_short_str(s: *const u8, len: usize, at: usize, words: &mut Words) -> u32;
    fn amqp_long_str(s: *const u8, len: usize, at: usize, words: &mut Words) -> u32;
    fn amqp_write_u64(out: *mut u8, len: usize, at: usize, n: u64, words: &mut Words) -> u32;
    fn amqp_write_short_str(
        out: *mut u8,
        len: usize,
        at: usize,
        s: *const u8,
        s_len: usize,
        words: &mut Words,
    ) -> u32;
}

type PortReader = unsafe extern "C" fn(*const u8, usize, usize, &mut Words) -> u32;
type ReaderAt<T> = fn(&[u8], usize) -> Result<T, WireError>;
type ReaderNext<T> = fn(&mut Reader) -> Result<T, WireError>;

/// Operations in a turn, each at a place of its own.
const TURN: usize = 16;
const SAMPLES: usize = 500;
/// What is taken from the system's memory differs a little from turn to turn.
const COUNTED_SAMPLES: usize = 5;
const SAMPLE: Duration = Duration::from_micros(200);

/// What the tables show: nanoseconds, or the instructions that callgrind has counted. For these the driver runs twice: first under
/// callgrind, a turn of each side in a sample, then with callgrind's figures, in the same order.
enum Measure {
    Time,
    Turn,
    Counts(Box<dyn Iterator<Item = f64>>),
}

thread_local! {
    static MEASURE: RefCell<Measure> = const { RefCell::new(Measure::Time) };
}

/// The heading of a side's figures.
pub fn heading(side: &str) -> String {
    let unit = MEASURE.with_borrow(|measure| if let Measure::Time = measure { "ns" } else { "Ir" });
    format!("{side}, {unit}")
}

/// callgrind counts what happens in here and nothing else (bench/instructions).
#[unsafe(no_mangle)]
#[inline(never)]
fn counted_turn(turn: &mut dyn FnMut() -> u64) -> u64 {
    turn()
}

/// One side of a line. A turn gives the sum of its answers; `best` is in nanoseconds or instructions an operation.
pub struct Side {
    turn: Box<dyn FnMut() -> u64>,
    operations: usize,
    turns: u32,
    pub best: f64,
}

impl Side {
    pub fn new(operations: usize, turn: impl FnMut() -> u64 + 'static) -> Self {
        let mut side = Side { turn: Box::new(turn), operations, turns: 0, best: f64::MAX };
        let start = Instant::now();
        while start.elapsed() < SAMPLE {
            black_box((side.turn)());
            side.turns += 1;
        }
        side
    }

    pub fn sample(&mut self) {
        MEASURE.with_borrow_mut(|measure| match measure {
            Measure::Time => self.time(),
            Measure::Turn => _ = black_box(counted_turn(&mut self.turn)),
            Measure::Counts(counts) => {
                self.best = self.best.min(counts.next().unwrap() / self.operations as f64);
            }
        });
    }

    fn time(&mut self) {
        let start = Instant::now();
        for _ in 0..self.turns {
            black_box((self.turn)());
        }
        let operations = f64::from(self.turns) * self.operations as f64;
        self.best = self.best.min(start.elapsed().as_nanos() as f64 / operations);
    }
}

struct Line {
    what: String,
    rust: Side,
    port: Side,
}

fn line(
    what: String,
    rust: impl FnMut() -> u64 + 'static,
    port: impl FnMut() -> u64 + 'static,
) -> Line {
    let mut line = Line { what, rust: Side::new(TURN, rust), port: Side::new(TURN, port) };
    let (rust, port) = ((line.rust.turn)(), (line.port.turn)());
    assert_eq!(rust, port, "{}: the Rust and the port differ", line.what);
    line
}

fn sum(answers: impl Iterator<Item = u64>) -> u64 {
    answers.fold(0, u64::wrapping_add)
}

/// The port at a place: the word of its answer at an index.
fn read(port: PortReader, s: &[u8], at: usize, words: &mut Words, index: usize) -> u64 {
    assert_eq!(unsafe { port(s.as_ptr(), s.len(), at, words) }, 0);
    words[index]
}

/// Numbers at places that do not depend on each other, and numbers one behind another.
fn numbers<T: Into<u64> + 'static>(
    name: &str,
    at: ReaderAt<T>,
    next: ReaderNext<T>,
    port: PortReader,
) -> [Line; 2] {
    let octets: &[u8] = Vec::leak((0..1024).map(|i| (i * 37 + 200) as u8).collect());
    let places: [usize; TURN] = std::array::from_fn(|i| i * 61);
    let (at, next) = (black_box(at), black_box(next));
    let mut words = [0; 4];
    let anywhere = line(
        format!("read {name}, anywhere"),
        move || sum(places.iter().map(|place| at(octets, *place).unwrap().into())),
        move || sum(places.iter().map(|place| read(port, octets, *place, &mut words, 1))),
    );
    let in_a_row = line(
        format!("read {name}, one behind another"),
        move || {
            let mut reader = Reader::new(octets);
            sum((0..TURN).map(|_| next(&mut reader).unwrap().into()))
        },
        move || {
            words[0] = 0;
            sum((0..TURN).map(|_| read(port, octets, words[0] as usize, &mut words, 1)))
        },
    );
    [anywhere, in_a_row]
}

/// Strings, each with its length in front.
fn strings<T: AsRef<[u8]> + 'static>(
    what: &str,
    string: &[u8],
    at: ReaderAt<T>,
    port: PortReader,
) -> Line {
    let octets: &[u8] = Vec::leak(string.repeat(TURN));
    let places: [usize; TURN] = std::array::from_fn(|i| i * string.len());
    let at = black_box(at);
    let mut words = [0; 4];
    for place in places {
        let len = read(port, octets, place, &mut words, 2) as usize;
        let found = &octets[words[1] as usize..][..len];
        assert_eq!(at(octets, place).unwrap().as_ref(), found, "{what}");
    }
    line(
        format!("read {what}"),
        move || sum(places.iter().map(|place| at(octets, *place).unwrap().as_ref().len() as u64)),
        move || sum(places.iter().map(|place| read(port, octets, *place, &mut words, 2))),
    )
}

fn short_strings(what: &str, string: &str) -> Line {
    let octets = [&[string.len() as u8], string.as_bytes()].concat();
    strings(what, &octets, |s, at| Reader::new(&s[at..]).short_str(), amqp_short_str)
}

/// A writer's only field: the Rust has no way to empty a writer and keep its memory.
fn buffer(writer: &mut Writer) -> &mut Vec<u8> {
    const { assert!(size_of::<Writer>() == size_of::<Vec<u8>>()) };
    unsafe { &mut *std::ptr::from_mut(writer).cast() }
}

/// Values one behind another; what is given is the position behind the last.
fn write_port<T: Copy>(
    port: impl Fn(&mut [u8], usize, T, &mut Words) -> u32,
    values: &[T],
    out: &mut [u8],
) -> u64 {
    let mut words = [0; 4];
    for value in values {
        assert_eq!(port(out, words[0] as usize, *value, &mut words), 0);
    }
    words[0]
}

fn write_rust<T: Copy>(rust: fn(&mut Writer, T), values: &[T], writer: &mut Writer) -> u64 {
    buffer(writer).clear();
    for value in values {
        rust(writer, *value);
    }
    writer.len() as u64
}

/// Values one behind another into memory that is kept, and a new writer for each.
fn writes<T: Copy + 'static>(
    what: &str,
    values: [T; TURN],
    rust: fn(&mut Writer, T),
    port: impl Fn(&mut [u8], usize, T, &mut Words) -> u32 + Copy + 'static,
) -> [Line; 2] {
    let rust = black_box(rust);
    let (mut out, mut writer) = ([0; TURN * 256], Writer::new());
    let len = write_port(port, &values, &mut out) as usize;
    write_rust(rust, &values, &mut writer);
    assert_eq!(out[..len], *buffer(&mut writer), "{what}");
    let kept = line(
        format!("write {what}, memory kept"),
        move || write_rust(rust, &values, &mut writer),
        move || write_port(port, &values, &mut out),
    );
    let anew = line(
        format!("write {what}, a Writer for each"),
        move || {
            sum(values.iter().map(|value| {
                let mut writer = Writer::new();
                rust(&mut writer, *value);
                writer.into_bytes().len() as u64
            }))
        },
        move || write_port(port, &values, &mut out),
    );
    [kept, anew]
}

fn short_string_writes(what: &str, string: &'static str) -> [Line; 2] {
    writes(
        what,
        [string; TURN],
        |writer, s| assert!(writer.short_str(s).is_ok()),
        |out, at, s, words| unsafe {
            amqp_write_short_str(out.as_mut_ptr(), out.len(), at, s.as_ptr(), s.len(), words)
        },
    )
}

fn number_writes() -> [Line; 2] {
    writes(
        "u64",
        std::array::from_fn(|i| (i as u64 + 1).wrapping_mul(0x0123_4567_89ab_cdef)),
        |writer, n| _ = writer.u64(n),
        |out, at, n, words| unsafe { amqp_write_u64(out.as_mut_ptr(), out.len(), at, n, words) },
    )
}

fn lines() -> Vec<Line> {
    let letters: &'static str = &"abcdefghijklmnopqrstuvwxyz".repeat(10).leak()[..255];
    let name = &letters[..12];
    let long = [&[0, 0, 0, 64], &letters.as_bytes()[..64]].concat();
    let mut lines = Vec::new();
    lines.extend(numbers("u16", |s, at| Reader::new(&s[at..]).u16(), |r| r.u16(), amqp_u16));
    lines.extend(numbers("u32", |s, at| Reader::new(&s[at..]).u32(), |r| r.u32(), amqp_u32));
    lines.extend(numbers("u64", |s, at| Reader::new(&s[at..]).u64(), |r| r.u64(), amqp_u64));
    lines.push(short_strings("short_str, 255 ASCII letters", letters));
    lines.push(short_strings("short_str, 12 ASCII letters", name));
    lines.push(short_strings("short_str, 127 two-octet characters", &"äöü".repeat(43)[..254]));
    lines.push(strings(
        "long_str, 64 octets",
        &long,
        |s, at| Reader::new(&s[at..]).long_str(),
        amqp_long_str,
    ));
    lines.extend(number_writes());
    lines.extend(short_string_writes("short_str, 255 ASCII letters", letters));
    lines.extend(short_string_writes("short_str, 12 ASCII letters", name));
    lines
}

/// Without an argument times are measured; with "turn" a sample is one turn, for callgrind to count; else the argument is the
/// file of its counts.
pub fn run() {
    let measure = match std::env::args().nth(1) {
        None => Measure::Time,
        Some(word) if word == "turn" => Measure::Turn,
        Some(file) => {
            let counts: Vec<f64> = std::fs::read_to_string(file)
                .unwrap()
                .lines()
                .map(|line| line.parse().unwrap())
                .collect();
            Measure::Counts(Box::new(counts.into_iter()))
        }
    };
    let samples = if let Measure::Time = measure { SAMPLES } else { COUNTED_SAMPLES };
    MEASURE.set(measure);
    let mut lines = lines();
    for _ in 0..samples {
        for line in &mut lines {
            line.rust.sample();
            line.port.sample();
        }
    }
    println!("| {:<54} | {} | {} | Rust/port |", "", heading("Rust"), heading("port"));
    println!("|{:-<56}|---------:|---------:|----------:|", "");
    for line in lines {
        let (what, rust, port) = (line.what, line.rust.best, line.port.best);
        println!("| {what:<54} | {rust:>8.2} | {port:>8.2} | {:>9.2} |", rust / port);
    }
    println!();
    crate::tables::run(samples);
    println!();
    crate::methods::run(samples);
    println!();
    crate::frames::run(samples);
}
