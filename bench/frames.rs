//! Frames: the Rust, the port and, for bodies, memcpy on the same octets.
use crate::bench::{Side, Words, heading};
use crate::frame::{Frame, FrameType};
use crate::method::{basic_ack, parse_content_header};
use std::hint::black_box;

/// A payload as words: crates/payload_words.
pub type Payload = [u64; 26];

unsafe extern "C" {
    fn amqp_walk(
        s: *const u8,
        len: usize,
        tape: *mut u64,
        tape_len: usize,
        register: *mut u64,
        register_len: usize,
        words: &mut Words,
    ) -> u32;
    pub fn amqp_read_frame(
        s: *const u8,
        len: usize,
        at: usize,
        tape: *mut u64,
        tape_len: usize,
        used: usize,
        payload: &mut Payload,
        words: &mut Words,
    ) -> u32;
    pub fn amqp_write_frame(
        out: *mut u8,
        len: usize,
        at: usize,
        channel: u16,
        payload: &Payload,
        pool: *const u8,
        pool_len: usize,
        tape: *const u64,
        tape_len: usize,
        words: &mut Words,
    ) -> u32;
}

struct Line {
    what: String,
    octets: usize,
    rust: Side,
    memcpy: Option<Side>,
    port: Side,
}

/// Acks one behind another, each with a delivery tag of its own.
fn acks(count: usize) -> Vec<u8> {
    let ack = |tag| Frame { frame_type: FrameType::Method, channel: 1, payload: basic_ack(tag, false) };
    (0..count as u64).flat_map(|tag| ack(tag).encode()).collect()
}

/// What a client sent, from its protocol header on: commands, content headers with all properties and letters, bodies, a heartbeat.
fn recorded() -> Vec<u8> {
    let digits: String = include_str!("client.hex").split_whitespace().collect();
    (0..digits.len() / 2).map(|i| u8::from_str_radix(&digits[2 * i..2 * i + 2], 16).unwrap()).collect()
}

/// Frames decoded one behind another; of those that are content headers the payload is read too.
fn walk_rust(octets: &[u8]) -> u64 {
    let (mut at, mut frames) = (0, 0);
    while at < octets.len() {
        let (frame, consumed) = Frame::decode(&octets[at..]).unwrap();
        if frame.frame_type == FrameType::Header {
            black_box(parse_content_header(&frame.payload).unwrap());
        }
        black_box(frame);
        at += consumed;
        frames += 1;
    }
    frames
}

fn walk_port(octets: &[u8], tape: &mut [u64], register: &mut [u64]) -> u64 {
    let mut words = [0; 4];
    let code = unsafe {
        amqp_walk(
            octets.as_ptr(),
            octets.len(),
            tape.as_mut_ptr(),
            tape.len(),
            register.as_mut_ptr(),
            register.len(),
            &mut words,
        )
    };
    assert_eq!((code, words[0]), (0, octets.len() as u64));
    words[1]
}

/// Nanoseconds a frame.
fn walk(what: &str, octets: Vec<u8>) -> Line {
    let octets: &'static [u8] = octets.leak();
    let frames = walk_rust(octets) as usize;
    let (mut tape, mut register) = (vec![0; 6 * 1024], vec![0; 3 * frames]);
    assert_eq!(walk_port(octets, &mut tape, &mut register), frames as u64, "{what}");
    Line {
        what: format!("walk {what}, a frame"),
        octets: octets.len() / frames,
        rust: Side::new(frames, move || walk_rust(black_box(octets))),
        memcpy: None,
        port: Side::new(frames, move || walk_port(black_box(octets), &mut tape, &mut register)),
    }
}

fn body_frame(len: usize) -> (Frame, &'static [u8]) {
    let payload = (0..len).map(|i| (i * 7) as u8).collect();
    let frame = Frame { frame_type: FrameType::Body, channel: 1, payload };
    let octets = frame.encode().leak();
    (frame, octets)
}

fn read_body(what: &str, len: usize) -> Line {
    let (_, octets) = body_frame(len);
    let read = move || {
        let (mut payload, mut words) = ([0; 26], [0; 4]);
        let octets = black_box(octets);
        let code = unsafe { amqp_read_frame(octets.as_ptr(), octets.len(), 0, [].as_mut_ptr(), 0, 0, &mut payload, &mut words) };
        assert_eq!((code, payload[0], payload[2]), (0, 3, len as u64));
        words[0]
    };
    assert_eq!(read(), octets.len() as u64);
    Line {
        what: format!("read a body frame of {what}"),
        octets: octets.len(),
        rust: Side::new(1, move || black_box(Frame::decode(black_box(octets))).unwrap().1 as u64),
        memcpy: None,
        port: Side::new(1, read),
    }
}

fn write_body(what: &str, len: usize) -> Line {
    let (frame, octets) = body_frame(len);
    let pool = &octets[7..7 + len];
    let mut out = vec![0; octets.len()];
    let mut copy = vec![0; octets.len()];
    let mut write = move || {
        let (mut payload, mut words) = ([0; 26], [0; 4]);
        let pool = black_box(pool);
        let (tape, n): ([u64; 0], _) = ([], out.len());
        payload[0] = 3;
        payload[2] = pool.len() as u64;
        let code = unsafe {
            amqp_write_frame(out.as_mut_ptr(), n, 0, 1, &payload, pool.as_ptr(), pool.len(), tape.as_ptr(), 0, &mut words)
        };
        assert_eq!((code, words[0]), (0, n as u64));
        u64::from(black_box(&out)[n - 1])
    };
    assert_eq!(write(), 0xCE);
    Line {
        what: format!("write a body frame of {what}"),
        octets: octets.len(),
        rust: Side::new(1, move || u64::from(black_box(black_box(&frame).encode())[7 + len])),
        memcpy: Some(Side::new(1, move || {
            copy[7..7 + len].copy_from_slice(black_box(pool));
            u64::from(black_box(&copy)[len])
        })),
        port: Side::new(1, write),
    }
}

pub fn run(samples: usize) {
    let mut lines = vec![
        walk("1,000 acks", acks(1000)),
        walk("100,000 acks", acks(100_000)),
        walk("the recorded client, 44 frames", recorded()),
        read_body("64 octets", 64),
        read_body("64 KiB", 65_536),
        read_body("1 MiB", 1_048_576),
        write_body("64 octets", 64),
        write_body("64 KiB", 65_536),
    ];
    for _ in 0..samples {
        for line in &mut lines {
            line.rust.sample();
            if let Some(side) = &mut line.memcpy {
                side.sample();
            }
            line.port.sample();
        }
    }
    let [rust, memcpy, port] = ["Rust", "memcpy", "port"].map(heading);
    println!("| {:<44} |  octets | {rust} | {memcpy} | {port} | Rust/port |", "");
    println!("|{:-<46}|--------:|---------:|-----------:|---------:|----------:|", "");
    for line in lines {
        let (rust, port) = (line.rust.best, line.port.best);
        let memcpy = line.memcpy.map_or("-".to_string(), |side| format!("{:.1}", side.best));
        let figures = format!("{rust:>8.1} | {memcpy:>10} | {port:>8.1} | {:>9.2}", rust / port);
        println!("| {:<44} | {:>7} | {figures} |", line.what, line.octets);
    }
}
