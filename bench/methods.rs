//! Content headers and commands: the Rust, the port and, for headers, librabbitmq on the same octets.
use crate::bench::{Side, Words};
use crate::frame::{Frame, FrameType};
use crate::frames::{Payload, amqp_read_frame, amqp_write_frame};
use crate::method::*;
use crate::tables::{Line, print, sample};
use std::hint::black_box;

unsafe extern "C" {
    fn amqp_content_header(
        s: *const u8,
        len: usize,
        at: usize,
        tape: *mut u64,
        tape_len: usize,
        used: usize,
        words: &mut Words,
    ) -> u32;
    fn amqp_write_command(
        out: *mut u8,
        len: usize,
        at: usize,
        class: u16,
        method: u16,
        arguments: &[u64; 8],
        pool: *const u8,
        pool_len: usize,
        tape: *const u64,
        tape_len: usize,
        words: &mut Words,
    ) -> u32;
}

#[cfg(librabbitmq)]
unsafe extern "C" {
    fn librabbitmq_properties(class: u16, octets: *const u8, len: usize) -> u32;
    fn librabbitmq_keep_properties(slot: usize, class: u16, octets: *const u8, len: usize) -> usize;
    fn librabbitmq_write_properties(slot: usize, class: u16, out: *mut u8, len: usize) -> usize;
}

type Headers = Vec<&'static [u8]>;

/// The content headers of recorded conversations, each as often as it was sent.
fn recorded() -> Headers {
    let octet = |line: &str, i: usize| u8::from_str_radix(&line[2 * i..2 * i + 2], 16).unwrap();
    include_str!("content-headers.hex")
        .lines()
        .map(|line| &*(0..line.len() / 2).map(|i| octet(line, i)).collect::<Vec<u8>>().leak())
        .collect()
}

/// Class, body size and tape records.
fn read_port(octets: &[u8], tape: &mut [u64]) -> Words {
    let mut words = [0; 4];
    let code = unsafe {
        amqp_content_header(octets.as_ptr(), octets.len(), 0, tape.as_mut_ptr(), tape.len(), 0, &mut words)
    };
    assert_eq!((code, words[0]), (0, octets.len() as u64));
    words
}

#[cfg(librabbitmq)]
fn librabbitmq(headers: Headers) -> Option<Side> {
    let read = |octets: &[u8]| unsafe {
        let class = u16::from_be_bytes([octets[0], octets[1]]);
        u64::from(librabbitmq_properties(class, octets[12..].as_ptr(), octets.len() - 12))
    };
    for octets in &headers {
        assert_eq!(read(octets), u64::from(u16::from_be_bytes([octets[12], octets[13]])));
    }
    Some(Side::new(headers.len(), move || black_box(&headers).iter().map(|octets| read(octets)).sum()))
}

#[cfg(not(librabbitmq))]
fn librabbitmq(_: Headers) -> Option<Side> {
    None
}

/// Nanoseconds a header.
fn headers(what: &str, headers: Headers) -> Line {
    let mut tape = vec![0; 6 * 1024];
    for octets in &headers {
        let (size, properties) = parse_content_header(octets).unwrap();
        let words = read_port(octets, &mut tape);
        let entries = properties.headers.map_or(0, |table| table.len() as u64);
        assert_eq!(words[2], size);
        assert!(entries <= words[3], "{what}: fewer records than entries");
    }
    let rust = headers.clone();
    let port = headers.clone();
    Line {
        what: format!("read {what}"),
        octets: headers.iter().map(|octets| octets.len()).sum::<usize>() / headers.len(),
        rust: Side::new(headers.len(), move || {
            black_box(&rust).iter().map(|octets| black_box(parse_content_header(octets)).unwrap().0).sum()
        }),
        librabbitmq: librabbitmq(headers.clone()),
        port: Side::new(headers.len(), move || {
            black_box(&port).iter().map(|octets| read_port(octets, &mut tape)[2]).sum()
        }),
    }
}

/// The properties of a header alone; each header is kept in a slot of its own.
#[cfg(librabbitmq)]
fn librabbitmq_writer(slot: usize, header: &'static [u8]) -> Option<Side> {
    let class = u16::from_be_bytes([header[0], header[1]]);
    let properties = &header[12..];
    let mut out = vec![0; properties.len()];
    let mut write = move || unsafe { librabbitmq_write_properties(slot, class, out.as_mut_ptr(), out.len()) as u64 };
    assert_eq!(unsafe { librabbitmq_keep_properties(slot, class, properties.as_ptr(), properties.len()) }, 1);
    assert_eq!(write(), properties.len() as u64);
    Some(Side::new(1, write))
}

#[cfg(not(librabbitmq))]
fn librabbitmq_writer(_: usize, _: &'static [u8]) -> Option<Side> {
    None
}

/// A frame of channel 1 from its payload in words; strings are spans of the pool.
fn write_frame_port(out: &mut [u8], payload: &Payload, pool: &[u8], tape: &[u64]) -> u64 {
    let (mut words, n) = ([0; 4], out.len());
    let (pool, pool_len, tape, tape_len) = (pool.as_ptr(), pool.len(), tape.as_ptr(), tape.len());
    let code = unsafe {
        amqp_write_frame(out.as_mut_ptr(), n, 0, 1, payload, pool, pool_len, tape, tape_len, &mut words)
    };
    assert_eq!((code, words[0]), (0, n as u64));
    words[0]
}

/// The frame of a content header. The port writes it from the words that it has read.
fn header_frame(slot: usize, what: &str, header: &'static [u8]) -> Line {
    let class = u16::from_be_bytes([header[0], header[1]]);
    let (size, properties) = parse_content_header(header).unwrap();
    let rust = move || {
        let payload = content_header_with_props(class, size, black_box(&properties)).unwrap();
        Frame { frame_type: FrameType::Header, channel: 1, payload }.encode()
    };
    let frame: &'static [u8] = rust().leak();
    assert_eq!(frame[7..frame.len() - 1], *header, "{what}: the Rust writes other octets");
    let (mut tape, mut payload, mut words) = (vec![0; 6 * 1024], [0; 26], [0; 4]);
    let (lent, lent_len) = (tape.as_mut_ptr(), tape.len());
    let code = unsafe {
        amqp_read_frame(frame.as_ptr(), frame.len(), 0, lent, lent_len, 0, &mut payload, &mut words)
    };
    assert_eq!(code, 0, "{what}");
    tape.truncate(words[3] as usize * 6);
    let mut out = vec![0; frame.len()];
    write_frame_port(&mut out, &payload, frame, &tape);
    assert_eq!(out, frame, "{what}: the port writes other octets");
    Line {
        what: format!("write the frame of {what}"),
        octets: frame.len(),
        rust: Side::new(1, move || black_box(rust()).len() as u64),
        librabbitmq: librabbitmq_writer(slot, header),
        port: Side::new(1, move || write_frame_port(&mut out, black_box(&payload), frame, black_box(&tape))),
    }
}

/// A command as the port takes it from C: its arguments as words, strings by start and length in the pool.
struct Call {
    class: u16,
    method: u16,
    arguments: [u64; 8],
    rust: fn() -> Vec<u8>,
}

const POOL: &str = "setter.tilts.cabinet-4.hatch-log.ctag-7.user.secret.direct";

/// The words of a string of the pool.
fn text(s: &str) -> [u64; 2] {
    [POOL.find(s).unwrap() as u64, s.len() as u64]
}

fn call(class: u16, method: u16, words: &[&[u64]], rust: fn() -> Vec<u8>) -> Call {
    let mut arguments = [0; 8];
    for (argument, word) in arguments.iter_mut().zip(words.concat()) {
        *argument = word;
    }
    Call { class, method, arguments, rust }
}

fn calls() -> Vec<Call> {
    let s = text;
    vec![
        call(10, 11, &[&s("user"), &s("secret")], || connection_start_ok("user", "secret").unwrap()),
        call(10, 31, &[&[2047, 131_072, 60]], || connection_tune_ok(2047, 131_072, 60)),
        call(10, 40, &[&s("setter")], || connection_open("setter").unwrap()),
        call(20, 10, &[], || channel_open().unwrap()),
        call(20, 20, &[&[1]], || channel_flow(true)),
        call(20, 21, &[&[1]], || channel_flow_ok(true)),
        call(20, 40, &[&[200], &s("direct")], || channel_close(200, "direct").unwrap()),
        call(20, 41, &[], channel_close_ok),
        call(40, 10, &[&s("tilts"), &s("direct"), &[1]], || exchange_declare("tilts", "direct", true).unwrap()),
        call(40, 20, &[&s("tilts"), &[1]], || exchange_delete("tilts", true).unwrap()),
        call(50, 10, &[&s("hatch-log"), &[1]], || queue_declare("hatch-log", true).unwrap()),
        call(50, 20, &[&s("hatch-log"), &s("tilts"), &s("cabinet-4")], || {
            queue_bind("hatch-log", "tilts", "cabinet-4").unwrap()
        }),
        call(50, 50, &[&s("hatch-log"), &s("tilts"), &s("cabinet-4")], || {
            queue_unbind("hatch-log", "tilts", "cabinet-4").unwrap()
        }),
        call(50, 30, &[&s("hatch-log")], || queue_purge("hatch-log").unwrap()),
        call(50, 40, &[&s("hatch-log")], || queue_delete("hatch-log").unwrap()),
        call(60, 10, &[&[0, 100, 0]], || basic_qos(0, 100, false)),
        call(60, 20, &[&s("hatch-log"), &s("ctag-7"), &[1]], || basic_consume("hatch-log", "ctag-7", true).unwrap()),
        call(60, 30, &[&s("ctag-7"), &[1]], || basic_cancel("ctag-7", true).unwrap()),
        call(60, 40, &[&s("tilts"), &s("cabinet-4")], || basic_publish("tilts", "cabinet-4").unwrap()),
        call(60, 70, &[&s("hatch-log"), &[1]], || basic_get("hatch-log", true).unwrap()),
        call(60, 80, &[&[77, 1]], || basic_ack(77, true)),
        call(60, 90, &[&[77, 1]], || basic_reject(77, true)),
        call(60, 120, &[&[77, 3]], || basic_nack(77, true, true)),
        call(85, 10, &[&[1]], || confirm_select(true)),
        call(90, 10, &[], tx_select),
    ]
}

fn write_port(out: &mut [u8], call: &Call) -> u64 {
    let mut words = [0; 4];
    let code = unsafe {
        amqp_write_command(
            out.as_mut_ptr(),
            out.len(),
            0,
            call.class,
            call.method,
            &call.arguments,
            POOL.as_ptr(),
            POOL.len(),
            [].as_ptr(),
            0,
            &mut words,
        )
    };
    assert_eq!(code, 0);
    words[0]
}

/// Nanoseconds a command.
fn commands() -> Line {
    let mut out = vec![0; 256];
    let mut octets = 0;
    for call in calls() {
        let len = write_port(&mut out, &call) as usize;
        assert_eq!(out[..len], (call.rust)(), "{}.{}: the port writes other octets", call.class, call.method);
        octets += len;
    }
    let (rust, port) = (calls(), calls());
    Line {
        what: "write the 25 commands".into(),
        octets: octets / port.len(),
        rust: Side::new(rust.len(), move || black_box(&rust).iter().map(|call| black_box((call.rust)()).len() as u64).sum()),
        librabbitmq: None,
        port: Side::new(port.len(), move || black_box(&port).iter().map(|call| write_port(&mut out, call)).sum()),
    }
}

pub fn run(samples: usize) {
    let recorded = recorded();
    let only = |keep: &dyn Fn(&[u8]) -> bool| -> Headers { recorded.iter().copied().filter(|octets| keep(octets)).collect() };
    let first = |len| recorded.iter().copied().find(|octets| octets.len() == len).unwrap();
    let mut lines = vec![
        headers("the 40 recorded headers, on average", recorded.clone()),
        headers("those of 14 octets, no property", only(&|octets| octets.len() == 14)),
        headers("those of 25, a table of 1 entry", only(&|octets| octets.len() == 25)),
        headers("those of 225, all properties", only(&|octets| octets.len() == 225)),
        headers("those of 632, the table of 19 entries", only(&|octets| octets.len() == 632)),
        header_frame(0, "that of 14", first(14)),
        header_frame(1, "that of 25", first(25)),
        header_frame(2, "that of 225", first(225)),
        header_frame(3, "that of 632", first(632)),
        commands(),
    ];
    sample(&mut lines, samples);
    print(lines);
}
