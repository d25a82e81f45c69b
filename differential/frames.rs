//! Frames: the kinds of cases made of them.
use crate::comparison::Cases;
use crate::frame::{FRAME_END, Frame, FrameType};
use crate::inputs::{Rng, frame_fields};
use crate::line::Arguments;
use crate::operation::Operation::*;

const TYPES: [FrameType; 4] =
    [FrameType::Method, FrameType::Header, FrameType::Body, FrameType::Heartbeat];

/// A frame's first seven octets, whatever stands behind them.
fn head(frame_type: u8, size: u32) -> Vec<u8> {
    [&[frame_type, 0x12, 0x34], size.to_be_bytes().as_slice()].concat()
}

// The kind `frames`.

pub fn frames(cases: &mut Cases) {
    (0..=255).for_each(|octet| type_and_octets(cases, octet));
    for frame_type in TYPES {
        (0..=9).for_each(|left| sizes_around(cases, frame_type, left));
        [0, 1, 2, 7].iter().for_each(|length| frame_ends(cases, frame_type, *length));
        large_sizes(cases, frame_type);
        for length in [0, 1, 255, 65_536] {
            for channel in [0, 1, 255, 256, 65_535] {
                encoded(cases, Frame { frame_type, channel, payload: vec![FRAME_END; length] });
            }
        }
    }
}

/// A type octet, with 0 to 8 octets after it: an empty frame, cut and with an octet after it; and with
/// octets that are no size of a small frame.
fn type_and_octets(cases: &mut Cases, octet: u8) {
    let empty = [head(octet, 0), vec![FRAME_END, 0xff]].concat();
    for length in 1..=empty.len() {
        cases.case(Decode, &[&empty[..length]]);
        cases.case(Decode, &[&vec![octet; length]]);
    }
}

/// A size from 0 to a little more than the `left` octets and the frame end that stand behind it. Behind
/// a size that is too small stands another octet than the frame end, or the same.
fn sizes_around(cases: &mut Cases, frame_type: FrameType, left: u8) {
    for size in 0..u32::from(left) + 3 {
        let octets: Vec<u8> = (0..left).map(|place| 0xc8 + place).collect();
        cases.case(Decode, &[&[head(frame_type as u8, size), octets, vec![FRAME_END]].concat()]);
        let ends = vec![FRAME_END; usize::from(left) + 1];
        cases.case(Decode, &[&[head(frame_type as u8, size), ends].concat()]);
    }
}

/// Every octet as the frame end, with the right one behind it.
fn frame_ends(cases: &mut Cases, frame_type: FrameType, length: u32) {
    for end in 0..=255 {
        let payload = vec![0x61; length as usize];
        let octets = [head(frame_type as u8, length), payload, vec![end, FRAME_END]].concat();
        cases.case(Decode, &[&octets]);
        cases.case(Decode, &[&octets[..octets.len() - 1]]);
    }
}

/// Sizes that no octets are left for, those among them with which a sum of 32 bits would wrap.
fn large_sizes(cases: &mut Cases, frame_type: FrameType) {
    for size in [0x100, 0x1_0000, 0x7fff_ffff, 0x8000_0000, 0xffff_fff7, 0xffff_fff8, 0xffff_ffff] {
        for left in 0..=16 {
            let octets = vec![FRAME_END; left];
            cases.case(Decode, &[&[head(frame_type as u8, size), octets].concat()]);
        }
    }
}

/// A frame written, and read: whole, cut by an octet, and with another frame after it.
fn encoded(cases: &mut Cases, frame: Frame) {
    let whole = frame.encode();
    written(cases, &frame);
    cases.case(Decode, &[&whole]);
    cases.case(Decode, &[&whole[..whole.len() - 1]]);
    cases.case(Decode, &[&[whole.as_slice(), &[8, 0, 0, 0, 0, 0, 0, FRAME_END]].concat()]);
}

/// A frame by the encoder of any payload; and by the writer of frames, if it is a body.
fn written(cases: &mut Cases, frame: &Frame) {
    cases.case_of(Encode, &Arguments::of_fields(frame_fields(frame)));
    if frame.frame_type == FrameType::Body {
        cases.case(WriteFrame, &[&frame.channel.to_be_bytes(), &[3], &frame.payload]);
    }
}

// Edges and long inputs.

/// Every frame type and every frame end, of an empty frame.
pub fn edges(cases: &mut Cases) {
    for octet in 0..=255 {
        cases.case(Decode, &[&[octet, 0, 1, 0, 0, 0, 0, FRAME_END]]);
        cases.case(Decode, &[&[8, 0, 0, 0, 0, 0, 0, octet]]);
    }
}

/// A body of these octets, read whole and cut by an octet, and written.
pub fn long(cases: &mut Cases, octets: &[u8]) {
    let frame = Frame { frame_type: FrameType::Body, channel: 65_535, payload: octets.to_vec() };
    let whole = frame.encode();
    cases.case(Decode, &[&whole]);
    cases.case(Decode, &[&whole[..whole.len() - 1]]);
    written(cases, &frame);
}

// Random octets.

/// Makes octets begin and, where there are enough, end as a frame's do.
pub fn likely(r: &mut Rng, octets: &mut [u8]) {
    if let Some(frame_type) = octets.first_mut() {
        *frame_type = r.pick(&[1, 2, 3, 8, 4, 0]);
    }
    if octets.len() >= 8 {
        let size = octets.len() - 8;
        octets[3..7].copy_from_slice(&(size as u32).to_be_bytes());
        octets[7 + size] = FRAME_END;
    }
}

// What was recorded.

/// A frame read, whole and cut at each place, and written.
pub fn recorded(cases: &mut Cases, octets: &[u8]) {
    let (frame, consumed) = Frame::decode(octets).expect("recorded.txt: a frame");
    assert_eq!(consumed, octets.len(), "recorded.txt: a frame with nothing after it");
    (0..=octets.len()).for_each(|length| cases.case(Decode, &[&octets[..length]]));
    written(cases, &frame);
}
