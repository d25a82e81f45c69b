//! The functions of the port's library, as include/amqp_ffi.h declares them.
use crate::payload::{ARGUMENT_WORDS, Payload};

pub type Words = [u64; 4];

/// Octets, how many, position, answer.
pub type Reader = unsafe extern "C" fn(*const u8, usize, usize, &mut Words) -> u32;

/// The same with a tape, its length in words, and how many records of it are used.
pub type TapeReader =
    unsafe extern "C" fn(*const u8, usize, usize, *mut u64, usize, usize, &mut Words) -> u32;

/// Output, its length, position, octets to be written or the pool.
pub type StringWriter =
    unsafe extern "C" fn(*mut u8, usize, usize, *const u8, usize, &mut Words) -> u32;

/// The same, and the tape.
pub type TapeWriter = unsafe extern "C" fn(
    *mut u8,
    usize,
    usize,
    *const u8,
    usize,
    *const u64,
    usize,
    &mut Words,
) -> u32;

unsafe extern "C" {
    pub fn amqp_u8(s: *const u8, len: usize, at: usize, words: &mut Words) -> u32;
    pub fn amqp_u16(s: *const u8, len: usize, at: usize, words: &mut Words) -> u32;
    pub fn amqp_u32(s: *const u8, len: usize, at: usize, words: &mut Words) -> u32;
    pub fn amqp_u64(s: *const u8, len: usize, at: usize, words: &mut Words) -> u32;
    pub fn amqp_short_str(s: *const u8, len: usize, at: usize, words: &mut Words) -> u32;
    pub fn amqp_long_str(s: *const u8, len: usize, at: usize, words: &mut Words) -> u32;
    pub fn amqp_decode(s: *const u8, len: usize, at: usize, words: &mut Words) -> u32;

    pub fn amqp_field_table(
        s: *const u8,
        len: usize,
        at: usize,
        tape: *mut u64,
        tape_len: usize,
        used: usize,
        words: &mut Words,
    ) -> u32;
    pub fn amqp_field_value(
        s: *const u8,
        len: usize,
        at: usize,
        tape: *mut u64,
        tape_len: usize,
        used: usize,
        words: &mut Words,
    ) -> u32;
    pub fn amqp_content_header(
        s: *const u8,
        len: usize,
        at: usize,
        tape: *mut u64,
        tape_len: usize,
        used: usize,
        words: &mut Words,
    ) -> u32;
    pub fn amqp_read_frame(
        s: *const u8,
        len: usize,
        at: usize,
        tape: *mut u64,
        tape_len: usize,
        used: usize,
        payload: &mut Payload,
        words: &mut Words,
    ) -> u32;
    pub fn amqp_walk(
        s: *const u8,
        len: usize,
        tape: *mut u64,
        tape_len: usize,
        entries: *mut u64,
        entries_len: usize,
        words: &mut Words,
    ) -> u32;

    pub fn amqp_write_u32(out: *mut u8, len: usize, at: usize, n: u32, words: &mut Words) -> u32;
    pub fn amqp_write_u64(out: *mut u8, len: usize, at: usize, n: u64, words: &mut Words) -> u32;
    pub fn amqp_write_short_str(
        out: *mut u8,
        len: usize,
        at: usize,
        s: *const u8,
        s_len: usize,
        words: &mut Words,
    ) -> u32;
    pub fn amqp_write_long_str(
        out: *mut u8,
        len: usize,
        at: usize,
        s: *const u8,
        s_len: usize,
        words: &mut Words,
    ) -> u32;
    pub fn amqp_write_field_table(
        out: *mut u8,
        len: usize,
        at: usize,
        pool: *const u8,
        pool_len: usize,
        tape: *const u64,
        tape_len: usize,
        words: &mut Words,
    ) -> u32;
    pub fn amqp_write_field_value(
        out: *mut u8,
        len: usize,
        at: usize,
        pool: *const u8,
        pool_len: usize,
        tape: *const u64,
        tape_len: usize,
        words: &mut Words,
    ) -> u32;
    pub fn amqp_write_command(
        out: *mut u8,
        len: usize,
        at: usize,
        class: u16,
        method: u16,
        arguments: &[u64; ARGUMENT_WORDS],
        pool: *const u8,
        pool_len: usize,
        tape: *const u64,
        tape_len: usize,
        words: &mut Words,
    ) -> u32;
    pub fn amqp_write_frame(
        out: *mut u8,
        len: usize,
        at: usize,
        channel: u16,
        payload: &Payload,
        pool: *const u8,
        pool_len: usize,
        tape: *const u64,
        tape_len: usize,
        words: &mut Words,
    ) -> u32;
}
