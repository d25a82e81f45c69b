//! differential kind KIND SEED COUNT [exported|others]
//! differential stored FILE..
//!
//! The first makes the cases of a kind (kinds.rs lists them), the same ones for the same words on every
//! machine, of all operations, of those that the port's library exports, or of the others. Cases of
//! exported operations are put to the Rust and to the library and compared here; at the first
//! difference it shows the case and both answers and exits with 1. The others are printed with the
//! Rust's answers, for the port's program `conformance`. The last line on standard error has three
//! numbers: cases that agree, cases that document 01 refuses with 8 and the Rust reads, cases printed.
//!
//! The second asks the Rust for every stored case that it has an answer to, and exits with 1 where the
//! stored answer is another.
use crate::comparison::{Cases, Which};
use crate::{kinds, stored};
use std::process::exit;

pub fn main() {
    let words: Vec<String> = std::env::args().skip(1).collect();
    let words: Vec<&str> = words.iter().map(String::as_str).collect();
    match words.as_slice() {
        ["kind", kind, seed, count] => kind_of(kind, seed, count, Which::All),
        ["kind", kind, seed, count, "exported"] => kind_of(kind, seed, count, Which::Exported),
        ["kind", kind, seed, count, "others"] => kind_of(kind, seed, count, Which::Others),
        ["stored", files @ ..] => stored::stored(files),
        _ => fail(
            "differential kind KIND SEED COUNT [exported|others], or differential stored FILE..",
        ),
    }
}

pub fn fail(why: &str) -> ! {
    eprintln!("{why}");
    exit(2)
}

fn kind_of(kind: &str, seed: &str, count: &str, which: Which) {
    let (Ok(seed), Ok(count)) = (seed.parse(), count.parse()) else { fail("no number") };
    let mut cases = Cases::new(which);
    kinds::make(&mut cases, kind, seed, count);
    let counts = cases.finish();
    eprintln!("{} {} {}", counts.agree, counts.too_deep, counts.printed);
}
