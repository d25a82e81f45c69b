//! Stored cases with their answers, held against the Rust's.
use crate::answer::Answer;
use crate::line::{Case, Parsed};
use crate::main::fail;
use crate::original;
use std::process::exit;

/// Every line of the files is CASE, a tab, ANSWER, and perhaps a tab and a label behind `#`.
pub fn stored(files: &[&str]) {
    let (mut asked, mut all, mut wrong) = (0, 0, 0);
    for file in files {
        let text =
            std::fs::read_to_string(file).unwrap_or_else(|error| fail(&format!("{file}: {error}")));
        for line in text.lines().filter(|line| !line.is_empty() && !line.starts_with('#')) {
            let mut parts = line.split('\t');
            let (Some(case), Some(answer)) = (parts.next(), parts.next()) else {
                fail(&format!("{file}: not CASE, tab, ANSWER: {line}"));
            };
            all += 1;
            let Some(rust) = rusts_answer(case, answer) else { continue };
            asked += 1;
            if rust != answer {
                wrong += 1;
                eprintln!("{file}:\n  case     {case}\n  stored   {answer}\n  the Rust {rust}");
            }
        }
    }
    println!("{asked} of {all} stored cases have an answer of the Rust, {wrong} another one");
    exit(if wrong == 0 && asked > 0 { 0 } else { 1 });
}

/// The Rust knows no space and no records, so where the stored answer is that these are too few, or more
/// than the program has, it has none; nor where a reader is lent a number of records, since then the
/// answer shows the tape's words.
fn rusts_answer(case: &str, answer: &str) -> Option<String> {
    let parsed = Parsed::of(case)?;
    if parsed.lent.is_some() && (answer == "! 11" || answer == "?" || !parsed.operation.is_writer())
    {
        return None;
    }
    let (operation, fields) = (parsed.operation, parsed.arguments.slices());
    let table = &parsed.arguments.table;
    let case = Case { operation, at: 0, lent: None, fields: &fields, table };
    original::answer(&case).map(|answer: Answer| answer.text())
}
