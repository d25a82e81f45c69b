//! What becomes of a case: compared within this process where the port's library has its operation,
//! printed with the Rust's answer, for the port's program, where it has not.
use crate::answer::Answer;
use crate::library::{Checked, Library};
use crate::line::{Arguments, Case};
use crate::operation::Operation;
use crate::original;
use crate::types::FieldValue;
use std::io::{BufWriter, StdoutLock, Write, stdout};
use std::process::exit;

/// Of which operations cases are made.
#[derive(Clone, Copy, PartialEq)]
pub enum Which {
    All,
    Exported,
    Others,
}

/// How many cases were compared here and agree; how many more the port refuses with 8, which the Rust
/// does not have; how many were printed.
#[derive(Default)]
pub struct Counts {
    pub agree: u64,
    pub too_deep: u64,
    pub printed: u64,
}

pub struct Cases {
    which: Which,
    library: Library,
    output: BufWriter<StdoutLock<'static>>,
    line: String,
    counts: Counts,
}

impl Cases {
    pub fn new(which: Which) -> Cases {
        let output = BufWriter::with_capacity(1 << 20, stdout().lock());
        Cases {
            which,
            library: Library::new(),
            output,
            line: String::new(),
            counts: Counts::default(),
        }
    }

    pub fn finish(mut self) -> Counts {
        self.output.flush().unwrap_or_else(|_| exit(1));
        self.counts
    }

    fn takes(&self, operation: Operation) -> bool {
        match self.which {
            Which::All => true,
            Which::Exported => operation.is_exported(),
            Which::Others => !operation.is_exported(),
        }
    }

    /// The readers of which cases are made.
    pub fn readers(&self) -> Vec<Operation> {
        Operation::all().filter(|o| self.takes(*o) && o.is_reader()).collect()
    }

    /// The writers of which cases are made.
    pub fn writers(&self) -> Vec<Operation> {
        Operation::all().filter(|o| self.takes(*o) && o.is_writer()).collect()
    }

    pub fn case(&mut self, operation: Operation, fields: &[&[u8]]) {
        self.put(&Case { operation, at: 0, lent: None, fields, table: &[] });
    }

    pub fn table_case(
        &mut self,
        operation: Operation,
        fields: &[&[u8]],
        table: &[(String, FieldValue)],
    ) {
        self.put(&Case { operation, at: 0, lent: None, fields, table });
    }

    pub fn case_of(&mut self, operation: Operation, arguments: &Arguments) {
        self.table_case(operation, &arguments.slices(), &arguments.table);
    }

    /// One to three records are used before, by turns.
    fn put(&mut self, case: &Case) {
        let used = 1 + self.counts.agree as usize % 3;
        self.put_behind(case, used);
    }

    /// The same with this many records used before.
    pub fn put_behind(&mut self, case: &Case, used: usize) {
        if !self.takes(case.operation) {
            return;
        }
        let Some(expected) = original::answer(case) else {
            eprintln!("differential: the Rust has no such case: {}", shown(&case.text()));
            exit(1)
        };
        if case.operation.is_exported() {
            self.expect(case, &expected, used);
        } else {
            self.print(case, &expected);
        }
    }

    /// Holds the library's answer to a case against the one that is expected.
    pub fn expect(&mut self, case: &Case, expected: &Answer, used: usize) {
        let port = self.library.answer(case, expected, used);
        self.compare(|| case.text(), expected, port);
    }

    /// Holds a walk over octets against what is expected of it.
    pub fn walk(&mut self, octets: &[u8], records: usize, entries: usize, expected: &Answer) {
        let port = self.library.walk(octets, records, entries);
        let fields: [&[u8]; 2] = [&(entries as u16).to_be_bytes(), octets];
        let (lent, table) = (Some(records), [].as_slice());
        let case = Case { operation: Operation::Walk, at: 0, lent, fields: &fields, table };
        self.compare(|| case.text(), expected, port);
    }

    fn compare(&mut self, case: impl Fn() -> String, expected: &Answer, port: Checked) {
        match port {
            Ok(port) if expected.is_met_by(&port) => {}
            Ok(port) => differ(&case(), &expected.text(), &port.text()),
            Err(why) => differ(&case(), &expected.text(), why),
        }
        match expected {
            Answer::ReadsOn => self.counts.too_deep += 1,
            _ => self.counts.agree += 1,
        }
    }

    fn print(&mut self, case: &Case, expected: &Answer) {
        self.line.clear();
        case.push_text(&mut self.line);
        self.line.push('\t');
        expected.push_text(&mut self.line);
        self.line.push('\n');
        self.output.write_all(self.line.as_bytes()).unwrap_or_else(|_| exit(1));
        self.counts.printed += 1;
    }
}

fn differ(case: &str, rust: &str, port: &str) -> ! {
    eprintln!("  case     {}", shown(case));
    eprintln!("  the Rust {}", shown(rust));
    eprintln!("  the port {}", shown(port));
    let same = rust.bytes().zip(port.bytes()).take_while(|(a, b)| a == b).count();
    eprintln!("  the answers part at character {}", same + 1);
    exit(1)
}

/// A line as it is shown: cut where it is very long.
fn shown(line: &str) -> String {
    match line.get(..1000) {
        Some(first) if line.len() > 1000 => format!("{first}.. ({} characters)", line.len()),
        _ => line.to_string(),
    }
}
