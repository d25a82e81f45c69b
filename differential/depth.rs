//! Where document 01 refuses the depth of tables and arrays with 8 and the Rust goes on.
use crate::tape::TOO_DEEP;
use crate::types::{FieldValue, Reader, WireError};

/// Fewer octets than these can't hold enough tables and arrays one in another: each takes five.
const SHORTEST: usize = 5 * TOO_DEEP as usize - 5;

/// Whether document 01 refuses a table with 8, where the Rust reads on.
pub fn table_too_deep(octets: &[u8]) -> bool {
    octets.len() > SHORTEST && scan_table(&mut Reader::new(octets), 1) == Err(Stop::TooDeep)
}

/// Whether document 01 refuses a lone value with 8.
pub fn value_too_deep(octets: &[u8]) -> bool {
    octets.len() > SHORTEST && scan_value(&mut Reader::new(octets), 1) == Err(Stop::TooDeep)
}

/// Whether document 01 refuses the headers of a content header with 8.
pub fn header_too_deep(octets: &[u8]) -> bool {
    octets.len() > SHORTEST && scan_header(&mut Reader::new(octets)) == Err(Stop::TooDeep)
}

/// How many tables and arrays stand one in another.
pub fn depth(value: &FieldValue) -> u32 {
    match value {
        FieldValue::Table(entries) => 1 + entries.iter().map(|(_, v)| depth(v)).max().unwrap_or(0),
        FieldValue::Array(items) => 1 + items.iter().map(depth).max().unwrap_or(0),
        _ => 0,
    }
}

/// Whether document 01 refuses to write a table with 8.
pub fn too_deep_to_write(table: &[(String, FieldValue)]) -> bool {
    table.iter().any(|(_, value)| depth(value) >= TOO_DEEP)
}

/// Why a scan ended early: with 8, or with a refusal that the Rust gives itself.
#[derive(PartialEq)]
enum Stop {
    TooDeep,
    Refused,
}

impl From<WireError> for Stop {
    fn from(_: WireError) -> Stop {
        Stop::Refused
    }
}

/// Reads past a content header up to its table, the only part that can be too deep.
fn scan_header(r: &mut Reader) -> Result<(), Stop> {
    let (_class, _weight, _size, flags) = (r.u16()?, r.u16()?, r.u64()?, r.u16()?);
    for flag in [15, 14] {
        if flags >> flag & 1 == 1 {
            r.short_str()?;
        }
    }
    if flags >> 13 & 1 == 1 { scan_table(r, 1) } else { Ok(()) }
}

/// Reads past a table whose values stand at `depth`.
fn scan_table(r: &mut Reader, depth: u32) -> Result<(), Stop> {
    let end = scan_length(r)?;
    while r.position() < end {
        r.short_str()?;
        scan_value(r, depth)?;
    }
    Ok(())
}

/// Reads past an array whose values stand at `depth`.
fn scan_array(r: &mut Reader, depth: u32) -> Result<(), Stop> {
    let end = scan_length(r)?;
    while r.position() < end {
        scan_value(r, depth)?;
    }
    Ok(())
}

/// Reads past a value that stands at `depth`.
fn scan_value(r: &mut Reader, depth: u32) -> Result<(), Stop> {
    let leaf = match r.u8()? {
        b't' | b'b' | b'B' => r.u8().map(drop),
        b's' | b'u' => r.u16().map(drop),
        b'I' | b'i' | b'f' => r.u32().map(drop),
        b'l' | b'd' | b'T' => r.u64().map(drop),
        b'D' => r.u8().and_then(|_scale| r.u32()).map(drop),
        b'S' | b'x' => r.long_str().map(drop),
        b'V' => Ok(()),
        b'F' | b'A' if depth == TOO_DEEP => return Err(Stop::TooDeep),
        b'F' => return scan_table(r, depth + 1),
        b'A' => return scan_array(r, depth + 1),
        _ => return Err(Stop::Refused),
    };
    Ok(leaf?)
}

/// The declared end of a table or an array.
fn scan_length(r: &mut Reader) -> Result<usize, Stop> {
    let length = r.u32()? as usize;
    if length > r.remaining() { Err(Stop::Refused) } else { Ok(r.position() + length) }
}
