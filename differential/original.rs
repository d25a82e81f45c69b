//! The Rust's answers.
use crate::answer::{Answer, Value};
use crate::depth::{header_too_deep, table_too_deep, too_deep_to_write, value_too_deep};
use crate::frame::{Frame, FrameType, PROTOCOL_HEADER};
use crate::layouts::{HEADERS, present};
use crate::line::{Case, Fields, flag};
use crate::method::{self, ContentProperties};
use crate::operation::Operation::{self, *};
use crate::tape::{Table, Tape};
use crate::types::{FieldValue, Reader, WireError, Writer, pack_bits};

type Octets = Result<Vec<u8>, WireError>;

/// The Rust's answer, within the limits that document 01 adds; none where no arguments of the Rust
/// stand for the case.
pub fn answer(case: &Case) -> Option<Answer> {
    let mut arguments = Fields(case.fields);
    let answer = if case.operation.is_writer() {
        written(case, &mut arguments)?
    } else {
        // The Rust reads from the beginning of a slice. Past the end nothing is left to read.
        match arguments.octets()?.get(case.at..) {
            Some(octets) => read(case, octets)?.moved(case.at),
            None => Answer::refused(1),
        }
    };
    arguments.end()?;
    Some(answer)
}

// Readers.

fn read(case: &Case, octets: &[u8]) -> Option<Answer> {
    let answer = match case.operation {
        Decode => decode(octets),
        ReadFrame => return read_frame(case, octets),
        ReadContentHeader => header(octets),
        ScanUtf8 => Ok(scan_utf8(octets)),
        ReadFieldTable if table_too_deep(octets) => Ok(Answer::ReadsOn),
        ReadFieldValue if value_too_deep(octets) => Ok(Answer::ReadsOn),
        Walk => return None,
        operation => items(operation, octets),
    };
    Some(limited(case, answer.unwrap_or_else(Answer::from)))
}

/// The answer where only so many records are lent.
fn limited(case: &Case, answer: Answer) -> Answer {
    match (case.lent, answer.records()) {
        (Some(lent), Some(needed)) if needed > lent => Answer::refused(10),
        _ => answer,
    }
}

/// Readers of types.rs, and those of method.rs, which tell no position: there the Rust's reader is led
/// over the same items.
fn items(operation: Operation, octets: &[u8]) -> Result<Answer, WireError> {
    let mut r = Reader::new(octets);
    let values = match operation {
        ReadFieldTable => vec![Value::Records(Tape::of_table(&r.field_table()?))],
        ReadFieldValue => vec![Value::Records(Tape::of_value(&r.field_value()?))],
        ShortStr => vec![Value::Octets(r.short_str()?.into_bytes())],
        LongStr => vec![Value::Octets(r.long_str()?)],
        SkipFieldTable => {
            r.skip_field_table()?;
            Vec::new()
        }
        _ if operation.number_width().is_some() => number(operation, &mut r)?,
        _ => {
            let values = reply(operation, octets)?;
            pass_reply(operation, &mut r)?;
            values
        }
    };
    Ok(Answer::Given { next: r.position(), values })
}

/// The bits of a number, signed ones in two's complement at their own width; and whether it is below
/// zero, or not a number.
fn number(operation: Operation, r: &mut Reader) -> Result<Vec<Value>, WireError> {
    let (bits, word) = match operation {
        U8 => (r.u8()?.into(), None),
        U16 => (r.u16()?.into(), None),
        U32 => (r.u32()?.into(), None),
        U64 => (r.u64()?, None),
        I8 => signed(r.i8()?.into(), 0xff),
        I16 => signed(r.i16()?.into(), 0xffff),
        I32 => signed(r.i32()?.into(), 0xffff_ffff),
        I64 => signed(r.i64()?, u64::MAX),
        F32 => {
            let float = r.f32()?;
            (float.to_bits().into(), float.is_nan().then_some("nan"))
        }
        _ => {
            let float = r.f64()?;
            (float.to_bits(), float.is_nan().then_some("nan"))
        }
    };
    let word = word.map(|word| Value::Word(word.into()));
    Ok([Value::Number(bits)].into_iter().chain(word).collect())
}

fn signed(number: i64, mask: u64) -> (u64, Option<&'static str>) {
    (number as u64 & mask, (number < 0).then_some("negative"))
}

fn numbers<const N: usize>(numbers: [u64; N]) -> Vec<Value> {
    numbers.into_iter().map(Value::Number).collect()
}

/// The reply readers of method.rs.
fn reply(operation: Operation, octets: &[u8]) -> Result<Vec<Value>, WireError> {
    let text = |text: String| vec![Value::Octets(text.into_bytes())];
    Ok(match operation {
        MethodId => {
            let (class, method) = method::method_id(octets)?;
            numbers([class.into(), method.into()])
        }
        ConnectionTuneParams => {
            let (channels, frame, heartbeat) = method::connection_tune_params(octets)?;
            numbers([channels.into(), frame.into(), heartbeat.into()])
        }
        QueueDeclareOkName => text(method::queue_declare_ok_name(octets)?),
        BasicConsumeOkTag => text(method::basic_consume_ok_tag(octets)?),
        QueueOpOkMessageCount => numbers([method::queue_op_ok_message_count(octets)?.into()]),
        BasicGetOkDeliveryTag => numbers([method::basic_get_ok_delivery_tag(octets)?]),
        BasicDeliverDeliveryTag => numbers([method::basic_deliver_delivery_tag(octets)?]),
        BasicAckDeliveryTag => numbers([method::basic_ack_delivery_tag(octets)?]),
        ContentHeaderBodySize => numbers([method::content_header_body_size(octets)?]),
        _ => unreachable!("read() sends readers alone"),
    })
}

/// Leads the reader over what a reply reader has read.
fn pass_reply(operation: Operation, r: &mut Reader) -> Result<(), WireError> {
    let _ids = (r.u16()?, r.u16()?);
    match operation {
        ConnectionTuneParams => drop((r.u16()?, r.u32()?, r.u16()?)),
        QueueDeclareOkName | BasicConsumeOkTag => drop(r.short_str()?),
        QueueOpOkMessageCount => drop(r.u32()?),
        BasicDeliverDeliveryTag => drop((r.short_str()?, r.u64()?)),
        MethodId => {}
        _ => drop(r.u64()?),
    }
    Ok(())
}

/// Up to where octets are UTF-8.
fn scan_utf8(octets: &[u8]) -> Answer {
    match std::str::from_utf8(octets) {
        Ok(text) => Answer::Given { next: text.len(), values: Vec::new() },
        Err(error) => Answer::Given {
            next: error.valid_up_to(),
            values: vec![Value::Word("ill-formed".into())],
        },
    }
}

fn decode(octets: &[u8]) -> Result<Answer, WireError> {
    let (frame, consumed) = Frame::decode(octets)?;
    let mut values = numbers([frame.frame_type as u64, frame.channel.into()]);
    values.push(Value::Octets(frame.payload));
    Ok(Answer::Given { next: consumed, values })
}

/// A content header, a body, or a heartbeat, which must have no payload; the Rust reads no commands.
fn read_frame(case: &Case, octets: &[u8]) -> Option<Answer> {
    let (frame, consumed) = match Frame::decode(octets) {
        Ok(decoded) => decoded,
        Err(error) => return Some(error.into()),
    };
    let mut values = numbers([frame.frame_type as u64, frame.channel.into()]);
    match frame.frame_type {
        FrameType::Method => return None,
        FrameType::Heartbeat => frame.payload.is_empty().then_some(())?,
        FrameType::Body => {
            values.extend(numbers([case.at as u64 + 7, frame.payload.len() as u64]));
        }
        FrameType::Header => {
            match limited(case, header(&frame.payload).unwrap_or_else(Answer::from)) {
                Answer::Given { values: of_header, .. } => values.extend(of_header),
                refused => return Some(refused),
            }
        }
    }
    Some(Answer::Given { next: consumed, values })
}

/// Class, body size, then each present property behind its flag.
fn header(octets: &[u8]) -> Result<Answer, WireError> {
    if header_too_deep(octets) {
        return Ok(Answer::ReadsOn);
    }
    let (size, p) = method::parse_content_header(octets)?;
    let (class, next) = header_end(octets)?;
    let text = |v: Option<String>| v.map(|v| Value::Octets(v.into_bytes()));
    let octet = |v: Option<u8>| v.map(|v| Value::Number(v.into()));
    let properties = [
        (15, text(p.content_type)),
        (14, text(p.content_encoding)),
        (HEADERS, p.headers.map(|table| Value::Records(Tape::of_table(&table)))),
        (12, octet(p.delivery_mode)),
        (11, octet(p.priority)),
        (10, text(p.correlation_id)),
        (9, text(p.reply_to)),
        (8, text(p.expiration)),
        (7, text(p.message_id)),
        (6, p.timestamp.map(Value::Number)),
        (5, text(p.type_)),
        (4, text(p.user_id)),
        (3, text(p.app_id)),
    ];
    let mut values = numbers([class.into(), size]);
    for (flag, value) in properties {
        values.extend(value.map(|value| [Value::Flag(flag), value]).into_iter().flatten());
    }
    Ok(Answer::Given { next, values })
}

/// Class and end of a content header, which parse_content_header does not tell.
fn header_end(octets: &[u8]) -> Result<(u16, usize), WireError> {
    let mut r = Reader::new(octets);
    let (class, _weight, _size, flags) = (r.u16()?, r.u16()?, r.u64()?, r.u16()?);
    for (_, letter) in present(flags) {
        match letter {
            's' => drop(r.short_str()?),
            't' => drop(r.field_table()?),
            'o' => drop(r.u8()?),
            _ => drop(r.u64()?),
        }
    }
    Ok((class, r.position()))
}

// Writers.

/// What is written; where the output has not that many octets from the position on, 11.
fn written(case: &Case, arguments: &mut Fields) -> Option<Answer> {
    let octets = match write(case.operation, arguments, case.table)? {
        Ok(_) if too_deep_to_write(case.table) => return Some(Answer::ReadsOn),
        Ok(octets) => octets,
        Err(error) => return Some(error.into()),
    };
    let end = case.at.checked_add(octets.len());
    match (case.lent, end) {
        (_, None) => Some(Answer::refused(11)),
        (Some(lent), Some(end)) if end > lent => Some(Answer::refused(11)),
        _ => Some(Answer::written(octets, case.at)),
    }
}

/// None where a field is not of the kind that the Rust takes, as a text that is not UTF-8.
fn write(operation: Operation, a: &mut Fields, table: &[(String, FieldValue)]) -> Option<Octets> {
    let mut w = Writer::new();
    let refused = match operation {
        ProtocolHeader => return Some(Ok(PROTOCOL_HEADER.to_vec())),
        WriteCommand => return command(a),
        WriteContentHeader => return content_header(a, table),
        WriteFrame => return write_frame(a, table),
        Encode => return encode(a).map(Ok),
        PackBits => return eight_flags(a.octets()?).map(|flags| Ok(vec![pack_bits(&flags)])),
        WriteFieldTable => {
            let entries: Vec<_> = table.iter().map(|(k, v)| (k.as_str(), v.clone())).collect();
            w.field_table(&entries).err()
        }
        WriteFieldValue => {
            let [(_, value)] = table else { return None };
            w.field_value(value).err()
        }
        WriteShortStr => w.short_str(a.text()?).err(),
        _ => {
            write_number(operation, a, &mut w)?;
            None
        }
    };
    Some(refused.map_or_else(|| Ok(w.into_bytes()), Err))
}

/// Numbers, long strings and plain octets: what is written without a refusal.
fn write_number(operation: Operation, a: &mut Fields, w: &mut Writer) -> Option<()> {
    match operation {
        WriteU8 => w.u8(a.u8()?),
        WriteU16 => w.u16(a.u16()?),
        WriteU32 => w.u32(a.u32()?),
        WriteU64 => w.u64(a.u64()?),
        WriteI8 => w.i8(a.u8()? as i8),
        WriteI16 => w.i16(a.u16()? as i16),
        WriteI32 => w.i32(a.u32()? as i32),
        WriteI64 => w.i64(a.u64()? as i64),
        WriteLongStr => w.long_str(a.octets()?),
        WriteOctets => w.bytes(a.octets()?),
        _ => return None,
    };
    Some(())
}

/// Document 01's `pack_bits` takes an array of eight.
fn eight_flags(octets: &[u8]) -> Option<[bool; 8]> {
    let flags: Option<Vec<bool>> = octets.iter().map(|octet| flag(*octet)).collect();
    flags?.try_into().ok()
}

fn encode(a: &mut Fields) -> Option<Vec<u8>> {
    let frame_type = FrameType::from_u8(a.u8()?)?;
    let frame = Frame { frame_type, channel: a.u16()?, payload: a.octets()?.to_vec() };
    Some(frame.encode())
}

/// Channel and type, then the fields of a command or a content header, the octets of a body, or none.
fn write_frame(a: &mut Fields, table: &[(String, FieldValue)]) -> Option<Octets> {
    let (channel, frame_type) = (a.u16()?, FrameType::from_u8(a.u8()?)?);
    let payload = match frame_type {
        FrameType::Method => command(a)?,
        FrameType::Header => content_header(a, table)?,
        FrameType::Body => Ok(a.octets()?.to_vec()),
        FrameType::Heartbeat => Ok(Vec::new()),
    };
    Some(payload.map(|payload| Frame { frame_type, channel, payload }.encode()))
}

/// The commands of document 01: class, method, arguments in wire order.
fn command(a: &mut Fields) -> Option<Octets> {
    Some(match (a.u16()?, a.u16()?) {
        (10, 11) => method::connection_start_ok(a.text()?, a.text()?),
        (10, 31) => Ok(method::connection_tune_ok(a.u16()?, a.u32()?, a.u16()?)),
        (10, 40) => method::connection_open(a.text()?),
        (20, 10) => method::channel_open(),
        (20, 20) => Ok(method::channel_flow(a.flag()?)),
        (20, 21) => Ok(method::channel_flow_ok(a.flag()?)),
        (20, 40) => method::channel_close(a.u16()?, a.text()?),
        (20, 41) => Ok(method::channel_close_ok()),
        (40, 10) => method::exchange_declare(a.text()?, a.text()?, a.flag()?),
        (40, 20) => method::exchange_delete(a.text()?, a.flag()?),
        (50, 10) => method::queue_declare(a.text()?, a.flag()?),
        (50, 20) => method::queue_bind(a.text()?, a.text()?, a.text()?),
        (50, 30) => method::queue_purge(a.text()?),
        (50, 40) => method::queue_delete(a.text()?),
        (50, 50) => method::queue_unbind(a.text()?, a.text()?, a.text()?),
        (60, 10) => Ok(method::basic_qos(a.u32()?, a.u16()?, a.flag()?)),
        (60, 20) => method::basic_consume(a.text()?, a.text()?, a.flag()?),
        (60, 30) => method::basic_cancel(a.text()?, a.flag()?),
        (60, 40) => method::basic_publish(a.text()?, a.text()?),
        (60, 70) => method::basic_get(a.text()?, a.flag()?),
        (60, 80) => Ok(method::basic_ack(a.u64()?, a.flag()?)),
        (60, 90) => Ok(method::basic_reject(a.u64()?, a.flag()?)),
        (60, 120) => Ok(method::basic_nack(a.u64()?, a.flag()?, a.flag()?)),
        (85, 10) => Ok(method::confirm_select(a.flag()?)),
        (90, 10) => Ok(method::tx_select()),
        _ => return None,
    })
}

/// Class, body size, flags, then the present properties in wire order without the headers.
fn content_header(a: &mut Fields, table: &[(String, FieldValue)]) -> Option<Octets> {
    let (class, size, flags) = (a.u16()?, a.u64()?, a.u16()?);
    if flags & 7 != 0 {
        return None; // flags 2 to 0 stand for no property
    }
    let is = |flag: u32| flags >> flag & 1 == 1;
    let headers: Option<Table> = is(HEADERS).then(|| table.to_vec());
    if headers.is_none() && !table.is_empty() {
        return None;
    }
    let properties = ContentProperties {
        content_type: string_if(is(15), a)?,
        content_encoding: string_if(is(14), a)?,
        headers,
        delivery_mode: if is(12) { Some(a.u8()?) } else { None },
        priority: if is(11) { Some(a.u8()?) } else { None },
        correlation_id: string_if(is(10), a)?,
        reply_to: string_if(is(9), a)?,
        expiration: string_if(is(8), a)?,
        message_id: string_if(is(7), a)?,
        timestamp: if is(6) { Some(a.u64()?) } else { None },
        type_: string_if(is(5), a)?,
        user_id: string_if(is(4), a)?,
        app_id: string_if(is(3), a)?,
    };
    Some(method::content_header_with_props(class, size, &properties))
}

/// The next field as a text where the property is present; none where it is no text.
fn string_if(present: bool, a: &mut Fields) -> Option<Option<String>> {
    Some(if present { Some(a.text()?.to_string()) } else { None })
}
