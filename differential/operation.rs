//! The operations of cases: the names that they have in lines, and what is known of each.

#[derive(Clone, Copy, Debug, PartialEq, Eq)]
pub enum Operation {
    U8,
    U16,
    U32,
    U64,
    I8,
    I16,
    I32,
    I64,
    F32,
    F64,
    ShortStr,
    LongStr,
    SkipFieldTable,
    ScanUtf8,
    MethodId,
    ConnectionTuneParams,
    QueueDeclareOkName,
    BasicConsumeOkTag,
    QueueOpOkMessageCount,
    BasicGetOkDeliveryTag,
    BasicDeliverDeliveryTag,
    BasicAckDeliveryTag,
    ContentHeaderBodySize,
    Decode,
    ReadFieldTable,
    ReadFieldValue,
    ReadContentHeader,
    ReadFrame,
    Walk,
    PackBits,
    WriteU8,
    WriteU16,
    WriteU32,
    WriteU64,
    WriteI8,
    WriteI16,
    WriteI32,
    WriteI64,
    WriteShortStr,
    WriteLongStr,
    WriteOctets,
    Encode,
    ProtocolHeader,
    WriteFieldTable,
    WriteFieldValue,
    WriteCommand,
    WriteContentHeader,
    WriteFrame,
}

use Operation::*;

/// In the order of the enumeration.
#[rustfmt::skip]
const NAMES: [(Operation, &str); 48] = [
    (U8, "u8"), (U16, "u16"), (U32, "u32"), (U64, "u64"),
    (I8, "i8"), (I16, "i16"), (I32, "i32"), (I64, "i64"), (F32, "f32"), (F64, "f64"),
    (ShortStr, "short_str"), (LongStr, "long_str"),
    (SkipFieldTable, "skip_field_table"), (ScanUtf8, "scan_utf8"),
    (MethodId, "method_id"), (ConnectionTuneParams, "connection_tune_params"),
    (QueueDeclareOkName, "queue_declare_ok_name"), (BasicConsumeOkTag, "basic_consume_ok_tag"),
    (QueueOpOkMessageCount, "queue_op_ok_message_count"),
    (BasicGetOkDeliveryTag, "basic_get_ok_delivery_tag"),
    (BasicDeliverDeliveryTag, "basic_deliver_delivery_tag"),
    (BasicAckDeliveryTag, "basic_ack_delivery_tag"),
    (ContentHeaderBodySize, "content_header_body_size"),
    (Decode, "decode"), (ReadFieldTable, "read_field_table"), (ReadFieldValue, "read_field_value"),
    (ReadContentHeader, "read_content_header"), (ReadFrame, "read_frame"), (Walk, "walk"),
    (PackBits, "pack_bits"),
    (WriteU8, "write_u8"), (WriteU16, "write_u16"), (WriteU32, "write_u32"), (WriteU64, "write_u64"),
    (WriteI8, "write_i8"), (WriteI16, "write_i16"), (WriteI32, "write_i32"), (WriteI64, "write_i64"),
    (WriteShortStr, "write_short_str"), (WriteLongStr, "write_long_str"), (WriteOctets, "write_octets"),
    (Encode, "encode"), (ProtocolHeader, "protocol_header"),
    (WriteFieldTable, "write_field_table"), (WriteFieldValue, "write_field_value"),
    (WriteCommand, "write_command"), (WriteContentHeader, "write_content_header"),
    (WriteFrame, "write_frame"),
];

impl Operation {
    pub fn all() -> impl Iterator<Item = Operation> {
        NAMES.iter().map(|(operation, _)| *operation)
    }

    pub fn name(self) -> &'static str {
        NAMES[self as usize].1
    }

    pub fn of_name(name: &str) -> Option<Operation> {
        NAMES.iter().find(|(_, known)| *known == name).map(|(operation, _)| *operation)
    }

    /// Whether it takes octets in one field, and the Rust has a function that reads any. (Frames are
    /// decoded and their headers read; the Rust reads no commands.)
    pub fn is_reader(self) -> bool {
        (self as usize) < (ReadFrame as usize)
    }

    pub fn is_writer(self) -> bool {
        self as usize > Walk as usize
    }

    /// Whether the port's library has it for C, so that it is compared within this process.
    pub fn is_exported(self) -> bool {
        matches!(
            self,
            U8 | U16
                | U32
                | U64
                | ShortStr
                | LongStr
                | Decode
                | ReadFieldTable
                | ReadFieldValue
                | ReadContentHeader
                | ReadFrame
                | Walk
                | WriteU32
                | WriteU64
                | WriteShortStr
                | WriteLongStr
                | WriteFieldTable
                | WriteFieldValue
                | WriteCommand
                | WriteContentHeader
                | WriteFrame
        )
    }

    /// Whether it fills records of a tape.
    pub fn fills_a_tape(self) -> bool {
        matches!(self, ReadFieldTable | ReadFieldValue | ReadContentHeader | ReadFrame)
    }

    /// Whether it writes the records of a tape, or may.
    pub fn writes_a_tape(self) -> bool {
        matches!(self, WriteFieldTable | WriteFieldValue | WriteContentHeader | WriteFrame)
    }

    /// The octets of a number that is read or written; none for other operations.
    pub fn number_width(self) -> Option<usize> {
        match self {
            U8 | I8 | WriteU8 | WriteI8 => Some(1),
            U16 | I16 | WriteU16 | WriteI16 => Some(2),
            U32 | I32 | F32 | WriteU32 | WriteI32 => Some(4),
            U64 | I64 | F64 | WriteU64 | WriteI64 => Some(8),
            _ => None,
        }
    }
}
