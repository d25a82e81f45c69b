//! What commands, content headers and replies are made of, by letters: o, H, L, Q numbers of 1, 2, 4
//! and 8 octets, s a short string, b a flag, p a text of any length (user and password), t a table.
use crate::operation::Operation::{self, *};

/// Class, method and arguments of each command.
#[rustfmt::skip]
pub const COMMANDS: [(u16, u16, &str); 25] = [
    (10, 11, "pp"), (10, 31, "HLH"), (10, 40, "s"),
    (20, 10, ""), (20, 20, "b"), (20, 21, "b"), (20, 40, "Hs"), (20, 41, ""),
    (40, 10, "ssb"), (40, 20, "sb"),
    (50, 10, "sb"), (50, 20, "sss"), (50, 30, "s"), (50, 40, "s"), (50, 50, "sss"),
    (60, 10, "LHb"), (60, 20, "ssb"), (60, 30, "sb"), (60, 40, "ss"), (60, 70, "sb"),
    (60, 80, "Qb"), (60, 90, "Qb"), (60, 120, "Qbb"),
    (85, 10, "b"), (90, 10, ""),
];

/// The letters of a command's arguments.
pub fn arguments(class: u16, method: u16) -> Option<&'static str> {
    let known = COMMANDS.iter().find(|(c, m, _)| (*c, *m) == (class, method));
    known.map(|(_, _, letters)| *letters)
}

/// The properties of a content header, flag 15 first.
const PROPERTIES: &str = "sstoossssQsss";

/// The flag of a content header's table.
pub const HEADERS: u32 = 13;

/// Each property: its flag and its letter.
pub fn properties() -> impl Iterator<Item = (u32, char)> {
    (0..16).rev().zip(PROPERTIES.chars())
}

/// Flag and letter of the properties that flags say are present.
pub fn present(flags: u16) -> impl Iterator<Item = (u32, char)> {
    properties().filter(move |(flag, _)| flags >> flag & 1 == 1)
}

/// What stands behind class and method (of a content header class and weight) of a reply.
pub const REPLIES: [(Operation, &str); 9] = [
    (MethodId, ""),
    (ConnectionTuneParams, "HLH"),
    (QueueDeclareOkName, "sLL"),
    (BasicConsumeOkTag, "s"),
    (QueueOpOkMessageCount, "L"),
    (BasicGetOkDeliveryTag, "QbssL"),
    (BasicDeliverDeliveryTag, "sQbss"),
    (BasicAckDeliveryTag, "Qb"),
    (ContentHeaderBodySize, "QH"),
];
