//! The header of a message and the length of its body, both ways.

use crate::integer::{decode, encode, Decoded};
use crate::refusal;

/// The class of the table messages.
pub const TABLE_CLASS: u8 = 10;

/// The largest body length.
pub const BODY_LIMIT: u64 = 1024;

/// What the bytes of a message are so far.
#[derive(Clone, Copy, Debug, PartialEq, Eq)]
pub enum Frame<'a> {
    /// The message isn't whole.
    Unfinished,
    /// The bytes show a refusal.
    Refused(u8),
    /// A control message.
    Control(u8),
    /// An error message.
    Error(u8),
    /// A table message with its type and its whole body.
    Table(u8, &'a [u8]),
}

/// Finds the message at the front of some bytes.
pub fn frame(bytes: &[u8]) -> Frame<'_> {
    let [class, kind, rest @ ..] = bytes else {
        return Frame::Unfinished;
    };
    match (*class, *kind) {
        (0, 0..=4) => Frame::Control(*kind),
        (1, 0..=1) => Frame::Error(*kind),
        (TABLE_CLASS, 128..=255) => table(*kind, rest),
        _ => Frame::Refused(refusal::HEADER),
    }
}

/// Finds the body of a table message behind its header.
fn table(kind: u8, rest: &[u8]) -> Frame<'_> {
    match decode(rest) {
        Decoded::Cut { .. } => Frame::Unfinished,
        Decoded::Overflow { .. } => Frame::Refused(refusal::LENGTH),
        Decoded::Value { value, .. } if value > BODY_LIMIT => Frame::Refused(refusal::SIZE),
        Decoded::Value { value, length } => {
            let body = rest[length..].get(..value as usize);
            body.map_or(Frame::Unfinished, |body| Frame::Table(kind, body))
        }
    }
}

/// A table message with this type and body.
pub fn table_message(kind: u8, body: &[u8]) -> Vec<u8> {
    let mut bytes = vec![TABLE_CLASS, kind];
    bytes.extend(encode(body.len() as u64));
    bytes.extend_from_slice(body);
    bytes
}
