//! Header and body length of a message.

use super::wire::{read_int, Fault};

/// The longest body.
const BODY_MAX: u64 = 1024;

/// What the bytes of a message come to.
pub enum Frame {
    Waiting,
    Control { kind: u8 },
    Error { kind: u8 },
    Body { kind: u8, start: usize, end: usize },
    Refused { number: u8, used: usize },
}

pub fn judge(bytes: &[u8]) -> Frame {
    let &[class, kind, ..] = bytes else {
        return Frame::Waiting;
    };
    match (class, kind) {
        (0, 0..=4) => Frame::Control { kind },
        (1, 0..=1) => Frame::Error { kind },
        (10, 128..) => judge_body(bytes, kind),
        _ => Frame::Refused {
            number: 20,
            used: 2,
        },
    }
}

fn judge_body(bytes: &[u8], kind: u8) -> Frame {
    match read_int(&bytes[2..]) {
        Err(Fault::Short) => Frame::Waiting,
        Err(Fault::Range) => Frame::Refused {
            number: 21,
            used: 12,
        },
        Ok((length, used)) if length > BODY_MAX => Frame::Refused {
            number: 22,
            used: 2 + used,
        },
        Ok((length, used)) => {
            let start = 2 + used;
            let end = start + length as usize;
            if bytes.len() < end {
                return Frame::Waiting;
            }
            Frame::Body { kind, start, end }
        }
    }
}
