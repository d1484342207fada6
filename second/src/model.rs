//! The byte model: a session fed one byte at a time.
//!
//! Passing time is a step on the store alone, [`Store::pass`].

use crate::answer::{Answer, Response};
use crate::frame::frame;
use crate::handshake::{read_hello, read_status};
use crate::message::carry_out;
use crate::record::{Phase, Record, Role};
use crate::store::Store;

/// Feeds one byte; `None` if the model doesn't answer at it.
pub fn feed(record: &mut Record, store: &mut Store, byte: u8) -> Option<Response> {
    if record.is_closed() {
        return None;
    }
    record.unfinished.push(byte);
    let response = respond(record, store)?;
    record.unfinished.clear();
    if let Answer::Refused(refusal) = response.answer {
        record.phase = Phase::Closed(refusal.number);
    }
    Some(response)
}

/// What the unfinished bytes give; `None` while nothing ends.
fn respond(record: &mut Record, store: &mut Store) -> Option<Response> {
    if record.phase == Phase::Handshake {
        let response = greet(record, &record.unfinished)?;
        record.phase = Phase::Open;
        return Some(response);
    }
    let unfinished = record.unfinished.clone();
    carry_out(record, store, frame(&unfinished))
}

/// What the bytes of a hello or status give in the handshake.
pub fn greet(record: &Record, bytes: &[u8]) -> Option<Response> {
    match record.role {
        Role::Answerer => read_hello(bytes, &record.our_name, &record.peer_name),
        Role::Caller => read_status(bytes),
    }
}
