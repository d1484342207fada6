//! Opening, the reading call and the passing call.

use crate::answer::{Answer, Outcome, Response};
use crate::handshake::{hello, is_name};
use crate::model::feed;
use crate::record::{Record, Role};
use crate::refusal;
use crate::sound;
use crate::store::Store;

/// The reply room that opening asks for.
pub const OPENING_ROOM: usize = 101;

/// The reply room that a reading call asks for.
pub const READING_ROOM: usize = 12;

/// What a session is opened with.
#[derive(Clone, Copy, Debug)]
pub struct Opening<'a> {
    /// Who writes the hello.
    pub role: Role,
    /// Our name.
    pub our_name: &'a [u8],
    /// The one accepted peer's name.
    pub peer_name: &'a [u8],
    /// The caller's process ID.
    pub process: u32,
    /// The caller's relative process ID.
    pub relative: u32,
}

/// Opens a session; a caller's hello goes to `room`.
pub fn open(opening: &Opening, room: &mut [u8]) -> (Record, Outcome) {
    if room.len() < OPENING_ROOM {
        return refused_opening(refusal::ROOM);
    }
    if !is_name(opening.our_name) || !is_name(opening.peer_name) {
        return refused_opening(refusal::NAME);
    }
    let record = Record::opened(opening.role, opening.our_name, opening.peer_name);
    let reply = write(&opening_reply(opening), room);
    let outcome = Outcome {
        taken: 0,
        reply,
        answer: Answer::More,
    };
    (record, outcome)
}

/// The caller's hello; an answerer has no reply.
fn opening_reply(opening: &Opening) -> Vec<u8> {
    let names = (opening.our_name, opening.peer_name);
    match opening.role {
        Role::Answerer => Vec::new(),
        Role::Caller => hello(names.0, names.1, opening.process, opening.relative),
    }
}

/// The result of a refused opening.
fn refused_opening(number: u8) -> (Record, Outcome) {
    (Record::refused(number), unchanged(number))
}

/// A refusal that takes nothing and has no reply.
fn unchanged(number: u8) -> Outcome {
    Outcome {
        taken: 0,
        reply: 0,
        answer: Answer::Refused(number.into()),
    }
}

/// Writes some bytes to the front of the room and gives their number.
pub(crate) fn write(bytes: &[u8], room: &mut [u8]) -> usize {
    room[..bytes.len()].copy_from_slice(bytes);
    bytes.len()
}

/// One reading call on a piece of the peer's bytes.
pub fn read(record: &mut Record, store: &mut Store, piece: &[u8], room: &mut [u8]) -> Outcome {
    if room.len() < READING_ROOM {
        return unchanged(refusal::ROOM);
    }
    if !sound::is_sound(record, store) {
        return unchanged(refusal::UNSOUND);
    }
    if record.is_closed() {
        return unchanged(refusal::CLOSED);
    }
    let (taken, response) = take(record, store, piece);
    Outcome {
        taken,
        reply: write(&response.reply, room),
        answer: response.answer,
    }
}

/// The answer of a passing call that was carried out.
pub const PASSED: u8 = 0;

/// Passes time on a store, whatever the sessions are; gives 0, or 4 and no
/// change on a store that isn't sound.
pub fn pass_time(store: &mut Store, milliseconds: u32) -> u8 {
    if !sound::store_is_sound(store) {
        return refusal::UNSOUND;
    }
    store.pass(milliseconds);
    PASSED
}

/// Feeds a piece up to and with the first byte at which the model answers.
fn take(record: &mut Record, store: &mut Store, piece: &[u8]) -> (usize, Response) {
    for (at, &byte) in piece.iter().enumerate() {
        if let Some(response) = feed(record, store, byte) {
            return (at + 1, response);
        }
    }
    (piece.len(), Response::silent(Answer::More))
}
