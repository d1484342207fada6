//! What each whole message does to the record and the store.

use crate::answer::{Answer, Commit, Response};
use crate::body;
use crate::fields::Fields;
use crate::frame::{self, Frame};
use crate::integer::encode;
use crate::record::{Phase, Record};
use crate::refusal::{self, Refusal};
use crate::store::{Entry, Store, Table};

/// Type of an update.
pub const UPDATE: u8 = 128;
/// Type of an incremental update.
pub const INCREMENTAL: u8 = 129;
/// Type of a definition.
pub const DEFINITION: u8 = 130;
/// Type of a switch.
pub const SWITCH: u8 = 131;
/// Type of an acknowledgement.
pub const ACKNOWLEDGEMENT: u8 = 132;
/// Type of a timed update.
pub const TIMED: u8 = 133;
/// Type of a timed incremental update.
pub const TIMED_INCREMENTAL: u8 = 134;

/// The control reply to finished and partial.
pub const CONFIRMED: &[u8] = &[0, 3];

/// Carries out what a frame holds; `None` while it's unfinished.
///
/// A refused message leaves the record and the store as they were.
pub fn carry_out(record: &mut Record, store: &mut Store, frame: Frame) -> Option<Response> {
    let result = match frame {
        Frame::Unfinished => return None,
        Frame::Refused(number) => Err(number.into()),
        Frame::Control(kind) => Ok(control(kind)),
        Frame::Error(kind) => Ok(error(record, kind)),
        Frame::Table(kind, body) => table_message(record, store, kind, body),
    };
    Some(result.unwrap_or_else(Response::refused))
}

/// A control message.
fn control(kind: u8) -> Response {
    match kind {
        0 => Response::silent(Answer::Request),
        1 => Response::with(Answer::Finished, CONFIRMED),
        2 => Response::with(Answer::Partial, CONFIRMED),
        3 => Response::silent(Answer::Confirm),
        _ => Response::silent(Answer::Heartbeat),
    }
}

/// The peer's error message closes the session.
fn error(record: &mut Record, kind: u8) -> Response {
    record.phase = Phase::Closed(0);
    Response::silent(Answer::Error { kind })
}

/// A table message.
fn table_message(
    record: &mut Record,
    store: &mut Store,
    kind: u8,
    body: &[u8],
) -> Result<Response, Refusal> {
    match kind {
        UPDATE | INCREMENTAL | TIMED | TIMED_INCREMENTAL => update(record, store, kind, body),
        DEFINITION => define(record, store, body).map(Response::silent),
        SWITCH => switch(record, body).map(Response::silent),
        ACKNOWLEDGEMENT => acknowledgement(body).map(Response::silent),
        _ => Ok(Response::silent(Answer::Skipped { kind })),
    }
}

/// An acknowledgement.
fn acknowledgement(body: &[u8]) -> Result<Answer, Refusal> {
    let (id, update) = body::acknowledgement(body)?;
    Ok(Answer::Acknowledged { id, update })
}

/// A switch.
fn switch(record: &mut Record, body: &[u8]) -> Result<Answer, Refusal> {
    let id = body::switch(body)?;
    let place = record.table_of(id).ok_or(refusal::UNBOUND)?;
    record.current = Some(place);
    Ok(Answer::Switch { place })
}

/// A definition.
fn define(record: &mut Record, store: &mut Store, body: &[u8]) -> Result<Answer, Refusal> {
    let definition = body::definition(body)?;
    let place = match store.named(&definition.table.name) {
        Some(place) if !agrees(store, place, &definition) => return Err(refusal::DISAGREES.into()),
        Some(place) => place,
        None => store.free_table().ok_or(refusal::TABLES)?,
    };
    store.tables[place] = Some(definition.table);
    record.bind(place, definition.id);
    record.current = Some(place);
    Ok(Answer::Table { place })
}

/// Whether a definition agrees with the held table at a place.
fn agrees(store: &Store, place: usize, definition: &body::Definition) -> bool {
    let held = store.table(place);
    held.is_some_and(|table| table.agrees(&definition.table))
}

/// An update of any form.
fn update(
    record: &mut Record,
    store: &mut Store,
    kind: u8,
    body: &[u8],
) -> Result<Response, Refusal> {
    let table = record.current.ok_or(refusal::UNBOUND)?;
    let bound = record.bound[table].ok_or(refusal::UNBOUND)?;
    let held = store.table(table).ok_or(refusal::UNBOUND)?;
    let mut fields = Fields::new(body);
    let id = update_id(record.previous[table], kind, &mut fields)?;
    let remaining = remaining(held, kind, &mut fields)?;
    let key = body::key(&mut fields, held)?;
    let values = body::values(&mut fields, held)?;
    let entry = Entry::new(table, key, values).lasting(remaining);
    let (entry, commit) = commit(store, entry)?;
    record.previous[table] = Some(u64::from(id));
    let answer = Answer::Update {
        table,
        id,
        entry,
        commit,
    };
    Ok(Response::with(answer, &acknowledge(bound, id)))
}

/// The ID of an update: its first field, or the one after the previous ID.
fn update_id(previous: Option<u64>, kind: u8, fields: &mut Fields) -> Result<u32, Refusal> {
    if matches!(kind, UPDATE | TIMED) {
        return fields.four_bytes();
    }
    let previous = previous.ok_or(refusal::PREVIOUS)?;
    Ok((previous as u32).wrapping_add(1))
}

/// The remaining time of an update's entry: the message's, or else the table's
/// expiry, if it has one.
fn remaining(table: &Table, kind: u8, fields: &mut Fields) -> Result<Option<u64>, Refusal> {
    match kind {
        TIMED | TIMED_INCREMENTAL => Ok(Some(fields.four_bytes()?.into())),
        _ => Ok(table.times.as_ref().map(|times| times.expiry)),
    }
}

/// Puts an entry into the store and gives its place.
fn commit(store: &mut Store, entry: Entry) -> Result<(usize, Commit), Refusal> {
    if let Some(place) = store.keyed(entry.table, entry.key()) {
        store.entries[place] = Some(entry);
        return Ok((place, Commit::Replaced));
    }
    let place = store.free_entry().ok_or(refusal::ENTRIES)?;
    store.add(place, entry);
    Ok((place, Commit::New))
}

/// The acknowledgement of an update.
fn acknowledge(bound: u64, id: u32) -> Vec<u8> {
    let mut body = encode(bound);
    body.extend_from_slice(&id.to_be_bytes());
    frame::table_message(ACKNOWLEDGEMENT, &body)
}
