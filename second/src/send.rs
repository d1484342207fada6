//! The sending calls: a table's definition and an entry.
//!
//! Each writes one whole message to the front of the room and gives its
//! length. A refused call gives the refusal's number; it writes nothing and
//! changes nothing.

use crate::call::write;
use crate::datatype;
use crate::frame::table_message;
use crate::integer::encode;
use crate::message::{DEFINITION, INCREMENTAL, TIMED, TIMED_INCREMENTAL, UPDATE};
use crate::record::{Phase, Record};
use crate::refusal;
use crate::sound::is_sound;
use crate::store::{Entry, Store, Table, STRING};

/// The room that a sending call asks for.
pub const SENDING_ROOM: usize = 1036;

/// Sends the definition of the table at a place, under this ID.
pub fn send_definition(
    record: &mut Record,
    store: &Store,
    place: usize,
    id: u32,
    room: &mut [u8],
) -> Result<usize, u8> {
    can_send(record, store, room)?;
    let table = store.table(place).ok_or(refusal::NOT_THERE)?;
    record.defined = Some(place);
    record.sent = None;
    Ok(write(&definition(table, id), room))
}

/// Sends the entry at a place, under this update ID.
pub fn send_entry(
    record: &mut Record,
    store: &Store,
    place: usize,
    id: u32,
    room: &mut [u8],
) -> Result<usize, u8> {
    can_send(record, store, room)?;
    let defined = record.defined.ok_or(refusal::NOT_THERE)?;
    let table = store.table(defined).ok_or(refusal::NOT_THERE)?;
    let entry = store.entry(place).filter(|entry| entry.table == defined);
    let entry = entry.ok_or(refusal::NOT_THERE)?;
    let follows = record.sent.map(|last| last.wrapping_add(1)) == Some(id);
    record.sent = Some(id);
    let explicit = Some(id).filter(|_| !follows);
    Ok(write(&update(table, entry, explicit), room))
}

/// The refusals that don't depend on what is sent, in their order.
fn can_send(record: &Record, store: &Store, room: &[u8]) -> Result<(), u8> {
    if !is_sound(record, store) {
        return Err(refusal::UNSOUND);
    }
    if record.is_closed() {
        return Err(refusal::CLOSED);
    }
    if room.len() < SENDING_ROOM {
        return Err(refusal::SENDING_ROOM);
    }
    match record.phase {
        Phase::Handshake => Err(refusal::HANDSHAKE),
        _ => Ok(()),
    }
}

/// The definition of a table.
fn definition(table: &Table, id: u32) -> Vec<u8> {
    let mut body = encode(id.into());
    body.extend(encode(table.name.len() as u64));
    body.extend_from_slice(&table.name);
    body.extend(encode(table.key_type));
    body.extend(encode(table.key_length));
    body.extend(encode(table.data_types));
    if let Some(times) = &table.times {
        body.extend(encode(times.expiry));
        let rates = datatype::rates(table.data_types);
        for (rate, &period) in rates.into_iter().zip(&times.periods) {
            body.extend(encode(rate.into()));
            body.extend(encode(period));
        }
    }
    table_message(DEFINITION, &body)
}

/// The update of an entry, incremental without an ID, timed if the entry has
/// a remaining time.
fn update(table: &Table, entry: &Entry, id: Option<u32>) -> Vec<u8> {
    let kind = match (id, entry.remaining) {
        (Some(_), None) => UPDATE,
        (None, None) => INCREMENTAL,
        (Some(_), Some(_)) => TIMED,
        (None, Some(_)) => TIMED_INCREMENTAL,
    };
    let time = entry.remaining.map(|time| time as u32);
    let numbers = id.into_iter().chain(time);
    let mut body: Vec<u8> = numbers.flat_map(u32::to_be_bytes).collect();
    if table.key_type == STRING {
        body.extend(encode(entry.key_length as u64));
    }
    body.extend_from_slice(entry.key());
    for &value in &entry.values {
        body.extend(encode(value));
    }
    table_message(kind, &body)
}
