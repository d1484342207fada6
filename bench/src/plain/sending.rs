//! A table's definition or an entry, sent.

use super::key_type::KeyType;
use super::message::{has, RATE_TYPES, SLOT_TYPES};
use super::message::{DEFINITION, INCREMENTAL, TIMED, TIMED_INCREMENTAL, UPDATE};
use super::sound::is_sound;
use super::wire::{write_int, Writer};
use crate::layout::{Entry, Sending, Sent, Session, Store, Table};

/// Room that a sending call asks for.
const SEND_ROOM: usize = 1036;

/// The refusal of a place that has nothing to send.
const NOT_THERE: u32 = 32;

/// One call that sends a definition. It stays a call of its own, as the library's is.
#[inline(never)]
pub fn send_definition(
    session: &mut Session,
    store: &Store,
    place: usize,
    id: u32,
    room: &mut [u8],
) -> Sent {
    sent(definition(session, store, place, id, room))
}

/// One call that sends an entry.
#[inline(never)]
pub fn send_entry(
    session: &mut Session,
    store: &Store,
    place: usize,
    id: u32,
    room: &mut [u8],
) -> Sent {
    sent(entry(session, store, place, id, room))
}

fn sent(written: Result<usize, u32>) -> Sent {
    match written {
        Ok(len) => Sent {
            number: 0,
            len: len as u32,
        },
        Err(number) => Sent { number, len: 0 },
    }
}

/// The refusals that don't go by what is sent.
fn test(session: &Session, store: &Store, room: &[u8]) -> Result<(), u32> {
    if !is_sound(session, store) {
        return Err(4);
    }
    if session.connection.closed == 1 {
        return Err(2);
    }
    if room.len() < SEND_ROOM {
        return Err(31);
    }
    if session.connection.phase != 2 {
        return Err(34);
    }
    Ok(())
}

/// Writes a message to the front of the room and gives its length.
fn put_message(room: &mut [u8], kind: u8, body: &[u8]) -> usize {
    room[..2].copy_from_slice(&[10, kind]);
    let start = 2 + write_int(&mut room[2..], body.len() as u64);
    room[start..start + body.len()].copy_from_slice(body);
    start + body.len()
}

// ---- a definition

fn definition(
    session: &mut Session,
    store: &Store,
    place: usize,
    id: u32,
    room: &mut [u8],
) -> Result<usize, u32> {
    test(session, store, room)?;
    let held = store.tables.get(place).filter(|t| t.held == 1);
    let table = held.ok_or(NOT_THERE)?;
    session.sending = Sending {
        defined: place + 1,
        sent: 0,
        last: 0,
    };
    Ok(put_message(room, DEFINITION, table_body(table, id).body()))
}

fn table_body(table: &Table, id: u32) -> Writer {
    let mut body = Writer::new();
    body.int(id.into());
    body.int(table.name_len as u64);
    body.bytes(&table.name[..table.name_len]);
    body.int(table.key_type.into());
    body.int(table.key_len.into());
    body.int(table.data_types.into());
    if table.timed == 1 {
        body.int(table.expiry.into());
        for (rate, period) in RATE_TYPES.into_iter().zip(table.periods) {
            if has(table.data_types, rate) {
                body.int(rate.into());
                body.int(period.into());
            }
        }
    }
    body
}

// ---- an entry

fn entry(
    session: &mut Session,
    store: &Store,
    place: usize,
    id: u32,
    room: &mut [u8],
) -> Result<usize, u32> {
    test(session, store, room)?;
    let sending = &mut session.sending;
    let of_it = |e: &&Entry| e.held == 1 && e.table + 1 == sending.defined;
    let entry = store.entries.get(place).filter(of_it);
    let entry = entry.ok_or(NOT_THERE)?;
    let follows = sending.sent == 1 && sending.last.wrapping_add(1) == id;
    (sending.sent, sending.last) = (1, id);
    let (kind, id) = match (follows, entry.timed) {
        (false, 0) => (UPDATE, Some(id)),
        (true, 0) => (INCREMENTAL, None),
        (false, _) => (TIMED, Some(id)),
        (true, _) => (TIMED_INCREMENTAL, None),
    };
    let body = entry_body(&store.tables[entry.table], entry, id);
    Ok(put_message(room, kind, body.body()))
}

fn entry_body(table: &Table, entry: &Entry, id: Option<u32>) -> Writer {
    let mut body = Writer::new();
    let remaining = (entry.timed == 1).then_some(entry.remaining);
    id.into_iter().chain(remaining).for_each(|n| body.number(n));
    if KeyType::of_table(table) == Some(KeyType::String) {
        body.int(entry.key_len as u64);
    }
    body.bytes(&entry.key[..entry.key_len]);
    if has(table.data_types, 0) {
        // a negative one is encoded as its value plus 2^64
        body.int(i64::from(entry.server_id) as u64);
    }
    for (&value, data_type) in entry.values.iter().zip(SLOT_TYPES) {
        if has(table.data_types, data_type) {
            body.int(value);
        }
    }
    body
}
