//! What each message does.

use super::frame::{self, Frame};
use super::key_type::KeyType;
use super::wire::{write_int, Reader};
use super::{Judged, Refusal, Settled};
use crate::layout::{Binding, Connection, Entry, Store, Table, KEY_MAX, NAME_MAX, RATES, VALUES};

/// Types of stick table messages.
pub const UPDATE: u8 = 128;
pub const INCREMENTAL: u8 = 129;
pub const DEFINITION: u8 = 130;
const SWITCH: u8 = 131;
const ACKNOWLEDGEMENT: u8 = 132;
pub const TIMED: u8 = 133;
pub const TIMED_INCREMENTAL: u8 = 134;

/// The rate types, ascending.
pub const RATE_TYPES: [u8; RATES] = [3, 5, 8, 10, 12, 14, 16, 18];

/// The data type of each slot of an entry's values.
pub const SLOT_TYPES: [u8; VALUES] = [
    1, 2, 3, 3, 3, 4, 5, 5, 5, 6, 7, 8, 8, 8, 9, 10, 10, 10, 11, 12, 12, 12, 13, 14, 14, 14, 15,
    16, 16, 16, 17, 18, 18, 18,
];

/// The bit of each data type.
const BITS: [u32; 19] = [
    0x1, 0x2, 0x4, 0x8, 0x10, 0x20, 0x40, 0x80, 0x100, 0x200, 0x400, 0x800, 0x1000, 0x2000, 0x4000,
    0x8000, 0x1_0000, 0x2_0000, 0x4_0000,
];

pub fn has(types: u32, data_type: u8) -> bool {
    types & BITS[usize::from(data_type)] != 0
}

pub fn is_wide(data_type: u8) -> bool {
    matches!(data_type, 13 | 15)
}

pub fn judge(connection: &mut Connection, store: &mut Store, bytes: &[u8]) -> Judged {
    let (used, settled) = match frame::judge(bytes) {
        Frame::Waiting => return Judged::Waiting,
        Frame::Control { kind } => (2, control(kind)),
        Frame::Error { kind } => (2, peer_error(connection, kind)),
        Frame::Refused { number, used } => (used, Settled::refused(connection, number)),
        Frame::Body { kind, start, end } => {
            let done = stick_table(connection, store, kind, &bytes[start..end]);
            let settled = done.unwrap_or_else(|refusal| Settled::refused(connection, refusal));
            (end, settled)
        }
    };
    Judged::Settled { used, settled }
}

fn control(kind: u8) -> Settled {
    let reply: &[u8] = match kind {
        1 | 2 => &[0, 3],
        _ => &[],
    };
    Settled::new(259 + u32::from(kind), &[], reply)
}

fn peer_error(connection: &mut Connection, kind: u8) -> Settled {
    connection.closed = 1;
    connection.number = 0;
    Settled::new(264, &[kind.into()], &[])
}

/// A stick table message, or its refusal.
fn stick_table(
    connection: &mut Connection,
    store: &mut Store,
    kind: u8,
    body: &[u8],
) -> Result<Settled, Refusal> {
    match kind {
        UPDATE | INCREMENTAL | TIMED | TIMED_INCREMENTAL => update(connection, store, kind, body),
        DEFINITION => definition(connection, store, body),
        SWITCH => switch(connection, body),
        ACKNOWLEDGEMENT => acknowledgement(body),
        _ => Ok(Settled::new(269, &[kind.into()], &[])),
    }
}

// ---- definition

/// The fields of a definition.
struct Defined {
    id: u32,
    table: Table,
}

fn definition_fields(body: &[u8]) -> Result<Defined, Refusal> {
    let mut reader = Reader::new(body);
    let id = reader.word()?;
    let name_len = reader.within(1, NAME_MAX as u64)? as usize;
    let name = reader.name(name_len)?;
    let key_type = reader.int_as(KeyType::of)?;
    let key_len = reader.int_as(|len| key_type.takes(len).then_some(len as u32))?;
    let data_types = reader.within(0, 0x7_ffff)? as u32;
    let mut table = Table {
        held: 1,
        key_type: key_type.number(),
        timed: 0,
        data_types,
        name_len,
        key_len,
        expiry: 0,
        periods: [0; RATES],
        name: [0; NAME_MAX],
    };
    table.name[..name_len].copy_from_slice(name);
    if !reader.is_empty() {
        table.timed = 1;
        table.expiry = reader.word()?;
        read_periods(&mut reader, &mut table)?;
    }
    Ok(Defined { id, table })
}

fn read_periods(reader: &mut Reader, table: &mut Table) -> Result<(), Refusal> {
    for (period, rate) in table.periods.iter_mut().zip(RATE_TYPES) {
        if has(table.data_types, rate) {
            reader.within(rate.into(), rate.into())?;
            *period = reader.word()?;
        }
    }
    Ok(())
}

fn definition(
    connection: &mut Connection,
    store: &mut Store,
    body: &[u8],
) -> Result<Settled, Refusal> {
    let defined = definition_fields(body)?;
    let place = place_of(store, &defined.table)?;
    store.tables[place] = defined.table;
    bind(&mut connection.bindings, place, defined.id);
    connection.current = place as u32 + 1;
    Ok(Settled::new(265, &[place as u64], &[]))
}

/// The place of the table of this name, or the lowest free one.
fn place_of(store: &Store, table: &Table) -> Result<usize, u8> {
    let name = &table.name[..table.name_len];
    let named = |t: &Table| t.held == 1 && &t.name[..t.name_len] == name;
    if let Some(place) = store.tables.iter().position(named) {
        let held = &store.tables[place];
        let agrees = held.key_type == table.key_type
            && held.key_len == table.key_len
            && held.data_types == table.data_types;
        return if agrees { Ok(place) } else { Err(25) };
    }
    store.tables.iter().position(|t| t.held == 0).ok_or(26)
}

/// The ID is bound to the table at a place alone.
fn bind(bindings: &mut [Binding], place: usize, id: u32) {
    for (at, binding) in bindings.iter_mut().enumerate() {
        if at == place {
            binding.bound = 1;
            binding.id = id;
        } else if binding.bound == 1 && binding.id == id {
            binding.bound = 0;
            binding.id = 0;
        }
    }
}

// ---- switch and acknowledgement

fn switch(connection: &mut Connection, body: &[u8]) -> Result<Settled, Refusal> {
    let id = Reader::new(body).word()?;
    let bound = |b: &Binding| b.bound == 1 && b.id == id;
    let place = connection.bindings.iter().position(bound).ok_or(27)?;
    connection.current = place as u32 + 1;
    Ok(Settled::new(266, &[place as u64], &[]))
}

fn acknowledgement(body: &[u8]) -> Result<Settled, Refusal> {
    let mut reader = Reader::new(body);
    let id = reader.word()?;
    let update = reader.number()?;
    Ok(Settled::new(268, &[id.into(), update.into()], &[]))
}

// ---- updates

/// The fields of an update but for its ID.
struct Fields<'a> {
    remaining: Option<u32>,
    key: &'a [u8],
    server_id: i32,
    values: [u64; VALUES],
}

/// The remaining time: the message's own, else the table's expiry, if it has one.
fn remaining(reader: &mut Reader, table: &Table, timed: bool) -> Result<Option<u32>, Refusal> {
    match timed {
        true => reader.number().map(Some),
        false => Ok((table.timed == 1).then_some(table.expiry)),
    }
}

fn entry_fields<'a>(
    reader: &mut Reader<'a>,
    table: &Table,
    timed: bool,
) -> Result<Fields<'a>, Refusal> {
    let remaining = remaining(reader, table, timed)?;
    let key_len = match KeyType::of_table(table) {
        Some(KeyType::String) => reader.within(0, table.key_len.into())? as usize,
        _ => table.key_len as usize,
    };
    let mut fields = Fields {
        remaining,
        key: reader.bytes(key_len)?,
        server_id: 0,
        values: [0; VALUES],
    };
    if has(table.data_types, 0) {
        fields.server_id = reader.server_id()?;
    }
    for (value, data_type) in fields.values.iter_mut().zip(SLOT_TYPES) {
        if !has(table.data_types, data_type) {
            continue;
        }
        *value = match is_wide(data_type) {
            true => reader.int()?,
            false => reader.word()?.into(),
        };
    }
    Ok(fields)
}

fn update(
    connection: &mut Connection,
    store: &mut Store,
    kind: u8,
    body: &[u8],
) -> Result<Settled, Refusal> {
    let incremental = matches!(kind, INCREMENTAL | TIMED_INCREMENTAL);
    let timed = matches!(kind, TIMED | TIMED_INCREMENTAL);
    let place = connection.current.checked_sub(1).ok_or(27)? as usize;
    let binding = &mut connection.bindings[place];
    if incremental && binding.updated != 1 {
        return Err(28.into());
    }
    let mut reader = Reader::new(body);
    let id = match incremental {
        true => binding.previous.wrapping_add(1),
        false => reader.number()?,
    };
    let fields = entry_fields(&mut reader, &store.tables[place], timed)?;
    let (entry, replaced) = entry_place(store, place, fields.key)?;
    put_entry(&mut store.entries[entry], place, &fields);
    store.counts[place] += u32::from(!replaced);
    binding.updated = 1;
    binding.previous = id;
    let mut reply = [0; 12];
    let len = acknowledge(&mut reply, binding.id, id);
    let values = [place as u64, id.into(), entry as u64, replaced.into()];
    Ok(Settled::new(267, &values, &reply[..len]))
}

/// The place of a key's entry and whether it is held already.
fn entry_place(store: &Store, table: usize, key: &[u8]) -> Result<(usize, bool), u8> {
    let keyed = |e: &Entry| {
        e.held == 1 && e.table == table && e.key_len == key.len() && &e.key[..key.len()] == key
    };
    if let Some(place) = store.entries.iter().position(keyed) {
        return Ok((place, true));
    }
    let free = store.entries.iter().position(|e| e.held == 0);
    free.map(|place| (place, false)).ok_or(29)
}

fn put_entry(entry: &mut Entry, table: usize, fields: &Fields) {
    entry.held = 1;
    entry.server_id = fields.server_id;
    entry.timed = fields.remaining.is_some().into();
    entry.remaining = fields.remaining.unwrap_or(0);
    entry.table = table;
    entry.key_len = fields.key.len();
    entry.key = [0; KEY_MAX];
    entry.key[..fields.key.len()].copy_from_slice(fields.key);
    entry.values = fields.values;
}

/// Writes the acknowledgement of an update and gives its length.
fn acknowledge(reply: &mut [u8; 12], id: u32, update: u32) -> usize {
    let len = write_int(&mut reply[3..], id.into());
    reply[..3].copy_from_slice(&[10, ACKNOWLEDGEMENT, 4 + len as u8]);
    reply[3 + len..7 + len].copy_from_slice(&update.to_be_bytes());
    7 + len
}
