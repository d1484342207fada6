//! Soundness of record and store.

use super::frame::{self, Frame};
use super::handshake::{hello_waits, is_name};
use super::key_type::KeyType;
use super::message::{has, is_wide, SLOT_TYPES};
use super::wire::is_plain;
use crate::layout::{
    Binding, Connection, Entry, Sending, Session, Store, Table, BUFFER, ENTRIES, NAME_MAX, TABLES,
    UNFINISHED_MAX,
};

/// Whether record and store are what the rules allow together.
pub fn is_sound(session: &Session, store: &Store) -> bool {
    store_is_sound(store) && (is_refused_opening(session) || record_is_sound(session, store))
}

// ---- the store

pub fn store_is_sound(store: &Store) -> bool {
    store.tables.iter().all(table_is_sound)
        && names_are_distinct(&store.tables)
        && entries_are_sound(store)
        && keys_are_distinct(&store.entries)
}

fn table_is_sound(table: &Table) -> bool {
    match table.held {
        0 => true,
        1 => {
            (1..=32).contains(&table.name_len)
                && is_plain(&table.name[..table.name_len])
                && KeyType::of_table(table).is_some_and(|t| t.takes(table.key_len.into()))
                && table.data_types < 1 << 19
                && table.timed <= 1
        }
        _ => false,
    }
}

fn names_are_distinct(tables: &[Table]) -> bool {
    let same = |a: &Table, b: &Table| {
        a.held == 1 && b.held == 1 && a.name[..a.name_len] == b.name[..b.name_len]
    };
    let twin = |(at, a): (usize, &Table)| tables[at + 1..].iter().any(|b| same(a, b));
    !tables.iter().enumerate().any(twin)
}

/// Each entry by itself, and in the same walk how many each table has: these are the counts, 0 where no table is held.
fn entries_are_sound(store: &Store) -> bool {
    let mut counts = [0; TABLES];
    for entry in &store.entries {
        if !entry_is_sound(store, entry) {
            return false;
        }
        if entry.held == 1 {
            counts[entry.table] += 1;
        }
    }
    store.counts == counts
}

fn entry_is_sound(store: &Store, entry: &Entry) -> bool {
    match entry.held {
        0 => true,
        1 => store
            .tables
            .get(entry.table)
            .is_some_and(|table| table.held == 1 && entry_fits(table, entry)),
        _ => false,
    }
}

fn entry_fits(table: &Table, entry: &Entry) -> bool {
    let key_len = table.key_len as usize;
    let length_fits = match KeyType::of_table(table) {
        Some(KeyType::String) => entry.key_len <= key_len,
        _ => entry.key_len == key_len,
    };
    let slot_fits = |(&value, &t): (&u64, &u8)| {
        value <= u32::MAX.into() || is_wide(t) || !has(table.data_types, t)
    };
    length_fits
        && entry.timed <= 1
        && entry.key[entry.key_len..].iter().all(|&b| b == 0)
        && entry.values.iter().zip(&SLOT_TYPES).all(slot_fits)
}

/// Keys with different marks are different; only where two marks are equal the keys themselves are compared.
fn keys_are_distinct(entries: &[Entry]) -> bool {
    let mut marks = [0; ENTRIES];
    let held = entries.iter().filter(|e| e.held == 1);
    let count = held.zip(&mut marks).map(|(e, m)| *m = mark(e)).count();
    let marks = &marks[..count];
    let twin =
        |(at, mark): (usize, &u32)| marks[at + 1..].iter().fold(false, |t, m| t | (m == mark));
    !marks.iter().enumerate().any(twin) || pairs_are_distinct(entries)
}

/// A number for a table and key, modulo a prime: four bytes at a time, as the library takes them.
pub fn mark(entry: &Entry) -> u32 {
    const PRIME: u64 = 2_147_483_647;
    let words = entry.key[..entry.key_len].chunks_exact(4);
    let last = words.remainder().iter().map(|&b| u64::from(b));
    let words = words.map(|w| u64::from(u32::from_le_bytes([w[0], w[1], w[2], w[3]])));
    let mix = |mark, n| (mark * 65599 + n) % PRIME;
    words.chain(last).fold(entry.table as u64 % PRIME, mix) as u32
}

/// The same by comparing all pairs. Key bytes past the length are zero, so whole arrays are compared.
fn pairs_are_distinct(entries: &[Entry]) -> bool {
    let same = |a: &Entry, b: &Entry| {
        b.held == 1 && a.table == b.table && a.key_len == b.key_len && a.key == b.key
    };
    let twin =
        |(at, a): (usize, &Entry)| a.held == 1 && entries[at + 1..].iter().any(|b| same(a, b));
    !entries.iter().enumerate().any(twin)
}

// ---- the record

/// All of it is zeros but for the closed mark and the number.
fn is_refused_opening(session: &Session) -> bool {
    let c = &session.connection;
    let empty = |b: &Binding| b.bound == 0 && b.updated == 0 && b.id == 0 && b.previous == 0;
    c.closed == 1
        && matches!(c.number, 1 | 3)
        && c.phase == 0
        && c.current == 0
        && c.local_len == 0
        && c.remote_len == 0
        && session.len == 0
        && c.local == [0; NAME_MAX]
        && c.remote == [0; NAME_MAX]
        && c.bindings.iter().all(empty)
        && session.buffer == [0; BUFFER]
        && session.sending == NOTHING_SENT
}

const NOTHING_SENT: Sending = Sending {
    defined: 0,
    sent: 0,
    last: 0,
};

fn record_is_sound(session: &Session, store: &Store) -> bool {
    let c = &session.connection;
    c.phase <= 2
        && number_fits(c)
        && name_fits(&c.local, c.local_len)
        && name_fits(&c.remote, c.remote_len)
        && bindings_are_sound(&c.bindings, store)
        && current_is_sound(c, store)
        && unfinished_is_sound(session)
        && sending_is_sound(&session.sending, store)
}

fn number_fits(c: &Connection) -> bool {
    match c.closed {
        0 => c.number == 0,
        1 => matches!(c.number, 0 | 1 | 3 | 10..=15 | 20..=30),
        _ => false,
    }
}

fn name_fits(bytes: &[u8], len: usize) -> bool {
    bytes.get(..len).is_some_and(is_name)
}

fn bindings_are_sound(bindings: &[Binding; TABLES], store: &Store) -> bool {
    let marked = |b: &Binding| b.bound == 1 || b.updated == 1;
    let placed =
        |(b, t): (&Binding, &Table)| b.bound <= 1 && b.updated <= 1 && (t.held == 1 || !marked(b));
    let same = |a: &Binding, b: &Binding| a.bound == 1 && b.bound == 1 && a.id == b.id;
    let twin = |(at, a): (usize, &Binding)| bindings[at + 1..].iter().any(|b| same(a, b));
    bindings.iter().zip(&store.tables).all(placed) && !bindings.iter().enumerate().any(twin)
}

fn current_is_sound(c: &Connection, store: &Store) -> bool {
    let Some(place) = c.current.checked_sub(1) else {
        return true;
    };
    let place = place as usize;
    place < TABLES && store.tables[place].held == 1 && c.bindings[place].bound == 1
}

/// The table defined last, if there is one, is held.
fn sending_is_sound(sending: &Sending, store: &Store) -> bool {
    let held = |place: usize| store.tables.get(place).is_some_and(|t| t.held == 1);
    sending.sent <= 1 && sending.defined.checked_sub(1).is_none_or(held)
}

fn unfinished_is_sound(session: &Session) -> bool {
    if session.len > UNFINISHED_MAX {
        return false;
    }
    if session.connection.closed == 1 {
        return session.len == 0;
    }
    let bytes = &session.buffer[..session.len];
    match session.connection.phase {
        0 => hello_waits(bytes),
        1 => bytes.len() < 4,
        _ => matches!(frame::judge(bytes), Frame::Waiting),
    }
}
