//! Each kind of fault by itself, and what stands next to it on the other side of its boundary.

use crate::{count, five_tables, refused_opening, states, Both, UNSOUND};
use bench::layout::{Session, Store, TABLES};
use bench::receivers::Role;
use peers::KeyType;

/// A change of record and store.
type Change = fn(&mut Session, &mut Store);

/// Changes on five tables: the last that is allowed, and the first that isn't.
const BOUNDARIES: &[(Change, Change)] = &[
    // tables
    (|_, t| t.tables[7].held = 0, |_, t| t.tables[7].held = 2),
    (
        |_, t| (t.tables[1].name, t.tables[1].name_len) = ([b'x'; 32], 32),
        |_, t| (t.tables[1].name, t.tables[1].name_len) = ([b'x'; 32], 33),
    ),
    (
        |_, t| t.tables[1].name_len = 1,
        |_, t| t.tables[1].name_len = 0,
    ),
    (
        |_, t| t.tables[1].key_len = 4,
        |_, t| t.tables[1].key_len = 5,
    ),
    (
        |_, t| t.tables[1].data_types = 0x7_FFFF,
        |_, t| t.tables[1].data_types = 0x8_0000,
    ),
    (|_, t| t.tables[1].timed = 1, |_, t| t.tables[1].timed = 2),
    (
        |_, t| t.tables[1].name[0] = b'x',
        |_, t| t.tables[1].name[0] = b'a',
    ),
    // entries
    (
        |_, t| t.entries[127].held = 0,
        |_, t| t.entries[127].held = 2,
    ),
    (|_, t| shift(t, 1), |_, t| shift(t, 8)),
    (|_, t| shift(t, 1), |_, t| shift(t, 5)),
    (
        |_, t| t.entries[4].key_len = 8,
        |_, t| t.entries[4].key_len = 9,
    ),
    (
        |_, t| t.entries[2].key_len = 16,
        |_, t| t.entries[2].key_len = 15,
    ),
    (
        |_, t| t.entries[3].key_len = 64,
        |_, t| t.entries[3].key_len = 65,
    ),
    (
        |_, t| t.entries[0].key[3] = 255,
        |_, t| t.entries[0].key[4] = 1,
    ),
    (|_, t| t.entries[0].timed = 1, |_, t| t.entries[0].timed = 2),
    (
        |_, t| (t.entries[5].timed, t.entries[5].remaining) = (0, 7),
        |_, t| (t.entries[5].timed, t.entries[5].remaining) = (257, 7),
    ),
    (
        |_, t| t.entries[0].remaining = u32::MAX,
        |_, t| t.entries[0].timed = u32::MAX,
    ),
    (
        |_, t| {
            (t.entries[0].timed, t.entries[0].held) = (2, 0);
            count(t);
        },
        |_, t| (t.entries[0].timed, t.entries[0].held) = (2, 1),
    ),
    (|_, t| t.entries[6].timed = 2, |_, t| t.entries[5].timed = 2),
    (
        |_, t| t.entries[4].values[0] = 0xFFFF_FFFF,
        |_, t| t.entries[4].values[0] = 1 << 32,
    ),
    (
        |_, t| t.entries[4].values[22] = u64::MAX,
        |_, t| t.entries[4].values[23] = u64::MAX,
    ),
    (
        |_, t| t.entries[0].key[3] = b'2',
        |_, t| t.entries[0].key[3] = b'1',
    ),
    // counts: of an entry that goes, comes or is put to another table, and of a free place
    (
        |_, t| (t.entries[0].held, t.counts[0]) = (0, 1),
        |_, t| t.entries[0].held = 0,
    ),
    (
        |_, t| (t.entries[0].held, t.counts[0]) = (0, 1),
        |_, t| (t.entries[0].held, t.counts[0]) = (0, 0),
    ),
    (
        |_, t| {
            (t.entries[6], t.entries[6].key[3], t.counts[0]) = (t.entries[0], b'2', 3);
        },
        |_, t| (t.entries[6], t.entries[6].key[3]) = (t.entries[0], b'2'),
    ),
    (|_, t| shift(t, 1), |_, t| t.entries[0].table = 1),
    (|_, t| t.counts[7] = 0, |_, t| t.counts[7] = 1),
    // the record
    (|s, _| s.connection.phase = 2, |s, _| s.connection.phase = 3),
    (
        |s, _| s.connection.closed = 1,
        |s, _| s.connection.closed = 2,
    ),
    (
        |s, _| s.connection.number = 0,
        |s, _| s.connection.number = 1,
    ),
    (
        |s, _| s.connection.local_len = 1,
        |s, _| s.connection.local_len = 0,
    ),
    (
        |s, _| s.connection.remote_len = 4,
        |s, _| s.connection.remote_len = 33,
    ),
    (
        |s, _| s.connection.local[0] = 33,
        |s, _| s.connection.local[0] = 32,
    ),
    (
        |s, _| s.connection.remote[3] = 126,
        |s, _| s.connection.remote[3] = 127,
    ),
    (
        |s, _| s.connection.bindings[0].bound = 0,
        |s, _| s.connection.bindings[0].bound = 2,
    ),
    (
        |s, _| s.connection.bindings[0].updated = 0,
        |s, _| s.connection.bindings[0].updated = 2,
    ),
    (
        |s, _| s.connection.bindings[5].previous = 9,
        |s, _| s.connection.bindings[5].updated = 1,
    ),
    (
        |s, _| s.connection.bindings[0].id = 5,
        |s, _| s.connection.bindings[0].id = 4,
    ),
    (
        |s, _| s.connection.current = 5,
        |s, _| s.connection.current = 6,
    ),
    (
        |s, _| s.connection.current = 0,
        |s, _| s.connection.current = 9,
    ),
    (|s, _| s.buffer[1031] = 1, |s, _| s.len = 1028),
    (|s, _| (s.len, s.buffer[0]) = (1, 10), |s, _| s.len = 2),
    // the sending state
    (|s, _| s.sending.defined = 0, |s, _| s.sending.defined = 9),
    (|s, _| s.sending.defined = 5, |s, _| s.sending.defined = 6),
    (
        |s, _| s.sending.defined = 1,
        |s, _| s.sending.defined = (1 << 32) + 1,
    ),
    (
        |s, _| s.sending.defined = 5,
        |s, _| s.sending.defined = usize::MAX,
    ),
    (|s, _| s.sending.sent = 1, |s, _| s.sending.sent = 2),
    (|s, _| s.sending.last = 9, |s, _| s.sending.sent = 256),
    (
        |s, _| (s.sending.sent, s.sending.last) = (1, u32::MAX),
        |s, _| s.sending.sent = u32::MAX,
    ),
    (
        |s, _| (s.connection.closed, s.sending.defined) = (1, 5),
        |s, _| (s.connection.closed, s.sending.defined) = (1, 8),
    ),
];

/// Puts the first entry to another table, with the counts of the tables that there are.
fn shift(store: &mut Store, table: usize) {
    store.entries[0].table = table;
    count(store);
}

const NOTHING: Change = |_, _| {};

/// The same on the record of a refused opening, all of which is zeros but for two fields.
const OPENING_BOUNDARIES: &[(Change, Change)] = &[
    (
        |s, _| s.connection.number = 1,
        |s, _| s.connection.number = 2,
    ),
    (
        |s, _| s.connection.number = 3,
        |s, _| s.connection.number = 0,
    ),
    (|_, t| t.tables[0].key_type = 9, |_, t| t.tables[0].held = 2),
    (NOTHING, |_, t| t.counts[0] = 1),
    (NOTHING, |s, _| s.connection.closed = 2),
    (NOTHING, |s, _| s.connection.phase = 1),
    (NOTHING, |s, _| s.connection.current = 1),
    (NOTHING, |s, _| s.connection.local[31] = 1),
    (NOTHING, |s, _| s.connection.local_len = 1),
    (NOTHING, |s, _| s.connection.remote[31] = 1),
    (NOTHING, |s, _| s.connection.remote_len = 1),
    (NOTHING, |s, _| s.connection.bindings[7].bound = 1),
    (NOTHING, |s, _| s.connection.bindings[7].updated = 1),
    (NOTHING, |s, _| s.connection.bindings[7].id = 1),
    (NOTHING, |s, _| s.connection.bindings[7].previous = 1),
    (NOTHING, |s, _| s.buffer[1026] = 1),
    (NOTHING, |s, _| s.buffer[1031] = 1),
    (NOTHING, |s, _| s.len = 1),
    (NOTHING, |s, _| s.sending.defined = 1),
    (NOTHING, |s, _| s.sending.sent = 1),
    (NOTHING, |s, _| s.sending.last = 1),
];

/// Whether a table with such keys may have this key length.
fn has_length(key_type: KeyType, len: u32) -> bool {
    match key_type {
        KeyType::Integer | KeyType::Ipv4 => len == 4,
        KeyType::Ipv6 => len == 16,
        KeyType::String | KeyType::Binary => (1..=64).contains(&len),
    }
}

/// Both sides of each boundary.
fn try_boundaries(base: &Both, boundaries: &[(Change, Change)]) {
    for (n, sides) in boundaries.iter().enumerate() {
        for (change, unsound) in [(sides.0, false), (sides.1, true)] {
            let mut both = base.clone();
            both.change(change);
            assert_eq!(both.is_unsound(), unsound, "boundary {n}");
        }
    }
}

#[test]
fn of_a_record_with_five_tables() {
    let base = Both::after(Role::Answerer, &five_tables());
    try_boundaries(&base, BOUNDARIES);
}

#[test]
fn of_key_types() {
    let base = Both::after(Role::Answerer, &five_tables());
    for number in (0..300).chain([(1 << 16) + 2, u32::MAX]) {
        for key_len in [0, 1, 3, 4, 5, 15, 16, 17, 64, 65, 256 + 4, u32::MAX] {
            let mut both = base.clone();
            both.change(|_, t| (t.tables[1].key_type, t.tables[1].key_len) = (number, key_len));
            let key_type = u8::try_from(number).ok().and_then(KeyType::of);
            let sound = key_type.is_some_and(|t| has_length(t, key_len));
            assert_eq!(both.call(b"", 12) != UNSOUND, sound, "{number}, {key_len}");
        }
    }
}

/// A byte of each value within a name, and after it.
#[test]
fn of_names() {
    let plain = b"ABCDEFGHIJKLMNOPQRSTUVWXYZabcdefghijklmnopqrstuvwxyz0123456789._-/:";
    let base = Both::after(Role::Answerer, &five_tables());
    for byte in 0..=255 {
        for (len, at) in [(1, 0), (3, 0), (3, 2), (32, 31), (3, 3), (1, 31)] {
            let mut both = base.clone();
            both.change(|_, t| {
                (t.tables[1].name, t.tables[1].name_len) = ([b'x'; 32], len);
                t.tables[1].name[at] = byte;
            });
            // one byte alone could be another table's name
            let held = len == 1 && at == 0 && b"acde".contains(&byte);
            let sound = (at >= len || plain.contains(&byte)) && !held;
            assert_eq!(
                both.call(b"", 12) != UNSOUND,
                sound,
                "{byte} at {at} of {len}"
            );
        }
    }
}

/// Each count with numbers next to it and with ones that have its low bytes, alone and made up for by the next one.
#[test]
fn of_counts() {
    for base in states() {
        let right = base.plain.store.counts;
        for (place, more) in (0..TABLES).flat_map(|place| OFF.map(|more| (place, more))) {
            let mut both = base.clone();
            both.change(|_, t| t.counts[place] = right[place].wrapping_add(more));
            assert!(both.is_unsound(), "{more} more at {place}");
            let other = (place + 1) % TABLES;
            both.change(|_, t| t.counts[other] = right[other].wrapping_sub(more));
            assert!(both.is_unsound(), "{more} from {other} to {place}");
            both.change(|_, t| t.counts = right);
            assert!(!both.is_unsound());
        }
    }
}

/// By how much a count is off: one more, one less, and numbers whose low bytes are none.
const OFF: [u32; 5] = [1, u32::MAX, 128, 256, 1 << 16];

#[test]
fn of_a_refused_opening() {
    try_boundaries(&refused_opening(), OPENING_BOUNDARIES);
}

#[test]
fn of_what_a_record_was_closed_with() {
    for number in (0..300).chain([u32::MAX]) {
        let mut both = Both::after(Role::Answerer, &five_tables());
        both.change(|s, _| (s.connection.closed, s.connection.number) = (1, number));
        let sound = matches!(number, 0 | 1 | 3 | 10..=15 | 20..=30);
        assert_eq!(both.is_unsound(), !sound, "closed with {number}");
    }
}
