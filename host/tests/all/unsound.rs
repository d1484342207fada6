//! Each kind of fault of a record or a store, one at a time, and what stands next to it on the other side of its boundary.
//! A fault is refused with 4, by reading and by sending; a call on either side that takes or sends nothing leaves every byte as it was.
//! Passing time looks at the store alone.

use crate::common::{define, message, refused, update, walked, State, KEY_LENGTHS, PLAIN};
use peers::layout::{Entry, Sending, Session, Store, Table, TABLES};
use peers::{Answer, KeyType, Part, Refusal};

/// A change of the record and the store.
type Change = fn(&mut Session, &mut Store);

/// All data types.
const ALL: u32 = 0x7_FFFF;

/// Eight tables, with entries at the places that the tests change:
///
/// | table | keys | data types | entries |
/// |---|---|---|---|
/// | 0 | integer | bytes in and out, gpc0, gpc0 rate | 0 and 1 |
/// | 1 | string, up to 8 | all | 2 and 3 |
/// | 2 | IPv6 | none | 4 |
/// | 3 | binary, 64 | none | 5 |
/// | 4 to 6 | integer | none | none |
/// | 7, current | string, up to 64 | none | 6 |
fn eight_tables() -> State {
    let all: Vec<u64> = (0..35).collect();
    let mut state = State::established();
    state.accept(&[
        define(
            10,
            b"integers",
            KeyType::Integer,
            4,
            1 << 2 | 1 << 3 | 1 << 13 | 1 << 15,
            &[],
        ),
        update(1, &[0, 0, 0, 1], &[1, 2, 3, 4, 5, 6]),
        update(2, &[0, 0, 0, 2], &[1, 2, 3, 4, 5, 6]),
        define(11, b"strings", KeyType::String, 8, ALL, &[]),
        update(3, b"\x02ab", &all),
        update(4, b"\x03abc", &all),
        define(12, b"addresses", KeyType::Ipv6, 16, 0, &[]),
        update(5, &[6; 16], &[]),
        define(13, b"cookies", KeyType::Binary, 64, 0, &[]),
        update(6, &[7; 64], &[]),
        define(14, b"a", KeyType::Integer, 4, 0, &[]),
        define(15, b"b", KeyType::Integer, 4, 0, &[]),
        define(16, b"c", KeyType::Integer, 4, 0, &[]),
        define(17, b"last", KeyType::String, 64, 0, &[]),
        update(7, &[&[64][..], &[8; 64]].concat(), &[]),
    ]);
    state
}

/// One table and 128 entries.
fn full() -> State {
    let mut state = State::established();
    state.accept(&[define(1, b"t", KeyType::String, 64, 0, &[])]);
    for key in 0..128 {
        state.accept(&[update(key, &[2, key as u8, 1], &[])]);
    }
    state
}

/// A closed record.
fn closed() -> State {
    let mut state = State::established();
    state.offer(&[1, 0]);
    state
}

/// The record of a refused opening, and an empty store.
fn refused_opening() -> State {
    let mut state = State::answerer();
    let record = state.session.layout_mut();
    record.connection.local_len = 0;
    record.connection.remote_len = 0;
    record.connection.local = [0; 32];
    record.connection.remote = [0; 32];
    record.connection.closed = 1;
    record.connection.number = 3;
    state
}

/// The answer of a call with this piece after a change; every byte must be as it was.
fn answer(base: &State, change: Change, piece: &[u8]) -> Answer {
    let mut state = base.clone();
    change(state.session.layout_mut(), state.store.layout_mut());
    let before = state.clone();
    let (taken, (answer, reply)) = state.call(piece);
    assert_eq!((taken, &reply[..]), (0, &b""[..]));
    assert!(state == before, "record or store changed");
    answer
}

/// Passes some times after a change. The store alone decides, so the answer is that of a reading call with a new record.
fn pass(base: &State, change: Change) -> Result<(), Refusal> {
    let mut state = base.clone();
    change(state.session.layout_mut(), state.store.layout_mut());
    state.session = State::answerer().session;
    let expected = match state.clone().call(b"").1 .0 {
        Answer::More => Ok(()),
        _ => Err(Refusal::Unsound),
    };
    for time in [0, 7, u32::MAX] {
        assert_eq!(state.clone().pass(time), expected);
    }
    expected
}

/// Both sending calls after a change, with nothing at the place: the refusal.
fn not_sent(base: &State, change: Change) -> Refusal {
    let mut state = base.clone();
    change(state.session.layout_mut(), state.store.layout_mut());
    let parts = [Part::Table(usize::MAX), Part::Entry(usize::MAX)];
    let [one, other] = parts.map(|part| state.send(part, 7).unwrap_err());
    assert_eq!(one, other);
    one
}

/// Changes after which record and store are sound.
fn sound(base: &State, changes: &[Change]) {
    let after = [Refusal::Closed, Refusal::Handshake, Refusal::Place];
    for (n, change) in changes.iter().enumerate() {
        let refusal = not_sent(base, *change);
        assert!(after.contains(&refusal), "sound change {n}: {refusal:?}");
        let answer = answer(base, *change, b"");
        let expected = [Answer::More, refused(Refusal::Closed)];
        assert!(expected.contains(&answer), "sound change {n}: {answer:?}");
        assert_eq!(pass(base, *change), Ok(()), "sound change {n}");
    }
}

/// Changes after which they are not.
fn faults(base: &State, changes: &[Change]) {
    let pieces = [&b""[..], &[0, 4], &message(200, b"x")];
    for (n, change) in changes.iter().enumerate() {
        for piece in pieces {
            let answer = answer(base, *change, piece);
            assert_eq!(answer, refused(Refusal::Unsound), "fault {n}");
        }
        assert_eq!(not_sent(base, *change), Refusal::Unsound, "fault {n}");
        _ = pass(base, *change);
    }
}

#[test]
fn nothing_changed() {
    for base in [eight_tables(), full(), closed(), refused_opening()] {
        sound(&base, &[|_, _| {}]);
    }
    sound(&State::answerer(), &[|_, _| {}]);
    sound(&State::caller(), &[|_, _| {}]);
}

// ---- tables

/// A free table place with anything in it.
fn garbage_table(held: u32) -> Table {
    Table {
        held,
        key_type: 77,
        timed: 9,
        data_types: u32::MAX,
        name_len: usize::MAX,
        key_len: u32::MAX,
        expiry: 1,
        periods: [3; 8],
        name: [0xFF; 32],
    }
}

#[test]
fn held_mark_of_a_table() {
    let base = State::established();
    sound(
        &base,
        &[
            |_, t| t.tables[0] = garbage_table(0),
            |_, t| t.tables[7] = garbage_table(0),
        ],
    );
    faults(
        &base,
        &[
            |_, t| t.tables[0].held = 2,
            |_, t| t.tables[7].held = 2,
            |_, t| t.tables[0].held = 256,
            |_, t| t.tables[0].held = u32::MAX,
            |_, t| t.tables[3] = garbage_table(1),
        ],
    );
}

#[test]
fn name_length() {
    sound(
        &eight_tables(),
        &[
            |_, t| t.tables[7].name_len = 1,
            |_, t| (t.tables[7].name, t.tables[7].name_len) = ([b'x'; 32], 32),
            |_, t| t.tables[7].name[4] = 0xFF,
        ],
    );
    faults(
        &eight_tables(),
        &[
            |_, t| t.tables[7].name_len = 0,
            |_, t| (t.tables[7].name, t.tables[7].name_len) = ([b'x'; 32], 33),
            |_, t| t.tables[0].name_len = 0,
            |_, t| t.tables[0].name_len = usize::MAX,
        ],
    );
}

/// Every byte within a name, and after it.
#[test]
fn bytes_of_a_name() {
    for byte in 0..=255 {
        for (len, at) in [(3, 0), (3, 2), (32, 31), (3, 3), (1, 31)] {
            let mut state = eight_tables();
            let table = &mut state.store.layout_mut().tables[7];
            (table.name, table.name_len) = ([b'x'; 32], len);
            table.name[at] = byte;
            match at >= len || PLAIN.contains(&byte) {
                true => sound(&state, &[|_, _| {}]),
                false => faults(&state, &[|_, _| {}]),
            }
        }
    }
}

/// A change of table 4, which has no entries.
fn with_keys(key_type: u32, key_len: u32) -> State {
    let mut state = eight_tables();
    let table = &mut state.store.layout_mut().tables[4];
    (table.key_type, table.key_len) = (key_type, key_len);
    state
}

#[test]
fn key_type() {
    for number in (0..300).chain([(1 << 16) + 2, (1 << 31) + 6, u32::MAX]) {
        for key_len in [4, 16] {
            let state = with_keys(number, key_len);
            let fits = KEY_LENGTHS.iter().any(|&(key_type, least, most)| {
                u32::from(key_type.number()) == number && (least..=most).contains(&key_len)
            });
            match fits {
                true => sound(&state, &[|_, _| {}]),
                false => faults(&state, &[|_, _| {}]),
            }
        }
    }
}

#[test]
fn key_length() {
    for (key_type, least, most) in KEY_LENGTHS {
        let number = key_type.number().into();
        for key_len in [least, most] {
            sound(&with_keys(number, key_len), &[|_, _| {}]);
        }
        for key_len in [least - 1, most + 1, 256 + most, u32::MAX] {
            faults(&with_keys(number, key_len), &[|_, _| {}]);
        }
    }
}

#[test]
fn data_types() {
    sound(
        &eight_tables(),
        &[
            |_, t| t.tables[4].data_types = 0,
            |_, t| t.tables[4].data_types = ALL,
        ],
    );
    faults(
        &eight_tables(),
        &[
            |_, t| t.tables[4].data_types = ALL + 1,
            |_, t| t.tables[4].data_types = 1 << 31,
            |_, t| t.tables[4].data_types = u32::MAX,
        ],
    );
}

#[test]
fn timed_mark() {
    sound(
        &eight_tables(),
        &[
            |_, t| t.tables[4].timed = 0,
            |_, t| t.tables[4].timed = 1,
            |_, t| t.tables[4].expiry = u32::MAX,
            |_, t| t.tables[4].periods = [u32::MAX; 8],
        ],
    );
    faults(
        &eight_tables(),
        &[
            |_, t| t.tables[4].timed = 2,
            |_, t| t.tables[4].timed = 256,
            |_, t| t.tables[4].timed = u32::MAX,
        ],
    );
}

#[test]
fn two_tables_with_one_name() {
    sound(
        &eight_tables(),
        &[
            // a longer name, another last byte, bytes past the name
            |_, t| {
                t.tables[4].name[..2].copy_from_slice(b"bx");
                t.tables[4].name_len = 2;
            },
            |_, t| t.tables[4].name[0] = b'd',
            |_, t| (t.tables[4].name, t.tables[5].name) = ([b'x'; 32], [b'y'; 32]),
        ],
    );
    faults(
        &eight_tables(),
        &[
            |_, t| t.tables[4].name = t.tables[5].name,
            |_, t| t.tables[6].name[0] = b'a',
            |_, t| {
                (t.tables[0].name, t.tables[0].name_len) = (t.tables[7].name, t.tables[7].name_len)
            },
            // the bytes past the name don't tell them apart
            |_, t| (t.tables[4].name, t.tables[5].name[1]) = (t.tables[5].name, 9),
        ],
    );
}

// ---- entries: a change that takes one from a table or adds one goes with the counts, so that the fault is the one that is named

/// Frees an entry.
fn free(store: &mut Store, place: usize) {
    store.entries[place].held = 0;
    store.counts[store.entries[place].table] -= 1;
}

/// Puts an entry to another table.
fn shift(store: &mut Store, place: usize, table: usize) {
    store.counts[store.entries[place].table] -= 1;
    store.counts[table] += 1;
    store.entries[place].table = table;
}

/// Holds a copy of an entry at another place.
fn copy(store: &mut Store, from: usize, to: usize) {
    store.entries[to] = store.entries[from];
    store.counts[store.entries[to].table] += 1;
}

/// A free entry place with anything in it.
fn garbage_entry(held: u32) -> Entry {
    Entry {
        held,
        server_id: -1,
        timed: 7,
        remaining: 7,
        table: usize::MAX,
        key_len: usize::MAX,
        key: [0xFF; 64],
        values: [u64::MAX; 34],
    }
}

#[test]
fn held_mark_of_an_entry() {
    sound(
        &eight_tables(),
        &[
            |_, t| t.entries[7] = garbage_entry(0),
            |_, t| t.entries[127] = garbage_entry(0),
            |_, t| free(t, 0),
        ],
    );
    faults(
        &eight_tables(),
        &[
            |_, t| (t.entries[0].held, t.counts[0]) = (2, 1),
            |_, t| (t.entries[7].held, t.counts[0]) = (2, 3),
            |_, t| t.entries[7].held = 2,
            |_, t| t.entries[127].held = 2,
            |_, t| t.entries[0].held = 2,
            |_, t| t.entries[0].held = 257,
            |_, t| t.entries[127].held = 256,
            |_, t| t.entries[0].held = u32::MAX,
            |_, t| t.entries[127] = garbage_entry(1),
        ],
    );
}

#[test]
fn table_of_an_entry() {
    sound(
        &eight_tables(),
        &[
            |_, t| shift(t, 0, 4),
            |_, t| shift(t, 0, 6),
            |_, t| shift(t, 2, 7),
        ],
    );
    faults(
        &eight_tables(),
        &[
            |_, t| t.entries[0].table = 8,
            |_, t| (t.entries[0].table, t.counts[0]) = (8, 1),
            |_, t| (t.entries[0].table, t.counts[0]) = (usize::MAX, 1),
            // another kind of key
            |_, t| shift(t, 0, 2),
        ],
    );
    // the table isn't held, and the record marks it nowhere
    let mut base = State::established();
    base.accept(&[
        define(1, b"t", KeyType::Integer, 4, 0, &[]),
        update(1, b"keys", &[]),
    ]);
    sound(&base, &[|_, t| t.entries[0].table = 0]);
    faults(
        &base,
        &[
            |_, t| shift(t, 0, 1),
            |_, t| shift(t, 0, 7),
            |_, t| (t.entries[0].table, t.counts[0]) = (1, 0),
            |s, t| free_table(s, t),
            |s, t| {
                free_table(s, t);
                t.counts[0] = 0;
            },
        ],
    );
}

/// Frees table 0 alone, and leaves no mark of it in the record.
fn free_table(session: &mut Session, store: &mut Store) {
    store.tables[0].held = 0;
    session.connection.current = 0;
    session.connection.bindings[0].bound = 0;
    session.connection.bindings[0].updated = 0;
}

#[test]
fn key_length_of_an_entry() {
    sound(
        &eight_tables(),
        &[
            |_, t| (t.entries[2].key_len, t.entries[2].key) = (0, [0; 64]),
            |_, t| t.entries[2].key_len = 8,
            |_, t| t.entries[6].key_len = 64,
        ],
    );
    faults(
        &eight_tables(),
        &[
            |_, t| t.entries[2].key_len = 9,
            |_, t| t.entries[2].key_len = usize::MAX,
            |_, t| (t.entries[0].key_len, t.entries[0].key) = (3, [0; 64]),
            |_, t| t.entries[0].key_len = 5,
            |_, t| (t.entries[4].key_len, t.entries[4].key[15]) = (15, 0),
            |_, t| t.entries[4].key_len = 17,
            |_, t| (t.entries[5].key_len, t.entries[5].key[63]) = (63, 0),
            |_, t| t.entries[5].key_len = 65,
            |_, t| t.entries[6].key_len = 65,
        ],
    );
}

#[test]
fn key_bytes_past_the_length() {
    sound(
        &eight_tables(),
        &[
            |_, t| t.entries[0].key[3] = 255,
            |_, t| t.entries[2].key[1] = 0,
            |_, t| t.entries[5].key[63] = 0,
        ],
    );
    faults(
        &eight_tables(),
        &[
            |_, t| t.entries[0].key[4] = 1,
            |_, t| t.entries[0].key[63] = 128,
            |_, t| t.entries[2].key[2] = 1,
            |_, t| t.entries[2].key[63] = 1,
            |_, t| t.entries[4].key[16] = 255,
        ],
    );
}

#[test]
fn time_mark_of_an_entry() {
    sound(
        &eight_tables(),
        &[
            |_, t| t.entries[0].timed = 0,
            |_, t| t.entries[0].timed = 1,
            |_, t| (t.entries[0].timed, t.entries[0].remaining) = (1, 7),
            |_, t| (t.entries[6].timed, t.entries[6].remaining) = (1, u32::MAX),
            // without a mark the number isn't looked at
            |_, t| t.entries[0].remaining = 7,
            |_, t| t.entries[6].remaining = u32::MAX,
            // nor is a free place
            |_, t| t.entries[7].timed = 2,
            |_, t| (t.entries[127].timed, t.entries[127].remaining) = (u32::MAX, u32::MAX),
            |_, t| (t.entries[7].timed, t.entries[7].remaining) = (1, 7),
            |_, t| {
                t.entries[0].timed = 2;
                free(t, 0);
            },
        ],
    );
    faults(
        &eight_tables(),
        &[
            |_, t| t.entries[0].timed = 2,
            |_, t| t.entries[6].timed = 2,
            |_, t| (t.entries[0].timed, t.entries[0].remaining) = (2, u32::MAX),
            |_, t| t.entries[0].timed = 256,
            |_, t| t.entries[3].timed = 257,
            |_, t| t.entries[5].timed = 1 << 31,
            |_, t| t.entries[6].timed = u32::MAX,
        ],
    );
    faults(
        &full(),
        &[
            |_, t| t.entries[0].timed = 2,
            |_, t| t.entries[127].timed = 3,
        ],
    );
}

#[test]
fn values_of_32_bits() {
    // entry 2's table has every data type: slots 22 and 26 are bytes in and out
    for slot in 0..34 {
        let wide = [22, 26].contains(&slot);
        let mut state = eight_tables();
        let values = &mut state.store.layout_mut().entries[2].values;
        values[slot] = u64::from(u32::MAX);
        sound(&state, &[|_, _| {}]);
        let values = &mut state.store.layout_mut().entries[2].values;
        values[slot] = 1 << 32;
        match wide {
            true => sound(&state, &[|_, _| {}]),
            false => faults(&state, &[|_, _| {}]),
        }
    }
}

#[test]
fn values_of_64_bits_and_of_no_type() {
    sound(
        &eight_tables(),
        &[
            |_, t| t.entries[0].values[22] = u64::MAX,
            |_, t| t.entries[0].values[26] = u64::MAX,
            |_, t| t.entries[0].server_id = i32::MIN,
            |_, t| t.entries[2].server_id = i32::MIN,
            |_, t| t.entries[2].server_id = i32::MAX,
            // table 0 has no gpt0, table 3 no values
            |_, t| t.entries[0].values[0] = u64::MAX,
            |_, t| t.entries[5].values = [u64::MAX; 34],
        ],
    );
    faults(
        &eight_tables(),
        &[
            |_, t| t.entries[0].values[1] = u64::MAX,
            |_, t| t.entries[0].values[2] = 1 << 32,
            |_, t| t.entries[0].values[3] = 1 << 32,
            |_, t| t.entries[0].values[4] = 1 << 32,
        ],
    );
}

#[test]
fn two_entries_with_one_table_and_key() {
    sound(
        &eight_tables(),
        &[
            // another last byte, a longer key whose added byte is zero, another table
            |_, t| t.entries[0].key[3] = 3,
            |_, t| (t.entries[3].key, t.entries[3].key_len) = (t.entries[2].key, 3),
            |_, t| {
                t.entries[0].key = t.entries[1].key;
                shift(t, 0, 4);
            },
            |_, t| {
                t.entries[0].key = t.entries[1].key;
                free(t, 0);
            },
        ],
    );
    faults(
        &eight_tables(),
        &[
            |_, t| t.entries[0].key = t.entries[1].key,
            |_, t| copy(t, 0, 127),
            |_, t| (t.entries[3].key, t.entries[3].key_len) = (t.entries[2].key, 2),
            |_, t| copy(t, 6, 7),
        ],
    );
    faults(
        &full(),
        &[
            |_, t| t.entries[127].key = t.entries[0].key,
            |_, t| t.entries[0].key = t.entries[1].key,
            |_, t| t.entries[127].key = t.entries[126].key,
            |_, t| t.entries[64].key = t.entries[63].key,
        ],
    );
}

// ---- counts

/// Each count off by one and by more, at held and at free places, and two that make up for each other.
#[test]
fn counts() {
    let mut one = State::established();
    one.accept(&[
        define(1, b"t", KeyType::Integer, 4, 0, &[]),
        update(1, b"keys", &[]),
    ]);
    for base in [eight_tables(), one, full(), State::answerer()] {
        let right = base.store.layout().counts;
        assert_eq!(right, walked(base.store.layout()));
        for (place, more) in (0..TABLES).flat_map(|place| OFF.map(|more| (place, more))) {
            let mut state = base.clone();
            let counts = &mut state.store.layout_mut().counts;
            counts[place] = counts[place].wrapping_add(more);
            faults(&state, &[|_, _| {}]);
            let counts = &mut state.store.layout_mut().counts;
            let other = &mut counts[(place + 1) % TABLES];
            *other = other.wrapping_sub(more);
            faults(&state, &[|_, _| {}]);
        }
    }
}

/// By how much a count is off: one more, one less, and numbers whose low bytes are none.
const OFF: [u32; 7] = [1, u32::MAX, 2, 128, 256, 1 << 16, 1 << 31];

/// An entry that goes, comes or is put to another table without its count.
#[test]
fn entries_without_counts() {
    faults(
        &eight_tables(),
        &[
            |_, t| t.entries[0].held = 0,
            |_, t| t.entries[6].held = 0,
            |_, t| t.entries[0].table = 4,
            |_, t| t.entries[2].table = 7,
            |_, t| (t.entries[7], t.entries[7].key[3]) = (t.entries[0], 9),
            |_, t| (t.entries[127], t.entries[127].key[3]) = (t.entries[0], 9),
        ],
    );
    sound(
        &eight_tables(),
        &[
            |_, t| {
                copy(t, 0, 7);
                t.entries[7].key[3] = 9;
            },
            |_, t| {
                copy(t, 0, 127);
                t.entries[127].key[3] = 9;
            },
        ],
    );
}

/// A free table place is looked at for its count.
#[test]
fn count_of_a_free_place() {
    let mut base = State::established();
    base.accept(&[
        define(1, b"t", KeyType::Integer, 4, 0, &[]),
        update(1, b"keys", &[]),
    ]);
    sound(
        &base,
        &[|s, t| {
            free(t, 0);
            free_table(s, t);
        }],
    );
    faults(
        &base,
        &[
            |s, t| {
                free(t, 0);
                free_table(s, t);
                t.counts[0] = 1;
            },
            |s, t| {
                free(t, 0);
                free_table(s, t);
                t.counts[7] = 1;
            },
            |_, t| t.counts[1] = 1,
            |_, t| (t.tables[1], t.counts[1]) = (garbage_table(0), 1),
        ],
    );
}

// ---- the record

#[test]
fn phase() {
    sound(
        &eight_tables(),
        &[
            |s, _| s.connection.phase = 0,
            |s, _| s.connection.phase = 1,
            |s, _| s.connection.phase = 2,
        ],
    );
    faults(
        &eight_tables(),
        &[
            |s, _| s.connection.phase = 3,
            |s, _| s.connection.phase = 256,
            |s, _| s.connection.phase = 258,
            |s, _| s.connection.phase = u32::MAX,
        ],
    );
}

#[test]
fn closed_mark_and_number() {
    let mut state = eight_tables();
    for number in (0..300).chain([u32::MAX]) {
        let connection = &mut state.session.layout_mut().connection;
        (connection.closed, connection.number) = (1, number);
        match number {
            0 | 1 | 3 | 10..=15 | 20..=30 => sound(&state, &[|_, _| {}]),
            _ => faults(&state, &[|_, _| {}]),
        }
    }
    faults(
        &eight_tables(),
        &[
            |s, _| s.connection.closed = 2,
            |s, _| s.connection.closed = 257,
            |s, _| s.connection.closed = u32::MAX,
            |s, _| s.connection.number = 1,
            |s, _| s.connection.number = 10,
            |s, _| s.connection.number = 256,
            |s, _| s.connection.number = u32::MAX,
        ],
    );
}

#[test]
fn names() {
    sound(
        &eight_tables(),
        &[
            |s, _| s.connection.local_len = 1,
            |s, _| s.connection.remote_len = 1,
            |s, _| (s.connection.local, s.connection.local_len) = ([33; 32], 32),
            |s, _| (s.connection.remote, s.connection.remote_len) = ([126; 32], 32),
            |s, _| s.connection.local[4] = 0xFF,
            |s, _| s.connection.remote[31] = 0xFF,
        ],
    );
    faults(
        &eight_tables(),
        &[
            |s, _| s.connection.local_len = 0,
            |s, _| s.connection.remote_len = 0,
            |s, _| (s.connection.local, s.connection.local_len) = ([33; 32], 33),
            |s, _| (s.connection.remote, s.connection.remote_len) = ([126; 32], 33),
            |s, _| s.connection.local_len = usize::MAX,
            |s, _| s.connection.remote_len = usize::MAX,
            |s, _| s.connection.local[0] = 32,
            |s, _| s.connection.local[3] = 127,
            |s, _| s.connection.remote[0] = 127,
            |s, _| s.connection.remote[3] = 32,
        ],
    );
}

#[test]
fn marks_of_a_binding() {
    sound(
        &eight_tables(),
        &[
            |s, _| s.connection.bindings[0].bound = 0,
            |s, _| s.connection.bindings[0].updated = 0,
            |s, _| s.connection.bindings[0].id = u32::MAX,
            |s, _| s.connection.bindings[0].previous = u32::MAX,
        ],
    );
    faults(
        &eight_tables(),
        &[
            |s, _| s.connection.bindings[0].bound = 2,
            |s, _| s.connection.bindings[7].bound = 257,
            |s, _| s.connection.bindings[7].bound = u32::MAX,
            |s, _| s.connection.bindings[0].updated = 2,
            |s, _| s.connection.bindings[7].updated = 256,
            |s, _| s.connection.bindings[7].updated = u32::MAX,
        ],
    );
}

#[test]
fn bound_and_previous_ids_of_a_table_that_is_not_held() {
    let mut base = State::established();
    base.accept(&[define(1, b"t", KeyType::Integer, 4, 0, &[])]);
    sound(
        &base,
        &[
            |s, _| s.connection.bindings[0].updated = 1,
            |s, _| s.connection.bindings[1].id = 5,
            |s, _| s.connection.bindings[7].previous = 5,
        ],
    );
    faults(
        &base,
        &[
            |s, _| (s.connection.bindings[1].bound, s.connection.bindings[1].id) = (1, 5),
            |s, _| (s.connection.bindings[7].bound, s.connection.bindings[7].id) = (1, 5),
            |s, _| s.connection.bindings[1].updated = 1,
            |s, _| s.connection.bindings[7].updated = 1,
        ],
    );
}

#[test]
fn one_id_bound_twice() {
    sound(
        &eight_tables(),
        &[
            |s, _| (s.connection.bindings[0].id, s.connection.bindings[0].bound) = (17, 0),
            |s, _| s.connection.bindings[0].id = 18,
        ],
    );
    faults(
        &eight_tables(),
        &[
            |s, _| s.connection.bindings[0].id = 17,
            |s, _| s.connection.bindings[0].id = 11,
            |s, _| s.connection.bindings[7].id = 16,
        ],
    );
}

#[test]
fn current_table() {
    sound(
        &eight_tables(),
        &[
            |s, _| s.connection.current = 0,
            |s, _| s.connection.current = 1,
            |s, _| s.connection.current = 8,
        ],
    );
    faults(
        &eight_tables(),
        &[
            |s, _| s.connection.current = 9,
            |s, _| s.connection.current = 256,
            |s, _| s.connection.current = 257,
            |s, _| s.connection.current = u32::MAX,
            // the current table has no ID
            |s, _| s.connection.bindings[7].bound = 0,
        ],
    );
    let mut base = State::established();
    base.accept(&[define(1, b"t", KeyType::Integer, 4, 0, &[])]);
    faults(
        &base,
        &[
            |s, _| s.connection.current = 2,
            |s, _| s.connection.current = 8,
        ],
    );
}

// ---- the sending state

/// A change of the sending state.
fn with_sending(mut state: State, defined: usize, sent: u32, last: u32) -> State {
    state.session.layout_mut().sending = Sending {
        defined,
        sent,
        last,
    };
    state
}

#[test]
fn table_defined_last() {
    // all tables, one and none are held
    let mut one = State::established();
    one.accept(&[define(1, b"t", KeyType::Integer, 4, 0, &[])]);
    let mut closed = eight_tables();
    closed.offer(&[1, 0]);
    for (base, held) in [
        (eight_tables(), 8),
        (closed, 8),
        (one, 1),
        (State::established(), 0),
        (State::answerer(), 0),
        (State::caller(), 0),
    ] {
        let far = [255, 256, 1 << 32, (1 << 32) + 1, 1 << 63, usize::MAX];
        for (defined, sent) in (0..12).chain(far).flat_map(|d| [(d, 0), (d, 1)]) {
            let state = with_sending(base.clone(), defined, sent, 9);
            match defined <= held {
                true => sound(&state, &[|_, _| {}]),
                false => faults(&state, &[|_, _| {}]),
            }
        }
    }
}

#[test]
fn mark_of_a_last_id() {
    for (defined, last) in [(0, 0), (0, 9), (1, 0), (8, u32::MAX)] {
        for sent in (0..300).chain([(1 << 8) + 1, 1 << 16, (1 << 31) + 1, u32::MAX]) {
            let state = with_sending(eight_tables(), defined, sent, last);
            match sent <= 1 {
                true => sound(&state, &[|_, _| {}]),
                false => faults(&state, &[|_, _| {}]),
            }
        }
    }
}

// ---- unfinished bytes

/// A record of this phase with unfinished bytes.
fn holding(mut state: State, bytes: &[u8]) -> State {
    let record = state.session.layout_mut();
    record.buffer[..bytes.len()].copy_from_slice(bytes);
    record.len = bytes.len();
    state
}

fn waiting(state: State, bytes: &[u8]) {
    sound(&holding(state, bytes), &[|_, _| {}]);
}

fn ended(state: State, bytes: &[u8]) {
    faults(&holding(state, bytes), &[|_, _| {}]);
}

#[test]
fn unfinished_length() {
    let longest = &message(200, &[1; 1024])[..1027];
    waiting(State::established(), longest);
    let state = holding(State::established(), longest);
    faults(
        &state,
        &[
            |s, _| s.len = 1028,
            |s, _| s.len = 1032,
            |s, _| s.len = 1033,
            |s, _| s.len = usize::MAX,
        ],
    );
    // bytes past the length are not looked at
    sound(&State::established(), &[|s, _| s.buffer = [0xFF; 1032]]);
}

#[test]
fn unfinished_message() {
    let open = State::established;
    for bytes in [&[0][..], &[1], &[10], &[77], &[10, 128], &[10, 255]] {
        waiting(open(), bytes);
    }
    for bytes in [
        &[0, 0][..],
        &[0, 4],
        &[0, 5],
        &[1, 0],
        &[1, 2],
        &[10, 127],
        &[77, 0],
    ] {
        ended(open(), bytes);
    }
    // the length: overflow at its tenth byte, the limit at its last
    let overflow = [&[10, 128, 0xFF][..], &[0xFF; 9]].concat();
    waiting(open(), &overflow[..11]);
    ended(open(), &overflow);
    waiting(open(), &[10, 128, 0xF1]);
    waiting(open(), &[10, 128, 0xF0, 0x31]);
    ended(open(), &[10, 128, 0xF1, 0x31]);
    // the body: whole, or one byte short
    ended(open(), &[10, 128, 0]);
    waiting(open(), &[10, 128, 2, 1]);
    ended(open(), &[10, 128, 2, 1, 1]);
}

#[test]
fn unfinished_bytes_of_which_a_first_part_ends_a_message() {
    ended(State::established(), &[0, 4, 10]);
    ended(State::established(), &[0, 5, 10, 128]);
    ended(State::established(), &[10, 128, 0, 10, 128]);
    ended(State::caller(), b"200\nx");
    ended(State::answerer(), b"a\nb\nc\nd");
}

#[test]
fn unfinished_hello() {
    let line = [&[b'x'; 64][..], b"\n"].concat();
    let longest = [&line[..], &line, &[b'x'; 64]].concat();
    assert_eq!(longest.len(), 194);
    waiting(State::answerer(), &longest);
    waiting(State::answerer(), b"\n\n");
    waiting(State::answerer(), &line[..64]);
    ended(State::answerer(), &[b'x'; 65]);
    ended(State::answerer(), &[&line[..], &[b'x'; 65]].concat());
    ended(State::answerer(), &[&longest[..], b"x"].concat());
    ended(State::answerer(), &[&longest[..], b"\n"].concat());
    ended(State::answerer(), b"\n\n\n");
}

#[test]
fn unfinished_status() {
    waiting(State::caller(), b"xyz");
    waiting(State::caller(), b"200");
    ended(State::caller(), b"200\n");
    ended(State::caller(), b"xyz\n");
}

#[test]
fn unfinished_bytes_in_a_closed_record() {
    waiting(closed(), b"");
    ended(closed(), &[10]);
    ended(closed(), &[0]);
    ended(refused_opening(), &[0]);
}

// ---- the record of a refused opening

#[test]
fn record_of_a_refused_opening() {
    sound(
        &refused_opening(),
        &[
            |s, _| s.connection.number = 1,
            |s, _| s.connection.number = 3,
            |_, t| t.tables[0] = garbage_table(0),
        ],
    );
    faults(
        &refused_opening(),
        &[
            |s, _| s.connection.number = 0,
            |s, _| s.connection.number = 2,
            |s, _| s.connection.number = 10,
            |s, _| (s.connection.closed, s.connection.number) = (0, 0),
            |s, _| s.connection.closed = 0,
            |s, _| s.connection.closed = 2,
            |s, _| s.connection.phase = 1,
            |s, _| s.connection.current = 1,
            |s, _| s.connection.local_len = 1,
            |s, _| s.connection.remote_len = 1,
            |s, _| s.connection.bindings[7].bound = 1,
            |s, _| s.connection.bindings[0].updated = 1,
            |s, _| s.buffer[1027] = 1,
            |s, _| s.buffer[1031] = 1,
            |s, _| s.sending.defined = 1,
            |s, _| s.sending.sent = 1,
            |s, _| s.sending.last = 1,
            |_, t| t.tables[0].held = 2,
        ],
    );
}

// ---- the wrapper's methods

/// Numbers past their range are no number of a byte: their low byte isn't taken for one.
#[test]
fn methods_on_what_is_not_sound() {
    let mut state = eight_tables();
    state.store.layout_mut().tables[0].key_type = 256 + 2;
    assert_eq!(state.store.table(0).unwrap().key_type(), None);
    (0..2).for_each(|entry| state.store.layout_mut().entries[entry].timed = 2);
    assert!(state.store.entries().all(|e| e.remaining().is_none()));
    let record = state.session.layout_mut();
    (record.connection.closed, record.connection.number) = (1, 256 + 10);
    (record.connection.current, record.len) = (u32::MAX, usize::MAX);
    assert_eq!(state.session.closed_with(), None);
    assert_eq!(state.session.current(), Some(u32::MAX as usize - 1));
    assert_eq!(state.session.unfinished().len(), 1027);
    let sending = &mut state.session.layout_mut().sending;
    (sending.defined, sending.sent) = (usize::MAX, 256 + 1);
    assert_eq!(state.session.defined(), Some(usize::MAX - 1));
    assert_eq!(state.session.last_sent(), None);
}
