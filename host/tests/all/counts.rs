//! The counts of entries by table: what each kind of call does to them. That they are what walking finds, every call of these tests checks.

use crate::common::{define, message, refused, timed_update, update, State};
use peers::{Answer, KeyType, Refusal, Store};

/// Tables `a` to `d` at places 0 to 3, with IDs 0 to 3; the last is current.
fn four_tables() -> State {
    let mut state = State::established();
    for (id, name) in (0..).zip([b"a", b"b", b"c", b"d"]) {
        state.accept(&[define(id, name, KeyType::Integer, 4, 0, &[])]);
    }
    state
}

/// A timed update of a number as the key in a table.
fn put(state: &mut State, table: u8, key: u32, time: u32) {
    state.accept(&[
        message(131, &[table]),
        timed_update(key, time, &key.to_be_bytes(), &[]),
    ]);
}

/// The counts of the first four tables; the others have none, and so has a place past them.
fn counts(state: &State) -> [u32; 4] {
    let none = [4, 5, 6, 7, 8, usize::MAX].map(|place| state.store.entries_of(place));
    assert_eq!(none, [0; 6]);
    let counts = [0, 1, 2, 3].map(|place| state.store.entries_of(place));
    let held = state.store.entries().count();
    assert_eq!(counts.iter().sum::<u32>() as usize, held);
    counts
}

#[test]
fn an_empty_store_has_zeros() {
    assert_eq!(Store::boxed().layout().counts, [0; 8]);
    assert_eq!(counts(&four_tables()), [0; 4]);
}

#[test]
fn a_new_entry_adds_one_and_a_replaced_one_none() {
    let mut state = four_tables();
    for (table, key, expected) in [
        (0, 1, [1, 0, 0, 0]),
        (3, 1, [1, 0, 0, 1]),
        (0, 2, [2, 0, 0, 1]),
        (0, 1, [2, 0, 0, 1]),
        (3, 1, [2, 0, 0, 1]),
    ] {
        put(&mut state, table, key, 9);
        assert_eq!(counts(&state), expected);
    }
    // each other form, new in the first round and replaced in the second
    for expected in [[2, 3, 4], [4; 3]] {
        let forms = [
            update(7, b"key1", &[]),
            message(129, b"key2"),
            message(134, b"\0\0\0\x05key3"),
        ];
        for (form, expected) in forms.into_iter().zip(expected) {
            state.accept(&[form]);
            assert_eq!(counts(&state), [2, 0, 0, expected]);
        }
    }
}

#[test]
fn other_messages_leave_them() {
    let mut base = four_tables();
    for (table, key) in [(2, 1), (2, 2), (0, 1)] {
        put(&mut base, table, key, 9);
    }
    for (bytes, number) in [
        (define(0, b"a", KeyType::Integer, 4, 0, &[]), None),
        (define(7, b"e", KeyType::Integer, 4, 0, &[]), None),
        (message(131, &[1]), None),
        (message(132, &[1, 0, 0, 0, 1]), None),
        (message(200, b""), None),
        (vec![0, 4], None),
        (vec![1, 0], Some(0)),
        (vec![0, 5], Some(20)),
        (vec![10, 128, 0xF1, 0x31], Some(22)),
        (message(128, b"\0\0\0\x01key"), Some(23)),
        (message(130, b"\0\x01a\x03"), Some(24)),
        (define(0, b"a", KeyType::Ipv4, 4, 0, &[]), Some(25)),
        (message(131, &[9]), Some(27)),
        (message(130, b"\0\x01 "), Some(30)),
    ] {
        let mut state = base.clone();
        assert_eq!(state.offer(&bytes).len(), 1);
        assert_eq!(state.session.closed_with(), number, "{bytes:?}");
        assert_eq!(counts(&state), [1, 0, 2, 0]);
        state.offer(&[1, 0]);
        assert_eq!(state.call(&[0, 4]).1 .0, refused(Refusal::Closed));
        assert_eq!(counts(&state), [1, 0, 2, 0]);
    }
}

#[test]
fn one_table_may_have_all_entries() {
    let mut state = four_tables();
    for key in 0..128 {
        put(&mut state, 2, key, key);
        assert_eq!(counts(&state), [0, 0, key + 1, 0]);
    }
    let full = state.offer(&update(1, b"none", &[]));
    assert_eq!(full[0].0, refused(Refusal::Entries));
    assert_eq!(counts(&state), [0, 0, 128, 0]);
    assert_eq!((state.pass(99), counts(&state)), (Ok(()), [0, 0, 28, 0]));
    assert_eq!((state.pass(u32::MAX), counts(&state)), (Ok(()), [0; 4]));
}

#[test]
fn time_takes_one_off_for_each_entry_that_it_frees() {
    let mut state = four_tables();
    for key in 0..24 {
        put(&mut state, (key % 4) as u8, key, key / 4);
    }
    state.accept(&[update(1, b"none", &[])]);
    assert_eq!(counts(&state), [6, 6, 6, 7]);
    for left in (0..6).rev() {
        assert_eq!(state.pass(u32::from(left < 5)), Ok(()));
        assert_eq!(counts(&state), [left, left, left, left + 1]);
    }
    // a freed place counts again when it is taken
    state.accept(&[message(131, &[1])]);
    let told = state.offer(&update(1, b"next", &[]));
    assert!(matches!(
        told[0].0,
        Answer::Update {
            table: 1,
            entry: 0,
            ..
        }
    ));
    assert_eq!(counts(&state), [0, 1, 0, 1]);
}
