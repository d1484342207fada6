//! Freeing entries and tables between calls.

use crate::common::{define, message, refused, timed_update, update, State, FREE, HELLO};
use peers::{Answer, Commit, DataType, KeyType, Part, Refusal, Session, Value};

/// An established record with table `t` at place 0, and one entry.
fn one_entry() -> State {
    let mut state = State::established();
    state.accept(&[
        define(1, b"t", KeyType::Integer, 4, 4, &[]),
        update(1, b"keyt", &[5]),
    ]);
    state
}

/// An incremental update of the entry's key.
fn incremental() -> Vec<u8> {
    message(129, b"keyt\x09")
}

/// A new session of the peer on the same store.
fn reconnect(state: &mut State) {
    state.session = Session::answerer(b"east", b"west").unwrap();
    assert_eq!(state.offer(HELLO).len(), 1);
}

#[test]
fn an_entry() {
    let mut state = one_entry();
    assert!(state.store.free_entry(0));
    assert!(!state.store.free_entry(0) && !state.store.free_entry(128));
    assert_eq!(state.store.entries().count(), 0);
    assert_eq!(state.store.entries_of(0), 0);
    let told = state.offer(&incremental());
    let committed = Answer::Update {
        table: 0,
        id: 2,
        entry: 0,
        commit: Commit::New,
    };
    assert_eq!(told[0].0, committed);
    let entry = state.store.entry(0).unwrap();
    assert_eq!(entry.value(DataType::Gpc0), Some(Value::Number(9)));
    assert_eq!(state.store.entries_of(0), 1);
}

/// Reading and passing time are refused with 4, and change nothing.
fn is_refused(state: &mut State) {
    let before = state.clone();
    let (taken, told) = state.call(&incremental());
    assert_eq!((taken, told), (0, (refused(Refusal::Unsound), vec![])));
    assert_eq!(state.pass(u32::MAX), Err(Refusal::Unsound));
    assert!(*state == before);
}

/// A count that the host left, or lowered twice, is refused until it is right; then reading goes on.
#[test]
fn an_entry_without_its_count() {
    let mut state = one_entry();
    state.accept(&[update(2, b"keyu", &[5])]);
    state.store.layout_mut().entries[0].held = 0;
    is_refused(&mut state);
    state.store.layout_mut().counts[0] = 0;
    is_refused(&mut state);
    // a count that was off stays off
    assert!(state.store.free_entry(1));
    is_refused(&mut state);
    state.store.layout_mut().counts[0] = 0;
    assert_eq!(state.pass(0), Ok(()));
    let told = state.offer(&incremental());
    assert!(matches!(told[0].0, Answer::Update { entry: 0, .. }));
    assert_eq!(state.store.entries_of(0), 1);
}

/// A table that goes with its entries, but without its count.
#[test]
fn a_table_without_its_count() {
    let mut state = one_entry();
    state.session = Session::answerer(b"east", b"west").unwrap();
    let store = state.store.layout_mut();
    (store.tables[0].held, store.entries[0].held) = (0, 0);
    is_refused(&mut state);
    state.store.layout_mut().counts[0] = 0;
    assert_eq!(state.pass(0), Ok(()));
    assert_eq!(state.offer(HELLO).len(), 1);
}

/// A place that the host frees keeps what it held; one that time frees is an empty store's.
#[test]
fn an_entry_by_the_host_and_one_by_time() {
    let mut state = one_entry();
    state.accept(&[
        timed_update(2, 7, b"keyu", &[5]),
        timed_update(3, 8, b"keyv", &[5]),
    ]);
    let freed = state.store.layout().entries[2];
    assert!(state.store.free_entry(2));
    assert_eq!(state.store.entries_of(0), 2);
    assert_eq!(state.pass(7), Ok(()));
    assert_eq!(state.store.entries_of(0), 1);
    let entries = &state.store.layout().entries;
    assert_eq!((entries[0].held, entries[1]), (1, FREE));
    assert_eq!(entries[2], peers::layout::Entry { held: 0, ..freed });
    state.accept(&[update(4, b"keyw", &[5]), update(5, b"keyx", &[5])]);
    let keys: Vec<_> = state.store.entries().map(|e| e.key()).collect();
    assert_eq!(keys, [b"keyt", b"keyw", b"keyx"]);
    assert!(state.store.entries().all(|e| e.remaining().is_none()));
}

#[test]
fn a_table_that_a_record_uses() {
    let mut state = one_entry();
    assert!(state.session.uses(0) && !state.session.uses(1));
    assert!(state.store.free_table(0));
    assert!(!state.store.free_table(0) && !state.store.free_table(8));
    // while the place is free every call is refused
    let (taken, told) = state.call(&incremental());
    assert_eq!((taken, told.0), (0, refused(Refusal::Unsound)));
    // once it is taken the update goes to the wrong table, and is acknowledged
    let old = state.session.clone();
    reconnect(&mut state);
    state.accept(&[define(7, b"other", KeyType::Integer, 4, 4, &[])]);
    state.session = old;
    let told = state.offer(&incremental());
    assert_eq!(told[0].1, [10, 132, 5, 1, 0, 0, 0, 2]);
    assert_eq!(state.store.entry(0).unwrap().table().name(), b"other");
}

/// A record that defined the table last, and neither bound nor updated it.
#[test]
fn a_table_that_a_record_defined_last() {
    let mut state = one_entry();
    reconnect(&mut state);
    assert!(!state.session.uses(0));
    assert!(state.send(Part::Table(0), 7).is_ok());
    assert!(state.session.uses(0) && !state.session.uses(1));
    let mut closed = state.clone();
    closed.offer(&[1, 0]);
    assert!(!closed.session.uses(0));
    // while the place is free every call is refused
    assert!(state.store.free_table(0));
    assert_eq!(state.call(&[0, 4]).1 .0, refused(Refusal::Unsound));
    for part in [Part::Table(0), Part::Entry(0)] {
        assert_eq!(state.send(part, 8), Err(Refusal::Unsound));
    }
    // once it is taken the other table's entries go to the peer as those of the table that it was told of
    let old = state.session.clone();
    reconnect(&mut state);
    state.accept(&[
        define(7, b"other", KeyType::Integer, 4, 4, &[]),
        update(1, b"keyo", &[5]),
    ]);
    state.session = old;
    let sent = state.send(Part::Entry(0), 8);
    assert_eq!(sent, Ok(update(8, b"keyo", &[5])));
}

#[test]
fn a_table_that_no_record_uses() {
    let mut state = one_entry();
    state.accept(&[
        define(2, b"u", KeyType::Integer, 4, 4, &[]),
        update(1, b"keyu", &[6]),
    ]);
    reconnect(&mut state);
    assert!(!state.session.uses(0) && !state.session.uses(1));
    assert!(state.store.free_table(0));
    let names: Vec<_> = state.store.entries().map(|e| e.table().name()).collect();
    assert_eq!(names, [b"u"]);
    assert_eq!(state.store.layout().counts, [0, 1, 0, 0, 0, 0, 0, 0]);
    state.accept(&[
        define(1, b"v", KeyType::Integer, 4, 4, &[]),
        update(1, b"keyt", &[5]),
        define(2, b"u", KeyType::Integer, 4, 4, &[]),
    ]);
    let places: Vec<_> = state
        .store
        .tables()
        .map(|t| (t.place(), t.name()))
        .collect();
    assert_eq!(places, [(0, &b"v"[..]), (1, b"u")]);
    assert_eq!(state.store.layout().counts, [1, 1, 0, 0, 0, 0, 0, 0]);
}
