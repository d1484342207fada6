//! The counts of entries by table.

use crate::common::{definition, refused, refused_at, timed_update, update, Session};
use second::answer::Answer;
use second::call::{pass_time, read};
use second::store::{Store, ENTRIES};

/// Tables `a` to `d` with IDs 0 to 3; `a` is current.
fn four_tables() -> Session {
    let tables = [b"a", b"b", b"c", b"d"];
    let mut session = Session::open();
    for (id, name) in tables.into_iter().enumerate() {
        session.one(130, &definition(id as u64, name, [2, 4, 0]));
    }
    session.one(131, &[0]);
    session
}

/// A timed update of a number as the key.
fn put(session: &mut Session, table: u8, key: u32, time: u32) -> Answer {
    session.one(131, &[table]);
    session.one(133, &timed_update(key, time, &key.to_be_bytes(), &[]))
}

#[test]
fn an_empty_store_has_zeros() {
    assert_eq!(Store::new().counts, [0; 8]);
    assert_eq!(four_tables().store.counts, [0; 8]);
}

#[test]
fn a_new_entry_adds_one() {
    let mut session = four_tables();
    for (n, table) in [0, 3, 0, 1, 0].into_iter().enumerate() {
        put(&mut session, table, n as u32, 9);
    }
    assert_eq!(session.store.counts, [3, 1, 0, 1, 0, 0, 0, 0]);
    session.one(128, &update(1, b"next", &[]));
    session.one(129, b"last");
    session.one(134, b"\0\0\0\0more");
    assert_eq!(session.store.counts, [6, 1, 0, 1, 0, 0, 0, 0]);
}

#[test]
fn replacing_and_refused_messages_leave_the_counts() {
    let mut session = four_tables();
    put(&mut session, 1, 7, 9);
    put(&mut session, 0, 7, 9);
    let counts = session.store.counts;
    put(&mut session, 0, 7, 5);
    put(&mut session, 1, 7, 5);
    assert_eq!(session.store.counts, counts);
    session.one(130, &definition(0, b"a", [2, 4, 0]));
    session.one(130, &definition(7, b"e", [2, 4, 0]));
    assert_eq!(session.store.counts, counts);
    assert_eq!(session.one(128, &[0, 0, 0, 1, 2]), refused_at(23, 4));
    assert_eq!(session.store.counts, counts);
}

#[test]
fn one_table_may_have_all_entries() {
    let mut session = four_tables();
    for key in 0..ENTRIES as u32 {
        put(&mut session, 2, key, key);
        assert_eq!(session.store.counts[2], u64::from(key) + 1);
    }
    assert_eq!(put(&mut session, 2, 500, 1), refused(29));
    assert_eq!(session.store.counts, [0, 0, 128, 0, 0, 0, 0, 0]);
    pass_time(&mut session.store, 99);
    assert_eq!(session.store.counts, [0, 0, 28, 0, 0, 0, 0, 0]);
    pass_time(&mut session.store, u32::MAX);
    assert_eq!(session.store.counts, [0; 8]);
}

#[test]
fn passing_time_lowers_the_counts_of_the_removed() {
    let mut session = four_tables();
    for key in 0..24 {
        put(&mut session, (key % 4) as u8, key, key / 4);
    }
    assert_eq!(session.store.counts, [6, 6, 6, 6, 0, 0, 0, 0]);
    session.one(131, &[1]);
    session.one(128, &update(1, b"none", &[]));
    for left in (0..6).rev() {
        assert_eq!(pass_time(&mut session.store, u32::from(left != 5)), 0);
        let expected = [left, left + 1, left, left, 0, 0, 0, 0];
        assert_eq!(session.store.counts, expected);
    }
}

#[test]
fn a_store_whose_counts_are_off_is_refused() {
    let mut base = four_tables();
    put(&mut base, 0, 1, 5);
    for (place, count) in [(0, 0), (0, 2), (1, 1), (7, 1), (0, u64::MAX)] {
        let mut session = base.clone();
        session.store.counts[place] = count;
        let before = session.clone();
        let mut room = [0; 12];
        let outcome = read(&mut session.record, &mut session.store, &[0, 4], &mut room);
        assert_eq!(outcome.answer, refused(4));
        assert_eq!((outcome.taken, outcome.reply), (0, 0));
        assert_eq!(pass_time(&mut session.store, 9), 4);
        assert_eq!(session, before);
    }
}
