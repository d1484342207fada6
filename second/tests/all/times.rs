//! Timed updates and passing time.

use crate::common::{definition, free_entry, message, refused, refused_at, start_of_cut, timed};
use crate::common::{timed_update, update, Session};
use second::answer::{Answer, Commit};
use second::call::pass_time;
use second::record::Phase;
use second::sound::store_is_sound;
use second::store::{Entry, Store, ENTRIES};

const MAX: u32 = u32::MAX;
const SHAPE: [u64; 3] = [2, 4, 4];

/// A session with one table, with or without an expiry.
fn with_expiry(expiry: Option<u64>) -> Session {
    match expiry {
        None => Session::with_tables(&[&definition(1, b"t", SHAPE)]),
        Some(expiry) => Session::with_tables(&[&timed(1, b"t", SHAPE, &[expiry])]),
    }
}

/// The remaining times of the held entries, by place.
fn times(store: &Store) -> Vec<Option<u64>> {
    let entries = store.entries.iter().flatten();
    entries.map(|entry| entry.remaining).collect()
}

/// The answer of an update.
fn updated(id: u32, entry: usize, commit: Commit) -> Answer {
    Answer::Update {
        table: 0,
        id,
        entry,
        commit,
    }
}

#[test]
fn timed_updates_answer_and_acknowledge_as_updates() {
    let mut session = with_expiry(None);
    let body = timed_update(MAX, 0x01020304, b"kkkk", &[9]);
    let response = session.respond(&message(133, &body));
    assert_eq!(response.answer, updated(MAX, 0, Commit::New));
    assert_eq!(response.reply, [10, 132, 5, 1, 255, 255, 255, 255]);
    let expected = Entry::new(0, b"kkkk", vec![9]).lasting(Some(0x01020304));
    assert_eq!(session.entries(), [&expected]);
    let response = session.respond(&message(134, &body[4..]));
    assert_eq!(response.answer, updated(0, 0, Commit::Replaced));
    assert_eq!(response.reply, [10, 132, 5, 1, 0, 0, 0, 0]);
    assert_eq!(session.record.previous[0], Some(0));
    let response = session.respond(&message(129, &update(0, b"llll", &[9])[4..]));
    assert_eq!(response.answer, updated(1, 1, Commit::New));
}

#[test]
fn an_untimed_update_takes_the_expiry() {
    for expiry in [None, Some(0), Some(1), Some(60000), Some(u64::from(MAX))] {
        let mut session = with_expiry(expiry);
        session.one(128, &update(1, b"kkkk", &[9]));
        session.one(129, &update(0, b"llll", &[9])[4..]);
        assert_eq!(times(&session.store), [expiry, expiry]);
    }
}

#[test]
fn a_timed_update_is_not_held_to_the_expiry() {
    for expiry in [None, Some(0), Some(60000)] {
        for time in [0, 1, 59999, 60000, 60001, MAX] {
            let mut session = with_expiry(expiry);
            session.one(133, &timed_update(1, time, b"kkkk", &[9]));
            session.one(134, &timed_update(0, time, b"llll", &[9])[4..]);
            assert_eq!(times(&session.store), [Some(time.into()); 2]);
        }
    }
}

#[test]
fn a_replaced_entry_has_the_time_of_its_last_update() {
    for expiry in [None, Some(0), Some(60000)] {
        let mut session = with_expiry(expiry);
        session.one(133, &timed_update(1, 77, b"kkkk", &[9]));
        session.one(128, &update(2, b"kkkk", &[10]));
        assert_eq!(times(&session.store), [expiry]);
        session.one(133, &timed_update(1, 78, b"kkkk", &[9]));
        session.one(129, &update(0, b"kkkk", &[10])[4..]);
        assert_eq!(times(&session.store), [expiry]);
        session.one(134, &timed_update(0, 79, b"kkkk", &[9])[4..]);
        assert_eq!(times(&session.store), [Some(79)]);
    }
}

#[test]
fn a_definition_does_not_touch_entries() {
    let mut session = with_expiry(Some(60000));
    session.one(128, &update(1, b"aaaa", &[9]));
    session.one(130, &timed(1, b"t", SHAPE, &[5]));
    assert_eq!(times(&session.store), [Some(60000)]);
    session.one(128, &update(1, b"bbbb", &[9]));
    session.one(130, &definition(1, b"t", SHAPE));
    session.one(128, &update(1, b"cccc", &[9]));
    assert_eq!(times(&session.store), [Some(60000), Some(5), None]);
    session.one(128, &update(1, b"aaaa", &[9]));
    assert_eq!(times(&session.store), [None, Some(5), None]);
}

#[test]
fn the_remaining_time_is_a_field_in_wire_order() {
    let mut session = with_expiry(None);
    let body = timed_update(1, MAX, b"kkkk", &[2288]);
    for length in 0..body.len() {
        let start = start_of_cut(&[4, 4, 4, 3], length);
        let expected = refused_at(23, start);
        assert_eq!(session.would(133, &body[..length]), expected);
    }
    session.one(133, &body);
    for length in 0..body.len() - 4 {
        let start = start_of_cut(&[4, 4, 3], length);
        let expected = refused_at(23, start);
        assert_eq!(session.would(134, &body[4..4 + length]), expected);
    }
    let over = timed_update(1, MAX, b"kkkk", &[1 << 32]);
    assert_eq!(session.would(133, &over), refused_at(24, 12));
    assert_eq!(session.would(134, &over[4..]), refused_at(24, 8));
}

#[test]
fn string_keys_of_timed_updates() {
    let mut session = Session::with_tables(&[&definition(1, b"t", [6, 4, 0])]);
    let body = timed_update(1, 5, b"\x02ab", &[]);
    assert_eq!(session.one(133, &body), updated(1, 0, Commit::New));
    let long = timed_update(1, 5, b"\x05abcde", &[]);
    assert_eq!(session.would(133, &long), refused_at(24, 8));
    assert_eq!(session.would(134, &long[4..]), refused_at(24, 4));
    assert_eq!(session.would(133, &body[..10]), refused_at(23, 9));
    assert_eq!(session.would(134, &body[4..10]), refused_at(23, 5));
}

#[test]
fn order_of_timed_refusals() {
    for body in [&[][..], &[0; 3], &[0xFF; 30]] {
        let none = Session::open();
        assert_eq!(none.would(133, body), refused(27));
        assert_eq!(none.would(134, body), refused(27));
        let session = with_expiry(Some(5));
        assert_eq!(session.would(134, body), refused(28));
    }
    let mut full = with_expiry(None);
    for key in 0..ENTRIES as u32 {
        full.one(133, &timed_update(key, 7, &key.to_be_bytes(), &[1]));
    }
    let body = timed_update(1, 7, b"none", &[1]);
    assert_eq!(full.would(133, &body), refused(29));
    assert_eq!(full.would(134, &body[4..]), refused(29));
    assert_eq!(full.would(133, &body[..12]), refused_at(23, 12));
    let known = timed_update(1, 9, &[0; 4], &[1]);
    assert_eq!(full.would(133, &known), updated(1, 0, Commit::Replaced));
}

#[test]
fn a_refused_timed_update_leaves_the_rest() {
    let mut base = with_expiry(None);
    base.one(133, &timed_update(1, 7, b"kkkk", &[1]));
    let mut session = base.clone();
    session.one(133, &timed_update(2, 8, b"kkkk", &[1 << 32]));
    base.record.phase = Phase::Closed(24);
    assert_eq!(session, base);
}

#[test]
fn passing_time_at_the_boundary() {
    let all = [0, 1, 4, 5, 6, 60000, MAX - 1, MAX];
    for passed in [0, 1, 4, 5, 6, MAX - 1, MAX] {
        let mut session = with_expiry(None);
        session.one(128, &update(1, b"none", &[9]));
        for time in all {
            let body = timed_update(time, time, &time.to_be_bytes(), &[9]);
            session.one(133, &body);
        }
        let mut expected = session.clone();
        for (place, time) in all.into_iter().enumerate() {
            let left = time.checked_sub(passed).filter(|&left| left > 0);
            match (left, &mut expected.store.entries[place + 1]) {
                (Some(left), Some(entry)) => entry.remaining = Some(left.into()),
                _ => free_entry(&mut expected.store, place + 1),
            }
        }
        assert_eq!(pass_time(&mut session.store, passed), 0);
        assert_eq!(session, expected, "{passed}");
        assert!(store_is_sound(&session.store));
    }
}

#[test]
fn passing_twice_is_passing_the_sum() {
    let edges = [0, 1, 2, 5, 59999, 60000, 1 << 31, MAX - 1, MAX];
    let mut session = with_expiry(Some(60000));
    session.one(128, &update(1, b"kkkk", &[9]));
    for time in edges {
        let body = timed_update(time, time, &time.to_be_bytes(), &[9]);
        session.one(133, &body);
    }
    for one in edges {
        for other in edges {
            let Some(sum) = one.checked_add(other) else {
                continue;
            };
            let (mut twice, mut once) = (session.store.clone(), session.store.clone());
            pass_time(&mut twice, one);
            pass_time(&mut twice, other);
            pass_time(&mut once, sum);
            assert_eq!(twice, once, "{one} {other}");
        }
    }
}

#[test]
fn removed_places_are_used_again() {
    let mut session = with_expiry(None);
    for key in 0..6u32 {
        let time = [5, 100, 3, 100, 5, 100][key as usize];
        session.one(133, &timed_update(key, time, &key.to_be_bytes(), &[1]));
    }
    pass_time(&mut session.store, 5);
    let free = |session: &Session, n: usize| session.store.entries[n].is_none();
    let held: Vec<bool> = (0..6).map(|n| !free(&session, n)).collect();
    assert_eq!(held, [false, true, false, true, false, true]);
    for (id, entry) in [(6u32, 0), (7, 2), (8, 4), (9, 6)] {
        let body = update(0, &(100 + id).to_be_bytes(), &[1]);
        let answer = session.one(129, &body[4..]);
        assert_eq!(answer, updated(id, entry, Commit::New));
    }
    let again = session.one(129, &update(0, &0u32.to_be_bytes(), &[1])[4..]);
    assert_eq!(again, updated(10, 7, Commit::New));
}

#[test]
fn an_emptied_store_is_an_empty_one_with_its_tables() {
    let mut session = with_expiry(Some(5));
    let tables = session.store.clone();
    for key in 0..ENTRIES as u32 {
        session.one(128, &update(key, &key.to_be_bytes(), &[1]));
    }
    let record = session.record.clone();
    assert_eq!(pass_time(&mut session.store, 5), 0);
    assert_eq!(session.store, tables);
    assert_eq!(session.record, record);
}

#[test]
fn passing_time_on_an_unsound_store() {
    let mut session = with_expiry(Some(5));
    session.one(128, &update(1, b"kkkk", &[9]));
    session.store.tables[0].as_mut().unwrap().key_type = 3;
    let before = session.store.clone();
    for time in [0, 1, 5, MAX] {
        assert_eq!(pass_time(&mut session.store, time), 4);
        assert_eq!(session.store, before);
    }
}
