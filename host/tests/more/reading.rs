//! Every answer, every refusal, and every data type of an entry.

use crate::common::{define, State, FILL, HELLO};
use peers::{ffi, DataType, KeyType};

/// Each number of a record, which is open, closed, or has a mark that isn't one.
#[test]
fn what_closed_a_session() {
    let mut session = State::answerer().session;
    for number in (0..300).chain([256 + 20, (1 << 16) + 20, 1 << 31, u32::MAX]) {
        for mark in [0, 1, 2] {
            let connection = &mut session.layout_mut().connection;
            (connection.closed, connection.number) = (mark, number);
            let closes = mark == 1 && matches!(number, 0 | 1 | 3 | 10..=15 | 20..=30);
            let closed = session.closed_by().map(|closed| closed.number().into());
            assert_eq!(closed, closes.then_some(number), "{mark} {number}");
        }
    }
}

/// A definition without times leaves a table without periods, though it has rates.
#[test]
fn rates_without_periods() {
    let mut state = State::established();
    for (times, expected) in [(&[60_000, 3, 1000][..], Some(1000)), (&[], None)] {
        state.accept(&[define(1, b"t", KeyType::Integer, 4, 8, times)]);
        let table = state.store.table(0).unwrap();
        assert!(table.has(DataType::Gpc0Rate) && !table.has(DataType::ConnRate));
        assert_eq!(table.period(DataType::Gpc0Rate), expected);
        assert_eq!(table.period(DataType::ConnRate), None);
        assert_eq!(table.periods().count(), expected.iter().count());
        assert_eq!(table.expiry().is_some(), expected.is_some());
    }
}

/// A table is found by its whole name.
#[test]
fn tables_by_name() {
    let state = with_tables(&[b"table", b"t", b"ta", b"T"]);
    for (name, place) in [(&b"table"[..], 0), (b"t", 1), (b"ta", 2), (b"T", 3)] {
        assert_eq!(
            state.store.named(name).map(|table| table.place()),
            Some(place)
        );
    }
    for name in [&b""[..], b"tab", b"table2", b"TA", b"t\0"] {
        assert!(state.store.named(name).is_none(), "{name:?}");
    }
}

/// A session with these tables of integer keys, with IDs from 0 on.
fn with_tables(names: &[&[u8]]) -> State {
    let mut state = State::established();
    for (id, name) in (0..).zip(names) {
        state.accept(&[define(id, name, KeyType::Integer, 4, 4, &[])]);
    }
    state
}

/// Room that is too short, and more than is needed.
#[test]
fn other_rooms() {
    for (len, number, reply) in [(0, 1, &b""[..]), (11, 1, b""), (15, 257, b"200\n")] {
        let mut state = State::answerer();
        let before = state.clone();
        let mut room = vec![FILL; len];
        let (session, store) = (state.session.layout_mut(), state.store.layout_mut());
        let outcome = ffi::read(session, store, HELLO, &mut room);
        assert_eq!((outcome.number, outcome.reply_len), (number, reply.len()));
        let rest = vec![FILL; len - reply.len()];
        assert_eq!(room, [reply, &rest[..]].concat());
        assert_eq!(state == before, number == 1);
    }
}
