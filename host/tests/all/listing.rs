//! The listing's stream, whole and in every division into two pieces.

use crate::common::{listing, State, Told};
use peers::{Answer, Commit, DataType, KeyType, Value};
use std::time::Duration;

/// The listing's answers and replies.
fn expected() -> Vec<Told> {
    let update = |id, commit| Answer::Update {
        table: 0,
        id,
        entry: 0,
        commit,
    };
    let hello = Answer::Hello {
        process: 7,
        relative: 0,
    };
    vec![
        (hello, b"200\n".to_vec()),
        (Answer::Table { place: 0 }, vec![]),
        (
            update(u32::MAX, Commit::New),
            vec![0x0A, 0x84, 5, 1, 0xFF, 0xFF, 0xFF, 0xFF],
        ),
        (
            update(0, Commit::Replaced),
            vec![0x0A, 0x84, 5, 1, 0, 0, 0, 0],
        ),
        (Answer::Finished, vec![0, 3]),
    ]
}

fn listed() -> State {
    let mut state = State::answerer();
    assert_eq!(state.offer(&listing()), expected());
    state
}

#[test]
fn one_piece() {
    let state = listed();
    assert!(state.session.is_established());
    assert_eq!(state.session.closed_with(), None);
    assert_eq!(state.session.unfinished(), b"");
    assert_eq!(state.session.current(), Some(0));
    assert_eq!(state.session.bound_id(0), Some(1));
    assert_eq!(state.session.bound_id(1), None);
    assert_eq!(state.session.last_update(0), Some(0));
}

#[test]
fn the_store_afterwards() {
    let state = listed();
    let tables: Vec<_> = state.store.tables().collect();
    assert_eq!(tables.len(), 1);
    let table = tables[0];
    assert_eq!((table.place(), table.name()), (0, &b"t1"[..]));
    assert_eq!(table.key_type(), Some(KeyType::Integer));
    assert_eq!(table.key_len(), 4);
    assert_eq!(table.data_types().collect::<Vec<_>>(), [DataType::Gpc0]);
    assert_eq!(table.expiry(), Some(60000));
    let entries: Vec<_> = state.store.entries().collect();
    assert_eq!(entries.len(), 1);
    let entry = entries[0];
    assert_eq!((entry.place(), entry.key()), (0, &[0, 0, 0, 0x2A][..]));
    assert_eq!(entry.table().place(), 0);
    assert_eq!(entry.remaining(), Some(Duration::from_secs(60)));
    let values: Vec<_> = entry.values().collect();
    assert_eq!(values, [(DataType::Gpc0, Value::Number(5))]);
    assert_eq!(entry.value(DataType::Gpc1), None);
    assert_eq!(state.store.layout().counts, [1, 0, 0, 0, 0, 0, 0, 0]);
}

#[test]
fn every_division_into_two_pieces() {
    let bytes = listing();
    let whole = listed();
    for cut in 0..=bytes.len() {
        let mut state = State::answerer();
        let mut told = state.offer(&bytes[..cut]);
        told.extend(state.offer(&bytes[cut..]));
        assert_eq!(told, expected(), "cut at {cut}");
        assert_eq!(state, whole, "cut at {cut}");
    }
}

#[test]
fn byte_by_byte() {
    let mut state = State::answerer();
    let told: Vec<_> = listing()
        .iter()
        .flat_map(|&byte| state.offer(&[byte]))
        .collect();
    assert_eq!(told, expected());
    assert_eq!(state, listed());
}
