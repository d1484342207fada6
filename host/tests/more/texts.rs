//! Texts of numbers, entries and tables, and the archive's version.

use crate::common::{define, update, State};
use peers::{Closed, KeyType, Refusal};

/// Lines of `texts.txt`, which the C test reads too.
fn texts() -> impl Iterator<Item = (u32, &'static str)> {
    let lines = include_str!("../../texts.txt").lines();
    lines.map(|line| {
        let (number, text) = line.split_once(' ').unwrap();
        (number.parse().unwrap(), text)
    })
}

#[test]
fn what_closed_a_session() {
    let told = texts().find(|(number, _)| *number == 0);
    assert_eq!(told, Some((0, &*Closed::PeerError.to_string())));
    let refusal = Refusal::Entries;
    assert_eq!(Closed::Refused(refusal).to_string(), refusal.to_string());
}

/// Neither the record's buffer nor free places are shown.
#[test]
fn a_session_and_the_structs_in_short() {
    let mut state = State::established();
    assert_eq!(state.offer(&[10, 200]), []);
    let expected = "Session { local: east, remote: west, established: true, closed_by: None, \
        current: None, unfinished: 2, defined: None, last_sent: None }";
    assert_eq!(format!("{:?}", state.session), expected);
    let record = format!("{:?}", state.session.layout());
    assert!(
        record.contains("len: 2, buffer: [10, 200], sending"),
        "{record}"
    );
    assert!(record.len() < 2000, "{}", record.len());
    let store = format!("{:?}", state.store.layout());
    let empty = "Store { tables: {}, counts: [0, 0, 0, 0, 0, 0, 0, 0], entries: {} }";
    assert_eq!(store, empty);
    state = State::established();
    state.accept(&[
        define(1, b"t", KeyType::Integer, 4, 0, &[]),
        update(1, b"keyt", &[]),
    ]);
    let store = format!("{:?}", state.store.layout());
    for held in [
        "tables: {0: Table { held: 1,",
        "entries: {0: Entry { held: 1,",
    ] {
        assert!(store.contains(held), "{store}");
    }
    assert!(store.len() < 2000, "{}", store.len());
}
