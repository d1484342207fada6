//! Texts of numbers, entries and tables, and the archive's version.

use crate::common::{define, refused, refused_at, update, State};
use peers::{archive_version, Answer, Commit, KeyType, Refusal, VERSION};

/// Lines of `texts.txt`, which the C test reads too.
fn texts() -> impl Iterator<Item = (u32, &'static str)> {
    let lines = include_str!("../../texts.txt").lines();
    lines.map(|line| {
        let (number, text) = line.split_once(' ').unwrap();
        (number.parse().unwrap(), text)
    })
}

#[test]
fn refusals() {
    let all: Vec<_> = Refusal::ALL.map(|r| (r.number().into(), r.text())).into();
    let told: Vec<_> = texts().filter(|(n, _)| (1..256).contains(n)).collect();
    assert_eq!(all, told);
    let full = refused(Refusal::Entries).to_string();
    assert_eq!(
        full,
        "refused with 29: a new key, and all entry places are held"
    );
    let range = refused_at(Refusal::Range, 4).to_string();
    assert_eq!(
        range,
        "refused with 24: a field overflows or is out of range (at offset 4 of the body)"
    );
}

#[test]
fn answers() {
    let commit = Commit::Replaced;
    let all = [
        (Answer::More, ""),
        (
            Answer::Hello {
                process: 7,
                relative: 0,
            },
            " (process 7, relative 0)",
        ),
        (Answer::Status, ""),
        (Answer::Request, ""),
        (Answer::Finished, ""),
        (Answer::Partial, ""),
        (Answer::Confirmed, ""),
        (Answer::Heartbeat, ""),
        (Answer::Error { kind: 1 }, " (type 1)"),
        (Answer::Table { place: 3 }, " (place 3)"),
        (Answer::Switch { place: 3 }, " (place 3)"),
        (
            Answer::Update {
                table: 1,
                id: 9,
                entry: 5,
                commit,
            },
            " (table 1, update 9, entry 5, replaced)",
        ),
        (
            Answer::Acknowledgement { id: 4, update: 9 },
            " (table ID 4, update 9)",
        ),
        (Answer::Skipped { kind: 200 }, " (type 200)"),
    ];
    let told: Vec<_> = texts().filter(|(n, _)| *n > 255).collect();
    assert_eq!(told.len(), all.len());
    for ((answer, values), (_, text)) in all.iter().zip(told) {
        assert_eq!(answer.to_string(), format!("{text}{values}"));
    }
}

#[test]
fn an_entry_shows_its_key_and_present_values() {
    let mut state = State::established();
    state.accept(&[
        define(1, b"t", KeyType::Integer, 4, 0b1100, &[60_000, 3, 1000]),
        update(1, &[0, 0, 0, 42], &[5, 1, 2, 3]),
    ]);
    let entry = state.store.entry(0).unwrap();
    let expected = "Entry { place: 0, table: t, key: [00, 00, 00, 2A], remaining: Some(60s), \
        values: {gpc0: Number(5), gpc0_rate: Rate { elapsed: 1, current: 2, previous: 3 }} }";
    assert_eq!(format!("{entry:?}"), expected);
    let expected = "Table { place: 0, name: t, key_type: Some(Integer), key_len: 4, \
        data_types: [\"gpc0\", \"gpc0_rate\"], expiry: Some(60000), periods: {gpc0_rate: 1000} }";
    assert_eq!(format!("{:?}", entry.table()), expected);
}

#[test]
fn version() {
    assert_eq!(archive_version(), VERSION);
}
