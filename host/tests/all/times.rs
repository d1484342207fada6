//! Timed updates, the times that untimed ones take, and time that passes.

use crate::common::{define, message, refused, timed_update, update, State, FREE, HELLO};
use peers::{Answer, Commit, KeyType, Refusal, Session};
use std::time::Duration;

const MAX: u32 = u32::MAX;

/// Times next to the limits, to an expiry of 60,000 and to 2^31.
const EDGES: [u32; 10] = [
    0,
    1,
    2,
    59_999,
    60_000,
    60_001,
    (1 << 31) - 1,
    1 << 31,
    MAX - 1,
    MAX,
];

/// The types of updates.
const KINDS: [u8; 4] = [128, 129, 133, 134];

/// A session with a table of integers, with an expiry or without; key 0 is held with the expiry.
fn with_expiry(expiry: Option<u32>) -> State {
    let mut state = State::established();
    state.accept(&[definition(expiry), update(0, &[0; 4], &[5])]);
    state
}

fn definition(expiry: Option<u32>) -> Vec<u8> {
    let times: Vec<u64> = expiry.into_iter().map(u64::from).collect();
    define(1, b"t", KeyType::Integer, 4, 4, &times)
}

/// An update of a key by a message of this type, whose ID is the key if it has one.
fn update_by(kind: u8, time: u32, key: u32) -> Vec<u8> {
    let timed = timed_update(key, time, &key.to_be_bytes(), &[5]);
    let body = &timed[3..];
    match kind {
        128 => update(key, &key.to_be_bytes(), &[5]),
        129 => message(129, &body[8..]),
        133 => timed,
        _ => message(134, &body[4..]),
    }
}

/// The answer to an update.
fn told(state: &mut State, bytes: &[u8]) -> (usize, Commit) {
    match state.offer(bytes)[..] {
        [(Answer::Update { entry, commit, .. }, ref reply)] => {
            assert_eq!(reply[..4], [10, 132, 5, 1]);
            (entry, commit)
        }
        ref other => panic!("{other:?}"),
    }
}

/// The remaining milliseconds of the held entries.
fn times(state: &State) -> Vec<Option<u128>> {
    let entries = state.store.entries();
    entries
        .map(|e| e.remaining().map(|time| time.as_millis()))
        .collect()
}

#[test]
fn the_last_update_counts() {
    for expiry in [None, Some(0), Some(60_000), Some(MAX)] {
        for (kind, other) in KINDS
            .iter()
            .flat_map(|a| KINDS.iter().map(move |b| (*a, *b)))
        {
            for time in EDGES {
                let mut state = with_expiry(expiry);
                for (kind, commit) in [(kind, Commit::New), (other, Commit::Replaced)] {
                    let expected = if kind < 133 { expiry } else { Some(time) };
                    assert_eq!(told(&mut state, &update_by(kind, time, 1)), (1, commit));
                    let both = [expiry, expected].map(|time| time.map(u128::from));
                    assert_eq!(times(&state), both);
                }
            }
        }
    }
}

#[test]
fn a_timed_update_is_acknowledged_and_counted() {
    let mut state = with_expiry(None);
    let expected = |id, entry, commit| Answer::Update {
        table: 0,
        id,
        entry,
        commit,
    };
    let told = state.offer(&update_by(133, 5, MAX));
    let reply = vec![10, 132, 5, 1, 0xFF, 0xFF, 0xFF, 0xFF];
    assert_eq!(told, [(expected(MAX, 1, Commit::New), reply)]);
    let told = state.offer(&update_by(134, 5, 7));
    let reply = vec![10, 132, 5, 1, 0, 0, 0, 0];
    assert_eq!(told, [(expected(0, 2, Commit::New), reply)]);
    assert_eq!(state.session.last_update(0), Some(0));
}

#[test]
fn a_later_definition_leaves_entries() {
    let mut state = with_expiry(Some(5));
    state.accept(&[definition(Some(7))]);
    assert_eq!(times(&state), [Some(5)]);
    state.accept(&[update_by(129, 0, 1), definition(None)]);
    assert_eq!(times(&state), [Some(5), Some(7)]);
    state.accept(&[update_by(129, 0, 0)]);
    assert_eq!(times(&state), [None, Some(7)]);
    let entry = state.store.layout().entries[0];
    assert_eq!((entry.timed, entry.remaining), (0, 0));
}

#[test]
fn refusals() {
    for kind in [133, 134] {
        let mut state = State::established();
        let told = state.offer(&message(kind, b""));
        assert_eq!(told[0].0, refused(Refusal::Unbound));
        let mut state = with_expiry(None);
        state.accept(
            &(1..128)
                .map(|key| update_by(133, 7, key))
                .collect::<Vec<_>>(),
        );
        let told = state.offer(&update_by(kind, 7, 128));
        assert_eq!(told, [(refused(Refusal::Entries), vec![1, 1])]);
    }
    let mut state = State::established();
    state.accept(&[definition(None)]);
    let told = state.offer(&message(134, b""));
    assert_eq!(told[0].0, refused(Refusal::Previous));
}

#[test]
fn types_from_135_are_skipped() {
    let mut state = State::established();
    for kind in 135..=255 {
        let told = state.offer(&message(kind, b"x"));
        assert_eq!(told, [(Answer::Skipped { kind }, vec![])]);
    }
}

/// One entry of each time and one without.
fn all_times() -> State {
    let mut state = with_expiry(None);
    let keys = EDGES.iter().zip(1..);
    state.accept(
        &keys
            .map(|(&time, key)| update_by(133, time, key))
            .collect::<Vec<_>>(),
    );
    state
}

#[test]
fn at_most_the_time_that_passes() {
    for passed in EDGES {
        let mut state = all_times();
        let session = state.session.clone();
        assert_eq!(state.pass(passed), Ok(()));
        assert_eq!(state.session, session);
        let entries = &state.store.layout().entries;
        assert_eq!((entries[0].held, entries[0].timed), (1, 0));
        for (place, time) in (1..).zip(EDGES) {
            match time <= passed {
                true => assert_eq!(entries[place], FREE),
                false => assert_eq!(entries[place].remaining, time - passed),
            }
        }
    }
}

#[test]
fn twice_is_the_sum() {
    let base = all_times();
    for (a, b) in EDGES
        .iter()
        .flat_map(|a| EDGES.iter().map(move |b| (*a, *b)))
    {
        let Some(sum) = a.checked_add(b) else {
            continue;
        };
        let (mut twice, mut once) = (base.clone(), base.clone());
        assert_eq!(
            (twice.pass(a), twice.pass(b), once.pass(sum)),
            (Ok(()), Ok(()), Ok(()))
        );
        assert!(twice == once, "{a} and {b}");
    }
}

/// Whole milliseconds count, and a time that doesn't fit passes as much as two calls that do.
#[test]
fn any_duration() {
    let base = all_times();
    let most = Duration::from_millis(MAX.into());
    let passed = |time: Duration| {
        let mut state = base.clone();
        assert_eq!(state.store.pass_time(time), Ok(()));
        state
    };
    let mut one = base.clone();
    assert_eq!(one.pass(1), Ok(()));
    let under_two = Duration::from_micros(1999);
    assert!(passed(under_two) == one && passed(Duration::from_millis(1)) == one);
    assert!(passed(Duration::from_micros(999)) == passed(Duration::ZERO));
    let mut all = base.clone();
    assert_eq!((all.pass(MAX), all.pass(1)), (Ok(()), Ok(())));
    for time in [
        most,
        most + Duration::from_millis(1),
        2 * most,
        Duration::MAX,
    ] {
        assert!(passed(time) == all, "{time:?}");
    }
    assert_eq!(times(&all), [None]);
}

#[test]
fn freed_places_are_taken_again() {
    let mut state = State::established();
    state.accept(&[definition(None)]);
    let freed = [0, 63, 64, 127];
    for key in 0..128 {
        let time = if freed.contains(&key) { 5 } else { 6 };
        state.accept(&[update_by(133, time, key)]);
    }
    assert_eq!((state.pass(4), state.pass(1)), (Ok(()), Ok(())));
    for (place, key) in freed.into_iter().zip(200..) {
        let (entry, commit) = told(&mut state, &update_by(134, 9, key));
        assert_eq!((entry, commit), (place as usize, Commit::New));
    }
    let full = state.clone().offer(&update_by(133, 9, 300));
    assert_eq!(full[0].0, refused(Refusal::Entries));
    // a key whose entry was freed is new
    assert_eq!(state.pass(1), Ok(()));
    assert_eq!(told(&mut state, &update_by(129, 0, 77)), (1, Commit::New));
    assert_eq!(state.pass(MAX), Ok(()));
    assert_eq!(times(&state), [None]);
}

/// In the handshake, inside a message, on a closed session, and with the next session of the peer.
#[test]
fn in_every_phase() {
    let mut state = State::answerer();
    assert_eq!(state.pass(5), Ok(()));
    assert_eq!(state.offer(HELLO).len(), 1);
    state.accept(&[definition(Some(3))]);
    let bytes = update_by(133, 3, 1);
    for cut in 1..bytes.len() {
        let mut state = state.clone();
        assert_eq!(told(&mut state, &update_by(128, 0, 1)), (0, Commit::New));
        assert_eq!(state.offer(&bytes[..cut]), []);
        // the entry is freed inside the message that would have replaced it
        assert_eq!(state.pass(3), Ok(()));
        assert_eq!(told(&mut state, &bytes[cut..]), (0, Commit::New));
        assert_eq!(times(&state), [Some(3)]);
    }
    state.accept(&[update_by(128, 0, 1)]);
    state.offer(&[1, 0]);
    assert_eq!((state.pass(2), times(&state)), (Ok(()), vec![Some(1)]));
    state.session = Session::answerer(b"east", b"west").unwrap();
    assert_eq!((state.pass(1), times(&state)), (Ok(()), vec![]));
    assert_eq!(state.store.tables().count(), 1);
}

/// A table without expiry on a balancer has expiry 0: its entries go with the next tick, even with one of no time.
#[test]
fn an_expiry_of_zero() {
    let mut state = with_expiry(Some(0));
    state.accept(&[update_by(133, 1, 1)]);
    assert_eq!(times(&state), [Some(0), Some(1)]);
    assert_eq!(state.pass(0), Ok(()));
    assert_eq!(times(&state), [Some(1)]);
    assert_eq!(state.store.entry(1).map(|e| e.place()), Some(1));
}
