//! A whole store taught to a second session.

use crate::common::{define, int, message, timed_update, update, Random, State};
use peers::{ids_from, Answer, Commit, DataType, KeyType, Part, Refusal, Store, Value};

/// All data types.
const ALL: u32 = 0x7_FFFF;

/// Tables `a` and `b` at places 0 and 1, whose entries come by turns.
fn by_turns() -> State {
    let mut state = State::established();
    state.accept(&[
        define(7, b"a", KeyType::Integer, 4, 4, &[]),
        define(8, b"b", KeyType::String, 9, 0, &[60_000]),
    ]);
    for turn in 0..3 {
        state.accept(&[
            message(131, &[7]),
            update(turn, &turn.to_be_bytes(), &[turn.into()]),
            message(131, &[8]),
            timed_update(turn, 9, &[1, turn as u8], &[]),
        ]);
    }
    state
}

/// A whole store's messages.
fn whole_store(state: &mut State, ids: impl FnMut(Part) -> u32) -> Vec<Vec<u8>> {
    let sent: Result<_, _> = state.session.teach(&state.store, ids).collect();
    sent.expect("nothing is refused")
}

#[test]
fn each_table_and_then_its_entries() {
    let mut state = by_turns();
    let parts = [
        Part::Table(0),
        Part::Entry(0),
        Part::Entry(2),
        Part::Entry(4),
        Part::Table(1),
        Part::Entry(1),
        Part::Entry(3),
        Part::Entry(5),
    ];
    assert_eq!(state.store.parts().collect::<Vec<_>>(), parts);
    let expected = [
        message(130, b"\x00\x01a\x02\x04\x04"),
        message(128, b"\xFF\xFF\xFF\xFE\0\0\0\0\0"),
        message(129, b"\0\0\0\x01\x01"),
        message(129, b"\0\0\0\x02\x02"),
        message(130, b"\x01\x01b\x06\x09\0\xF0\x97\x1C"),
        message(133, b"\0\0\0\x01\0\0\0\x09\x01\0"),
        message(134, b"\0\0\0\x09\x01\x01"),
        message(134, b"\0\0\0\x09\x01\x02"),
    ];
    assert_eq!(whole_store(&mut state, ids_from(u32::MAX - 1)), expected);
    assert_eq!(
        (state.session.defined(), state.session.last_sent()),
        (Some(1), Some(3))
    );
}

#[test]
fn ids_that_count_up() {
    let mut ids = ids_from(u32::MAX);
    let parts = [
        Part::Table(7),
        Part::Entry(9),
        Part::Entry(3),
        Part::Table(2),
        Part::Entry(3),
    ];
    assert_eq!(parts.map(&mut ids), [7, u32::MAX, 0, 2, 1]);
}

/// The host's own IDs, in the order of the messages.
#[test]
fn ids_of_the_host() {
    let mut state = by_turns();
    let mut asked = Vec::new();
    let messages = whole_store(&mut state, |part| {
        asked.push(part);
        5
    });
    assert_eq!(asked, state.store.parts().collect::<Vec<_>>());
    let kinds: Vec<_> = messages.iter().map(|message| message[1]).collect();
    assert_eq!(kinds, [130, 128, 128, 128, 130, 133, 133, 133]);
}

/// A message is written when it is asked for.
#[test]
fn messages_that_are_left() {
    let mut state = by_turns();
    assert_eq!(
        state
            .session
            .teach(&state.store, ids_from(9))
            .take(3)
            .count(),
        3
    );
    assert_eq!(
        (state.session.defined(), state.session.last_sent()),
        (Some(0), Some(10))
    );
    // the next time all are written again
    assert_eq!(
        whole_store(&mut state, ids_from(11))[1],
        message(128, b"\0\0\0\x0B\0\0\0\0\0")
    );
}

#[test]
fn a_refusal_ends_it() {
    let mut closed = by_turns();
    closed.offer(&[1, 0]);
    let mut unfinished = by_turns();
    unfinished.session = State::caller().session;
    let mut unsound = by_turns();
    unsound.store.layout_mut().counts[0] = 9;
    for (mut state, refusal) in [
        (closed, Refusal::Closed),
        (unfinished, Refusal::Handshake),
        (unsound, Refusal::Unsound),
    ] {
        let before = state.clone();
        let mut messages = state.session.teach(&state.store, ids_from(1));
        let sent = [messages.next(), messages.next(), messages.next()];
        assert_eq!(sent, [Some(Err(refusal)), None, None]);
        drop(messages);
        assert!(state == before);
    }
}

#[test]
fn without_tables_nothing_is_sent() {
    for mut state in [State::established(), State::answerer(), State::caller()] {
        assert_eq!(whole_store(&mut state, ids_from(1)), Vec::<Vec<u8>>::new());
        assert_eq!(state.session.defined(), None);
    }
}

// ---- what the second session ends with

type TableContent = (
    Vec<u8>,
    Option<KeyType>,
    usize,
    Vec<DataType>,
    Option<u32>,
    Vec<(DataType, u32)>,
);
type EntryContent = (Vec<u8>, Vec<u8>, Vec<(DataType, Value)>, Option<u128>);

/// Tables and entries, places apart. With `taught` as one that was taught them has them: an entry without a time has its table's expiry.
fn contents(store: &Store, taught: bool) -> (Vec<TableContent>, Vec<EntryContent>) {
    let table = |t: peers::Table| {
        let (types, periods) = (t.data_types().collect(), t.periods().collect());
        (
            t.name().to_vec(),
            t.key_type(),
            t.key_len(),
            types,
            t.expiry(),
            periods,
        )
    };
    let entry = |e: peers::Entry| {
        let expiry = e.table().expiry().filter(|_| taught);
        let time = e
            .remaining()
            .map(|time| time.as_millis())
            .or(expiry.map(u128::from));
        (
            e.table().name().to_vec(),
            e.key().to_vec(),
            e.values().collect(),
            time,
        )
    };
    let mut tables: Vec<_> = store.tables().map(table).collect();
    let mut entries: Vec<EntryContent> = store.entries().map(entry).collect();
    tables.sort_by(|a, b| a.0.cmp(&b.0));
    entries.sort_by(|a, b| (&a.0, &a.1).cmp(&(&b.0, &b.1)));
    (tables, entries)
}

/// The bit of each rate, and its number.
const RATES: [(u32, u64); 8] = [
    (1 << 3, 3),
    (1 << 5, 5),
    (1 << 8, 8),
    (1 << 10, 10),
    (1 << 12, 12),
    (1 << 14, 14),
    (1 << 16, 16),
    (1 << 18, 18),
];

/// A definition with random times; a table may be defined again, with others.
fn random_definition(random: &mut Random, id: u32) -> Vec<u8> {
    let (key_type, key_len, types) = [
        (KeyType::Integer, 4, 1 << 2 | 1 << 3),
        (KeyType::Ipv4, 4, 1 | 1 << 13),
        (KeyType::Ipv6, 16, 0),
        (KeyType::String, 64, ALL),
        (KeyType::String, 1, 1 << 18),
        (KeyType::Binary, 64, 1 << 6),
        (KeyType::Binary, 1, 1 << 1),
        (KeyType::Integer, 4, ALL),
    ][id as usize];
    let mut times = vec![random.next() % 100_000];
    for (bit, rate) in RATES {
        if types & bit != 0 {
            times.extend([rate, random.next() % (1 << 32)]);
        }
    }
    let name = [b't', b'0' + id as u8];
    let times = if random.below(2) == 0 {
        &times[..]
    } else {
        &[]
    };
    define(id, &name, key_type, key_len, types, times)
}

/// A key as it stands in the body.
fn random_key(random: &mut Random, table: peers::Table) -> Vec<u8> {
    let few = random.below(40) as u8;
    match table.key_type() {
        Some(KeyType::String) => {
            let len = random.below(table.key_len() + 1);
            [vec![len as u8], vec![few; len]].concat()
        }
        _ => vec![few; table.key_len()],
    }
}

/// Values of all data types of a table, as they are encoded, as often as not short ones.
fn random_values(random: &mut Random, table: peers::Table) -> Vec<u64> {
    let mut values = Vec::new();
    for data_type in table.data_types() {
        for _ in 0..if data_type.is_rate() { 3 } else { 1 } {
            let value = random.next() % [300, u64::MAX][random.below(2)];
            values.push(match data_type {
                DataType::ServerId => i64::from(value as i32) as u64,
                DataType::BytesInCnt | DataType::BytesOutCnt => value,
                _ => u64::from(value as u32),
            });
        }
    }
    values
}

/// A store filled by random messages, with time that passes and entries that the host frees.
fn random_store(random: &mut Random) -> State {
    let mut state = State::established();
    let tables = 1 + random.below(8) as u32;
    for n in 0..20 + random.below(200) as u32 {
        let id = if n < tables {
            n
        } else {
            random.below(tables as usize) as u32
        };
        state.accept(&[random_definition(random, id)]);
        let table = state.store.table(id as usize).expect("it was defined");
        let (key, values) = (random_key(random, table), random_values(random, table));
        let time = (random.next() % 100_000) as u32;
        let update = match random.below(2) {
            0 => update(n, &key, &values),
            _ => timed_update(n, time, &key, &values),
        };
        if state.store.entries().count() < 128 {
            state.accept(&[update]);
        }
        if random.below(20) == 0 {
            assert_eq!(state.pass(random.below(10_000) as u32), Ok(()));
            state.store.free_entry(random.below(128));
        }
    }
    state
}

/// Offers a whole store's messages in random pieces: the joined replies.
fn read_all(random: &mut Random, state: &mut State, bytes: &[u8]) -> Vec<u8> {
    let (longest, mut rest, mut replies) = ([1, 9, 300, 100_000][random.below(4)], bytes, vec![]);
    while !rest.is_empty() {
        let len = (1 + random.below(longest)).min(rest.len());
        for (answer, reply) in state.offer(&rest[..len]) {
            let new = matches!(
                answer,
                Answer::Table { .. }
                    | Answer::Update {
                        commit: Commit::New,
                        ..
                    }
            );
            assert!(new, "{answer:?}");
            replies.extend(reply);
        }
        rest = &rest[len..];
    }
    replies
}

#[test]
fn random_stores() {
    let mut random = Random(0x1234_5678_9ABC_DEF1);
    let mut entries = 0;
    for round in 0..300 {
        let mut state = random_store(&mut random);
        // a message that is read in part doesn't matter
        let inside = round % 3 == 0;
        assert_eq!(state.offer(if inside { &[10, 200, 3, 1] } else { &[] }), []);
        // tables have IDs of their own, or all of them one
        let one_id = round % 2 == 0;
        let mut given: Vec<(u32, u32)> = Vec::new();
        let (mut table, mut last) = (0, random.next() as u32);
        let mut draw = Random(random.next());
        let messages = whole_store(&mut state, |part| match part {
            Part::Table(place) => {
                table = if one_id { 300 } else { u32::MAX - place as u32 };
                table
            }
            Part::Entry(_) => {
                last = if draw.below(4) == 0 {
                    draw.next() as u32
                } else {
                    last.wrapping_add(1)
                };
                given.push((table, last));
                last
            }
        });
        let acknowledged = |&(table, id): &(u32, u32)| {
            message(132, &[&int(table.into())[..], &id.to_be_bytes()].concat())
        };
        let expected = given.iter().map(acknowledged).collect::<Vec<_>>().concat();
        let mut other = match round % 5 {
            0 => State::caller(),
            _ => State::established(),
        };
        other.offer(if round % 5 == 0 { b"200\n" } else { b"" });
        let replies = read_all(&mut random, &mut other, &messages.concat());
        assert_eq!(
            (other.session.closed_with(), other.session.unfinished()),
            (None, &[][..])
        );
        assert_eq!(replies, expected);
        assert_eq!(contents(&other.store, false), contents(&state.store, true));
        // the sender reads the acknowledgements, after the message that was unfinished
        assert_eq!(
            state.offer(if inside { &[2, 3] } else { &[] }).len(),
            usize::from(inside)
        );
        let told = state
            .offer(&replies)
            .into_iter()
            .map(|(answer, reply)| match answer {
                Answer::Acknowledgement { id, update } if reply.is_empty() => (id, update),
                _ => panic!("{answer:?}"),
            });
        assert_eq!(told.collect::<Vec<_>>(), given);
        entries += given.len();
    }
    assert!(entries > 10_000, "{entries}");
}

/// Taught twice, the second session holds the same: the keys are replaced.
#[test]
fn taught_again() {
    let mut state = random_store(&mut Random(77));
    let mut other = State::established();
    let first = whole_store(&mut state, ids_from(1)).concat();
    let again = whole_store(&mut state, ids_from(1)).concat();
    assert_eq!(first, again);
    other.offer(&first);
    let once = other.store.clone();
    assert!(!other.offer(&again).is_empty());
    assert!(other.store == once);
}

/// The sender reads each acknowledgement, and heartbeats, before it sends on: they leave the store, and the messages are the same.
#[test]
fn acknowledgements_read_between() {
    let mut state = random_store(&mut Random(78));
    let expected = whole_store(&mut state.clone(), ids_from(1));
    let mut other = State::established();
    let (store, mut ids) = (state.store.clone(), ids_from(1));
    let mut sent = Vec::new();
    for part in store.parts() {
        let message = state.send(part, ids(part)).expect("it is held");
        for (_, reply) in other.offer(&message) {
            let acknowledged = usize::from(matches!(part, Part::Entry(_)));
            assert_eq!(state.offer(&reply).len(), acknowledged);
        }
        state.accept(&[vec![0, 4]]);
        assert!(state.store == store);
        sent.push(message);
    }
    assert_eq!(sent, expected);
    assert_eq!(contents(&other.store, false), contents(&store, true));
}

/// A reader's store without tables is empty, whatever its free places keep.
#[test]
fn a_reader_whose_tables_were_freed() {
    let mut random = Random(79);
    for _ in 0..40 {
        let mut state = random_store(&mut random);
        let mut other = State {
            store: random_store(&mut random).store,
            ..State::established()
        };
        (0..8).for_each(|place| _ = other.store.free_table(place));
        assert_eq!(other.store.entries().count(), 0);
        assert!(other.store != Store::boxed());
        let messages = whole_store(&mut state, ids_from(1)).concat();
        read_all(&mut random, &mut other, &messages);
        assert_eq!(
            (other.session.closed_with(), other.session.unfinished()),
            (None, &[][..])
        );
        assert_eq!(contents(&other.store, false), contents(&state.store, true));
    }
}
