//! Every answer, every refusal, and every data type of an entry.

use crate::common::{define, define_of, int, message, refused, update, State, FILL, HELLO};
use peers::{Answer, Commit, DataType, KeyType, Refusal, Value};

/// All data types.
const ALL: u32 = 0x7_FFFF;

#[test]
fn control_messages() {
    let answers = [
        (Answer::Request, vec![]),
        (Answer::Finished, vec![0, 3]),
        (Answer::Partial, vec![0, 3]),
        (Answer::Confirmed, vec![]),
        (Answer::Heartbeat, vec![]),
    ];
    let mut state = State::established();
    let told = state.offer(&[0, 0, 0, 1, 0, 2, 0, 3, 0, 4]);
    assert_eq!(told, answers);
}

#[test]
fn the_peers_error() {
    let mut state = State::established();
    assert_eq!(
        state.offer(&[1, 1, 0, 0]),
        [(Answer::Error { kind: 1 }, vec![])]
    );
    assert_eq!(state.session.closed_with(), Some(0));
    let before = state.clone();
    assert_eq!(state.call(&[0, 0]), (0, (refused(Refusal::Closed), vec![])));
    assert_eq!(state, before);
}

#[test]
fn switch_acknowledgement_skipped() {
    let mut state = State::established();
    state.accept(&[
        define(300, b"a", KeyType::Integer, 4, 0, &[]),
        define(2, b"b", KeyType::Integer, 4, 0, &[]),
    ]);
    assert_eq!(
        state.offer(&message(131, &int(300)))[0].0,
        Answer::Switch { place: 0 }
    );
    assert_eq!(state.session.current(), Some(0));
    let acknowledgement = [int(300), vec![0, 0, 1, 0]].concat();
    let told = state.offer(&message(132, &acknowledgement));
    assert_eq!(
        told[0].0,
        Answer::Acknowledgement {
            id: 300,
            update: 256
        }
    );
    assert_eq!(
        state.offer(&message(200, b"anything"))[0].0,
        Answer::Skipped { kind: 200 }
    );
}

#[test]
fn every_data_type() {
    let mut state = State::established();
    let mut times = vec![60_000];
    for rate in [3, 5, 8, 10, 12, 14, 16, 18] {
        times.extend([rate, 1000 + rate]);
    }
    // the server ID is -2, and then value n is 1000 + n
    let mut values = vec![u64::MAX - 1];
    values.extend(1000..1034);
    state.accept(&[
        define(9, b"all", KeyType::String, 64, ALL, &times),
        update(1, b"\x03key", &values),
    ]);
    let entry = state.store.entry(0).expect("an entry is held");
    assert_eq!(entry.key(), b"key");
    assert_eq!(entry.table().key_type(), Some(KeyType::String));
    assert_eq!(entry.table().expiry(), Some(60_000));
    let mut next = 1000;
    for (data_type, value) in entry.values() {
        let expected = match data_type {
            DataType::ServerId => Value::Server(-2),
            rate if rate.is_rate() => Value::Rate {
                elapsed: next,
                current: next + 1,
                previous: next + 2,
            },
            _ => Value::Number(next),
        };
        assert_eq!(value, expected, "{}", data_type.name());
        next += match value {
            Value::Server(_) => 0,
            Value::Number(_) => 1,
            Value::Rate { .. } => 3,
        };
        let period = data_type
            .is_rate()
            .then(|| 1000 + u32::from(data_type.number()));
        assert_eq!(entry.table().period(data_type), period);
    }
    assert_eq!(next, 1034);
}

#[test]
fn a_full_store() {
    let mut state = State::established();
    state.accept(&[define(1, b"t", KeyType::Integer, 4, 0, &[])]);
    for key in 0..128u32 {
        let told = state.offer(&update(key, &key.to_be_bytes(), &[]));
        let expected = Answer::Update {
            table: 0,
            id: key,
            entry: key as usize,
            commit: Commit::New,
        };
        assert_eq!(told[0].0, expected);
    }
    let known = state.offer(&update(500, &127u32.to_be_bytes(), &[]));
    let expected = Answer::Update {
        table: 0,
        id: 500,
        entry: 127,
        commit: Commit::Replaced,
    };
    assert_eq!(known[0].0, expected);
    let told = state.offer(&update(501, &128u32.to_be_bytes(), &[]));
    assert_eq!(told, [(refused(Refusal::Entries), vec![1, 1])]);
    assert_eq!(state.session.closed_with(), Some(29));
    assert_eq!(state.store.entries().count(), 128);
}

/// A refused stream, its number, where the body broke if it did, and its reply.
fn breaks(mut state: State, bytes: &[u8], number: u8, offset: Option<usize>, reply: &[u8]) {
    let told = state.offer(bytes);
    let refusal = Refusal::of(number).expect("a refusal's number");
    let expected = (Answer::Refused { refusal, offset }, reply.to_vec());
    assert_eq!(told.last(), Some(&expected), "{bytes:?}");
    assert_eq!(state.session.closed_with(), Some(number));
    assert_eq!(state.session.unfinished(), b"");
}

/// A refused stream whose refusal has no offset.
fn refuses(state: State, bytes: &[u8], number: u8, reply: &[u8]) {
    breaks(state, bytes, number, None, reply);
}

#[test]
fn handshake_refusals() {
    refuses(State::answerer(), &[b'x'; 65], 10, b"501\n");
    refuses(
        State::answerer(),
        b"HAProxyS 2.2\neast\nwest 7 0\n",
        11,
        b"502\n",
    );
    refuses(
        State::answerer(),
        b"HAProxyS 2.0\nwest\nwest 7 0\n",
        12,
        b"503\n",
    );
    refuses(
        State::answerer(),
        b"HAProxyS 2.1\neast\neast 7 0\n",
        13,
        b"504\n",
    );
    refuses(State::caller(), b"504\n", 14, b"");
    refuses(State::caller(), b"200\r", 15, b"");
}

/// A session with these tables of integer keys, with IDs from 0 on.
fn with_tables(names: &[&[u8]]) -> State {
    let mut state = State::established();
    for (id, name) in (0..).zip(names) {
        state.accept(&[define(id, name, KeyType::Integer, 4, 4, &[])]);
    }
    state
}

#[test]
fn message_refusals() {
    let open = State::established;
    let overflow = [&[10, 128, 0xFF][..], &[0xFF; 9]].concat();
    refuses(open(), &[0, 5], 20, &[1, 0]);
    refuses(open(), &overflow, 21, &[1, 0]);
    refuses(open(), &[10, 128, 0xF1, 0x31], 22, &[1, 1]);
    breaks(open(), &message(131, &[]), 23, Some(0), &[1, 0]);
    breaks(open(), &message(131, &int(1 << 32)), 24, Some(0), &[1, 0]);
    refuses(open(), &[0x0A, 0x80, 0], 27, &[1, 0]);
    let update = message(129, b"keys\x05");
    refuses(with_tables(&[b"t"]), &update, 28, &[1, 0]);
}

#[test]
fn definition_refusals() {
    let other = define(2, b"t", KeyType::Integer, 4, 6, &[]);
    refuses(with_tables(&[b"t"]), &other, 25, &[1, 0]);
    let eight: [&[u8]; 8] = [b"a", b"b", b"c", b"d", b"e", b"f", b"g", b"h"];
    let ninth = define(9, b"i", KeyType::Integer, 4, 4, &[]);
    refuses(with_tables(&eight), &ninth, 26, &[1, 1]);
    let name = define_of(2, b"a b", &[]);
    breaks(State::established(), &name, 30, Some(2), &[1, 0]);
}

#[test]
fn too_little_room() {
    let mut state = State::answerer();
    let before = state.clone();
    let mut room = [FILL; 11];
    let step = state.session.read(&mut state.store, HELLO, &mut room);
    assert_eq!((step.taken, step.answer), (0, refused(Refusal::Room)));
    assert_eq!(room, [FILL; 11]);
    assert_eq!(state, before);
}

#[test]
fn an_empty_piece() {
    let mut state = State::answerer();
    let before = state.clone();
    assert_eq!(state.call(b""), (0, (Answer::More, vec![])));
    assert_eq!(state, before);
}

/// The longest message, with one byte missing and with none.
#[test]
fn the_longest_message() {
    let bytes = message(200, &[7; 1024]);
    assert_eq!(bytes.len(), 1028);
    let mut state = State::established();
    assert_eq!(state.call(&bytes[..1027]), (1027, (Answer::More, vec![])));
    assert_eq!(state.session.unfinished(), &bytes[..1027]);
    let answer = Answer::Skipped { kind: 200 };
    assert_eq!(state.call(&bytes[1027..]), (1, (answer, vec![])));
    assert_eq!(state, State::established());
}
