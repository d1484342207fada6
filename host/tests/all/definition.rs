//! Fields of a definition, on each side of each boundary.

use crate::common::{self, define, define_of, int, message, refused_at, State, KEY_LENGTHS, PLAIN};
use peers::{Answer, KeyType, Refusal};

/// A definition is taken, and makes the table at place 0.
fn taken(bytes: &[u8]) -> State {
    let mut state = State::established();
    let told = state.offer(bytes);
    assert_eq!(told, [(Answer::Table { place: 0 }, vec![])], "{bytes:?}");
    state
}

/// A message is refused, and closes the session with this number.
fn refused(mut state: State, bytes: &[u8], expected: Refusal) {
    let store = state.store.clone();
    let [(Answer::Refused { refusal, .. }, reply)] = &state.offer(bytes)[..] else {
        panic!("not refused: {bytes:?}");
    };
    assert_eq!((*refusal, &reply[..]), (expected, &[1, 0][..]), "{bytes:?}");
    assert_eq!(state.session.closed_with(), Some(refusal.number()));
    assert!(state.store == store, "the store changed");
}

fn out_of_range(fields: &[u64]) {
    let bytes = define_of(1, b"t", fields);
    refused(State::established(), &bytes, Refusal::Range);
}

#[test]
fn numbers_of_key_types() {
    assert_eq!(KeyType::ALL.map(KeyType::number), [2, 4, 5, 6, 7]);
    for number in 0..=255 {
        let found = KeyType::ALL.into_iter().find(|t| t.number() == number);
        assert_eq!(KeyType::of(number), found);
    }
}

#[test]
fn a_key_type_that_peers_send() {
    for (key_type, _, key_len) in KEY_LENGTHS {
        let state = taken(&define(1, b"t", key_type, key_len as u8, 0, &[]));
        let table = state.store.table(0).unwrap();
        assert_eq!(table.key_type(), Some(key_type));
        let held = state.store.layout().tables[0].key_type;
        assert_eq!(held, u32::from(key_type.number()));
    }
}

#[test]
fn another_key_type() {
    let low = (0..300).filter(|n| ![2, 4, 5, 6, 7].contains(n));
    let high = [1 << 8, 1 << 16, 1 << 32, 1 << 63];
    let high = high
        .into_iter()
        .flat_map(|high: u64| (0..8).map(move |n| high + n));
    for number in low.chain(high).chain([u64::MAX]) {
        // with a key length of each kind, and before the key length is looked at
        out_of_range(&[number, 4, 0]);
        out_of_range(&[number, 16, 0]);
        out_of_range(&[number, 0, 0]);
        out_of_range(&[number]);
    }
}

#[test]
fn a_body_that_ends_at_the_key_type() {
    // the name isn't whole, the key type isn't there, the key length isn't there
    for body in [&[1, 2, b't'][..], &[1, 1, b't'], &[1, 1, b't', 2]] {
        refused(State::established(), &message(130, body), Refusal::Cut);
    }
    // the key type itself ends inside
    refused(
        State::established(),
        &message(130, &[1, 1, b't', 0xF0]),
        Refusal::Cut,
    );
}

#[test]
fn key_lengths() {
    for (key_type, least, most) in KEY_LENGTHS {
        let number = key_type.number().into();
        for key_len in (0..=70).chain([239, 240]) {
            if (least..=most).contains(&key_len) {
                let state = taken(&define_of(1, b"t", &[number, key_len.into(), 0]));
                assert_eq!(state.store.table(0).unwrap().key_len(), key_len as usize);
            } else {
                out_of_range(&[number, key_len.into(), 0]);
            }
        }
        for high in [1 << 8, 1 << 32, 1 << 63] {
            out_of_range(&[number, high + u64::from(most), 0]);
        }
        out_of_range(&[number, u64::MAX, 0]);
    }
}

/// A key goes by its type: a string's has its length in front.
#[test]
fn keys() {
    for (key_type, _, key_len) in KEY_LENGTHS {
        let len = key_len as usize;
        let key = vec![7; len];
        let sent = match key_type {
            KeyType::String => [int(len as u64), key.clone()].concat(),
            _ => key.clone(),
        };
        let mut state = taken(&define(1, b"t", key_type, key_len as u8, 0, &[]));
        let short = message(128, &[&[0, 0, 0, 9], &sent[..sent.len() - 1]].concat());
        refused(state.clone(), &short, Refusal::Cut);
        state.accept(&[message(128, &[&[0, 0, 0, 9], &sent[..]].concat())]);
        assert_eq!(state.store.entry(0).unwrap().key(), key);
    }
}

/// A held table of another key type with the same lengths is another.
#[test]
fn a_held_key_type() {
    use KeyType::{Binary, Integer, Ipv4, String};
    for (held, other) in [(Integer, Ipv4), (Ipv4, Binary), (String, Binary)] {
        for (a, b) in [(held, other), (other, held)] {
            let state = taken(&define(1, b"t", a, 4, 0, &[]));
            refused(state, &define(1, b"t", b, 4, 0, &[]), Refusal::Disagrees);
        }
    }
}

// ---- names

/// Names of several lengths with a byte at several places.
fn names_with(byte: u8) -> [Vec<u8>; 5] {
    let name = |before: usize, after: usize| {
        let (before, after) = (vec![b'a'; before], vec![b'a'; after]);
        [&before[..], &[byte], &after].concat()
    };
    [(0, 0), (0, 1), (1, 0), (31, 0), (5, 5)].map(|(before, after)| name(before, after))
}

#[test]
fn every_byte_of_a_name() {
    for byte in 0..=255 {
        for name in names_with(byte) {
            let bytes = define(1, &name, KeyType::Integer, 4, 0, &[]);
            if PLAIN.contains(&byte) {
                assert_eq!(taken(&bytes).store.table(0).unwrap().name(), name);
            } else {
                refused(State::established(), &bytes, Refusal::TableName);
            }
        }
    }
}

/// What comes after a name isn't looked at where the name isn't plain.
#[test]
fn a_name_before_all_later_faults() {
    let full = || {
        let mut state = State::established();
        for id in 0..8 {
            let name = [b'a' + id as u8];
            state.accept(&[define(id, &name, KeyType::Integer, 4, 0, &[])]);
        }
        state
    };
    let later: [&[u64]; 7] = [
        &[],
        &[3],
        &[u64::MAX],
        &[2],
        &[2, 5],
        &[2, 4, 1 << 19],
        &[2, 4, 8, 1 << 32],
    ];
    for fields in later {
        for name in [&b"\n"[..], b"a\n", b"a "] {
            let bytes = define_of(9, name, fields);
            refused(State::established(), &bytes, Refusal::TableName);
            refused(full(), &bytes, Refusal::TableName);
        }
    }
    // a plain name, and the body's end or a faulty key type after it
    refused(State::established(), &define_of(9, b"a", &[]), Refusal::Cut);
    out_of_range(&[3]);
    // all fields in range, and no place for a new name: 30 before 26
    let bytes = define(9, b"\0", KeyType::Ipv4, 4, 0, &[]);
    refused(full(), &bytes, Refusal::TableName);
}

/// What comes before a name decides first.
#[test]
fn a_name_after_all_earlier_faults() {
    let range = [
        [int(1 << 32), vec![1, b'\n']].concat(),
        vec![1, 0, b'\n'],
        [&[1, 33][..], &[b'\n'; 40]].concat(),
    ];
    for body in range {
        let bytes = message(130, &body);
        refused(State::established(), &bytes, Refusal::Range);
    }
    for body in [&[1, 2, b'\n'][..], &[1, 32, b'\n', b'\n'], &[1, 1]] {
        let bytes = message(130, body);
        refused(State::established(), &bytes, Refusal::Cut);
    }
}

/// Its bytes are dropped, and the next call is refused with 2.
#[test]
fn after_a_name_that_is_not_plain() {
    let bytes = define(1, b"a\nb", KeyType::Integer, 4, 0, &[]);
    for cut in 0..bytes.len() {
        let mut state = State::established();
        assert_eq!(state.offer(&bytes[..cut]), []);
        let told = state.offer(&bytes[cut..]);
        assert_eq!(told, [(refused_at(Refusal::TableName, 2), vec![1, 0])]);
        assert_eq!(state.session.closed_with(), Some(30));
        assert_eq!(state.session.unfinished(), b"");
        let (taken, told) = state.call(&[0, 4]);
        assert_eq!((taken, told.0), (0, common::refused(Refusal::Closed)));
    }
}
