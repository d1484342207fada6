//! Where a body broke: each field of each message cut short at each place, out of range, and overflowing.

use crate::common::{define, int, message, refused_at, update, State};
use peers::{DataType, KeyType, Refusal};

/// All data types.
const ALL: u32 = 0x7_FFFF;

/// Integers that overflow at their tenth byte.
const OVERFLOWS: [[u8; 10]; 2] = [
    [0xFF; 10],
    [0xF0, 0xF1, 0xFE, 0xFE, 0xFE, 0xFE, 0xFE, 0xFE, 0xFE, 0x0E],
];

/// A field as it stands in a body, and bytes in its place that are refused.
struct Field {
    bytes: Vec<u8>,
    refused: Vec<(Refusal, Vec<u8>)>,
}

/// An integer, and some that are out of range.
fn integer(value: u64, out_of_range: &[u64]) -> Field {
    let out_of_range = out_of_range.iter().map(|&value| int(value));
    let refused = out_of_range.chain(OVERFLOWS.map(Vec::from));
    Field {
        bytes: int(value),
        refused: refused.map(|bytes| (Refusal::Range, bytes)).collect(),
    }
}

/// An integer of 32 bits.
fn word(value: u64) -> Field {
    integer(value, &[1 << 32, u64::MAX])
}

/// Bytes that can only be cut short.
fn bytes(bytes: &[u8]) -> Field {
    Field {
        bytes: bytes.to_vec(),
        refused: vec![],
    }
}

/// The bytes of a table's name.
fn name(name: &[u8]) -> Field {
    let mut other = name.to_vec();
    *other.last_mut().expect("a name has a byte") = b'\n';
    Field {
        refused: vec![(Refusal::TableName, other)],
        ..bytes(name)
    }
}

fn joined(fields: &[Field]) -> Vec<u8> {
    fields
        .iter()
        .flat_map(|field| field.bytes.clone())
        .collect()
}

/// A body is refused at an offset, and changes no store.
fn breaks(state: &State, kind: u8, body: &[u8], refusal: Refusal, offset: usize) {
    let mut after = state.clone();
    let told = after.offer(&message(kind, body));
    let expected = [(refused_at(refusal, offset), vec![1, 0])];
    assert_eq!(told, expected, "{body:?}");
    assert_eq!(after.session.closed_with(), Some(refusal.number()));
    assert!(after.store == state.store, "the store changed");
}

/// Breaks each field of a body. A body may end before field `optional`.
fn each_field(state: &State, kind: u8, fields: &[Field], optional: Option<usize>) {
    state.clone().accept(&[message(kind, &joined(fields))]);
    for (n, field) in fields.iter().enumerate() {
        let before = joined(&fields[..n]);
        let with = |bytes: &[u8]| [&before[..], bytes].concat();
        let offset = before.len();
        for cut in usize::from(optional == Some(n))..field.bytes.len() {
            let body = with(&field.bytes[..cut]);
            breaks(state, kind, &body, Refusal::Cut, offset);
        }
        for (refusal, other) in &field.refused {
            let whole = [with(other), joined(&fields[n + 1..])].concat();
            breaks(state, kind, &with(other), *refusal, offset);
            breaks(state, kind, &whole, *refusal, offset);
            // the body's end comes first
            let short = &other[..other.len() - 1];
            if !short.is_empty() {
                breaks(state, kind, &with(short), Refusal::Cut, offset);
            }
        }
    }
}

#[test]
fn of_a_definition() {
    let string = KeyType::String.number().into();
    let mut fields = vec![
        word(300),
        integer(4, &[0, 33, 256 + 4, (1 << 32) + 4, u64::MAX]),
        name(b"name"),
        integer(string, &[0, 1, 3, 8, 256 + string, (1 << 32) + string]),
        integer(64, &[0, 65, 256 + 64, (1 << 32) + 64]),
        integer(ALL.into(), &[1 << 19, 1 << 32]),
        word(60_000),
    ];
    for rate in DataType::ALL.into_iter().filter(|t| t.is_rate()) {
        let number = rate.number().into();
        fields.push(integer(number, &[0, number + 1, (1 << 32) + number]));
        fields.push(word(5000));
    }
    each_field(&State::established(), 130, &fields, Some(6));
}

/// A key length of each type.
#[test]
fn of_a_definition_by_key_type() {
    for (key_type, len, others) in [
        (KeyType::Integer, 4, [3, 5]),
        (KeyType::Ipv4, 4, [16, 5]),
        (KeyType::Ipv6, 16, [4, 17]),
        (KeyType::Binary, 1, [0, 65]),
    ] {
        let key_type = key_type.number().into();
        let fields = [
            word(1),
            integer(1, &[0]),
            name(b"t"),
            integer(key_type, &[3]),
            integer(len, &others),
            integer(0, &[1 << 19]),
        ];
        each_field(&State::established(), 130, &fields, None);
    }
}

/// The values of all data types.
fn values() -> Vec<Field> {
    let server_id = || integer(u64::MAX - 1, &[1 << 31, u64::MAX - (1 << 31)]);
    let fields = DataType::ALL.into_iter().flat_map(|t| match t {
        DataType::ServerId => vec![server_id()],
        DataType::BytesInCnt | DataType::BytesOutCnt => vec![integer(u64::MAX, &[])],
        rate if rate.is_rate() => vec![word(900), word(4), word(u32::MAX.into())],
        _ => vec![word(u32::MAX.into())],
    });
    fields.collect()
}

#[test]
fn of_an_update_with_a_string() {
    let mut state = State::established();
    state.accept(&[define(1, b"t", KeyType::String, 64, ALL, &[])]);
    let key = || [integer(64, &[65, 256 + 64, 1 << 32]), bytes(&[7; 64])];
    let id = || [bytes(&[0, 0, 0, 9])];
    let fields: Vec<_> = id().into_iter().chain(key()).chain(values()).collect();
    each_field(&state, 128, &fields, None);
    state.accept(&[message(128, &joined(&fields))]);
    let fields: Vec<_> = key().into_iter().chain(values()).collect();
    each_field(&state, 129, &fields, None);
    let time = || [bytes(&[0xFF; 4])];
    let fields: Vec<_> = time().into_iter().chain(key()).chain(values()).collect();
    each_field(&state, 134, &fields, None);
    let fields: Vec<_> = id().into_iter().chain(fields).collect();
    each_field(&state, 133, &fields, None);
}

#[test]
fn of_an_update_with_another_key() {
    for (key_type, len) in [
        (KeyType::Integer, 4),
        (KeyType::Ipv4, 4),
        (KeyType::Ipv6, 16),
        (KeyType::Binary, 64),
    ] {
        let mut state = State::established();
        let key = vec![7; len];
        state.accept(&[define(1, b"t", key_type, len as u8, 4, &[])]);
        let fields = [bytes(&[0, 0, 0, 9]), bytes(&key), word(5)];
        each_field(&state, 128, &fields, None);
        state.accept(&[update(9, &key, &[5])]);
        each_field(&state, 129, &fields[1..], None);
        let fields = [bytes(&[0, 0, 0, 9]), bytes(&[0; 4]), bytes(&key), word(5)];
        each_field(&state, 133, &fields, None);
        each_field(&state, 134, &fields[1..], None);
    }
}

#[test]
fn of_a_switch_and_an_acknowledgement() {
    let mut state = State::established();
    state.accept(&[define(300, b"t", KeyType::Integer, 4, 0, &[])]);
    each_field(&state, 131, &[word(300)], None);
    each_field(&state, 132, &[word(300), bytes(&[0, 0, 1, 0])], None);
}

/// It is counted from the body's first byte, whatever pieces the message comes in and whatever came before.
#[test]
fn in_every_division_into_two_pieces() {
    let heartbeat = [0, 4];
    let bytes = message(130, &[1, 1, b't', 3, 4, 0]);
    let bytes = [&heartbeat[..], &bytes, &heartbeat].concat();
    for cut in 0..bytes.len() {
        let mut state = State::established();
        let mut told = state.offer(&bytes[..cut]);
        told.extend(state.offer(&bytes[cut..]));
        assert_eq!(told.len(), 2);
        assert_eq!(told[1].0, refused_at(Refusal::Range, 3), "cut at {cut}");
    }
}
