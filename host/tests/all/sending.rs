//! Sending: the bytes of each message, refusals in their order, and what a call leaves. What every sending call leaves, `State::send` checks.

use crate::common::{int, message, State, SENT_MAX};
use peers::layout::{Entry, Sending, Table};
use peers::{Answer, KeyType, Part, Refusal, SEND_ROOM};

const MAX: u32 = u32::MAX;

/// All data types.
const ALL: u32 = 0x7_FFFF;

/// A table of this name and with these keys, put by hand.
fn table(name: &[u8], key_type: KeyType, key_len: u32, data_types: u32) -> Table {
    let mut table = Table {
        held: 1,
        key_type: key_type.number().into(),
        timed: 0,
        data_types,
        name_len: name.len(),
        key_len,
        expiry: 0,
        periods: [0; 8],
        name: [0; 32],
    };
    table.name[..name.len()].copy_from_slice(name);
    table
}

/// An entry with this key and without a time, put by hand.
fn entry(table: usize, key: &[u8]) -> Entry {
    let mut entry = Entry {
        held: 1,
        table,
        key_len: key.len(),
        ..crate::common::FREE
    };
    entry.key[..key.len()].copy_from_slice(key);
    entry
}

/// A session past its handshake, with these tables and entries from the first place on.
fn holding(tables: &[Table], entries: &[Entry]) -> State {
    let mut state = State::established();
    let store = state.store.layout_mut();
    store.tables[..tables.len()].copy_from_slice(tables);
    store.entries[..entries.len()].copy_from_slice(entries);
    entries.iter().for_each(|e| store.counts[e.table] += 1);
    state
}

/// Defines a table to the peer.
fn define(state: &mut State, place: usize) {
    assert!(state.send(Part::Table(place), 1).is_ok());
}

// ---- messages, byte for byte

#[test]
fn the_messages_of_the_listing() {
    let mut table = table(b"t1", KeyType::Integer, 4, 4);
    (table.timed, table.expiry) = (1, 60_000);
    let mut state = holding(&[table], &[entry(0, &[0, 0, 0, 0x2A])]);
    state.store.layout_mut().entries[0].values[1] = 4660;
    let definition = [10, 0x82, 10, 1, 2, 0x74, 0x31, 2, 4, 4, 0xF0, 0x97, 0x1C];
    assert_eq!(state.send(Part::Table(0), 1).unwrap(), definition);
    let update = [
        10, 0x80, 11, 0xFF, 0xFF, 0xFF, 0xFF, 0, 0, 0, 0x2A, 0xF4, 0x94, 1,
    ];
    assert_eq!(state.send(Part::Entry(0), MAX).unwrap(), update);
    state.store.layout_mut().entries[0].values[1] = 5;
    let incremental = [10, 0x81, 5, 0, 0, 0, 0x2A, 5];
    assert_eq!(state.send(Part::Entry(0), 0).unwrap(), incremental);
}

#[test]
fn a_definition_by_its_id_and_key_type() {
    let mut tables = [table(b"a", KeyType::Integer, 4, 4); 5];
    tables[1] = table(b"Aa0._-/:", KeyType::Ipv4, 4, 0);
    tables[2] = table(b"v6", KeyType::Ipv6, 16, 0);
    tables[3] = table(&[b'x'; 32], KeyType::String, 64, 0);
    tables[4] = table(b"b", KeyType::Binary, 1, 0);
    let mut state = holding(&tables, &[]);
    let name_of_32 = [&[10, 130, 37, 2, 32][..], &[b'x'; 32], &[6, 64, 0]].concat();
    for (place, id, expected) in [
        (0, 0, &b"\x0A\x82\x06\x00\x01a\x02\x04\x04"[..]),
        (0, 239, b"\x0A\x82\x06\xEF\x01a\x02\x04\x04"),
        (0, 240, b"\x0A\x82\x07\xF0\x00\x01a\x02\x04\x04"),
        (0, MAX, b"\x0A\x82\x0A\xFF\xF0\xFE\xFE\x7E\x01a\x02\x04\x04"),
        (1, 2, b"\x0A\x82\x0D\x02\x08Aa0._-/:\x04\x04\x00"),
        (2, 2, b"\x0A\x82\x07\x02\x02v6\x05\x10\x00"),
        (3, 2, &name_of_32),
        (4, 2, b"\x0A\x82\x06\x02\x01b\x07\x01\x00"),
    ] {
        assert_eq!(state.send(Part::Table(place), id).unwrap(), expected);
    }
}

/// Expiry and pairs of the rates that a table has; without times neither.
#[test]
fn a_definition_with_times() {
    let mut all = table(b"all", KeyType::String, 64, ALL);
    (all.timed, all.expiry) = (1, 60_000);
    all.periods = [0, 1, 239, 240, 2287, 2288, 60_000, MAX];
    let start = b"\xFC\x03\x03all\x06\x40";
    let pairs = b"\x03\x00\x05\x01\x08\xEF\x0A\xF0\x00\x0C\xFF\x7F\x0E\xF0\x80\x00\x10\xF0\x97\x1C\x12\xFF\xF0\xFE\xFE\x7E";
    for (data_types, timed, expiry, rest) in [
        (
            ALL,
            1,
            60_000,
            &[&b"\xFF\xF0\xFE\x00\xF0\x97\x1C"[..], pairs].concat()[..],
        ),
        // server ID and session rate
        (0x101, 1, 60_000, b"\xF1\x01\xF0\x97\x1C\x08\xEF"),
        (4, 1, 0, b"\x04\x00"),
        (4, 1, MAX, b"\x04\xFF\xF0\xFE\xFE\x7E"),
        // what isn't known isn't sent
        (0x101, 0, 60_000, b"\xF1\x01"),
        (ALL, 0, 0, b"\xFF\xF0\xFE\x00"),
    ] {
        (all.data_types, all.timed, all.expiry) = (data_types, timed, expiry);
        let sent = holding(&[all], &[]).send(Part::Table(0), 300);
        assert_eq!(sent, Ok(message(130, &[start, rest].concat())));
    }
}

/// Only a string has its length before its bytes.
#[test]
fn a_key_of_each_type() {
    for (key_type, table_len, key, in_body) in [
        (
            KeyType::Integer,
            4,
            &b"\xFF\xFF\xFF\xFE"[..],
            &b"\xFF\xFF\xFF\xFE"[..],
        ),
        (KeyType::Ipv4, 4, b"\x0A\0\0\x01", b"\x0A\0\0\x01"),
        (KeyType::Ipv6, 16, &[6; 16], &[6; 16]),
        (KeyType::String, 8, b"abc", b"\x03abc"),
        (KeyType::String, 3, b"abc", b"\x03abc"),
        (KeyType::String, 1, b"", b"\0"),
        (
            KeyType::String,
            64,
            &[7; 64],
            &[&[64], &[7; 64][..]].concat(),
        ),
        (KeyType::Binary, 1, b"\0", b"\0"),
        (KeyType::Binary, 64, &[7; 64], &[7; 64]),
    ] {
        let tables = [table(b"t", key_type, table_len, 0)];
        let mut state = holding(&tables, &[entry(0, key)]);
        define(&mut state, 0);
        let body = [&[0x12, 0x34, 0x56, 0x78], in_body].concat();
        let sent = state.send(Part::Entry(0), 0x1234_5678);
        assert_eq!(sent, Ok(message(128, &body)), "{key_type:?}");
    }
}

/// Each data type alone, and all in their order: the server ID is 100, slot 0 is 101, and so on.
#[test]
fn values_in_their_order() {
    let slots = [1, 1, 3, 1, 3, 1, 1, 3, 1, 3, 1, 3, 1, 3, 1, 3, 1, 3];
    let mut own = entry(0, b"k");
    own.server_id = 100;
    own.values = std::array::from_fn(|slot| 101 + slot as u64);
    let mut rows = vec![(1, vec![100]), (ALL, (100..135).collect())];
    let (mut bit, mut next) = (2, 101);
    for count in slots {
        rows.push((bit, (next..next + count).collect()));
        (bit, next) = (2 * bit, next + count);
    }
    assert_eq!((bit, next), (ALL + 1, 135));
    for (types, values) in rows {
        let mut state = holding(&[table(b"t", KeyType::Binary, 1, types)], &[own]);
        define(&mut state, 0);
        let body = [&[0, 0, 0, 9, b'k'][..], &values].concat();
        assert_eq!(state.send(Part::Entry(0), 9), Ok(message(128, &body)));
    }
}

#[test]
fn server_ids_and_values_at_their_limits() {
    let types = 1 | 1 << 1 | 1 << 13 | 1 << 15;
    let mut state = holding(&[table(b"t", KeyType::Binary, 1, types)], &[entry(0, b"k")]);
    define(&mut state, 0);
    for (server_id, encoded) in [
        (0, &b"\0"[..]),
        (i32::MAX, b"\xFF\xF0\xFE\xFE\x3E"),
        (-1, b"\xFF\xF0\xFE\xFE\xFE\xFE\xFE\xFE\xFE\x0E"),
        (i32::MIN, b"\xF0\xF1\xFE\xFE\xBE\xFE\xFE\xFE\xFE\x0E"),
    ] {
        let entry = &mut state.store.layout_mut().entries[0];
        entry.server_id = server_id;
        (entry.values[0], entry.values[22], entry.values[26]) = (MAX.into(), 1 << 32, u64::MAX);
        let values =
            b"\xFF\xF0\xFE\xFE\x7E\xF0\xF1\xFE\xFE\x7E\xFF\xF0\xFE\xFE\xFE\xFE\xFE\xFE\xFE\x0E";
        let body = [&[0, 0, 0, 9, b'k'], encoded, values].concat();
        assert_eq!(state.send(Part::Entry(0), 9), Ok(message(128, &body)));
    }
}

#[test]
fn the_longest_message() {
    let mut own = entry(0, &[b'k'; 64]);
    (own.server_id, own.timed, own.remaining) = (-1, 1, MAX);
    own.values = [MAX.into(); 34];
    (own.values[22], own.values[26]) = (u64::MAX, u64::MAX);
    let mut state = holding(&[table(b"t", KeyType::String, 64, ALL)], &[own]);
    define(&mut state, 0);
    let values = own.values.iter().flat_map(|&value| int(value)).collect();
    let start = [&[0xFF; 8][..], &[64], &[b'k'; 64]].concat();
    let expected = message(133, &[start, int(u64::MAX), values].concat());
    assert_eq!(expected.len(), SENT_MAX);
    assert_eq!(state.send(Part::Entry(0), MAX), Ok(expected));
}

// ---- forms

/// Entries 0 without a time, 1 with 7 milliseconds and 2 with none left, of table 0; table 1 has entry 3.
fn four_entries() -> State {
    let tables = [b"t", b"u"].map(|name| table(name, KeyType::Integer, 4, 4));
    let mut entries = [entry(0, b"key0"); 4];
    entries[1] = entry(0, b"key1");
    entries[2] = entry(0, b"key2");
    entries[3] = entry(1, b"key3");
    // where there is no time, the number isn't sent
    entries[0].remaining = 7;
    (entries[1].timed, entries[1].remaining) = (1, 7);
    entries[2].timed = 1;
    holding(&tables, &entries)
}

#[test]
fn four_forms() {
    let mut state = four_entries();
    define(&mut state, 0);
    for (place, id, expected) in [
        (0, 5, &b"\x0A\x80\x09\0\0\0\x05key0\0"[..]),
        (0, 6, b"\x0A\x81\x05key0\0"),
        (1, 7, b"\x0A\x86\x09\0\0\0\x07key1\0"),
        (2, 8, b"\x0A\x86\x09\0\0\0\0key2\0"),
        (1, 10, b"\x0A\x85\x0D\0\0\0\x0A\0\0\0\x07key1\0"),
        (1, 10, b"\x0A\x85\x0D\0\0\0\x0A\0\0\0\x07key1\0"),
        (0, 9, b"\x0A\x80\x09\0\0\0\x09key0\0"),
        (2, MAX, b"\x0A\x85\x0D\xFF\xFF\xFF\xFF\0\0\0\0key2\0"),
        (1, 0, b"\x0A\x86\x09\0\0\0\x07key1\0"),
        (0, 1, b"\x0A\x81\x05key0\0"),
    ] {
        assert_eq!(state.send(Part::Entry(place), id).unwrap(), expected);
        assert_eq!(state.session.last_sent(), Some(id));
    }
}

/// After a definition, of the same table too, the first entry goes with its ID.
#[test]
fn first_after_a_definition() {
    let mut state = four_entries();
    for (table, place, id, kind) in [
        (0, 0, 1, 128),
        (0, 1, 2, 133),
        (1, 3, 3, 128),
        (0, 0, 4, 128),
    ] {
        define(&mut state, table);
        assert_eq!(
            (state.session.defined(), state.session.last_sent()),
            (Some(table), None)
        );
        assert_eq!(state.send(Part::Entry(place), id).unwrap()[1], kind);
    }
}

/// Whether an ID follows another, at all limits; without the mark the last ID isn't looked at.
#[test]
fn ids_that_follow() {
    let ids = [
        0,
        1,
        2,
        254,
        255,
        256,
        0xFFFF,
        1 << 16,
        (1 << 31) - 1,
        1 << 31,
        MAX - 1,
        MAX,
    ];
    let mut state = four_entries();
    for (last, id) in ids.iter().flat_map(|&a| ids.map(|b| (a, b))) {
        for (sent, (place, explicit)) in [0, 1].iter().flat_map(|&s| [(s, (0, 128)), (s, (1, 133))])
        {
            let sending = Sending {
                defined: 1,
                sent,
                last,
            };
            state.session.layout_mut().sending = sending;
            let follows = sent == 1 && id == last.wrapping_add(1);
            let kind = state.send(Part::Entry(place), id).unwrap()[1];
            assert_eq!(kind, explicit + u8::from(follows), "{id} after {last}");
        }
    }
}

/// A last ID without a table defined last has no effect.
#[test]
fn a_last_id_without_a_table() {
    let mut state = four_entries();
    let sending = &mut state.session.layout_mut().sending;
    (sending.sent, sending.last) = (1, 4);
    assert_eq!(state.send(Part::Entry(0), 5), Err(Refusal::Place));
    assert_eq!(
        (state.session.defined(), state.session.last_sent()),
        (None, Some(4))
    );
    define(&mut state, 0);
    assert_eq!(state.send(Part::Entry(0), 5).unwrap()[1], 128);
}

// ---- refusals

/// Every set of refusals: the first in the order is given, and nothing changes.
#[test]
fn refusals_in_their_order() {
    let order = [
        Refusal::Unsound,
        Refusal::Closed,
        Refusal::SendRoom,
        Refusal::Handshake,
        Refusal::Place,
    ];
    for kinds in 0..32u32 {
        let asked = [1, 2, 4, 8, 16].map(|bit| kinds & bit != 0);
        let first = order.iter().zip(asked).find(|(_, asked)| *asked);
        for (phase, part) in [0, 1]
            .iter()
            .flat_map(|&p| [(p, Part::Table as fn(_) -> _), (p, Part::Entry)])
        {
            let mut state = four_entries();
            define(&mut state, 0);
            let connection = &mut state.session.layout_mut().connection;
            connection.closed = asked[1].into();
            connection.phase = if asked[3] { phase } else { 2 };
            state.store.layout_mut().counts[7] = asked[0].into();
            let room = SEND_ROOM - usize::from(asked[2]);
            let sent = state.send_with(part(if asked[4] { 3 } else { 0 }), 9, room);
            assert_eq!(
                sent.err(),
                first.map(|(refusal, _)| *refusal),
                "{kinds:05b}"
            );
        }
    }
}

#[test]
fn rooms() {
    for room in [0, 1, 12, 101, 267, 1024, 1035, 1036, 1037, 5000] {
        let mut state = four_entries();
        let expected = (room < 1036).then_some(Refusal::SendRoom);
        assert_eq!(state.send_with(Part::Table(0), 1, room).err(), expected);
        define(&mut state, 0);
        assert_eq!(state.send_with(Part::Entry(0), 1, room).err(), expected);
        assert_eq!(state.session.closed_with(), None);
    }
}

/// Each place, and such that a shorter number would take for one. What a free place keeps isn't sent.
#[test]
fn places() {
    let mut state = four_entries();
    let store = state.store.layout_mut();
    store.entries[127] = entry(0, b"last");
    store.counts[0] += 1;
    (store.entries[64], store.entries[64].held) = (store.entries[0], 0);
    (store.tables[7], store.tables[7].held) = (store.tables[0], 0);
    let far = [
        128,
        129,
        256,
        1 << 32,
        (1 << 32) + 1,
        1 << 63,
        usize::MAX - 1,
        usize::MAX,
    ];
    for place in (0..128).chain(far) {
        let expect = |part, there: bool| {
            let sent = state.clone().send(part, 9);
            assert_eq!(sent.err(), (!there).then_some(Refusal::Place), "{part:?}");
        };
        expect(Part::Table(place), place < 2);
        expect(Part::Entry(place), false);
        for (table, places) in [(0, &[0, 1, 2, 127][..]), (1, &[3])] {
            let mut state = state.clone();
            define(&mut state, table);
            let sent = state.send(Part::Entry(place), 9);
            let expected = (!places.contains(&place)).then_some(Refusal::Place);
            assert_eq!(sent.err(), expected, "{place} of table {table}");
        }
    }
}

// ---- reading

/// A reading call leaves the sending state, also one that closes; `State::call` compares it.
#[test]
fn between_reading_calls() {
    let mut base = four_entries();
    define(&mut base, 0);
    assert!(base.send(Part::Entry(0), 9).is_ok());
    for (piece, closed) in [
        (vec![], None),
        (vec![10], None),
        (vec![0, 4], None),
        (message(132, &[1, 0, 0, 0, 9]), None),
        (message(130, b"\x05\x01t\x02\x04\x04"), None),
        (message(130, b"\x05\x01w\x02\x04\x04"), None),
        (vec![0, 5], Some(20)),
        (message(128, b""), Some(27)),
        (vec![1, 0], Some(0)),
    ] {
        let mut state = base.clone();
        state.call(&piece);
        assert_eq!(state.session.closed_with(), closed);
        assert_eq!(
            (state.session.defined(), state.session.last_sent()),
            (Some(0), Some(9))
        );
        let expected = match closed {
            None => Ok(message(134, b"\0\0\0\x07key1\0")),
            Some(_) => Err(Refusal::Closed),
        };
        assert_eq!(state.send(Part::Entry(1), 10), expected);
    }
}

/// Sending calls between the bytes of a message that is read change nothing of it.
#[test]
fn inside_a_message() {
    let piece = message(130, b"\x05\x01w\x02\x04\x04");
    let mut plain = four_entries();
    let told = plain.offer(&piece);
    assert_eq!(told, [(Answer::Table { place: 2 }, vec![])]);
    for cut in 0..piece.len() {
        let mut state = four_entries();
        assert_eq!(state.offer(&piece[..cut]), []);
        define(&mut state, 1);
        assert!(state.send(Part::Entry(3), 9).is_ok());
        assert_eq!(state.offer(&piece[cut..]), told);
        state.session.layout_mut().sending = plain.session.layout().sending;
        assert!(state == plain);
    }
}
