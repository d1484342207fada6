//! The sending calls.

use crate::common::{definition, encoded, message, refused, table, timed, timed_update};
use crate::common::{update, Session, EXAMPLE};
use second::call::{pass_time, read};
use second::record::{Phase, Record, Role};
use second::refusal;
use second::send::{send_definition, send_entry};
use second::store::{Entry, Store, ENTRIES};

const MAX: u32 = u32::MAX;

/// A sending call.
type Call = fn(&mut Record, &Store, usize, u32, &mut [u8]) -> Result<usize, u8>;

const CALLS: [Call; 2] = [send_definition, send_entry];

impl Session {
    /// A sending call with this room, of which all past the message must stay;
    /// a refused one must change nothing, another nothing that reading uses.
    fn transmit(&mut self, call: Call, place: usize, id: u32, room: usize) -> Result<Vec<u8>, u8> {
        let before = self.clone();
        let mut buffer = vec![0xAA; room];
        let result = call(&mut self.record, &self.store, place, id, &mut buffer);
        assert!(buffer[result.unwrap_or(0)..]
            .iter()
            .all(|&byte| byte == 0xAA));
        match result {
            Ok(_) => assert_eq!(self.reading(), before.reading()),
            Err(_) => assert_eq!(*self, before),
        }
        result.map(|length| buffer[..length].to_vec())
    }

    /// The session without what only sending uses.
    fn reading(&self) -> Session {
        let mut session = self.clone();
        session.record.defined = None;
        session.record.sent = None;
        session
    }

    /// Sends a definition.
    fn define(&mut self, place: usize, id: u32) -> Result<Vec<u8>, u8> {
        self.transmit(send_definition, place, id, 1036)
    }

    /// Sends an entry.
    fn entry(&mut self, place: usize, id: u32) -> Result<Vec<u8>, u8> {
        self.transmit(send_entry, place, id, 1036)
    }

    /// The table defined last and the ID sent last.
    fn marks(&self) -> (Option<usize>, Option<u32>) {
        (self.record.defined, self.record.sent)
    }
}

/// A session with three tables; places 0 and 3 are entries of the first, 1 and
/// 4 of the second, 2 of the third.
fn base() -> Session {
    let mut session = Session::with_tables(&[
        &definition(7, b"a", [2, 4, 1 << 2]),
        &timed(8, b"b", [6, 8, 1 << 3 | 1 << 5], &[60000, 3, 10, 5, 2288]),
        &timed(9, b"c", [4, 4, 0], &[5]),
    ]);
    for (table, kind, body) in [
        (7, 128, update(1, b"aaaa", &[1])),
        (8, 128, update(1, b"\x03key", &[1, 2, 3, 4, 5, 240])),
        (9, 133, timed_update(1, MAX, b"cccc", &[])),
        (7, 133, timed_update(1, 0, b"AAAA", &[4294967295])),
        (8, 133, timed_update(1, 258, b"\0", &[0; 6])),
    ] {
        session.one(131, &[table]);
        session.one(kind, &body);
    }
    session
}

/// A base whose first table is defined.
fn defined() -> Session {
    let mut session = base();
    session.define(0, 1).unwrap();
    session
}

#[test]
fn definitions_as_bytes() {
    let mut session = base();
    let expected = message(130, &definition(300, b"a", [2, 4, 1 << 2]));
    assert_eq!(session.define(0, 300).unwrap(), expected);
    assert_eq!(expected, [10, 130, 7, 0xFC, 3, 1, b'a', 2, 4, 4]);
    let times = [60000, 3, 10, 5, 2288];
    let expected = message(130, &timed(0, b"b", [6, 8, 1 << 3 | 1 << 5], &times));
    assert_eq!(session.define(1, 0).unwrap(), expected);
    let expected = message(130, &timed(u64::from(MAX), b"c", [4, 4, 0], &[5]));
    assert_eq!(session.define(2, MAX).unwrap(), expected);
}

#[test]
fn entries_as_bytes() {
    let mut session = defined();
    let expected = message(128, &update(9, b"aaaa", &[1]));
    assert_eq!(session.entry(0, 9).unwrap(), expected);
    assert_eq!(
        expected,
        [10, 128, 9, 0, 0, 0, 9, b'a', b'a', b'a', b'a', 1]
    );
    let expected = message(129, b"aaaa\x01");
    assert_eq!(session.entry(0, 10).unwrap(), expected);
    let expected = message(134, b"\0\0\0\0AAAA\xFF\xF0\xFE\xFE\x7E");
    assert_eq!(session.entry(3, 11).unwrap(), expected);
    let expected = message(133, &timed_update(13, 0, b"AAAA", &[4294967295]));
    assert_eq!(session.entry(3, 13).unwrap(), expected);
    session.define(1, 1).unwrap();
    let expected = message(133, &timed_update(14, 258, b"\0", &[0; 6]));
    assert_eq!(session.entry(4, 14).unwrap(), expected);
    // An untimed update took the expiry.
    let values = encoded(&[1, 2, 3, 4, 5, 240]);
    let expected = [&[0, 0, 0xEA, 0x60, 3], &b"key"[..], &values].concat();
    assert_eq!(session.entry(1, 15).unwrap(), message(134, &expected));
    session.define(2, 1).unwrap();
    let expected = message(133, &timed_update(16, MAX, b"cccc", &[]));
    assert_eq!(session.entry(2, 16).unwrap(), expected);
}

#[test]
fn every_key_type() {
    for (key_type, length, keys) in [
        (2, 4, vec![4]),
        (4, 4, vec![4]),
        (5, 16, vec![16]),
        (6, 1, vec![0, 1]),
        (6, 64, vec![0, 1, 63, 64]),
        (7, 1, vec![1]),
        (7, 64, vec![64]),
    ] {
        let shape = [key_type, length, 0];
        let mut session = Session::with_tables(&[&definition(1, b"t", shape)]);
        for (place, &length) in keys.iter().enumerate() {
            let key: Vec<u8> = (1..=length).collect();
            session.store.add(place, Entry::new(0, &key, vec![]));
        }
        let sent = session.define(0, 1).unwrap();
        assert_eq!(sent, message(130, &definition(1, b"t", shape)));
        for (place, &length) in keys.iter().enumerate() {
            let key: Vec<u8> = (1..=length).collect();
            let string = [&[length], &key[..]].concat();
            let key = if key_type == 6 { string } else { key };
            let sent = session.entry(place, 7).unwrap();
            assert_eq!(sent, message(128, &update(7, &key, &[])));
        }
    }
}

#[test]
fn values_of_all_types() {
    let mut session = Session::with_tables(&[&definition(1, b"t", [2, 4, (1 << 19) - 1])]);
    let server_ids = [0, (1 << 31) - 1, u64::MAX, u64::MAX - (1 << 31) + 1];
    for (place, server) in server_ids.into_iter().enumerate() {
        let mut values: Vec<u64> = (0..35).map(|n| u64::from(MAX) - n).collect();
        values[0] = server;
        // 13 and 15, behind 5 rates and a server ID.
        (values[23], values[27]) = (u64::MAX, 1 << 63);
        session
            .store
            .add(place, Entry::new(0, &[place as u8; 4], values));
    }
    session.define(0, 1).unwrap();
    for (place, _) in server_ids.iter().enumerate() {
        let values = session.entries()[place].values.clone();
        let expected = message(128, &update(5, &[place as u8; 4], &values));
        assert_eq!(session.entry(place, 5).unwrap(), expected);
    }
}

#[test]
fn the_longest_messages() {
    let rates = [3, 5, 8, 10, 12, 14, 16, 18];
    let pairs = rates.iter().flat_map(|&rate| [rate, u64::from(MAX)]);
    let times: Vec<u64> = [u64::from(MAX)].into_iter().chain(pairs).collect();
    let shape = [6, 64, (1 << 19) - 1];
    let body = timed(u64::from(MAX), &[b'n'; 32], shape, &times);
    let mut session = Session::with_tables(&[&body]);
    let mut values = vec![u64::from(MAX); 35];
    for place in [0, 23, 27] {
        values[place] = u64::MAX;
    }
    let entry = Entry::new(0, &[b'k'; 64], values.clone()).lasting(Some(u64::from(MAX)));
    session.store.add(127, entry);
    let sent = session.define(0, MAX).unwrap();
    assert_eq!((sent.len(), &sent), (100, &message(130, &body)));
    let sent = session.entry(127, MAX).unwrap();
    let key = [&[64], &[b'k'; 64][..]].concat();
    let expected = message(133, &timed_update(MAX, MAX, &key, &values));
    assert_eq!((sent.len(), sent), (267, expected));
}

#[test]
fn explicit_and_incremental() {
    for last in [0, 1, 9, 239, 240, 1 << 31, MAX - 1, MAX] {
        for id in [
            0,
            1,
            2,
            8,
            9,
            10,
            11,
            240,
            241,
            (1 << 31) + 1,
            MAX - 2,
            MAX - 1,
            MAX,
        ] {
            for (place, kinds) in [(0, [128, 129]), (3, [133, 134])] {
                let mut session = defined();
                assert_eq!(session.entry(0, last).unwrap()[1], 128);
                assert_eq!(session.marks(), (Some(0), Some(last)));
                let follows = u64::from(id) == (u64::from(last) + 1) % (1 << 32);
                let kind = kinds[usize::from(follows)];
                assert_eq!(session.entry(place, id).unwrap()[1], kind, "{last} {id}");
                assert_eq!(session.marks(), (Some(0), Some(id)));
            }
        }
    }
}

#[test]
fn every_definition_resets_the_last_id() {
    for place in 0..3 {
        let mut session = defined();
        session.entry(0, 5).unwrap();
        session.define(place, 1).unwrap();
        assert_eq!(session.marks(), (Some(place), None));
        let entry = [0, 1, 2][place];
        let kind = session.entry(entry, 6).unwrap()[1];
        assert_eq!(kind, [128, 133, 133][place]);
    }
}

#[test]
fn entries_of_the_table_defined_last_only() {
    let own = [vec![0, 3], vec![1, 4], vec![2]];
    for (table, own) in own.iter().enumerate() {
        let mut session = base();
        session.define(table, 1).unwrap();
        for place in (0..ENTRIES + 3).chain([255, 256, usize::MAX]) {
            let expected = if own.contains(&place) {
                Ok(())
            } else {
                Err(32)
            };
            assert_eq!(session.entry(place, 9).map(drop), expected, "{place}");
        }
    }
    for place in 0..ENTRIES {
        assert_eq!(base().entry(place, 9), Err(32));
    }
}

#[test]
fn table_places() {
    for place in [3, 7, 8, 9, 127, 255, 256, 1 << 32, usize::MAX] {
        assert_eq!(defined().define(place, 1), Err(32));
    }
    let mut empty = Session::open();
    for place in 0..9 {
        assert_eq!(empty.define(place, 1), Err(32));
    }
}

#[test]
fn a_last_id_without_a_table_has_no_effect() {
    let mut session = base();
    session.record.sent = Some(4);
    assert_eq!(session.entry(0, 5), Err(32));
    session.define(0, 1).unwrap();
    assert_eq!(session.entry(0, 5).unwrap()[1], 128);
}

#[test]
fn rooms() {
    for call in CALLS {
        for room in [0, 1, 10, 267, 1024, 1035] {
            assert_eq!(defined().transmit(call, 0, 1, room), Err(31));
        }
        for room in [1036, 1037, 65535, 100_000] {
            assert!(defined().transmit(call, 0, 1, room).is_ok());
        }
    }
}

/// A fault of a call on a session: the number, and what makes it.
type Fault = (u8, fn(&mut Session, &mut usize, &mut usize));

/// The refusals in their order.
const FAULTS: [Fault; 5] = [
    (4, |session, _, _| session.store.counts[7] = 1),
    (2, |session, _, _| {
        session.record.phase = Phase::Closed(20);
    }),
    (31, |_, _, room| *room = 1035),
    (34, |session, _, _| {
        if session.record.phase == Phase::Open {
            session.record.phase = Phase::Handshake;
        }
    }),
    (32, |_, place, _| *place = 77),
];

#[test]
fn order_of_refusals() {
    for call in CALLS {
        for (first, (number, one)) in FAULTS.into_iter().enumerate() {
            for (_, other) in &FAULTS[first..] {
                let (mut session, mut place, mut room) = (defined(), 0, 1036);
                one(&mut session, &mut place, &mut room);
                other(&mut session, &mut place, &mut room);
                assert_eq!(session.transmit(call, place, 9, room), Err(number));
            }
        }
    }
}

#[test]
fn all_refusals_at_once() {
    for call in CALLS {
        for (first, (number, _)) in FAULTS.into_iter().enumerate() {
            let (mut session, mut place, mut room) = (defined(), 0, 1036);
            for (_, fault) in &FAULTS[first..] {
                fault(&mut session, &mut place, &mut room);
            }
            assert_eq!(session.transmit(call, place, 9, room), Err(number));
        }
    }
}

#[test]
fn records_and_stores_that_are_not_sound() {
    let changes: [fn(&mut Session); 6] = [
        |session| session.record.defined = Some(3),
        |session| session.record.defined = Some(8),
        |session| session.record.defined = Some(usize::MAX),
        |session| session.record.current = Some(3),
        |session| session.record.unfinished = vec![0, 4],
        |session| session.store.entries[0].as_mut().unwrap().key[5] = 1,
    ];
    for change in changes {
        let mut session = defined();
        change(&mut session);
        assert_eq!(session.define(0, 1), Err(4));
        assert_eq!(session.entry(0, 1), Err(4));
    }
    // A table defined last that isn't held, in the other calls.
    let mut session = defined();
    session.record.defined = Some(3);
    let before = session.clone();
    let outcome = read(
        &mut session.record,
        &mut session.store,
        &[0, 4],
        &mut [0; 12],
    );
    assert_eq!((outcome.taken, outcome.answer), (0, refused(4)));
    assert_eq!(session, before);
    assert_eq!(pass_time(&mut session.store, 0), 0);
}

#[test]
fn sending_numbers_close_nothing_and_have_no_reply() {
    for number in 31..=35 {
        assert!(!refusal::closes(number));
        assert_eq!(refusal::reply(number), []);
    }
}

#[test]
fn role_and_unfinished_bytes_do_not_matter() {
    let sends = |session: &mut Session| [session.define(0, 5), session.entry(3, 6)];
    let expected = sends(&mut base());
    for role in [Role::Answerer, Role::Caller] {
        for unfinished in [&[][..], &[0], &[10, 130, 7, 0xFC]] {
            let mut session = base();
            session.record.role = role;
            session.record.unfinished = unfinished.to_vec();
            assert_eq!(sends(&mut session), expected);
            session.record = Record {
                our_name: b"other".to_vec(),
                bound: [None; 8],
                previous: [None; 8],
                current: None,
                ..session.record
            };
            assert_eq!(sends(&mut session), expected);
        }
    }
}

#[test]
fn before_the_handshake_and_inside_it() {
    for role in [Role::Answerer, Role::Caller] {
        let mut session = base();
        session.record = crate::common::record(role);
        for byte in [None, Some(b'2'), Some(b'0'), Some(b'0')] {
            session.send(byte.as_slice());
            assert_eq!(session.define(0, 1), Err(34));
            assert_eq!(session.entry(0, 1), Err(34));
        }
    }
    let mut session = base();
    session.record = crate::common::record(Role::Caller);
    session.send(b"200\n");
    assert!(session.define(0, 1).is_ok());
}

#[test]
fn reading_leaves_what_sending_uses() {
    let endings: [&[u8]; 5] = [&[0, 4], &[0, 5], &[1, 0], &[10, 130, 1, 0], &[10, 128, 9]];
    for ending in endings {
        let mut session = defined();
        session.entry(0, 41).unwrap();
        let marks = session.marks();
        session.send(&EXAMPLE[27..]);
        session.send(ending);
        assert_eq!(session.marks(), marks);
        let closed = session.record.is_closed();
        let result = session.entry(3, 42).map(|sent| sent[1]);
        assert_eq!(result, if closed { Err(2) } else { Ok(134) });
    }
    let mut session = defined();
    session.entry(0, 41).unwrap();
    assert_eq!(pass_time(&mut session.store, 1), 0);
    assert_eq!(session.marks(), (Some(0), Some(41)));
    assert_eq!(session.entry(3, 42), Err(32));
}

#[test]
fn openings_have_no_table_and_no_id() {
    for role in [Role::Answerer, Role::Caller] {
        let session = Session::new(role);
        assert_eq!(session.marks(), (None, None));
    }
    let record = Record::refused(3);
    assert_eq!((record.defined, record.sent), (None, None));
    let mut session = base();
    session.record = record;
    assert_eq!(session.define(0, 1), Err(2));
    assert_eq!(session.entry(0, 1), Err(2));
}

#[test]
fn a_table_without_expiry_is_sent_without_pairs() {
    let mut session = Session::open();
    session.store.tables[5] = Some(table(b"r", [2, 4, 1 << 3], None));
    let sent = session.define(5, 1).unwrap();
    assert_eq!(sent, message(130, &definition(1, b"r", [2, 4, 1 << 3])));
    let times: (u64, &[u64]) = (0, &[0]);
    session.store.tables[5] = Some(table(b"r", [2, 4, 1 << 3], Some(times)));
    let sent = session.define(5, 1).unwrap();
    assert_eq!(
        sent,
        message(130, &timed(1, b"r", [2, 4, 1 << 3], &[0, 3, 0]))
    );
}

#[test]
fn an_entry_without_time_in_a_table_with_expiry() {
    let mut session = defined();
    session.one(130, &timed(7, b"a", [2, 4, 1 << 2], &[60000]));
    assert_eq!(session.entries()[0].remaining, None);
    session.define(0, 1).unwrap();
    assert_eq!(session.entry(0, 1).unwrap()[1], 128);
    assert_eq!(session.entry(0, 2).unwrap()[1], 129);
    let store: &Store = &session.store;
    assert_eq!(store.entry(0).unwrap().remaining, None);
}
