//! One store taught from another, over generated streams.

use crate::common::{contents, encoded, message, record, taught, Session, HELLO};
use second::answer::Answer;
use second::call::{pass_time, read};
use second::generate::random::Random;
use second::generate::stream;
use second::generate::values::{table_id, update_id};
use second::integer::encode;
use second::record::{Phase, Role};
use second::replay::{command, session, Command};
use second::send::{send_definition, send_entry};
use second::store::{Store, ENTRIES, TABLES};
use std::collections::BTreeSet;

const SEED: u64 = 5_000_000;
const COUNT: u64 = 2500;

/// The session that a stream ends with, its store filled by the stream.
fn filled(script: &[u8]) -> Session {
    let mut state = Session::new(Role::Answerer);
    let mut rest = script;
    while let Some((command, after)) = command(rest) {
        let Session { record, store } = &mut state;
        match command {
            Command::Open(role) => (*record, *store) = (session(role).0, Store::new()),
            Command::Reconnect(role) => *record = session(role).0,
            Command::Call { room, piece } => {
                read(record, store, piece, &mut vec![0; usize::from(room)]);
            }
            Command::Pass(time) => assert_eq!(pass_time(store, time), 0),
            Command::Send(sending) => drop(sending.make(record, store)),
            Command::Dump => {}
        }
        rest = after;
    }
    state
}

/// A session past its handshake, on a store.
fn established(random: &mut Random, store: Store) -> Session {
    let role = random.pick(&[Role::Answerer, Role::Caller]);
    let mut session = Session {
        record: record(role),
        store,
    };
    session.send(match role {
        Role::Answerer => HELLO,
        Role::Caller => b"200\n",
    });
    assert_eq!(session.record.phase, Phase::Open);
    session
}

/// A whole store's messages, and the acknowledgements that are due for them.
#[derive(Default)]
struct WholeStore {
    messages: Vec<Vec<u8>>,
    acknowledgements: Vec<Vec<u8>>,
    table_ids: Vec<u32>,
    kinds: BTreeSet<u8>,
}

impl WholeStore {
    /// Sends every table and its entries once, in place order.
    fn send(random: &mut Random, sender: &mut Session) -> WholeStore {
        let mut whole = WholeStore::default();
        for table in 0..TABLES {
            if sender.store.table(table).is_some() {
                whole.table(random, sender, table);
            }
        }
        whole
    }

    /// Sends a table and its entries.
    fn table(&mut self, random: &mut Random, sender: &mut Session, table: usize) {
        let id = table_id(random) as u32;
        self.table_ids.push(id);
        let Session { record, store } = sender;
        let mut room = [0xAA; 1036];
        let result = send_definition(record, store, table, id, &mut room);
        self.message(&room, result);
        let mut update = update_id(random);
        for place in 0..ENTRIES {
            if store.entry(place).is_some_and(|entry| entry.table == table) {
                let mut room = [0xAA; 1036];
                let result = send_entry(record, store, place, update, &mut room);
                self.message(&room, result);
                let body = [encode(id.into()), update.to_be_bytes().to_vec()].concat();
                self.acknowledgements.push(message(132, &body));
                update = match random.chance(700) {
                    true => update.wrapping_add(1),
                    false => update_id(random),
                };
            }
        }
    }

    /// Keeps the message at the front of a room.
    fn message(&mut self, room: &[u8], result: Result<usize, u8>) {
        let length = result.unwrap();
        assert!(room[length..].iter().all(|&byte| byte == 0xAA));
        self.kinds.insert(room[1]);
        self.messages.push(room[..length].to_vec());
    }
}

/// Feeds bytes in pieces of any length; gives the joined replies.
fn read_all(random: &mut Random, reader: &mut Session, bytes: &[u8]) -> Vec<u8> {
    let most = random.pick(&[1, 3, 20, 300, 5000]);
    let mut replies = Vec::new();
    let mut rest = bytes;
    while !rest.is_empty() {
        let count = random.below(most + 1).min(rest.len());
        let mut room = [0; 12];
        let outcome = read(
            &mut reader.record,
            &mut reader.store,
            &rest[..count],
            &mut room,
        );
        assert!(!matches!(outcome.answer, Answer::Refused(_)));
        replies.extend(&room[..outcome.reply]);
        rest = &rest[outcome.taken..];
    }
    replies
}

/// Nothing of a message is ignored: without its last byte, its last field is
/// cut, but for an expiry of one byte.
fn nothing_is_ignored(random: &mut Random, whole: &WholeStore) {
    let mut reader = established(random, Store::new());
    for bytes in &whole.messages {
        let body = &bytes[bytes.len() - body_length(bytes)..];
        let answer = reader.would(bytes[1], &body[..body.len() - 1]);
        match answer {
            Answer::Refused(refusal) => assert_eq!(refusal.number, 23),
            _ => assert_eq!((bytes[1], answer_is_table(answer)), (130, true)),
        }
        reader.respond(bytes);
    }
}

/// Whether an answer is that of a definition.
fn answer_is_table(answer: Answer) -> bool {
    matches!(answer, Answer::Table { .. })
}

/// The length of a message's body, at most 2,287.
fn body_length(bytes: &[u8]) -> usize {
    match bytes[2] {
        first @ 240.. => usize::from(first) + 16 * usize::from(bytes[3]),
        first => first.into(),
    }
}

/// Teaches an empty store from one filled by a stream and compares them; gives
/// what was sent.
fn teach(random: &mut Random, start: Session) -> WholeStore {
    let mut sender = match start.record.phase {
        Phase::Open => start,
        _ => established(random, start.store),
    };
    let before = sender.clone();
    let whole = WholeStore::send(random, &mut sender);
    assert_eq!(sender.store, before.store);
    (sender.record.defined, sender.record.sent) = (before.record.defined, before.record.sent);
    assert_eq!(sender.record, before.record);
    let mut reader = established(random, Store::new());
    let replies = read_all(random, &mut reader, &whole.messages.concat());
    assert_eq!(replies, whole.acknowledgements.concat());
    assert_eq!(contents(&reader.store), contents(&taught(&sender.store)));
    assert_eq!(reader.record.phase, Phase::Open);
    assert_eq!(reader.record.unfinished, []);
    assert_eq!((reader.record.defined, reader.record.sent), (None, None));
    nothing_is_ignored(random, &whole);
    whole
}

#[test]
fn a_store_teaches_another() {
    let mut random = Random::new(SEED);
    let (mut entries, mut full, mut twice) = (0, 0, 0);
    let mut kinds = BTreeSet::new();
    for seed in SEED..SEED + COUNT {
        let whole = teach(&mut random, filled(&stream(seed)));
        let count = whole.acknowledgements.len();
        entries += count;
        full += u32::from(count == ENTRIES);
        let ids: BTreeSet<u32> = whole.table_ids.iter().copied().collect();
        twice += u32::from(ids.len() < whole.table_ids.len());
        kinds.extend(whole.kinds);
    }
    assert!(entries > 5000 && full >= 10 && twice >= 100);
    assert_eq!(kinds, [128, 129, 130, 133, 134].into());
}

#[test]
fn a_reader_can_teach() {
    let mut random = Random::new(SEED);
    for seed in SEED..SEED + 300 {
        let mut first = established(&mut random, filled(&stream(seed)).store);
        let mut store = first.store.clone();
        for _ in 0..3 {
            let whole = WholeStore::send(&mut random, &mut first);
            let mut reader = established(&mut random, Store::new());
            read_all(&mut random, &mut reader, &whole.messages.concat());
            store = taught(&store);
            assert_eq!(contents(&reader.store), contents(&store));
            first = reader;
        }
    }
}

#[test]
fn two_tables_under_one_id() {
    let mut sender = Session::with_tables(&[
        &crate::common::definition(1, b"a", [2, 4, 0]),
        &crate::common::definition(2, b"b", [2, 4, 0]),
    ]);
    sender.one(128, b"\0\0\0\x01beta");
    sender.one(131, &encoded(&[1]));
    sender.one(128, b"\0\0\0\x01alfa");
    let mut reader = Session::open();
    let mut replies = Vec::new();
    for (table, entry, update) in [(0, 1, 7), (1, 0, 8)] {
        let mut room = [0; 1036];
        let Session { record, store } = &mut sender;
        let length = send_definition(record, store, table, 5, &mut room).unwrap();
        reader.respond(&room[..length]);
        let length = send_entry(record, store, entry, update, &mut room).unwrap();
        replies.push(reader.respond(&room[..length]).reply);
    }
    let expected = [[10, 132, 5, 5, 0, 0, 0, 7], [10, 132, 5, 5, 0, 0, 0, 8]];
    assert_eq!(replies, expected);
    assert_eq!(contents(&reader.store), contents(&sender.store));
    assert_eq!(reader.record.bound[..2], [None, Some(5)]);
}
