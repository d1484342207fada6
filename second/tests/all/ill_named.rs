//! What the generated streams reach of names that aren't plain.

use second::call::{pass_time, read};
use second::generate::stream;
use second::integer::{decode, Decoded};
use second::model::feed;
use second::record::{Phase, Record};
use second::replay::{command, session, Command};
use second::store::Store;
use std::collections::BTreeMap;
use std::ops::Range;

const SEED: u64 = 2_000_000;
const COUNT: u64 = 10000;

/// What the definitions that are refused with 30 showed.
#[derive(Default)]
struct Seen {
    /// What each comes to with a plain name: the number that closes the
    /// session, or `None` where it is accepted.
    with_plain: BTreeMap<Option<u8>, u32>,
    /// The same with the name of a held table.
    with_held: BTreeMap<Option<u8>, u32>,
    /// Those whose first bytes came in an earlier call.
    divided: u32,
    /// Calls on a session that such a definition closed.
    on_closed: u32,
}

impl Seen {
    /// Goes through all commands of a script.
    fn script(&mut self, script: &[u8]) {
        let mut record = Record::default();
        let mut store = Store::new();
        let mut rest = script;
        while let Some((command, after)) = command(rest) {
            match command {
                Command::Open(role) => (record, store) = (session(role).0, Store::new()),
                Command::Reconnect(role) => record = session(role).0,
                Command::Call { room, piece } => self.call(&mut record, &mut store, room, piece),
                Command::Pass(time) => assert_eq!(pass_time(&mut store, time), 0),
                Command::Send(sending) => drop(sending.make(&mut record, &store)),
                Command::Dump => {}
            }
            rest = after;
        }
    }

    /// Makes a call and looks at it.
    fn call(&mut self, record: &mut Record, store: &mut Store, room: u8, piece: &[u8]) {
        let mut before = record.clone();
        let outcome = read(record, store, piece, &mut vec![0; usize::from(room)]);
        match (before.phase, record.phase) {
            (Phase::Closed(30), _) => self.on_closed += u32::from(room >= 12),
            (_, Phase::Closed(30)) => {
                self.divided += u32::from(!before.unfinished.is_empty());
                let mut message = std::mem::take(&mut before.unfinished);
                message.extend(&piece[..outcome.taken]);
                self.refused(&before, store, message);
            }
            _ => {}
        }
    }

    /// Looks at a refused definition.
    fn refused(&mut self, record: &Record, store: &Store, mut message: Vec<u8>) {
        let name = name_in(&message).unwrap();
        let held = store.tables.iter().flatten();
        let like = held.map(|t| &t.name[..]).find(|held| {
            let pairs = held.iter().zip(&message[name.clone()]);
            held.len() == name.len() && pairs.into_iter().all(|(a, b)| a == b || !plain(*b))
        });
        let seen = match like {
            Some(_) => &mut self.with_held,
            None => &mut self.with_plain,
        };
        let other = like.map_or_else(|| vec![b'n'; name.len()], <[u8]>::to_vec);
        message[name].copy_from_slice(&other);
        *seen.entry(closed(record, store, &message)).or_default() += 1;
    }
}

/// Whether a byte may be part of a table name.
fn plain(byte: u8) -> bool {
    byte.is_ascii_alphanumeric() || b"._-/:".contains(&byte)
}

/// Where the name of a definition stands in its message.
fn name_in(message: &[u8]) -> Option<Range<usize>> {
    let mut at = 2;
    let mut integer = || match decode(&message[at..]) {
        Decoded::Value { value, length } => {
            at += length;
            Some(value as usize)
        }
        _ => None,
    };
    let (_body, _id, length) = (integer()?, integer()?, integer()?);
    Some(at..at + length)
}

/// The number with which a message closes a session.
fn closed(record: &Record, store: &Store, message: &[u8]) -> Option<u8> {
    let (mut record, mut store) = (record.clone(), store.clone());
    for &byte in message {
        feed(&mut record, &mut store, byte);
    }
    match record.phase {
        Phase::Closed(number) => Some(number),
        _ => None,
    }
}

#[test]
fn names_that_are_not_plain_come_with_all_other_faults() {
    let mut seen = Seen::default();
    for seed in SEED..SEED + COUNT {
        seen.script(&stream(seed));
    }
    let count = |map: &BTreeMap<Option<u8>, u32>, number| map.get(&number).copied().unwrap_or(0);
    for number in [None, Some(23), Some(24), Some(26)] {
        let count = count(&seen.with_plain, number);
        assert!(count >= 5, "{number:?}: {count}");
    }
    for number in [None, Some(23), Some(24), Some(25)] {
        let count = count(&seen.with_held, number);
        assert!(count >= 5, "with a held name, {number:?}: {count}");
    }
    assert!(seen.divided >= 10 && seen.on_closed >= 10);
}
