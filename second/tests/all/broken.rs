//! Which fields fail in the generated streams and in the stored scripts, in
//! which ways, and what holds of each offset.

use crate::common::{refused_at, Session};
use crate::walk::starts;
use second::answer::Answer;
use second::call::{pass_time, read};
use second::data::files;
use second::generate::stream;
use second::integer::{decode, Decoded};
use second::record::Record;
use second::refusal::Refusal;
use second::replay::{command, session, Command};
use second::store::Store;
use std::collections::BTreeSet;

const SEED: u64 = 3_000_000;
const COUNT: u64 = 20000;

/// How a field fails.
#[derive(Clone, Copy, Debug, PartialEq, Eq, PartialOrd, Ord)]
enum Way {
    /// The body ends before it.
    Missing,
    /// The body ends inside it.
    Cut,
    /// It overflows or is out of range.
    Range,
    /// It is a name that isn't plain.
    NotPlain,
}

/// The message type, the field and the way, of each field that failed.
#[derive(Default)]
struct Seen(BTreeSet<(u8, &'static str, Way)>);

impl Seen {
    /// Goes through all commands of a script.
    fn script(&mut self, script: &[u8]) {
        let mut record = Record::default();
        let mut store = Store::new();
        let mut rest = script;
        while let Some((command, after)) = command(rest) {
            match command {
                Command::Open(role) => (record, store) = (session(role).0, Store::new()),
                Command::Reconnect(role) => record = session(role).0,
                Command::Call { room, piece } => self.call(&mut record, &mut store, room, piece),
                Command::Pass(time) => assert_eq!(pass_time(&mut store, time), 0),
                Command::Send(sending) => drop(sending.make(&mut record, &store)),
                Command::Dump => {}
            }
            rest = after;
        }
    }

    /// Makes a call and looks at a refusal.
    fn call(&mut self, record: &mut Record, store: &mut Store, room: u8, piece: &[u8]) {
        let mut before = record.clone();
        let outcome = read(record, store, piece, &mut vec![0; usize::from(room)]);
        let Answer::Refused(refusal) = outcome.answer else {
            return;
        };
        let has = matches!(refusal.number, 23 | 24 | 30);
        assert_eq!(refusal.offset.is_some(), has, "{refusal:?}");
        if let Some(offset) = refusal.offset {
            let mut message = std::mem::take(&mut before.unfinished);
            message.extend(&piece[..outcome.taken]);
            let session = Session {
                record: before,
                store: store.clone(),
            };
            let body = body(&message);
            self.field(&session, message[1], body, refusal.number, offset);
            holds(&session, message[1], body, refusal.number, offset);
        }
    }

    /// Finds the field that failed: its start is one of those that the walk
    /// finds, and the last one if the body ends there.
    fn field(&mut self, session: &Session, kind: u8, body: &[u8], number: u8, offset: usize) {
        let current = session.record.current;
        let table = current.and_then(|place| session.store.table(place));
        let starts = starts(kind, body, table);
        // An empty key starts where the next field does.
        let place = starts.iter().rposition(|start| start.1 == offset);
        let place = place.expect("the start of a field");
        let way = match number {
            23 if offset == body.len() => Way::Missing,
            23 => Way::Cut,
            24 => Way::Range,
            _ => Way::NotPlain,
        };
        assert!(number != 23 || place == starts.len() - 1);
        self.0.insert((kind, starts[place].0, way));
    }

    /// Every field of every message has failed in every way that it can.
    fn reaches_all(&self) {
        for (kind, fields) in FIELDS {
            for name in fields.concat() {
                for way in ways(name) {
                    assert!(self.0.contains(&(kind, name, way)), "{kind} {name} {way:?}");
                }
            }
        }
    }
}

/// The body of a message.
fn body(message: &[u8]) -> &[u8] {
    match decode(&message[2..]) {
        Decoded::Value { length, .. } => &message[2 + length..],
        _ => panic!("no length"),
    }
}

/// Bytes to put behind a body.
const BEHIND: [[u8; 12]; 4] = [
    [0; 12],
    [0xFF; 12],
    *b"\x01n\x06\x08\x08nnnnnnn",
    [b' '; 12],
];

/// What holds of every refusal of a field: the fields before it are read and
/// it is cut until it fails; then, if it is cut, no longer body fails before
/// it, else nothing behind it matters.
fn holds(session: &Session, kind: u8, body: &[u8], number: u8, offset: usize) {
    let expected = refused_at(number, offset);
    let would = |length: usize| session.would(kind, &body[..length]);
    let mut end = offset;
    while would(end) != expected {
        // A definition may end before its expiry.
        let whole = kind == 130 && end == offset && !is_field(would(end));
        assert!(whole || would(end) == refused_at(23, offset));
        end += 1;
    }
    for behind in BEHIND.iter().filter(|_| end <= 1012) {
        let answer = session.would(kind, &[&body[..end], behind].concat());
        match answer {
            _ if number != 23 => assert_eq!(answer, expected),
            Answer::Refused(Refusal {
                offset: Some(at), ..
            }) => assert!(at >= offset, "{answer:?}"),
            _ => {}
        }
    }
}

/// Whether an answer is the refusal of a field.
fn is_field(answer: Answer) -> bool {
    matches!(answer, Answer::Refused(Refusal { offset, .. }) if offset.is_some())
}

/// The fields of a definition.
const DEFINITION: &[&str] = &[
    "table ID",
    "name length",
    "name",
    "key type",
    "key length",
    "data types",
    "expiry",
    "pair number",
    "period",
];

/// The fields of a key and of values.
const ENTRY: &[&str] = &[
    "string length",
    "string",
    "key",
    "server ID",
    "32-bit value",
    "64-bit value",
    "elapsed",
    "current count",
    "previous count",
];

/// The fields of each message.
const FIELDS: [(u8, &[&[&str]]); 7] = [
    (128, &[&["update ID"], ENTRY]),
    (129, &[ENTRY]),
    (130, &[DEFINITION]),
    (131, &[&["table ID"]]),
    (132, &[&["table ID", "update ID"]]),
    (133, &[&["update ID", "remaining time"], ENTRY]),
    (134, &[&["remaining time"], ENTRY]),
];

/// The ways in which a field can fail.
fn ways(name: &str) -> Vec<Way> {
    match name {
        "name" => vec![Way::Missing, Way::Cut, Way::NotPlain],
        "key" | "string" | "update ID" | "remaining time" => vec![Way::Missing, Way::Cut],
        // A definition may end before it.
        "expiry" => vec![Way::Cut, Way::Range],
        _ => vec![Way::Missing, Way::Cut, Way::Range],
    }
}

#[test]
fn every_field_fails_in_the_streams() {
    let mut seen = Seen::default();
    for seed in SEED..SEED + COUNT {
        seen.script(&stream(seed));
    }
    seen.reaches_all();
}

#[test]
fn every_field_fails_in_the_scripts() {
    let mut seen = Seen::default();
    let files = files().into_iter();
    for file in files.filter(|file| file.name.ends_with(".script")) {
        // The streams are looked at on their own.
        if file.name != "generated.script" {
            seen.script(&file.content);
        }
    }
    seen.reaches_all();
}
