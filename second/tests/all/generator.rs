//! What the generated streams reach.

use crate::passing::{self, Passing, Times};
use crate::sends::Sends;
use second::answer::{Answer, Commit, Outcome};
use second::call::{pass_time, read};
use second::datatype;
use second::generate::values::EDGES;
use second::generate::{capture, script, stream};
use second::integer::{decode, Decoded};
use second::long::Figures;
use second::record::{Phase, Record, Role};
use second::refusal::Refusal;
use second::replay::{command, replay, session, Command};
use second::store::{Store, ENTRIES, TABLES};
use std::collections::{BTreeMap, BTreeSet};

const SEED: u64 = 1_000_000;
const COUNT: u64 = 7000;

/// What the calls of some streams showed.
#[derive(Default)]
struct Seen {
    answers: BTreeMap<&'static str, u32>,
    refusals: BTreeMap<u8, u32>,
    refused_types: BTreeMap<(u8, u8), u32>,
    tables: usize,
    entries: usize,
    incremental: u32,
    wraparounds: u32,
    redefined: u32,
    rebound: u32,
    times_dropped: u32,
    reconnections: u32,
    key_types: BTreeSet<u64>,
    bad_key_types: BTreeSet<u64>,
    bad_key_lengths: BTreeMap<u64, BTreeSet<u64>>,
    name_bytes: BTreeSet<u8>,
    not_plain_first: BTreeSet<u8>,
    not_plain_last: BTreeSet<u8>,
    not_plain_at_the_end: u32,
    not_plain_on_full: u32,
    key_lengths: BTreeSet<usize>,
    data_types: BTreeSet<u32>,
    server_ids: BTreeSet<i32>,
    wide_values: BTreeSet<u64>,
    bound_ids: BTreeSet<u64>,
    rooms: BTreeSet<u8>,
    empty_pieces: u32,
    longest_piece: usize,
    unfinished: BTreeMap<(u8, u8), BTreeSet<usize>>,
    handshakes: BTreeMap<u8, BTreeSet<usize>>,
    passing: Passing,
    sends: Sends,
}

/// The name of an answer.
fn name(answer: Answer) -> &'static str {
    match answer {
        Answer::More => "more",
        Answer::Hello { .. } => "hello",
        Answer::Status => "status",
        Answer::Request => "request",
        Answer::Finished => "finished",
        Answer::Partial => "partial",
        Answer::Confirm => "confirm",
        Answer::Heartbeat => "heartbeat",
        Answer::Error { kind: 0 } => "error 0",
        Answer::Error { .. } => "error 1",
        Answer::Table { .. } => "table",
        Answer::Switch { .. } => "switch",
        Answer::Update { commit, .. } => match commit {
            Commit::New => "new",
            Commit::Replaced => "replaced",
        },
        Answer::Acknowledged { .. } => "ack",
        Answer::Skipped { .. } => "skipped",
        Answer::Refused(_) => "refused",
    }
}

const NAMES: [&str; 18] = [
    "more",
    "hello",
    "status",
    "request",
    "finished",
    "partial",
    "confirm",
    "heartbeat",
    "error 0",
    "error 1",
    "table",
    "switch",
    "new",
    "replaced",
    "ack",
    "skipped",
    "refused",
    "more",
];

/// A call before and after.
struct Step<'a> {
    before: &'a Record,
    times_before: usize,
    remaining_before: &'a Times,
    piece: &'a [u8],
    outcome: Outcome,
    record: &'a Record,
    store: &'a Store,
}

impl Seen {
    /// Goes through all commands of a script.
    fn script(&mut self, script: &[u8]) {
        let mut record = Record::default();
        let mut store = Store::new();
        let mut rest = script;
        let mut last = "";
        while let Some((command, after)) = command(rest) {
            if let Command::Open(_) = command {
                self.sends.open(last.is_empty(), &store);
            }
            last = self.command(&mut record, &mut store, command, last);
            let held = store.entries.iter().flatten().count();
            assert_eq!(store.counts.iter().sum::<u64>(), held as u64);
            rest = after;
        }
        assert_eq!(rest, []);
        self.sends.end(&record, &store);
    }

    /// Carries out a command and gives the name of what it did.
    fn command(
        &mut self,
        record: &mut Record,
        store: &mut Store,
        command: Command,
        last: &'static str,
    ) -> &'static str {
        match command {
            Command::Open(role) => {
                (*record, *store) = (session(role).0, Store::new());
                self.passing.open();
                "opening"
            }
            Command::Reconnect(role) => {
                *record = session(role).0;
                self.reconnections += 1;
                "opening"
            }
            Command::Call { room, piece } => self.call(record, store, room, piece),
            Command::Pass(time) => {
                self.pass(record, store, time);
                "passing"
            }
            Command::Send(sending) => {
                self.sends.make(sending, record, store);
                "sending"
            }
            Command::Dump => {
                self.passing.dump(last, store);
                last
            }
        }
    }

    /// Makes a passing call and looks at it.
    fn pass(&mut self, record: &Record, store: &mut Store, time: u32) {
        self.passing.pass(record, store, time);
        let counts = store.counts;
        assert_eq!(pass_time(store, time), 0);
        self.passing.counts(counts, store.counts);
    }

    /// Makes a call, looks at it and gives the name of its answer.
    fn call(
        &mut self,
        record: &mut Record,
        store: &mut Store,
        room: u8,
        piece: &[u8],
    ) -> &'static str {
        let before = record.clone();
        let times_before = times(store);
        let remaining_before = passing::times(store);
        let outcome = read(record, store, piece, &mut vec![0; usize::from(room)]);
        assert_eq!((record.defined, record.sent), (before.defined, before.sent));
        self.rooms.insert(room);
        self.empty_pieces += u32::from(piece.is_empty());
        self.longest_piece = self.longest_piece.max(piece.len());
        *self.answers.entry(name(outcome.answer)).or_default() += 1;
        self.look(&Step {
            before: &before,
            times_before,
            remaining_before: &remaining_before,
            piece,
            outcome,
            record,
            store,
        });
        name(outcome.answer)
    }

    /// Looks at one call.
    fn look(&mut self, step: &Step) {
        match step.outcome.answer {
            Answer::Refused(refusal) => self.refused(step, refusal),
            Answer::Table { place } => self.definition(step, place),
            Answer::Update {
                table, id, entry, ..
            } => self.update(step, table, id, entry),
            Answer::More => self.more(step.record),
            _ => {}
        }
    }

    /// Looks at a refusal.
    fn refused(&mut self, step: &Step, refusal: Refusal) {
        let number = refusal.number;
        *self.refusals.entry(number).or_default() += 1;
        let taken = &step.piece[..step.outcome.taken];
        let message = [&step.before.unfinished[..], taken].concat();
        assert_eq!(refusal.offset.is_some(), matches!(number, 23 | 24 | 30));
        if let [10, kind, ..] = message[..] {
            *self.refused_types.entry((number, kind)).or_default() += 1;
        }
        match (number, &message[..]) {
            (24, [10, 130, rest @ ..]) => drop(self.refused_key(rest)),
            (30, [10, 130, rest @ ..]) => self.refused_name(rest).unwrap(),
            _ => {}
        }
        let full = number == 30 && step.store.free_table().is_none();
        self.not_plain_on_full += u32::from(full);
    }

    /// Looks at a name that isn't plain.
    fn refused_name(&mut self, bytes: &[u8]) -> Option<()> {
        let mut rest = bytes;
        let (_length, _id) = (integer(&mut rest)?, integer(&mut rest)?);
        let length = integer(&mut rest)? as usize;
        let name = &rest[..length];
        let bad = |byte: &u8| !byte.is_ascii_alphanumeric() && !b"._-/:".contains(byte);
        self.not_plain_first.extend(name.first().filter(|b| bad(b)));
        self.not_plain_last.extend(name.last().filter(|b| bad(b)));
        self.not_plain_at_the_end += u32::from(rest.len() == length);
        Some(())
    }

    /// Looks at the key type and the key length of a definition that is out
    /// of range, if they are there.
    fn refused_key(&mut self, bytes: &[u8]) -> Option<()> {
        let mut rest = bytes;
        let (_length, _id) = (integer(&mut rest)?, integer(&mut rest)?);
        let name = integer(&mut rest)? as usize;
        rest = rest.get(name..)?;
        let key_type = integer(&mut rest)?;
        if !(2..=7).contains(&key_type) || key_type == 3 {
            self.bad_key_types.insert(key_type);
            return None;
        }
        let lengths = self.bad_key_lengths.entry(key_type).or_default();
        lengths.insert(integer(&mut rest)?);
        None
    }

    /// Looks at an accepted definition.
    fn definition(&mut self, step: &Step, place: usize) {
        let held = step.store.tables.iter().flatten().count();
        self.tables = self.tables.max(held);
        self.redefined += u32::from(step.before.bound[place].is_some());
        let lost = |n: &usize| step.before.bound[*n].is_some() && step.record.bound[*n].is_none();
        self.rebound += (0..TABLES).filter(lost).count() as u32;
        self.times_dropped += u32::from(times(step.store) < step.times_before);
        self.bound_ids.extend(step.record.bound[place]);
        self.name_bytes
            .extend(&step.store.table(place).unwrap().name);
    }

    /// Looks at an accepted update.
    fn update(&mut self, step: &Step, table: usize, id: u32, entry: usize) {
        let message = [&step.before.unfinished, step.piece].concat();
        let incremental = matches!(message[1], 129 | 134);
        let previous = step.before.previous[table];
        self.incremental += u32::from(incremental);
        let wrapped = incremental && previous == Some(u64::from(u32::MAX)) && id == 0;
        self.wraparounds += u32::from(wrapped);
        self.entries = self
            .entries
            .max(step.store.entries.iter().flatten().count());
        let held = step.store.table(table).unwrap();
        let place = entry;
        let entry = step.store.entries[place].as_ref().unwrap();
        let before = step.remaining_before;
        self.passing
            .update(message[1], before, place, entry.remaining);
        self.key_types.insert(held.key_type);
        self.key_lengths.insert(entry.key_length);
        self.data_types.extend(datatype::present(held.data_types));
        for (number, &value) in datatype::values(held.data_types).iter().zip(&entry.values) {
            match number {
                0 => drop(self.server_ids.insert(datatype::server_id(value).unwrap())),
                13 | 15 => drop(self.wide_values.insert(value)),
                _ => {}
            }
        }
    }

    /// Looks at the unfinished bytes after a call.
    fn more(&mut self, record: &Record) {
        let count = record.unfinished.len();
        match (record.phase, record.role, &record.unfinished[..]) {
            (Phase::Handshake, Role::Answerer, _) => {
                self.handshakes.entry(0).or_default().insert(count);
            }
            (Phase::Handshake, Role::Caller, _) => {
                self.handshakes.entry(1).or_default().insert(count);
            }
            (_, _, [class, kind, ..]) => {
                self.unfinished
                    .entry((*class, *kind))
                    .or_default()
                    .insert(count);
            }
            _ => {}
        }
    }
}

/// Takes an encoded integer from the front of some bytes.
fn integer(bytes: &mut &[u8]) -> Option<u64> {
    match decode(bytes) {
        Decoded::Value { value, length } => {
            *bytes = &bytes[length..];
            Some(value)
        }
        _ => None,
    }
}

/// The number of held tables with times.
fn times(store: &Store) -> usize {
    let tables = store.tables.iter().flatten();
    tables.filter(|table| table.times.is_some()).count()
}

/// What the fixed streams show.
fn seen() -> Seen {
    let mut seen = Seen::default();
    for seed in SEED..SEED + COUNT {
        seen.script(&stream(seed));
    }
    seen
}

#[test]
fn the_streams_reach_all_rules() {
    let seen = seen();
    let refusals: Vec<u8> = seen.refusals.keys().copied().collect();
    let expected: Vec<u8> = [1, 2].into_iter().chain(10..=15).chain(20..=30).collect();
    assert_eq!(refusals, expected);
    for (number, &count) in &seen.refusals {
        assert!(count >= 10, "refusal {number}: {count}");
    }
    for name in NAMES {
        let count = seen.answers.get(name).copied().unwrap_or_default();
        assert!(count >= 10, "{name}: {count}");
    }
    assert_eq!((seen.tables, seen.entries), (TABLES, ENTRIES));
    assert!(seen.incremental > 1000 && seen.wraparounds > 20);
    assert!(seen.redefined > 500 && seen.rebound > 500 && seen.times_dropped > 50);
    assert!(seen.reconnections > 200);
    reaches_all_values(&seen);
    reaches_all_bad_keys(&seen);
    reaches_all_name_bytes(&seen);
    reaches_all_update_refusals(&seen);
    seen.passing.reaches_all();
    seen.sends.reaches_all();
    reaches_all_divisions(&seen);
}

/// All key types and data types and all edge values are reached.
fn reaches_all_values(seen: &Seen) {
    assert_eq!(seen.key_types, [2, 4, 5, 6, 7].into());
    assert_eq!(seen.data_types, (0..19).collect());
    let lengths = [0, 1, 2, 3, 4, 5, 8, 16, 63, 64];
    assert!(lengths.iter().all(|n| seen.key_lengths.contains(n)));
    let servers = [0, 1, -1, i32::MIN, i32::MIN + 1, i32::MAX - 1, i32::MAX];
    assert!(servers.iter().all(|id| seen.server_ids.contains(id)));
    assert!(EDGES.iter().all(|value| seen.wide_values.contains(value)));
    let mut small = EDGES.iter().take_while(|&&value| value <= datatype::MAX_32);
    assert!(small.all(|value| seen.bound_ids.contains(value)));
}

/// Key types and key lengths next to the known ones are refused.
fn reaches_all_bad_keys(seen: &Seen) {
    let types = [0, 1, 3, 8, (1 << 32) + 2, u64::MAX];
    assert!(types.iter().all(|n| seen.bad_key_types.contains(n)));
    let lengths: [(u64, &[u64]); 5] = [
        (2, &[3, 5, 16]),
        (4, &[3, 5, 16]),
        (5, &[4, 15, 17]),
        (6, &[0, 65]),
        (7, &[0, 65]),
    ];
    for (key_type, lengths) in lengths {
        let found = &seen.bad_key_lengths[&key_type];
        assert!(lengths.iter().all(|n| found.contains(n)), "{key_type}");
    }
}

/// All plain bytes are accepted; those next to them are refused at both ends
/// of a name.
fn reaches_all_name_bytes(seen: &Seen) {
    assert_eq!(seen.name_bytes.len(), 67);
    for byte in b",;@[^`{\0\n +?~\x7F\x80\xC1\xFA\xFF" {
        assert!(seen.not_plain_first.contains(byte), "{byte}");
        assert!(seen.not_plain_last.contains(byte), "{byte}");
    }
    assert!(seen.not_plain_at_the_end >= 10 && seen.not_plain_on_full >= 3);
}

/// Updates of all forms are refused with all numbers that they can have.
fn reaches_all_update_refusals(seen: &Seen) {
    for kind in [128, 129, 133, 134] {
        for number in [23, 24, 27, 29] {
            assert!(
                seen.refused_types.contains_key(&(number, kind)),
                "{number} {kind}"
            );
        }
    }
    assert!(seen.refused_types.contains_key(&(28, 129)));
    assert!(seen.refused_types.contains_key(&(28, 134)));
}

/// Pieces end after every byte of short messages, in all rooms.
fn reaches_all_divisions(seen: &Seen) {
    assert!((0..=40).all(|room| seen.rooms.contains(&room)));
    assert!(seen.empty_pieces > 100 && seen.longest_piece > 256);
    assert!((1..27).all(|n| seen.handshakes[&0].contains(&n)));
    assert!((0..4).all(|n| seen.handshakes[&1].contains(&n)));
    let kinds = [
        (128, 40),
        (129, 40),
        (130, 40),
        (131, 4),
        (132, 8),
        (133, 40),
        (134, 40),
        (135, 7),
    ];
    for (kind, longest) in kinds {
        let counts = &seen.unfinished[&(10, kind)];
        assert!((2..=longest).all(|n| counts.contains(&n)), "{kind}");
    }
}

#[test]
fn a_script_is_the_streams_of_its_seeds() {
    let seeds = 500..520;
    let streams: Vec<Vec<u8>> = seeds.map(stream).collect();
    assert_eq!(script(500, 20), streams.concat());
    assert_ne!(stream(500), stream(501));
    assert_eq!(script(7, 0), []);
}

#[test]
fn streams_are_replayed_to_their_end() {
    let output = replay(&script(SEED, 300));
    let mut figures = Figures::default();
    figures.count(&output);
    assert!(figures.dumps >= 300 && figures.sessions >= 300);
    assert!(output.ends_with(b"\nend\n"));
    assert!(!figures.answers.contains_key("refused 4"));
}

#[test]
fn captures_are_an_answerers_sessions() {
    let mut ends = BTreeSet::new();
    for seed in 0..300 {
        let listing = second::listing::listing(&capture(seed));
        let text = String::from_utf8(listing).unwrap();
        let last = text.lines().last().unwrap().to_owned();
        ends.insert(last.split(' ').nth(1).unwrap().to_owned());
    }
    assert_eq!(ends.len(), 2);
}
