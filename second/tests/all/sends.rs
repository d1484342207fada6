//! What the sending calls of some streams reach, and what holds of each.

use crate::common::{contents, taught};
use second::answer::Outcome;
use second::call::read;
use second::datatype;
use second::generate::stream;
use second::record::{Phase, Record};
use second::replay::{command, session, Command, Item, Sending, FILL};
use second::store::{Entry, Store, Table, ENTRIES, TABLES};
use std::collections::{BTreeMap, BTreeSet};

/// What was reached, with its count.
#[derive(Default)]
pub struct Sends {
    pub reached: BTreeMap<String, u32>,
    places: BTreeMap<&'static str, BTreeSet<u8>>,
    ids: BTreeMap<&'static str, BTreeSet<u32>>,
    key_types: BTreeSet<(u64, bool)>,
    data_types: BTreeSet<u32>,
    rooms: BTreeMap<bool, BTreeSet<u16>>,
    sender: Option<Store>,
}

/// The name of what a call sends.
fn name(item: Item) -> &'static str {
    match item {
        Item::Definition => "definition",
        Item::Entry => "entry",
    }
}

impl Sends {
    /// Counts something.
    fn reach(&mut self, what: &str) {
        *self.reached.entry(what.to_owned()).or_default() += 1;
    }

    /// Counts something if it is so.
    fn reach_if(&mut self, is_so: bool, what: &str) {
        if is_so {
            self.reach(what);
        }
    }

    /// Looks at an opening on an empty store; after others in a stream it's
    /// that of a whole store's reader.
    pub fn open(&mut self, first: bool, store: &Store) {
        self.sender = Some(store.clone()).filter(|_| !first);
    }

    /// Looks at the end of a stream: after a whole store was sent and read, the
    /// reader's holds what the sender's does.
    pub fn end(&mut self, record: &Record, store: &Store) {
        let Some(sender) = self.sender.take() else {
            return;
        };
        let taught = taught(&sender);
        assert_eq!(contents(store), contents(&taught));
        assert_eq!(record.phase, Phase::Open);
        assert_eq!(record.unfinished, []);
        self.reach("whole store");
        let entries = store.entries.iter().flatten().count();
        self.reach_if(entries > 0, "whole store with entries");
        self.reach_if(entries == ENTRIES, "whole store that is full");
        self.reach_if(*store != taught, "whole store with other places");
        let unbound = |n: usize| store.table(n).is_some() && record.bound[n].is_none();
        self.reach_if((0..TABLES).any(unbound), "whole store with one ID twice");
    }

    /// Makes a sending call and looks at it.
    pub fn make(&mut self, sending: Sending, record: &mut Record, store: &Store) {
        let before = record.clone();
        let (result, room) = sending.make(record, store);
        let written = result.unwrap_or(0);
        assert!(room[written..].iter().all(|&byte| byte == FILL));
        self.phase(sending, &before);
        let places = self.places.entry(name(sending.item)).or_default();
        places.insert(sending.place);
        let rooms = self.rooms.entry(result == Err(31)).or_default();
        rooms.insert(sending.room);
        match (result, sending.item) {
            (Err(number), _) => {
                assert_eq!(*record, before);
                self.refused(sending, number, &before, store);
            }
            (Ok(_), Item::Definition) => self.definition(sending, &before, record, store),
            (Ok(_), Item::Entry) => self.entry(sending, room[1], &before, record, store),
        }
    }

    /// Looks at where in the session a call is.
    fn phase(&mut self, sending: Sending, record: &Record) {
        let inside = !record.unfinished.is_empty();
        let phase = match record.phase {
            Phase::Handshake if inside => "inside the handshake",
            Phase::Handshake => "before the handshake",
            Phase::Open if inside => "inside a message",
            Phase::Open => "between messages",
            Phase::Closed(_) => "on a closed session",
        };
        self.reach(&format!("{} {phase}", name(sending.item)));
    }

    /// Looks at a refused call: its number, and the later ones that it would
    /// have too.
    fn refused(&mut self, sending: Sending, number: u8, record: &Record, store: &Store) {
        let small = sending.room < 1036;
        let handshake = record.phase == Phase::Handshake;
        let missing = missing(sending, record, store);
        let mut numbers = Vec::new();
        if let Phase::Closed(_) = record.phase {
            numbers.push("2");
        }
        numbers.extend(small.then_some("31"));
        numbers.extend(handshake.then_some("34"));
        numbers.extend(missing.map(|_| "32"));
        assert_eq!(number.to_string(), numbers[0]);
        self.reach(&format!("{} {}", name(sending.item), numbers.join(" ")));
        if let Some(missing) = missing.filter(|_| number == 32) {
            self.reach(missing);
        }
    }

    /// Looks at a definition that was sent.
    fn definition(&mut self, sending: Sending, before: &Record, record: &Record, store: &Store) {
        let place = usize::from(sending.place);
        let expected = Record {
            defined: Some(place),
            sent: None,
            ..before.clone()
        };
        assert_eq!(*record, expected);
        let table = store.table(place).unwrap();
        self.reach(match &table.times {
            None => "definition without expiry",
            Some(times) if times.periods.is_empty() => "definition with expiry",
            Some(_) => "definition with expiry and periods",
        });
        let same = before.defined == Some(place);
        self.reach_if(same, "definition of the same table");
        self.reach_if(before.defined.is_some() && !same, "definition of another");
        self.reach_if(before.sent.is_some(), "definition after an entry");
        self.ids.entry("table").or_default().insert(sending.id);
    }

    /// Looks at an entry that was sent, as a message of a type.
    fn entry(
        &mut self,
        sending: Sending,
        kind: u8,
        before: &Record,
        record: &Record,
        store: &Store,
    ) {
        let expected = Record {
            sent: Some(sending.id),
            ..before.clone()
        };
        assert_eq!(*record, expected);
        let entry = store.entry(sending.place.into()).unwrap();
        let table = store.table(entry.table).unwrap();
        let follows = follows(before.sent, sending.id);
        let expected = match (follows, entry.remaining) {
            ("after its last ID", None) => 129,
            ("after its last ID", Some(_)) => 134,
            (_, None) => 128,
            (_, Some(_)) => 133,
        };
        assert_eq!(kind, expected);
        self.reach(&format!("{kind} {follows}"));
        let wraps = before.sent == Some(u32::MAX) && sending.id == 0;
        self.reach_if(wraps, &format!("{kind} wraps"));
        self.reach_if(entry.remaining == Some(0), "entry with 0 left");
        let other = entry.remaining != table.times.as_ref().map(|times| times.expiry);
        self.reach(match (&table.times, entry.remaining) {
            (None, None) => "no time, no expiry",
            (None, Some(_)) => "time, no expiry",
            (Some(_), None) => "no time, expiry",
            (Some(_), Some(_)) => "time, expiry",
        });
        self.reach_if(
            other && entry.remaining.is_some(),
            "entry with its own time",
        );
        self.ids.entry("update").or_default().insert(sending.id);
        self.values(table, entry);
    }

    /// Looks at the key and the values of an entry that was sent.
    fn values(&mut self, table: &Table, entry: &Entry) {
        let whole = entry.key_length as u64 == table.key_length;
        self.key_types.insert((table.key_type, whole));
        self.reach_if(entry.key_length == 0, "empty key");
        self.data_types.extend(datatype::present(table.data_types));
        let types = datatype::values(table.data_types);
        for (number, &value) in types.into_iter().zip(&entry.values) {
            self.reach_if(number == 0 && value > 1 << 32, "negative server ID");
            let wide = matches!(number, 13 | 15);
            self.reach_if(wide && value == u64::MAX, "largest 64-bit value");
            self.reach_if(!wide && value == 4294967295, "largest 32-bit value");
        }
    }

    /// Asserts that all is reached that a stream can reach.
    pub fn reaches_all(&self) {
        for what in all() {
            let count = self.reached.get(&what).copied().unwrap_or_default();
            assert!(count >= 5, "{what}: {count}");
        }
        for name in ["definition", "entry"] {
            let places = &self.places[name];
            assert!((0..=255).all(|n| places.contains(&n)), "{}", places.len());
        }
        let ids: [(&str, &[u32]); 2] = [
            ("table", &[0, 1, 239, 240, 2287, 2288, u32::MAX]),
            ("update", &[0, 1, u32::MAX - 1, u32::MAX]),
        ];
        for (name, ids) in ids {
            assert!(ids.iter().all(|id| self.ids[name].contains(id)), "{name}");
        }
        let types = [2, 4, 5, 6, 7].map(|number| (number, true));
        assert!(types.iter().all(|pair| self.key_types.contains(pair)));
        assert!(self.key_types.contains(&(6, false)));
        assert_eq!(self.data_types, (0..19).collect());
        assert!([0, 1, 1034, 1035]
            .iter()
            .all(|n| self.rooms[&true].contains(n)));
        let large = [1036, 1037, 65535];
        assert!(large.iter().all(|n| self.rooms[&false].contains(n)));
    }
}

/// Why the place of a sending call has nothing to send, if so.
fn missing(sending: Sending, record: &Record, store: &Store) -> Option<&'static str> {
    let place = usize::from(sending.place);
    let entry = store.entry(place);
    match sending.item {
        Item::Definition if place == 8 => Some("no ninth table place"),
        Item::Definition if place > 8 => Some("no such table place"),
        Item::Definition => store.table(place).is_none().then_some("table place free"),
        Item::Entry if place == ENTRIES => Some("no 129th entry place"),
        Item::Entry if place > ENTRIES => Some("no such entry place"),
        Item::Entry if entry.is_none() => Some("entry place free"),
        Item::Entry if record.defined.is_none() => Some("no table defined"),
        Item::Entry => {
            let other = entry.map(|entry| entry.table) != record.defined;
            other.then_some("entry of another table")
        }
    }
}

/// How an update ID follows the last one.
fn follows(last: Option<u32>, id: u32) -> &'static str {
    let Some(last) = last else {
        return "after a definition";
    };
    match id.wrapping_sub(last) {
        0 => "with its last ID again",
        1 => "after its last ID",
        2 => "after a gap of one",
        u32::MAX => "before its last ID",
        _ => "with any ID",
    }
}

/// All that streams reach.
fn all() -> Vec<String> {
    let mut list: Vec<String> = OTHERS.map(String::from).into();
    for item in ["definition", "entry"] {
        for phase in PHASES {
            list.push(format!("{item} {phase}"));
        }
        for numbers in NUMBERS {
            list.push(format!("{item} {numbers}"));
        }
    }
    for (explicit, incremental) in [(128, 129), (133, 134)] {
        for follows in EXPLICIT {
            list.push(format!("{explicit} {follows}"));
        }
        list.push(format!("{incremental} after its last ID"));
        list.push(format!("{incremental} wraps"));
    }
    list
}

/// Where calls are made.
const PHASES: [&str; 5] = [
    "before the handshake",
    "inside the handshake",
    "inside a message",
    "between messages",
    "on a closed session",
];

/// The refusals that a call would have, the first of which it has.
const NUMBERS: [&str; 9] = [
    "2", "31", "32", "2 31", "2 32", "2 31 32", "31 32", "34 32", "31 34 32",
];

/// How the ID of an explicit update follows the last one.
const EXPLICIT: [&str; 5] = [
    "after a definition",
    "with its last ID again",
    "after a gap of one",
    "before its last ID",
    "with any ID",
];

/// What else streams reach.
const OTHERS: [&str; 31] = [
    // An entry can't be of the table defined last there.
    "definition 34",
    "definition 31 34",
    "definition without expiry",
    "definition with expiry",
    "definition with expiry and periods",
    "definition of the same table",
    "definition of another",
    "definition after an entry",
    "no time, no expiry",
    "time, no expiry",
    "no time, expiry",
    "time, expiry",
    "entry with 0 left",
    "entry with its own time",
    "table place free",
    "no ninth table place",
    "no such table place",
    "entry place free",
    "no 129th entry place",
    "no such entry place",
    "entry of another table",
    "no table defined",
    "empty key",
    "negative server ID",
    "largest 64-bit value",
    "largest 32-bit value",
    "whole store",
    "whole store with entries",
    "whole store that is full",
    "whole store with other places",
    "whole store with one ID twice",
];

/// What the reading and passing calls of a stream give and leave, with its
/// sending calls or without them.
fn read_through(script: &[u8], with_sends: bool) -> Vec<(Option<Outcome>, Record, Store)> {
    let mut steps = Vec::new();
    let (mut record, mut store) = (Record::default(), Store::new());
    let mut rest = script;
    while let Some((command, after)) = command(rest) {
        rest = after;
        let mut outcome = None;
        match command {
            Command::Open(role) => (record, store) = (session(role).0, Store::new()),
            Command::Reconnect(role) => record = session(role).0,
            Command::Call { room, piece } => {
                let mut room = vec![0; room.into()];
                outcome = Some(read(&mut record, &mut store, piece, &mut room));
            }
            Command::Pass(time) => store.pass(time),
            Command::Send(sending) if with_sends => drop(sending.make(&mut record, &store)),
            Command::Send(_) | Command::Dump => continue,
        }
        if !matches!(command, Command::Send(_)) {
            let (defined, sent) = (None, None);
            let reading = Record {
                defined,
                sent,
                ..record.clone()
            };
            steps.push((outcome, reading, store.clone()));
        }
    }
    steps
}

#[test]
fn sending_calls_change_nothing_of_reading() {
    for seed in 6_000_000..6_000_300 {
        let script = stream(seed);
        assert!(read_through(&script, true) == read_through(&script, false));
    }
}
