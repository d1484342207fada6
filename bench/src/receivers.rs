//! The three receivers behind one trait.

use crate::layout;
use crate::plain;
use peers::ffi;
pub use peers::{Part, SEND_ROOM};
use second::record::Record;
pub use second::record::Role;
use std::time::Duration;

/// The room of a reading call.
pub const ROOM: usize = 12;

/// What a call told: bytes taken, the answer's number and values, and the reply.
pub type Told = (usize, u32, Vec<u64>, Vec<u8>);

/// A session of `east` with `west`, and a store.
pub trait Receiver: Clone {
    /// Its name in the report.
    const NAME: &'static str;

    /// A new session on an empty store.
    fn open(role: Role) -> Self;

    /// A new session on the store as it stands.
    fn reconnect(&mut self, role: Role);

    /// One reading call: the bytes taken.
    fn read(&mut self, piece: &[u8], room: &mut [u8]) -> usize;

    /// One reading call, with all that it told.
    fn told(&mut self, piece: &[u8], room: &mut [u8]) -> Told;

    /// One passing call: the number that it gives.
    fn pass(&mut self, milliseconds: u32) -> u32;

    /// One sending call: the length of the message, or the refusal's number.
    fn send(&mut self, part: Part, id: u32, room: &mut [u8]) -> Result<usize, u32>;

    /// Offers bytes until all are taken: the number of calls.
    fn take_all(&mut self, bytes: &[u8]) -> usize {
        let mut room = [0; ROOM];
        let mut calls = 0;
        let mut rest = bytes;
        while !rest.is_empty() {
            let taken = self.read(rest, &mut room);
            assert!(taken > 0, "{} took nothing", Self::NAME);
            rest = &rest[taken..];
            calls += 1;
        }
        calls
    }
}

/// The static library, through its wrapper.
#[derive(Clone)]
pub struct Library {
    /// The record.
    pub session: peers::Session,
    /// The store.
    pub store: Box<peers::Store>,
}

/// A session opened by the library.
fn session(role: Role) -> peers::Session {
    let opened = match role {
        Role::Answerer => peers::Session::answerer(b"east", b"west"),
        Role::Caller => {
            peers::Session::caller(b"east", b"west", 7, 0, &mut [0; 101]).map(|(s, _)| s)
        }
    };
    opened.expect("the names are good")
}

/// What a call told, by its outcome.
fn told(outcome: layout::Outcome, room: &[u8]) -> Told {
    let values = outcome.values[..outcome.count as usize].to_vec();
    let reply = room[..outcome.reply_len].to_vec();
    (outcome.taken, outcome.number, values, reply)
}

/// What a sending call gave.
fn sent(sent: layout::Sent) -> Result<usize, u32> {
    match sent.number {
        0 => Ok(sent.len as usize),
        number => Err(number),
    }
}

impl Library {
    /// One reading call, with a room of any length.
    fn outcome(&mut self, piece: &[u8], room: &mut [u8]) -> layout::Outcome {
        let (session, store) = (self.session.layout_mut(), self.store.layout_mut());
        ffi::read(session, store, piece, room)
    }
}

impl Receiver for Library {
    const NAME: &'static str = "library";

    fn open(role: Role) -> Library {
        Library {
            session: session(role),
            store: peers::Store::boxed(),
        }
    }

    fn reconnect(&mut self, role: Role) {
        self.session = session(role);
    }

    fn read(&mut self, piece: &[u8], room: &mut [u8]) -> usize {
        self.outcome(piece, room).taken
    }

    fn told(&mut self, piece: &[u8], room: &mut [u8]) -> Told {
        told(self.outcome(piece, room), room)
    }

    fn pass(&mut self, milliseconds: u32) -> u32 {
        let passed = self
            .store
            .pass_time(Duration::from_millis(milliseconds.into()));
        passed.map_or_else(|refusal| refusal.number().into(), |()| 0)
    }

    fn send(&mut self, part: Part, id: u32, room: &mut [u8]) -> Result<usize, u32> {
        let (session, store) = (self.session.layout_mut(), self.store.layout());
        sent(match part {
            Part::Table(place) => ffi::send_definition(session, store, place, id, room),
            Part::Entry(place) => ffi::send_entry(session, store, place, id, room),
        })
    }
}

/// The plain receiver.
#[derive(Clone)]
pub struct Plain {
    /// The record.
    pub session: layout::Session,
    /// The store.
    pub store: Box<layout::Store>,
}

impl Receiver for Plain {
    const NAME: &'static str = "plain";

    fn open(role: Role) -> Plain {
        Plain {
            session: *session(role).layout(),
            store: Box::new(*peers::Store::boxed().layout()),
        }
    }

    fn reconnect(&mut self, role: Role) {
        self.session = *session(role).layout();
    }

    fn read(&mut self, piece: &[u8], room: &mut [u8]) -> usize {
        plain::read(&mut self.session, &mut self.store, piece, room).taken
    }

    fn told(&mut self, piece: &[u8], room: &mut [u8]) -> Told {
        let outcome = plain::read(&mut self.session, &mut self.store, piece, room);
        told(outcome, room)
    }

    fn pass(&mut self, milliseconds: u32) -> u32 {
        plain::pass_time(&mut self.store, milliseconds)
    }

    fn send(&mut self, part: Part, id: u32, room: &mut [u8]) -> Result<usize, u32> {
        let (session, store) = (&mut self.session, &self.store);
        sent(match part {
            Part::Table(place) => plain::send_definition(session, store, place, id, room),
            Part::Entry(place) => plain::send_entry(session, store, place, id, room),
        })
    }
}

/// The second program's receiver.
#[derive(Clone)]
pub struct Second {
    record: Record,
    store: Box<second::store::Store>,
}

impl Second {
    /// Its record and store. The role is told only while the handshake lasts, as the library tells it.
    pub fn held(&self) -> (Record, second::store::Store) {
        let record = Record {
            role: match self.record.phase {
                second::record::Phase::Handshake => self.record.role,
                _ => Role::default(),
            },
            ..self.record.clone()
        };
        (record, (*self.store).clone())
    }
}

impl Library {
    /// Its record and store in the second program's terms.
    pub fn as_second(&self) -> (Record, second::store::Store) {
        let store = second::store::Store {
            tables: std::array::from_fn(|place| self.store.table(place).map(second_table)),
            counts: std::array::from_fn(|place| self.store.entries_of(place).into()),
            entries: std::array::from_fn(|place| self.store.entry(place).map(second_entry)),
        };
        (second_record(&self.session), store)
    }
}

/// A record in the second program's terms. The library has no role: its phase says during the handshake what is awaited.
fn second_record(session: &peers::Session) -> Record {
    use second::record::Phase;
    let connection = &session.layout().connection;
    let name = |bytes: &[u8], len: usize| bytes[..len].to_vec();
    Record {
        phase: match (session.closed_by(), session.is_established()) {
            (Some(closed), _) => Phase::Closed(closed.number()),
            (None, true) => Phase::Open,
            (None, false) => Phase::Handshake,
        },
        role: match (session.closed_by(), connection.phase) {
            (None, 1) => Role::Caller,
            _ => Role::Answerer,
        },
        our_name: name(&connection.local, connection.local_len),
        peer_name: name(&connection.remote, connection.remote_len),
        unfinished: session.unfinished().to_vec(),
        bound: std::array::from_fn(|place| session.bound_id(place).map(u64::from)),
        previous: std::array::from_fn(|place| session.last_update(place).map(u64::from)),
        current: session.current(),
        defined: session.defined(),
        sent: session.last_sent(),
    }
}

fn second_table(table: peers::Table) -> second::store::Table {
    second::store::Table {
        name: table.name().to_vec(),
        key_type: table.key_type().map_or(u64::MAX, |t| t.number().into()),
        key_length: table.key_len() as u64,
        data_types: table
            .data_types()
            .map(|t| second::datatype::bit(t.number().into()))
            .sum(),
        times: table.expiry().map(|expiry| second::store::Times {
            expiry: expiry.into(),
            periods: table.periods().map(|(_, period)| period.into()).collect(),
        }),
    }
}

fn second_entry(entry: peers::Entry) -> second::store::Entry {
    use peers::Value;
    let values = entry.values().flat_map(|(_, value)| match value {
        // the second program has values as they are encoded: a negative server ID plus 2 to the 64
        Value::Server(id) => vec![i64::from(id) as u64],
        Value::Number(number) => vec![number],
        Value::Rate {
            elapsed,
            current,
            previous,
        } => vec![elapsed, current, previous],
    });
    let remaining = entry.remaining().map(|time| time.as_millis() as u64);
    second::store::Entry::new(entry.table().place(), entry.key(), values.collect())
        .lasting(remaining)
}

/// The number and values of the second program's answer.
fn second_numbers(answer: second::answer::Answer) -> (u32, Vec<u64>) {
    use second::answer::{Answer, Commit};
    match answer {
        Answer::More => (256, vec![]),
        Answer::Hello { process, relative } => (257, vec![process.into(), relative.into()]),
        Answer::Status => (258, vec![]),
        Answer::Request => (259, vec![]),
        Answer::Finished => (260, vec![]),
        Answer::Partial => (261, vec![]),
        Answer::Confirm => (262, vec![]),
        Answer::Heartbeat => (263, vec![]),
        Answer::Error { kind } => (264, vec![kind.into()]),
        Answer::Table { place } => (265, vec![place as u64]),
        Answer::Switch { place } => (266, vec![place as u64]),
        Answer::Update {
            table,
            id,
            entry,
            commit,
        } => {
            let replaced = u64::from(commit == Commit::Replaced);
            (267, vec![table as u64, id.into(), entry as u64, replaced])
        }
        Answer::Acknowledged { id, update } => (268, vec![id.into(), update.into()]),
        Answer::Skipped { kind } => (269, vec![kind.into()]),
        Answer::Refused(refusal) => {
            let offset = refusal.offset.map(|offset| offset as u64);
            (refusal.number.into(), offset.into_iter().collect())
        }
    }
}

impl Receiver for Second {
    const NAME: &'static str = "second";

    fn open(role: Role) -> Second {
        Second {
            record: Record::opened(role, b"east", b"west"),
            store: Box::default(),
        }
    }

    fn reconnect(&mut self, role: Role) {
        self.record = Record::opened(role, b"east", b"west");
    }

    fn read(&mut self, piece: &[u8], room: &mut [u8]) -> usize {
        second::call::read(&mut self.record, &mut self.store, piece, room).taken
    }

    fn told(&mut self, piece: &[u8], room: &mut [u8]) -> Told {
        let outcome = second::call::read(&mut self.record, &mut self.store, piece, room);
        let (number, values) = second_numbers(outcome.answer);
        (
            outcome.taken,
            number,
            values,
            room[..outcome.reply].to_vec(),
        )
    }

    fn pass(&mut self, milliseconds: u32) -> u32 {
        second::call::pass_time(&mut self.store, milliseconds).into()
    }

    fn send(&mut self, part: Part, id: u32, room: &mut [u8]) -> Result<usize, u32> {
        let (record, store) = (&mut self.record, &self.store);
        let sent = match part {
            Part::Table(place) => second::send::send_definition(record, store, place, id, room),
            Part::Entry(place) => second::send::send_entry(record, store, place, id, room),
        };
        sent.map_err(u32::from)
    }
}
