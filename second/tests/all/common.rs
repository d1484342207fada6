//! A session for the tests and the parts of its messages.

use second::answer::{Answer, Response};
use second::call::{open, Opening};
use second::integer::encode;
use second::model::feed;
use second::record::{Record, Role};
use second::refusal::Refusal;
use second::store::{Entry, Store, Table, Times};
use std::collections::BTreeMap;

/// The bytes of the listing's example.
pub const EXAMPLE: &[u8] = b"HAProxyS 2.1\neast\nwest 7 0\n\
    \x0A\x82\x0A\x01\x02\x74\x31\x02\x04\x04\xF0\x97\x1C\
    \x0A\x80\x0B\xFF\xFF\xFF\xFF\x00\x00\x00\x2A\xF4\x94\x01\
    \x0A\x81\x05\x00\x00\x00\x2A\x05\
    \x00\x01";

/// The listing's example output.
pub const EXAMPLE_LISTING: &str = "hello west 7 0
reply 3230300A
table 0 7431
update 0 4294967295 0 new
reply 0A840501FFFFFFFF
update 0 0 0 replaced
reply 0A84050100000000
finished
reply 0003
end open 0
";

/// The powers of 2, from 1 to 2^63.
pub fn powers() -> impl Iterator<Item = u64> {
    std::iter::successors(Some(1u64), |power| power.checked_mul(2))
}

/// An accepted hello.
pub const HELLO: &[u8] = b"HAProxyS 2.1\neast\nwest 7 0\n";

/// A record and a store.
#[derive(Clone, Debug, PartialEq)]
pub struct Session {
    pub record: Record,
    pub store: Store,
}

/// Opens a record for `east` and `west`.
pub fn record(role: Role) -> Record {
    let opening = Opening {
        role,
        our_name: b"east",
        peer_name: b"west",
        process: 7,
        relative: 0,
    };
    open(&opening, &mut [0; 101]).0
}

impl Session {
    /// A session in the handshake.
    pub fn new(role: Role) -> Session {
        Session {
            record: record(role),
            store: Store::new(),
        }
    }

    /// A session after the hello.
    pub fn open() -> Session {
        let mut session = Session::new(Role::Answerer);
        session.send(HELLO);
        session
    }

    /// A session with these tables, IDs from 1; the last is current.
    pub fn with_tables(tables: &[&[u8]]) -> Session {
        let mut session = Session::open();
        for body in tables {
            assert!(matches!(session.one(130, body), Answer::Table { .. }));
        }
        session
    }

    /// Feeds bytes and gives the responses with the count of bytes before.
    pub fn send(&mut self, bytes: &[u8]) -> Vec<(usize, Response)> {
        let mut responses = Vec::new();
        for (at, &byte) in bytes.iter().enumerate() {
            if let Some(response) = feed(&mut self.record, &mut self.store, byte) {
                responses.push((at + 1, response));
            }
        }
        responses
    }

    /// Feeds bytes of which the last one must give the only response.
    pub fn respond(&mut self, bytes: &[u8]) -> Response {
        let mut responses = self.send(bytes);
        assert_eq!(responses.len(), 1, "{bytes:02X?}");
        let (taken, response) = responses.remove(0);
        assert_eq!(taken, bytes.len(), "{bytes:02X?}");
        response
    }

    /// Feeds one table message and gives its answer.
    pub fn one(&mut self, kind: u8, body: &[u8]) -> Answer {
        self.respond(&message(kind, body)).answer
    }

    /// The answer of one table message on a copy of the session.
    pub fn would(&self, kind: u8, body: &[u8]) -> Answer {
        self.clone().one(kind, body)
    }

    /// The tables that are held.
    pub fn tables(&self) -> Vec<&Table> {
        self.store.tables.iter().flatten().collect()
    }

    /// The entries that are held.
    pub fn entries(&self) -> Vec<&Entry> {
        self.store.entries.iter().flatten().collect()
    }
}

/// What a table holds: its definition, and its values and times by key.
type Held = (Table, BTreeMap<Vec<u8>, (Vec<u64>, Option<u64>)>);

/// What a store holds by table name, places apart.
pub fn contents(store: &Store) -> BTreeMap<Vec<u8>, Held> {
    let mut contents = BTreeMap::new();
    for (place, table) in store.tables.iter().enumerate() {
        let Some(table) = table else {
            continue;
        };
        let entries = store.entries.iter().flatten();
        let own = entries.filter(|entry| entry.table == place);
        let pair = |entry: &Entry| {
            let held = (entry.values.clone(), entry.remaining);
            (entry.key().to_vec(), held)
        };
        contents.insert(table.name.clone(), (table.clone(), own.map(pair).collect()));
    }
    contents
}

/// A store as one that is taught it has it, but for places: an entry without
/// remaining time has its table's expiry, if any.
pub fn taught(store: &Store) -> Store {
    let mut taught = store.clone();
    for entry in taught.entries.iter_mut().flatten() {
        let table = store.tables[entry.table].as_ref().unwrap();
        let expiry = table.times.as_ref().map(|times| times.expiry);
        entry.remaining = entry.remaining.or(expiry);
    }
    taught
}

/// Frees an entry place and lowers its table's count.
pub fn free_entry(store: &mut Store, place: usize) {
    let entry = store.entries[place].take().unwrap();
    store.counts[entry.table] -= 1;
}

/// A table message.
pub fn message(kind: u8, body: &[u8]) -> Vec<u8> {
    let mut bytes = vec![10, kind];
    bytes.extend(encode(body.len() as u64));
    bytes.extend_from_slice(body);
    bytes
}

/// A refusal without offset.
pub fn refused(number: u8) -> Answer {
    Answer::Refused(number.into())
}

/// A refusal of the field at an offset of the body.
pub fn refused_at(number: u8, offset: usize) -> Answer {
    Answer::Refused(Refusal::at(number, offset))
}

/// Where the field that a body of this length cuts starts, by the lengths of
/// the fields.
pub fn start_of_cut(fields: &[usize], length: usize) -> usize {
    let mut start = 0;
    for field in fields {
        if start + field > length {
            break;
        }
        start += field;
    }
    start
}

/// The body of a definition without times.
pub fn definition(id: u64, name: &[u8], shape: [u64; 3]) -> Vec<u8> {
    let mut body = encode(id);
    body.extend(encode(name.len() as u64));
    body.extend_from_slice(name);
    body.extend(shape.iter().flat_map(|&value| encode(value)));
    body
}

/// Some integers, encoded.
pub fn encoded(values: &[u64]) -> Vec<u8> {
    values.iter().flat_map(|&value| encode(value)).collect()
}

/// The body of a definition with times.
pub fn timed(id: u64, name: &[u8], shape: [u64; 3], times: &[u64]) -> Vec<u8> {
    let mut body = definition(id, name, shape);
    body.extend(encoded(times));
    body
}

/// The body of an update.
pub fn update(id: u32, key: &[u8], values: &[u64]) -> Vec<u8> {
    let mut body = id.to_be_bytes().to_vec();
    body.extend_from_slice(key);
    body.extend(encoded(values));
    body
}

/// The body of a timed update.
pub fn timed_update(id: u32, time: u32, key: &[u8], values: &[u64]) -> Vec<u8> {
    let mut body = update(id, &time.to_be_bytes(), &[]);
    body.extend_from_slice(key);
    body.extend(encoded(values));
    body
}

/// A table.
pub fn table(name: &[u8], shape: [u64; 3], times: Option<(u64, &[u64])>) -> Table {
    Table {
        name: name.to_vec(),
        key_type: shape[0],
        key_length: shape[1],
        data_types: shape[2],
        times: times.map(|(expiry, periods)| Times {
            expiry,
            periods: periods.to_vec(),
        }),
    }
}
