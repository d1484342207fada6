//! Messages to send, and sessions to send them to.

use peers::layout::{self, Entry, Sending, TABLES};
use peers::{Answer, KeyType, Part, Refusal, Session, Store, READING_ROOM, SEND_ROOM};
use std::time::Duration;

/// The content of a room before a call.
pub const FILL: u8 = 0xAA;

/// The hello of `west` to `east`.
pub const HELLO: &[u8] = b"HAProxyS 2.1\neast\nwest 7 0\n";

/// Each key type with its least and its greatest key length.
pub const KEY_LENGTHS: [(KeyType, u32, u32); 5] = [
    (KeyType::Integer, 4, 4),
    (KeyType::Ipv4, 4, 4),
    (KeyType::Ipv6, 16, 16),
    (KeyType::String, 1, 64),
    (KeyType::Binary, 1, 64),
];

/// The bytes that a table's name may have.
pub const PLAIN: &[u8] = b"ABCDEFGHIJKLMNOPQRSTUVWXYZabcdefghijklmnopqrstuvwxyz0123456789._-/:";

/// The stream of the listing.
pub fn listing() -> Vec<u8> {
    let mut bytes = HELLO.to_vec();
    bytes.extend([
        0x0A, 0x82, 0x0A, 1, 2, 0x74, 0x31, 2, 4, 4, 0xF0, 0x97, 0x1C,
    ]);
    bytes.extend([
        0x0A, 0x80, 0x0B, 0xFF, 0xFF, 0xFF, 0xFF, 0, 0, 0, 0x2A, 0xF4, 0x94, 1,
    ]);
    bytes.extend([0x0A, 0x81, 5, 0, 0, 0, 0x2A, 5]);
    bytes.extend([0, 1]);
    bytes
}

/// An encoded integer.
pub fn int(value: u64) -> Vec<u8> {
    if value < 240 {
        return vec![value as u8];
    }
    let mut bytes = vec![240 + (value % 16) as u8];
    let mut rest = (value - 240) / 16;
    while rest >= 128 {
        bytes.push(128 + (rest % 128) as u8);
        rest = (rest - 128) / 128;
    }
    bytes.push(rest as u8);
    bytes
}

/// A stick table message.
pub fn message(kind: u8, body: &[u8]) -> Vec<u8> {
    [&[10, kind], &int(body.len() as u64)[..], body].concat()
}

/// A definition, with what follows the data types.
pub fn define(
    id: u32,
    name: &[u8],
    key_type: KeyType,
    key_len: u8,
    types: u32,
    times: &[u64],
) -> Vec<u8> {
    let fields = [key_type.number().into(), key_len.into(), types.into()];
    define_of(id, name, &[&fields, times].concat())
}

/// A definition with any integers after the name.
pub fn define_of(id: u32, name: &[u8], fields: &[u64]) -> Vec<u8> {
    let mut body = int(id.into());
    body.push(name.len() as u8);
    body.extend(name);
    body.extend(fields.iter().flat_map(|&field| int(field)));
    message(130, &body)
}

/// An update with a key as it stands in the body.
pub fn update(id: u32, key: &[u8], values: &[u64]) -> Vec<u8> {
    let mut body = id.to_be_bytes().to_vec();
    body.extend(key);
    body.extend(values.iter().flat_map(|&value| int(value)));
    message(128, &body)
}

/// The same with a remaining time in milliseconds.
pub fn timed_update(id: u32, time: u32, key: &[u8], values: &[u64]) -> Vec<u8> {
    let mut body = [id.to_be_bytes(), time.to_be_bytes()].concat();
    body.extend(key);
    body.extend(values.iter().flat_map(|&value| int(value)));
    message(133, &body)
}

/// A free place of an empty store.
pub const FREE: Entry = Entry {
    held: 0,
    server_id: 0,
    timed: 0,
    remaining: 0,
    table: 0,
    key_len: 0,
    key: [0; 64],
    values: [0; 34],
};

/// Does what the rule says of time that passes to a sound store.
fn lower(store: &mut layout::Store, milliseconds: u32) {
    let timed = |entry: &&mut Entry| entry.held == 1 && entry.timed == 1;
    for entry in store.entries.iter_mut().filter(timed) {
        if entry.remaining > milliseconds {
            entry.remaining -= milliseconds;
        } else {
            store.counts[entry.table] -= 1;
            *entry = FREE;
        }
    }
}

/// How many held entries each table place has, found by walking.
pub fn walked(store: &layout::Store) -> [u32; TABLES] {
    let mut counts = [0; TABLES];
    for entry in store.entries.iter().filter(|entry| entry.held == 1) {
        counts[entry.table] += 1;
    }
    counts
}

/// The most bytes of a sent message.
pub const SENT_MAX: usize = 267;

/// Does what the rule says of a message that is sent.
fn note(sending: &mut Sending, part: Part, id: u32) {
    *sending = match part {
        Part::Table(place) => Sending {
            defined: place + 1,
            sent: 0,
            last: 0,
        },
        Part::Entry(_) => Sending {
            sent: 1,
            last: id,
            ..*sending
        },
    };
}

/// A small generator (xorshift).
pub struct Random(pub u64);

impl Random {
    pub fn next(&mut self) -> u64 {
        self.0 ^= self.0 << 13;
        self.0 ^= self.0 >> 7;
        self.0 ^= self.0 << 17;
        self.0
    }

    pub fn below(&mut self, limit: usize) -> usize {
        (self.next() % limit as u64) as usize
    }

    pub fn bytes(&mut self, len: usize) -> Vec<u8> {
        (0..len).map(|_| self.next() as u8).collect()
    }
}

/// What one session and one store came to.
#[derive(Clone, PartialEq, Eq, Debug)]
pub struct State {
    pub session: Session,
    pub store: Box<Store>,
}

/// A refusal that has no offset.
pub fn refused(refusal: Refusal) -> Answer {
    Answer::Refused {
        refusal,
        offset: None,
    }
}

/// A refusal of the field at an offset in the body.
pub fn refused_at(refusal: Refusal, offset: usize) -> Answer {
    Answer::Refused {
        refusal,
        offset: Some(offset),
    }
}

/// An answer with its reply.
pub type Told = (Answer, Vec<u8>);

impl State {
    /// An answerer `east` that accepts `west`, and an empty store.
    pub fn answerer() -> State {
        State {
            session: Session::answerer(b"east", b"west").expect("the names are good"),
            store: Store::boxed(),
        }
    }

    /// A caller `east` of `west`, and an empty store.
    pub fn caller() -> State {
        let mut room = [0; 101];
        let (session, _) =
            Session::caller(b"east", b"west", 7, 0, &mut room).expect("the names are good");
        State {
            session,
            store: Store::boxed(),
        }
    }

    /// An answerer past its handshake.
    pub fn established() -> State {
        let mut state = State::answerer();
        assert_eq!(state.offer(HELLO).len(), 1);
        state
    }

    /// One call; the room past the reply must stay, and the sending state, and a call that tested the store must leave counts that are
    /// right.
    pub fn call(&mut self, piece: &[u8]) -> (usize, Told) {
        let mut room = [FILL; READING_ROOM + 3];
        let sending = self.session.layout().sending;
        let step = self.session.read(&mut self.store, piece, &mut room);
        let (taken, told) = (step.taken, (step.answer, step.reply.to_vec()));
        assert!(room[told.1.len()..].iter().all(|&byte| byte == FILL));
        assert_eq!(self.session.layout().sending, sending);
        if told.0 != refused(Refusal::Unsound) {
            let store = self.store.layout();
            assert_eq!(store.counts, walked(store), "{:?}", told.0);
        }
        (taken, told)
    }

    /// Offers bytes until all are taken or the session is closed; the answers but "more wanted".
    pub fn offer(&mut self, bytes: &[u8]) -> Vec<Told> {
        let mut told = Vec::new();
        let mut rest = bytes;
        while !rest.is_empty() && self.session.closed_with().is_none() {
            let (taken, answered) = self.call(rest);
            assert!(taken > 0, "an open session takes a byte");
            rest = &rest[taken..];
            if answered.0 != Answer::More {
                told.push(answered);
            }
        }
        told
    }

    /// Passes time, which leaves what the rule says, counts too: all as it was where it is refused.
    pub fn pass(&mut self, milliseconds: u32) -> Result<(), Refusal> {
        let mut expected = self.clone();
        let passed = self
            .store
            .pass_time(Duration::from_millis(milliseconds.into()));
        if passed.is_ok() {
            lower(expected.store.layout_mut(), milliseconds);
        }
        assert!(*self == expected, "passing {milliseconds}: {passed:?}");
        passed
    }

    /// One sending call with this much room, which must stay past the message. Of the record only the sending state may change, as the rule
    /// says, and nothing at all where it is refused; the store stays.
    pub fn send_with(&mut self, part: Part, id: u32, room: usize) -> Result<Vec<u8>, Refusal> {
        let mut expected = self.clone();
        let mut room = vec![FILL; room];
        let sent = match part {
            Part::Table(place) => self
                .session
                .send_definition(&self.store, place, id, &mut room),
            Part::Entry(place) => self.session.send_entry(&self.store, place, id, &mut room),
        };
        let sent = sent.map(<[u8]>::to_vec);
        let len = sent.as_ref().map_or(0, Vec::len);
        assert_eq!(len > 0, sent.is_ok());
        assert!(len <= SENT_MAX && room[len..].iter().all(|&byte| byte == FILL));
        if sent.is_ok() {
            note(&mut expected.session.layout_mut().sending, part, id);
        }
        assert!(*self == expected, "{part:?} as {id}: {sent:?}");
        sent
    }

    /// The same with as much room as is asked for.
    pub fn send(&mut self, part: Part, id: u32) -> Result<Vec<u8>, Refusal> {
        self.send_with(part, id, SEND_ROOM)
    }

    /// Offers messages, each of which must be accepted.
    pub fn accept(&mut self, messages: &[Vec<u8>]) {
        for message in messages {
            let told = self.offer(message);
            assert_eq!(told.len(), 1);
            assert_eq!(self.session.closed_with(), None, "{told:?}");
        }
    }
}
