//! On records and stores that the rules don't allow, or only just allow, the library and the plain receiver answer the same and
//! leave the same.

mod boundaries;
mod random;
mod unfinished;

use bench::layout::{Session, Store, TABLES};
use bench::receivers::{Library, Part, Plain, Receiver, Role, SEND_ROOM};
use bench::streams::{filling, int, message, HELLO};
use peers::KeyType;

/// The answer to an unsound record or store.
const UNSOUND: u32 = 4;

/// Both receivers on one state.
#[derive(Clone)]
struct Both {
    library: Library,
    plain: Plain,
}

impl Both {
    /// Both after these bytes.
    fn after(role: Role, bytes: &[u8]) -> Both {
        let mut both = Both {
            library: Library::open(role),
            plain: Plain::open(role),
        };
        both.library.take_all(bytes);
        both.plain.take_all(bytes);
        both
    }

    fn change(&mut self, change: impl FnOnce(&mut Session, &mut Store)) {
        change(&mut self.plain.session, &mut self.plain.store);
        *self.library.session.layout_mut() = self.plain.session;
        *self.library.store.layout_mut() = *self.plain.store;
    }

    /// One call of each: the answer's number.
    fn call(&mut self, piece: &[u8], room: usize) -> u32 {
        let mut rooms = [vec![0xAA; room], vec![0xAA; room]];
        let told = self.library.told(piece, &mut rooms[0]);
        assert_eq!(told, self.plain.told(piece, &mut rooms[1]));
        assert!(rooms[0] == rooms[1]);
        assert!(*self.library.session.layout() == self.plain.session);
        assert!(self.library.store.layout() == &*self.plain.store);
        told.1
    }

    /// One passing call of each: its number.
    fn pass(&mut self, milliseconds: u32) -> u32 {
        let number = self.library.pass(milliseconds);
        assert_eq!(number, self.plain.pass(milliseconds));
        assert!(*self.library.session.layout() == self.plain.session);
        assert!(self.library.store.layout() == &*self.plain.store);
        number
    }

    /// One sending call of each: the message's length, or the refusal's number.
    fn send(&mut self, part: Part, id: u32, room: usize) -> Result<usize, u32> {
        let mut rooms = [vec![0xAA; room], vec![0xAA; room]];
        let sent = self.library.send(part, id, &mut rooms[0]);
        assert_eq!(sent, self.plain.send(part, id, &mut rooms[1]));
        assert!(rooms[0] == rooms[1]);
        assert!(*self.library.session.layout() == self.plain.session);
        assert!(self.library.store.layout() == &*self.plain.store);
        sent
    }

    /// Whether sending calls say that the state is unsound, all the same, whatever is asked for.
    fn is_unsound_to_send(&self) -> bool {
        let unsound = Err(UNSOUND);
        let first = self.clone().send(Part::Table(0), 1, SEND_ROOM) == unsound;
        let places = [0, 1, 4, 5, 7, 8, 127, usize::MAX];
        for part in places
            .map(|place| [Part::Table(place), Part::Entry(place)])
            .concat()
        {
            let mut both = self.clone();
            assert_eq!(both.send(part, 9, SEND_ROOM) == unsound, first);
            assert_eq!(both.send(part, 10, SEND_ROOM - 1) == unsound, first);
            assert_eq!(both.send(part, 10, SEND_ROOM) == unsound, first);
        }
        first
    }

    /// Whether the state is unsound: reading calls with all pieces and sending calls say the same. Passing calls agree on whether the store
    /// is.
    fn is_unsound(&self) -> bool {
        let refused = self.clone().pass(0) == UNSOUND;
        for time in [0, 7, 60_000, u32::MAX] {
            let mut both = self.clone();
            assert_eq!(both.pass(time) == UNSOUND, refused);
            assert_eq!(both.pass(1) == UNSOUND, refused);
        }
        let unsound = self.clone().call(b"", 12) == UNSOUND;
        assert_eq!(self.is_unsound_to_send(), unsound);
        let pieces = [&[0, 4][..], &message(200, b"x"), &update(b"\x02ab", 35)];
        for piece in pieces {
            let mut both = self.clone();
            assert_eq!(both.call(piece, 11), 1);
            assert_eq!(both.call(piece, 12) == UNSOUND, unsound);
            both.call(piece, 12);
        }
        assert!(
            unsound || !refused,
            "a call takes a store that time can't pass in"
        );
        unsound
    }
}

/// Sets the counts to what walking the entries finds.
fn count(store: &mut Store) {
    store.counts = [0; TABLES];
    for entry in store.entries.iter().filter(|entry| entry.held == 1) {
        if let Some(count) = store.counts.get_mut(entry.table) {
            *count += 1;
        }
    }
}

// ---- states to start from

fn define(id: u8, key_type: KeyType, key_len: u8, types: u32) -> Vec<u8> {
    let fields = [id, 1, b'a' + id, key_type.number(), key_len];
    message(130, &[&fields, &int(types.into())[..]].concat())
}

fn update(key: &[u8], values: u8) -> Vec<u8> {
    let values: Vec<u8> = (0..values).collect();
    message(128, &[&[0, 0, 0, 9], key, &values].concat())
}

/// The same with 7 milliseconds remaining.
fn timed_update(key: &[u8], values: u8) -> Vec<u8> {
    let values: Vec<u8> = (0..values).collect();
    message(133, &[&[0, 0, 0, 9, 0, 0, 0, 7], key, &values].concat())
}

/// Five tables with entries 0 to 5, the last table current; strings have all data types. Entries 1 and 5 have a time.
fn five_tables() -> Vec<u8> {
    [
        HELLO.to_vec(),
        define(0, KeyType::Integer, 4, 1 << 2),
        update(b"int0", 1),
        timed_update(b"int1", 1),
        define(1, KeyType::Ipv4, 4, 0),
        define(2, KeyType::Ipv6, 16, 0),
        update(&[6; 16], 0),
        define(3, KeyType::Binary, 64, 0),
        update(&[7; 64], 0),
        define(4, KeyType::String, 8, 0x7_FFFF),
        update(b"\x02ab", 35),
        timed_update(b"\x03abc", 35),
    ]
    .concat()
}

/// The record of a refused opening, and an empty store.
fn refused_opening() -> Both {
    let mut both = Both::after(Role::Answerer, b"");
    both.change(|record, _| {
        let c = &mut record.connection;
        (c.closed, c.number) = (1, 3);
        (c.local, c.local_len) = ([0; 32], 0);
        (c.remote, c.remote_len) = ([0; 32], 0);
    });
    both
}

/// Five tables, of which the last was defined to the peer, and one of its entries sent.
fn sending() -> Both {
    let mut both = Both::after(Role::Answerer, &five_tables());
    for part in [Part::Table(4), Part::Entry(4)] {
        assert!(both.send(part, 9, SEND_ROOM).is_ok());
    }
    both
}

/// States of every phase, with and without unfinished bytes.
fn states() -> Vec<Both> {
    let tables = five_tables();
    let unfinished = [&tables[..], &[10, 128, 40, 0, 0]].concat();
    let closed = [&tables[..], &[1, 0]].concat();
    vec![
        Both::after(Role::Answerer, &HELLO[..20]),
        Both::after(Role::Caller, b"20"),
        Both::after(Role::Answerer, HELLO),
        Both::after(Role::Answerer, &tables),
        Both::after(Role::Answerer, &unfinished),
        Both::after(Role::Answerer, &closed),
        Both::after(Role::Answerer, &filling(128)),
        sending(),
        refused_opening(),
    ]
}
