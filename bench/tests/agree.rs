//! The three receivers tell the same on the same calls, and leave the same record and store.

use bench::layout;
use bench::plain::mark;
use bench::receivers::{Library, Part, Plain, Receiver, Role, Second, SEND_ROOM};
use bench::streams::{definition, timed_update, traffic_filling, traffic_updates, BY_LENGTH};
use bench::streams::{filling, int, long_filling, long_updates, message, updates, HELLO};
use second::generate;
use second::replay::{command, Command, Item};

/// The content of a room before a call.
const FILL: u8 = 0xAA;

/// The receivers side by side.
#[derive(Clone)]
struct All {
    library: Library,
    plain: Plain,
    second: Second,
}

impl All {
    fn open(role: Role) -> All {
        All {
            library: Library::open(role),
            plain: Plain::open(role),
            second: Second::open(role),
        }
    }

    fn reconnect(&mut self, role: Role) {
        self.library.reconnect(role);
        self.plain.reconnect(role);
        self.second.reconnect(role);
    }

    /// One call of each: the bytes taken.
    fn call(&mut self, piece: &[u8], room: usize) -> usize {
        let mut rooms = [vec![FILL; room], vec![FILL; room], vec![FILL; room]];
        let [a, b, c] = &mut rooms;
        let library = self.library.told(piece, a);
        assert_eq!(library, self.plain.told(piece, b));
        assert_eq!(library, self.second.told(piece, c));
        assert!(rooms[0] == rooms[1] && rooms[0] == rooms[2]);
        self.states_agree();
        library.0
    }

    /// One passing call of each.
    fn pass(&mut self, milliseconds: u32) {
        let number = self.library.pass(milliseconds);
        assert_eq!(
            (number, number),
            (
                self.plain.pass(milliseconds),
                self.second.pass(milliseconds)
            )
        );
        assert_eq!(number, 0);
        self.states_agree();
    }

    /// One sending call of each: the message, or the refusal's number. What reading uses and the store stay.
    fn send(&mut self, part: Part, id: u32, room: usize) -> Result<Vec<u8>, u32> {
        let (before, store) = (self.plain.session, self.plain.store.clone());
        let mut rooms = [vec![FILL; room], vec![FILL; room], vec![FILL; room]];
        let [a, b, c] = &mut rooms;
        let sent = self.library.send(part, id, a);
        assert_eq!(sent, self.plain.send(part, id, b));
        assert_eq!(sent, self.second.send(part, id, c));
        assert!(rooms[0] == rooms[1] && rooms[0] == rooms[2]);
        self.states_agree();
        let sending = self.plain.session.sending;
        assert!(self.plain.session == layout::Session { sending, ..before });
        assert!(self.plain.store == store && (sent.is_ok() || sending == before.sending));
        sent.map(|len| rooms[0][..len].to_vec())
    }

    /// Calls until all bytes are taken.
    fn take(&mut self, bytes: &[u8]) {
        let mut rest = bytes;
        while !rest.is_empty() {
            let taken = self.call(rest, 12);
            assert!(taken > 0, "an open session takes a byte");
            rest = &rest[taken..];
        }
    }

    fn states_agree(&self) {
        assert!(*self.library.session.layout() == self.plain.session);
        assert!(self.library.store.layout() == &*self.plain.store);
        assert_eq!(self.library.as_second(), self.second.held());
    }
}

#[test]
fn on_the_benchmark_streams() {
    let mut all = All::open(Role::Answerer);
    let mut bytes = filling(128);
    bytes.extend(updates(200, 128).concat());
    bytes.extend(message(200, &[7; 1024]));
    all.take(&bytes);
    for piece in bytes[HELLO.len()..].chunks(16) {
        all.take(piece);
    }
}

#[test]
fn on_values_of_each_length() {
    for (bytes, value) in BY_LENGTH {
        assert_eq!(int(value).len(), bytes);
        let mut all = All::open(Role::Answerer);
        all.take(&traffic_filling(value));
        all.take(&traffic_updates(3, value).concat());
        let values = all.plain.store.entries[0].values;
        assert_eq!(values.iter().filter(|&&v| v == value).count(), 2);
    }
}

#[test]
fn on_keys_of_which_two_have_one_mark() {
    for twins in [false, true] {
        let mut all = All::open(Role::Answerer);
        all.take(&long_filling(twins));
        all.take(&long_updates(200, twins).concat());
        let mut marks: Vec<_> = all.plain.store.entries.iter().map(mark).collect();
        marks.sort_unstable();
        marks.dedup();
        assert_eq!(marks.len(), 128 - usize::from(twins));
    }
}

#[test]
fn on_every_key_type_with_every_length() {
    let numbers = (0..10).chain([239, 240, 255, 256 + 2, (1 << 32) + 2, u64::MAX]);
    let lengths = || (0..70).chain([256 + 4, (1 << 32) + 4, u64::MAX]);
    for (number, key_len) in numbers.flat_map(|n| lengths().map(move |len| (n, len))) {
        let mut all = All::open(Role::Answerer);
        all.take(HELLO);
        let body = [&[1, 1, b't'], &int(number)[..], &int(key_len), &[0]].concat();
        all.take(&message(130, &body));
        // a string's key has its length in front, and no other has
        all.call(&message(128, &[[0; 4].as_slice(), &[4; 5]].concat()), 12);
    }
}

/// Names with a byte of each value, and bodies that end at each place from the name on.
#[test]
fn on_every_byte_of_a_name() {
    let fields = [peers::KeyType::Integer.number(), 4, 0];
    for byte in 0..=255 {
        for name in [
            vec![byte],
            vec![byte, b'a'],
            [&[b'a'; 31][..], &[byte]].concat(),
        ] {
            for cut in 0..=fields.len() + 1 {
                let mut body = [&[1, name.len() as u8], &name[..], &fields].concat();
                body.truncate(body.len() - cut);
                let mut all = All::open(Role::Answerer);
                all.take(HELLO);
                all.take(&message(130, &body));
            }
        }
    }
}

/// Bodies of each message, with strings of all data types in the current table.
fn bodies() -> Vec<(u8, Vec<u8>)> {
    let ints = |values: &[u64]| values.iter().flat_map(|&value| int(value)).collect();
    let values: Vec<u8> = ints(&(0..35).map(|n| n * 150).collect::<Vec<_>>());
    let rates = [3, 5, 8, 10, 12, 14, 16, 18].map(|rate| [rate, 5000]);
    let times: Vec<u8> = ints(&[&[60_000][..], &rates.concat()].concat());
    let string = peers::KeyType::String.number();
    let name_and_keys = [2, b't', b'u', string, 16];
    let definition = [&int(300), &name_and_keys[..], &int(0x7_FFFF), &times].concat();
    let key = [&[3][..], b"key", &values].concat();
    vec![
        (130, definition),
        (128, [&[0, 0, 0, 9], &key[..]].concat()),
        (129, key.clone()),
        (131, int(300)),
        (132, [&int(300)[..], &[0, 0, 0, 9]].concat()),
        (133, [&[0, 0, 0, 9, 0, 0, 0, 7], &key[..]].concat()),
        (134, [&[0xFF; 4], &key[..]].concat()),
    ]
}

/// Each byte of a body replaced by several, in the whole body and where the body ends with it.
#[test]
fn on_bodies_that_break() {
    let mut base = All::open(Role::Answerer);
    base.take(HELLO);
    for (kind, body) in bodies() {
        base.take(&message(kind, &body));
    }
    for (kind, body) in bodies() {
        for at in 0..body.len() {
            for byte in [0, 1, 3, 8, b'\n', 33, 65, 127, 128, 239, 240, 255] {
                let mut broken = body.clone();
                broken[at] = byte;
                base.clone().take(&message(kind, &broken));
                base.clone().take(&message(kind, &broken[..=at]));
            }
            let overflows = [&body[..at], &[255; 10], &body[at..]].concat();
            base.clone().take(&message(kind, &overflows));
        }
    }
}

/// Times next to each remaining time, on a store that time empties and updates fill again.
#[test]
fn on_times_that_pass() {
    let times = [
        0,
        1,
        2,
        59_999,
        60_000,
        60_001,
        1 << 31,
        u32::MAX - 1,
        u32::MAX,
    ];
    let mut base = All::open(Role::Answerer);
    base.take(&filling(100));
    for (id, time) in (100..128).zip(times.into_iter().cycle()) {
        base.take(&timed_update(id, time, id));
    }
    for time in times {
        let mut all = base.clone();
        all.pass(time);
        for id in 1000..1005 {
            all.call(&timed_update(id, time, id), 12);
            all.pass(0);
        }
        all.call(&[0, 5], 12);
        all.pass(u32::MAX);
        all.reconnect(Role::Answerer);
        all.take(&filling(3));
        all.pass(59_999);
    }
}

/// Entries that come to eight tables, are replaced and go with time; each call compares the three stores, counts too.
#[test]
fn on_counts_of_eight_tables() {
    let mut all = All::open(Role::Answerer);
    all.take(HELLO);
    for n in 0..136 {
        all.take(&definition(n % 8));
        all.take(&timed_update(n, n / 8, n));
        if n == 63 {
            assert_eq!(all.plain.store.counts, [8; 8]);
            // keys that are held are replaced
            all.take(&timed_update(n, n / 8, n));
            assert_eq!(all.plain.store.counts, [8; 8]);
            // three of each table are freed, then place after place is taken again
            all.pass(2);
            assert_eq!(all.plain.store.counts, [5; 8]);
        }
    }
    assert_eq!(all.plain.store.counts, [14; 8]);
    all.pass(14);
    assert_eq!(all.plain.store.counts, [2; 8]);
    all.call(&[0, 5], 12);
    all.pass(u32::MAX);
    assert_eq!(all.plain.store.counts, [0; 8]);
}

/// One table takes all places, and the next entry of another is refused.
#[test]
fn on_counts_of_a_full_store() {
    let mut all = All::open(Role::Answerer);
    all.take(&filling(128));
    assert_eq!(all.plain.store.counts, [128, 0, 0, 0, 0, 0, 0, 0]);
    all.take(&definition(2));
    all.take(&timed_update(9, 9, 9));
    assert_eq!(all.plain.session.connection.number, 29);
    assert_eq!(all.plain.store.counts, [128, 0, 0, 0, 0, 0, 0, 0]);
}

/// Places and rooms on either side of their limits, in every phase, with and without a table defined last.
#[test]
fn on_sending_calls() {
    let mut open = All::open(Role::Answerer);
    open.take(&filling(3));
    open.take(&definition(2));
    open.take(&timed_update(9, 9, 9));
    let mut defined = open.clone();
    assert!(defined.send(Part::Table(0), 300, SEND_ROOM).is_ok());
    let mut sent = defined.clone();
    assert!(sent.send(Part::Entry(0), u32::MAX - 1, SEND_ROOM).is_ok());
    let mut closed = sent.clone();
    closed.take(&[0, 5]);
    let mut waiting = open.clone();
    waiting.reconnect(Role::Caller);
    let mut refusals = Vec::new();
    for base in [open, defined, sent, closed, waiting] {
        let places = (0..10).chain([127, 128, 1 << 32, usize::MAX]);
        for part in places.flat_map(|place| [Part::Table(place), Part::Entry(place)]) {
            for (id, room) in [
                (0, 1036),
                (u32::MAX, 1036),
                (u32::MAX - 1, 1035),
                (7, 0),
                (7, 2000),
            ] {
                let mut all = base.clone();
                refusals.extend(all.send(part, id, room).err());
                // and once more: the same ID doesn't follow itself
                _ = all.send(part, id, room);
                _ = all.send(part, id.wrapping_add(1), room);
            }
        }
    }
    refusals.sort_unstable();
    refusals.dedup();
    assert_eq!(refusals, [2, 31, 32, 34]);
}

/// A random number, as often as not a small one.
fn draw(random: &mut u64) -> u64 {
    *random ^= *random << 13;
    *random ^= *random >> 7;
    *random ^= *random << 17;
    match *random % 2 {
        0 => *random / 2,
        _ => *random / 2 % 200,
    }
}

/// Sends all tables and their entries, as the host's loop does, with random IDs.
fn teach(all: &mut All, random: &mut u64) -> Vec<u8> {
    let parts: Vec<_> = all.library.store.parts().collect();
    let mut id = draw(random) as u32;
    let mut messages = Vec::new();
    for part in parts {
        messages.extend(all.send(part, id, SEND_ROOM).expect("it is held"));
        id = match draw(random) % 3 {
            0 => draw(random) as u32,
            _ => id.wrapping_add(1),
        };
    }
    messages
}

/// A store is taught to three other receivers, which agree on it after each call.
#[test]
fn on_stores_that_are_taught() {
    let mut random = 0x1234_5678_9ABC_DEF1;
    for round in 0..20 {
        let mut all = All::open(Role::Answerer);
        all.take(HELLO);
        for n in 0..14 + 6 * round {
            let (table, time) = (n % (1 + round % 8), draw(&mut random) as u32);
            all.take(&definition(table));
            all.take(&timed_update(n, time, n));
        }
        all.pass(draw(&mut random) as u32 % 100);
        let messages = teach(&mut all, &mut random);
        let mut other = All::open(Role::Answerer);
        other.take(HELLO);
        for piece in messages.chunks(1 + draw(&mut random) as usize % 300) {
            other.take(piece);
        }
        let held = |all: &All| all.plain.store.counts.iter().sum::<u32>();
        assert_eq!(held(&all), held(&other));
    }
}

#[test]
fn on_generated_scripts() {
    let replayed = (1..=1700).map(|seed| replay(&generate::stream(seed)));
    let [calls, passes, sends] = replayed.fold([0; 3], |a, b| [0, 1, 2].map(|n| a[n] + b[n]));
    assert!(
        calls > 40_000 && passes > 1_500 && sends > 1_500,
        "{calls} calls, {passes} of them pass time, {sends} send"
    );
}

/// Makes the calls of a script: the number of them, how many pass time, and how many send.
fn replay(script: &[u8]) -> [usize; 3] {
    let mut all = All::open(Role::Answerer);
    let (mut calls, mut passes, mut sends) = (0, 0, 0);
    let mut rest = script;
    while let Some((next, after)) = command(rest) {
        rest = after;
        match next {
            Command::Open(role) => all = All::open(role),
            Command::Reconnect(role) => all.reconnect(role),
            Command::Dump => continue,
            Command::Call { room, piece } => drop(all.call(piece, room.into())),
            Command::Pass(milliseconds) => {
                all.pass(milliseconds);
                passes += 1;
            }
            Command::Send(sending) => {
                let part = match sending.item {
                    Item::Definition => Part::Table,
                    Item::Entry => Part::Entry,
                };
                _ = all.send(part(sending.place.into()), sending.id, sending.room.into());
                sends += 1;
            }
        }
        calls += 1;
    }
    [calls, passes, sends]
}
