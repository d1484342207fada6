//! Scripts of sending calls.

use super::scripts::{shape, Script, EXAMPLE, HELLO};
use super::whole_stores::whole_stores;
use crate::datatype::{self, from_server_id, MAX_32};
use crate::generate::values::{Shape, EDGES};
use crate::generate::wire::{self, Message};
use crate::record::Role;
use crate::replay::{Command, Item, Sending};
use crate::send::SENDING_ROOM;
use crate::store::{Times, BINARY, INTEGER, IPV4, IPV6, STRING};

/// The smallest room that is large enough.
pub const ROOM: u16 = SENDING_ROOM as u16;

/// All scripts of this kind.
pub fn sending() -> Vec<u8> {
    let mut script = Script::default();
    keys(&mut script);
    values(&mut script);
    table_ids(&mut script);
    update_ids(&mut script);
    tables(&mut script);
    rooms(&mut script);
    refusals(&mut script);
    places(&mut script);
    anywhere(&mut script);
    inside(&mut script);
    passing(&mut script);
    whole_stores(&mut script);
    script.0
}

impl Script {
    /// Adds a sending call.
    fn send(&mut self, item: Item, place: usize, id: u32, room: u16) {
        let place = place as u8;
        self.add(Command::Send(Sending {
            item,
            place,
            id,
            room,
        }));
    }

    /// Adds the sending of a definition.
    fn define(&mut self, place: usize, id: u32) {
        self.send(Item::Definition, place, id, ROOM);
    }

    /// Adds the sending of an entry.
    fn entry(&mut self, place: usize, id: u32) {
        self.send(Item::Entry, place, id, ROOM);
    }

    /// Adds an open session with a table and its entries, each timed or not.
    fn filled(&mut self, table: &Message, entries: &[(Message, Option<u32>)]) {
        self.open();
        self.pieces(&[&table.bytes()]);
        for (entry, time) in entries {
            self.pieces(&[&lasting(entry, *time).bytes()]);
        }
    }
}

/// A definition's expiry with a period for each rate type.
pub fn times(expiry: u64, data_types: u64) -> Times {
    let rates = datatype::rates(data_types);
    let periods = rates.into_iter().map(|rate| 1000 * u64::from(rate));
    Times {
        expiry,
        periods: periods.collect(),
    }
}

/// An update with or without a remaining time.
pub fn lasting(update: &Message, time: Option<u32>) -> Message {
    match time {
        Some(time) => update.clone().timed(time),
        None => update.clone(),
    }
}

/// Adds tables of every key type, with and without an expiry: shortest and
/// longest keys, each timed and not, sent explicitly and incrementally.
fn keys(script: &mut Script) {
    let keys: [(u64, u64, &[usize]); 7] = [
        (INTEGER, 4, &[4]),
        (IPV4, 4, &[4]),
        (IPV6, 16, &[16]),
        (STRING, 1, &[0, 1]),
        (STRING, 64, &[0, 1, 63, 64]),
        (BINARY, 1, &[1]),
        (BINARY, 64, &[64]),
    ];
    for (key_type, length, lengths) in keys {
        for expiry in [None, Some(0), Some(60_000), Some(MAX_32)] {
            let shape = shape(key_type, length, 1 << 2);
            let times = expiry.map(|expiry| times(expiry, 0));
            let table = wire::definition(1, b"k", shape, times.as_ref());
            let key = |n: usize, first: u8| -> Vec<u8> { (first..).take(n).collect() };
            let update = |n, first| wire::update(Some(7), &key(n, first), shape, &[240]);
            let mut entries = Vec::new();
            for &n in lengths {
                let forms = [(0, None), (1, Some(0)), (2, Some(u32::MAX))];
                // There is one empty key.
                let count = if n == 0 { 1 } else { forms.len() };
                let forms = forms.into_iter().rev().take(count);
                entries.extend(forms.map(|(first, time)| (update(n, first), time)));
            }
            script.filled(&table, &entries);
            send_twice(script, entries.len());
        }
    }
}

/// Adds the sending of the first table and of entries, each explicitly and
/// incrementally.
fn send_twice(script: &mut Script, count: usize) {
    script.define(0, 300);
    for place in 0..count {
        script.entry(place, 10 * place as u32);
        script.entry(place, 10 * place as u32 + 1);
    }
    script.add(Command::Dump);
}

/// Adds tables of each data type alone and of all, with and without periods,
/// and entries with values next to the limits.
fn values(script: &mut Script) {
    let mut lists: Vec<u64> = datatype::BITS.to_vec();
    lists.extend([0, datatype::LARGEST]);
    for data_types in lists {
        let shape = shape(BINARY, 1, data_types);
        let some = times(5, data_types);
        for times in [None, Some(&some)] {
            let table = wire::definition(1, b"d", shape, times);
            let entries: Vec<_> = samples(shape).into_iter().map(|e| (e, None)).collect();
            script.filled(&table, &entries);
            send_twice(script, entries.len());
        }
    }
}

/// Updates whose values go through the edges of each data type.
fn samples(shape: Shape) -> Vec<Message> {
    let types = datatype::values(shape.data_types);
    let edges = |number: u32| -> Vec<u64> {
        match number {
            datatype::SERVER => [0, 239, 240, i32::MAX, -1, -240, i32::MIN]
                .map(from_server_id)
                .to_vec(),
            _ if datatype::is_wide(number) => vec![0, 1 << 32, 1 << 63, u64::MAX],
            _ => vec![0, 239, 240, 1 << 31, MAX_32],
        }
    };
    let sample = |turn: usize| {
        let value = |(place, &number): (usize, &u32)| {
            let edges = edges(number);
            edges[(turn + place) % edges.len()]
        };
        let values: Vec<u64> = types.iter().enumerate().map(value).collect();
        wire::update(Some(7), &[turn as u8], shape, &values)
    };
    (0..7).map(sample).collect()
}

/// The shape of the tables below: keys of one byte, one value.
fn bytes() -> Shape {
    shape(BINARY, 1, 1 << 2)
}

/// A definition of a table of this shape with no expiry.
fn table(id: u64, name: &[u8]) -> Vec<u8> {
    wire::definition(id, name, bytes(), None).bytes()
}

/// An update of a table of this shape.
fn update(key: u8, time: Option<u32>) -> Vec<u8> {
    let message = wire::update(Some(9), &[key], bytes(), &[key.into()]);
    lasting(&message, time).bytes()
}

/// Adds an open session with tables `a` and `b`; place 0 is an untimed entry
/// of `a`, 1 a timed one of `a`, 2 an untimed one of `b`.
fn two_tables(script: &mut Script) {
    script.open();
    script.pieces(&[&table(1, b"a"), &update(0, None), &update(1, Some(5))]);
    script.pieces(&[&table(2, b"b"), &update(2, None)]);
}

/// Adds definitions with table IDs next to a change of the encoding, and names
/// of one byte and of 32.
fn table_ids(script: &mut Script) {
    script.open();
    script.pieces(&[&table(1, b"n"), &table(2, &[b'n'; 32])]);
    for &id in EDGES.iter().take_while(|&&id| id <= MAX_32) {
        script.define(0, id as u32);
        script.define(1, id as u32);
    }
    script.add(Command::Dump);
}

/// Adds runs of update IDs: following, with a gap, the same, the one before,
/// and over the end; timed and not, with a dump after each.
fn update_ids(script: &mut Script) {
    let runs: [&[u32]; 7] = [
        &[0, 1, 2, 3],
        &[u32::MAX - 1, u32::MAX, 0, 1],
        &[5, 7, 8, 10],
        &[5, 5, 6, 5],
        &[0, u32::MAX, 0, u32::MAX],
        &[255, 256, 65_535, 65_536],
        &[u32::MAX, 1, 2, 0],
    ];
    for run in runs {
        two_tables(script);
        script.define(0, 1);
        script.add(Command::Dump);
        for (place, &id) in run.iter().enumerate() {
            script.entry(place % 2, id);
            script.add(Command::Dump);
        }
    }
}

/// Adds definitions between entries: of the same table, of another and back,
/// and of two tables under one ID; the ID goes on each time.
fn tables(script: &mut Script) {
    two_tables(script);
    let mut id = u32::MAX - 2;
    for (place, own) in [
        (0, [0, 1]),
        (0, [1, 0]),
        (1, [2, 2]),
        (0, [0, 1]),
        (1, [2, 2]),
    ] {
        script.define(place, 7);
        for entry in own {
            script.entry(entry, id);
            id = id.wrapping_add(1);
        }
        script.define(place, 7);
        script.entry(own[0], id);
        script.add(Command::Dump);
    }
}

/// Adds rooms next to the limit, short ones and the longest.
fn rooms(script: &mut Script) {
    two_tables(script);
    script.define(0, 1);
    for room in [0, 1, 10, 12, 101, 1024, 1035, 1036, 1037, 65_534, 65_535] {
        script.send(Item::Entry, 1, room.into(), room);
        script.send(Item::Definition, 0, room.into(), room);
    }
    script.add(Command::Dump);
}

/// Adds each refusal alone and with each that goes after it, and all of them;
/// of a table, of an entry of a defined table, and with none defined.
fn refusals(script: &mut Script) {
    let rooms = [ROOM, ROOM - 1];
    let places = [0, 9];
    for closed in [false, true] {
        for defined in [false, true] {
            two_tables(script);
            if defined {
                script.define(0, 1);
            }
            if closed {
                script.pieces(&[&[0, 5]]);
            }
            both(script, &rooms, &places);
        }
    }
    for hello in [&b""[..], &HELLO[..20], b"HAProxyS 3\neast\nwest 7 0\n"] {
        two_tables(script);
        script.add(Command::Reconnect(Role::Answerer));
        script.pieces(&[hello]);
        both(script, &rooms, &places);
    }
}

/// Adds sending calls of both kinds for each room and place, and a dump.
fn both(script: &mut Script, rooms: &[u16], places: &[usize]) {
    for &room in rooms {
        for &place in places {
            script.send(Item::Entry, place, 5, room);
            script.send(Item::Definition, place, 4, room);
        }
    }
    script.add(Command::Dump);
}

/// Adds all places of tables and of entries.
fn places(script: &mut Script) {
    two_tables(script);
    for place in 0..=255 {
        script.define(place, 1);
    }
    for defined in 0..2 {
        script.define(defined, 1);
        for place in 0..=255 {
            script.entry(place, place as u32);
        }
    }
    script.add(Command::Dump);
}

/// Adds a definition and an entry, and a dump.
fn try_both(script: &mut Script) {
    script.define(0, 3);
    script.entry(0, 8);
    script.add(Command::Dump);
}

/// Adds sending calls before the handshake, inside and after it, on an empty
/// store and on a held one, after each kind of closing, and after a
/// reconnection.
fn anywhere(script: &mut Script) {
    script.add(Command::Open(Role::Answerer));
    try_both(script);
    script.pieces(&[&HELLO[..9]]);
    try_both(script);
    script.pieces(&[&HELLO[9..]]);
    try_both(script);
    for ending in [&[0, 5][..], &[1, 0], &[0x0A, 0x80, 0]] {
        two_tables(script);
        script.pieces(&[&table(1, b"a")]);
        try_both(script);
        script.pieces(&[ending]);
        script.add(Command::Dump);
        script.entry(0, 9);
        try_both(script);
        script.add(Command::Reconnect(Role::Caller));
        try_both(script);
        script.pieces(&[b"200"]);
        try_both(script);
        script.pieces(&[b"\n"]);
        script.entry(0, 9);
        try_both(script);
    }
}

/// Adds sending calls at every place inside each message of the example, which
/// replaces an entry of the table that is sent.
fn inside(script: &mut Script) {
    script.open();
    script.pieces(&[&EXAMPLE[..13], &EXAMPLE[13..27]]);
    script.define(0, 5);
    for (number, byte) in EXAMPLE.chunks(1).enumerate() {
        script.entry(0, number as u32);
        script.pieces(&[byte]);
        if number % 9 == 8 {
            script.define(0, 5);
            script.add(Command::Dump);
        }
    }
    script.entry(0, EXAMPLE.len() as u32);
    script.add(Command::Dump);
}

/// Adds entries whose time passes between sending calls, and the place of one
/// that another table's entry takes.
fn passing(script: &mut Script) {
    two_tables(script);
    script.define(0, 1);
    for (id, time) in [(0, 0), (1, 4), (2, 1), (3, 1)] {
        script.entry(1, id);
        script.add(Command::Pass(time));
    }
    script.pieces(&[&update(3, Some(77))]);
    script.entry(1, 4);
    script.define(1, 1);
    script.entry(1, 5);
    script.pieces(&[&table(1, b"a"), &table(2, b"c"), &update(4, Some(8))]);
    script.entry(1, 6);
    script.define(2, 1);
    script.entry(3, 7);
    script.add(Command::Dump);
}
