//! Whole stores: all that one holds is sent, and read by a session on an empty
//! store.

use super::scripts::{shape, Script, EXAMPLE, HELLO};
use super::sending::{lasting, times, ROOM};
use crate::datatype;
use crate::generate::wire;
use crate::model::feed;
use crate::record::{Record, Role};
use crate::replay::{session, Command, Item, Sending};
use crate::store::{Store, BINARY, ENTRIES, INTEGER, IPV4, IPV6, STRING, TABLES};

/// Adds whole stores of few and many tables and entries; what is sent is read
/// message by message and, if it's short, byte by byte and in long pieces.
pub fn whole_stores(script: &mut Script) {
    whole_store(script, &[], &[]);
    let example = [EXAMPLE[..13].to_vec(), EXAMPLE[13..27].to_vec()];
    whole_store(script, &example, &[1]);
    whole_store(script, &redefined(), &[9, 8]);
    whole_store(script, &full(3, 9), &[4, 4, 4]);
    whole_store(
        script,
        &full(TABLES, ENTRIES),
        &[1, 2, 240, 1, 0, 2288, 1, u32::MAX],
    );
}

/// Messages for a table that gets an expiry after its entries and for one that
/// loses it, each with an untimed and a timed entry.
fn redefined() -> Vec<Vec<u8>> {
    let shape = shape(BINARY, 1, 1 << 10);
    let times = times(500, shape.data_types);
    let define = |id, name, times| wire::definition(id, name, shape, times).bytes();
    let update = |key, time| {
        let update = wire::update(Some(9), &[key], shape, &[1, 2, 3]);
        lasting(&update, time).bytes()
    };
    vec![
        define(1, b"gets", None),
        update(1, None),
        update(2, Some(7)),
        define(2, b"loses", Some(&times)),
        update(1, None),
        update(2, Some(7)),
        define(1, b"gets", Some(&times)),
        define(2, b"loses", None),
    ]
}

/// Messages for some tables of different shapes and for entries of theirs in
/// turn, so that a table's entries aren't next to each other.
fn full(tables: usize, entries: usize) -> Vec<Vec<u8>> {
    let shapes = [
        shape(INTEGER, 4, 1 << 2),
        shape(STRING, 10, 1 << 3 | 1 << 18),
        shape(IPV4, 4, 1),
        shape(IPV6, 16, 1 << 13),
        shape(BINARY, 5, 0),
    ];
    let shape_of = |place: usize| shapes[place % shapes.len()];
    let mut messages = Vec::new();
    for place in 0..tables {
        let shape = shape_of(place);
        let times = times(1000 * place as u64, shape.data_types);
        let times = Some(&times).filter(|_| place % 3 != 1);
        let name = [b't', b'0' + place as u8];
        messages.push(wire::definition(place as u64, &name, shape, times).bytes());
    }
    for number in 0..entries {
        let place = number % tables;
        let shape = shape_of(place);
        let mut key = vec![0; shape.key_length as usize];
        key[0] = number as u8;
        let types = datatype::values(shape.data_types);
        let values: Vec<u64> = types.iter().map(|_| 30 * number as u64).collect();
        let update = wire::update(Some(9), &key, shape, &values);
        let time = Some(number as u32).filter(|_| number % 4 == 0);
        messages.push(wire::switch(place as u64).bytes());
        messages.push(lasting(&update, time).bytes());
    }
    messages
}

/// Adds a whole store: messages that fill it, the sending of all of it with
/// these table IDs, and sessions on empty stores that read what was sent.
fn whole_store(script: &mut Script, messages: &[Vec<u8>], ids: &[u32]) {
    script.open();
    let (mut record, _) = session(Role::Answerer);
    let mut store = Store::new();
    feed_all(&mut record, &mut store, HELLO);
    for message in messages {
        script.pieces(&[message]);
        feed_all(&mut record, &mut store, message);
    }
    let mut sent = Vec::new();
    for sending in calls(&store, ids) {
        script.add(Command::Send(sending));
        let (result, room) = sending.make(&mut record, &store);
        sent.push(room[..result.unwrap_or(0)].to_vec());
    }
    script.add(Command::Dump);
    readers(script, &sent);
}

/// Feeds bytes to the model.
fn feed_all(record: &mut Record, store: &mut Store, bytes: &[u8]) {
    for &byte in bytes {
        feed(record, store, byte);
    }
}

/// The sending calls of all tables, with these IDs, and of their entries; the
/// update IDs go on over the end, with a gap now and then.
fn calls(store: &Store, ids: &[u32]) -> Vec<Sending> {
    let mut calls = Vec::new();
    let mut update = u32::MAX - 5;
    let call = |item, place: usize, id| Sending {
        item,
        place: place as u8,
        id,
        room: ROOM,
    };
    for (table, &id) in ids.iter().enumerate() {
        calls.push(call(Item::Definition, table, id));
        let own = |&place: &usize| store.entry(place).is_some_and(|e| e.table == table);
        for place in (0..ENTRIES).filter(own) {
            calls.push(call(Item::Entry, place, update));
            update = update.wrapping_add(if place % 7 == 6 { 2 } else { 1 });
        }
    }
    calls
}

/// Adds sessions on empty stores that read a whole store's messages.
fn readers(script: &mut Script, messages: &[Vec<u8>]) {
    script.open();
    for message in messages {
        script.pieces(&[message]);
    }
    script.add(Command::Dump);
    if messages.len() > 20 {
        return;
    }
    script.open();
    for message in messages {
        script.pieces(&message.chunks(1).collect::<Vec<_>>());
    }
    script.add(Command::Dump);
    script.open();
    let joined = messages.concat();
    let mut start = 0;
    for message in messages {
        script.pieces(&[&joined[start..]]);
        start += message.len();
    }
    script.add(Command::Dump);
}
