//! Sending calls: some of any kind, and all that teach a whole store.

use super::calls::Script;
use super::random::Random;
use super::values::{table_id, update_id};
use crate::record::Record;
use crate::replay::{Command, Item, Sending};
use crate::send::SENDING_ROOM;
use crate::store::{Store, ENTRIES, TABLES};

/// The smallest room that is large enough.
const ROOM: u16 = SENDING_ROOM as u16;

impl Script {
    /// Adds a few sending calls, with any places, IDs and rooms.
    pub fn transmit_some(&mut self, random: &mut Random) {
        for _ in 0..random.within(1..=5) {
            let sending = any(random, &self.record, &self.store);
            self.transmit(sending);
        }
    }

    /// Adds sending calls for all that the store holds: tables in any order,
    /// each with its entries in place order; gives the joined messages.
    pub fn transmit_all(&mut self, random: &mut Random) -> Vec<u8> {
        let mut messages = Vec::new();
        for table in shuffled(random, held_tables(&self.store)) {
            let definition = Sending {
                item: Item::Definition,
                place: table,
                id: table_id(random) as u32,
                room: good_room(random),
            };
            messages.extend(self.transmit(definition));
            for place in of_table(&self.store, self.record.defined) {
                let entry = Sending {
                    item: Item::Entry,
                    place,
                    id: next_id(random, self.record.sent),
                    room: good_room(random),
                };
                messages.extend(self.transmit(entry));
            }
        }
        messages
    }

    /// Adds a sending call; gives its message, empty if it's refused.
    fn transmit(&mut self, sending: Sending) -> Vec<u8> {
        Command::Send(sending).write(&mut self.bytes);
        let (result, mut room) = sending.make(&mut self.record, &self.store);
        room.truncate(result.unwrap_or(0));
        room
    }
}

/// A sending call; many are refused, for each reason.
fn any(random: &mut Random, record: &Record, store: &Store) -> Sending {
    let entry = match record.defined {
        Some(_) => random.chance(750),
        None => random.chance(250),
    };
    let room = any_room(random);
    match entry {
        true => Sending {
            item: Item::Entry,
            place: entry_place(random, record, store),
            id: next_id(random, record.sent),
            room,
        },
        false => Sending {
            item: Item::Definition,
            place: table_place(random, store),
            id: table_id(random) as u32,
            room,
        },
    }
}

/// A table place, held in most cases.
fn table_place(random: &mut Random, store: &Store) -> u8 {
    let place = match random.below(10) {
        0 | 1 => None,
        2 => Some(random.pick(&[0, 1, 7, 8, 9, 255])),
        _ => random.pick_any(&held_tables(store)),
    };
    place.unwrap_or_else(|| random.byte())
}

/// An entry place, of the table defined last in most cases.
fn entry_place(random: &mut Random, record: &Record, store: &Store) -> u8 {
    let place = match random.below(10) {
        0 | 1 => None,
        2 => Some(random.pick(&[0, 1, 126, 127, 128, 129, 255])),
        3 => random.pick_any(&places(ENTRIES, |n| store.entry(n).is_some())),
        _ => random.pick_any(&of_table(store, record.defined)),
    };
    place.unwrap_or_else(|| random.byte())
}

/// An update ID, following the last in most cases.
fn next_id(random: &mut Random, last: Option<u32>) -> u32 {
    match (last, random.below(10)) {
        (Some(last), 0..=5) => last.wrapping_add(1),
        (Some(last), 6) => last.wrapping_add(random.pick(&[0, 2, u32::MAX])),
        _ => update_id(random),
    }
}

/// A room, large enough in most cases.
fn any_room(random: &mut Random) -> u16 {
    match random.below(16) {
        0 => 0,
        1 => ROOM - 1,
        2 => random.below(SENDING_ROOM) as u16,
        _ => good_room(random),
    }
}

/// A room that is large enough.
fn good_room(random: &mut Random) -> u16 {
    match random.below(20) {
        0 => u16::MAX,
        1 => ROOM + 1,
        2 => random.within(SENDING_ROOM..=u16::MAX.into()) as u16,
        _ => ROOM,
    }
}

/// The places below a count that pass a test.
fn places(count: usize, test: impl Fn(usize) -> bool) -> Vec<u8> {
    let places = (0..count).filter(|&place| test(place));
    places.map(|place| place as u8).collect()
}

/// The places of the held tables.
fn held_tables(store: &Store) -> Vec<u8> {
    places(TABLES, |n| store.table(n).is_some())
}

/// The places of a table's entries.
fn of_table(store: &Store, table: Option<usize>) -> Vec<u8> {
    let table_of = |n: usize| store.entry(n).map(|entry| entry.table);
    places(ENTRIES, |n| table_of(n).is_some() && table_of(n) == table)
}

/// Some places in any order.
fn shuffled(random: &mut Random, mut places: Vec<u8>) -> Vec<u8> {
    for last in (1..places.len()).rev() {
        places.swap(last, random.below(last + 1));
    }
    places
}
