//! Builds the bytes of one session.
//!
//! The builder feeds its bytes to the byte model, so that it knows what is
//! defined, bound and held, and most of its messages are accepted.

use super::faults::fault;
use super::greetings::greeting;
use super::profile::{Operation, Profile};
use super::random::Random;
use super::times;
use super::values::{self, shape, table_id, table_name, update_id, Shape};
use super::wire::{self, Message};
use crate::datatype::{self, MAX_32};
use crate::frame::table_message;
use crate::model::feed;
use crate::record::Record;
use crate::store::{Store, Times, TABLES};

/// The state of the builder.
pub struct Builder<'a> {
    /// The source of numbers.
    pub random: &'a mut Random,
    /// The record after the bytes so far.
    pub record: Record,
    /// The store after the bytes so far.
    pub store: Store,
    profile: &'a Profile,
    built: Built,
}

/// A session as it's built.
#[derive(Clone, Debug, Default)]
pub struct Built {
    /// The bytes.
    pub bytes: Vec<u8>,
    /// The times that pass, each with the number of bytes before it.
    pub passes: Vec<(usize, u32)>,
}

impl Built {
    /// Bytes without passing time.
    pub fn plain(bytes: Vec<u8>) -> Built {
        let passes = Vec::new();
        Built { bytes, passes }
    }
}

/// Builds one session that starts from this record and store.
pub fn session(random: &mut Random, profile: &Profile, record: &Record, store: &Store) -> Built {
    let mut builder = Builder {
        random,
        record: record.clone(),
        store: store.clone(),
        profile,
        built: Built::default(),
    };
    builder.run();
    builder.built
}

impl Builder<'_> {
    /// Builds the whole session.
    fn run(&mut self) {
        self.greet();
        for _ in 0..self.random.within(self.profile.steps.clone()) {
            if self.record.is_closed() {
                break;
            }
            self.pass();
            self.step();
        }
        self.pass();
        self.finish();
        self.trail();
    }

    /// Adds bytes and feeds them to the model.
    fn send(&mut self, bytes: &[u8]) {
        for &byte in bytes {
            feed(&mut self.record, &mut self.store, byte);
        }
        self.built.bytes.extend_from_slice(bytes);
    }

    /// Sometimes passes time.
    fn pass(&mut self) {
        if self.random.chance(self.profile.passes) {
            let time = times::passing(self.random, &self.store);
            self.store.pass(time);
            self.built.passes.push((self.built.bytes.len(), time));
        }
    }

    /// Adds bytes, sometimes damaged.
    fn send_or_damage(&mut self, mut bytes: Vec<u8>) {
        if self.random.chance(self.profile.damage) {
            damage(self.random, &mut bytes);
        }
        self.send(&bytes);
    }

    /// Adds the handshake.
    fn greet(&mut self) {
        let faulty = self.random.chance(self.profile.bad_greetings);
        let bytes = greeting(self.random, self.record.role, faulty);
        self.send_or_damage(bytes);
    }

    /// Adds one message.
    fn step(&mut self) {
        let operation = self.profile.operation(self.random);
        let bytes = match operation {
            Operation::Control => vec![0, self.random.below(5) as u8],
            Operation::Error => vec![1, self.random.below(2) as u8],
            Operation::Skip => self.skipped(),
            _ => self.padded(operation),
        };
        self.send_or_damage(bytes);
    }

    /// Ends the session in one of several ways.
    fn finish(&mut self) {
        if self.record.is_closed() {
            return;
        }
        let bytes = match self.random.weighted(&[55, 4, 20, 21]) {
            0 => fault(self),
            1 => vec![1, self.random.below(2) as u8],
            2 => self.unfinished(),
            _ => Vec::new(),
        };
        self.send(&bytes);
    }

    /// Adds bytes after the closing one.
    fn trail(&mut self) {
        if self.record.is_closed() && self.random.chance(300) {
            let count = self.random.below(12);
            let bytes = self.random.bytes(count);
            self.send(&bytes);
        }
    }

    /// A first part of a message.
    fn unfinished(&mut self) -> Vec<u8> {
        let operation = self.profile.operation(self.random);
        let mut bytes = self.message(operation).bytes();
        bytes.truncate(self.random.below(bytes.len()));
        bytes
    }

    /// A message of an unknown type.
    fn skipped(&mut self) -> Vec<u8> {
        let any = self.random.within(136..=255) as u8;
        let kind = self.random.pick(&[135, 135, 136, 255, any]);
        let length = match self.random.below(60) {
            0 => self.random.pick(&[239, 240, 1023, 1024]),
            _ => self.random.below(10),
        };
        let body = self.random.bytes(length);
        table_message(kind, &body)
    }

    /// A table message, sometimes with ignored bytes.
    fn padded(&mut self, operation: Operation) -> Vec<u8> {
        let message = self.message(operation);
        let length = message.body().len();
        // After the data types of a definition without times nothing is ignored.
        let last_is_types = message.kind == crate::message::DEFINITION && message.fields.len() == 6;
        if last_is_types || !self.random.chance(60) {
            return message.bytes();
        }
        let total: usize = self.random.pick(&[239, 240, 241, 1023, 1024]);
        let count = match self.random.below(30) {
            0 => total.saturating_sub(length),
            _ => self.random.within(1..=6),
        };
        let ignored = self.random.bytes(count);
        message.with_ignored(&ignored)
    }

    /// A table message that the state accepts, if there is one.
    pub fn message(&mut self, operation: Operation) -> Message {
        match operation {
            Operation::Redefine => self.redefinition(),
            Operation::Rebind => self.rebinding(),
            Operation::Switch => self.switch(),
            Operation::Update => self.update(),
            Operation::Increment => self.increment(),
            Operation::Acknowledge => self.acknowledgement(),
            _ => self.new_definition(),
        }
    }

    /// The places of the held tables.
    pub fn held(&self) -> Vec<usize> {
        (0..TABLES)
            .filter(|&n| self.store.tables[n].is_some())
            .collect()
    }

    /// The bound IDs.
    fn bound(&self) -> Vec<u64> {
        self.record.bound.iter().flatten().copied().collect()
    }

    /// A definition of a new name, or of a held one if all places are held.
    fn new_definition(&mut self) -> Message {
        if self.store.free_table().is_none() {
            return self.redefinition();
        }
        let name = self.new_name();
        let shape = shape(self.random, self.profile.wide);
        self.definition(&name, shape)
    }

    /// A name that isn't held.
    pub fn new_name(&mut self) -> Vec<u8> {
        loop {
            let name = table_name(self.random);
            if self.store.named(&name).is_none() {
                return name;
            }
        }
    }

    /// A definition with any ID and times.
    pub fn definition(&mut self, name: &[u8], shape: Shape) -> Message {
        let id = table_id(self.random);
        self.definition_as(id, name, shape)
    }

    /// A definition with an ID and any times.
    fn definition_as(&mut self, id: u64, name: &[u8], shape: Shape) -> Message {
        let times = self.times(shape);
        wire::definition(id, name, shape, times.as_ref())
    }

    /// Expiry and periods, or none.
    fn times(&mut self, shape: Shape) -> Option<Times> {
        if self.random.chance(250) {
            return None;
        }
        let rates = datatype::rates(shape.data_types);
        let random = &mut *self.random;
        Some(Times {
            expiry: values::number(random, MAX_32),
            periods: rates
                .iter()
                .map(|_| values::number(random, MAX_32))
                .collect(),
        })
    }

    /// A definition of a held name, with its own ID or any.
    fn redefinition(&mut self) -> Message {
        let Some(place) = self.random.pick_any(&self.held()) else {
            return self.new_definition();
        };
        let own = self.record.bound[place].filter(|_| self.random.chance(400));
        let id = own.unwrap_or_else(|| table_id(self.random));
        self.redefinition_of(place, id)
    }

    /// A definition of the held table at a place.
    fn redefinition_of(&mut self, place: usize, id: u64) -> Message {
        let (name, shape) = self.table(place);
        self.definition_as(id, &name, shape)
    }

    /// The name and shape of the held table at a place.
    pub fn table(&self, place: usize) -> (Vec<u8>, Shape) {
        let table = self.store.table(place).expect("a held table");
        (table.name.clone(), Shape::of(table))
    }

    /// A definition of a held name with a bound ID.
    fn rebinding(&mut self) -> Message {
        let place = self.random.pick_any(&self.held());
        let id = self.random.pick_any(&self.bound());
        match (place, id) {
            (Some(place), Some(id)) => self.redefinition_of(place, id),
            _ => self.redefinition(),
        }
    }

    /// A switch to a bound ID.
    fn switch(&mut self) -> Message {
        match self.random.pick_any(&self.bound()) {
            Some(id) => wire::switch(id),
            None => self.redefinition(),
        }
    }

    /// An update of the current table.
    fn update(&mut self) -> Message {
        let Some(place) = self.record.current else {
            return self.redefinition();
        };
        let id = update_id(self.random);
        self.update_of(place, Some(id))
    }

    /// An incremental update of the current table.
    fn increment(&mut self) -> Message {
        match self.record.current {
            Some(place) if self.record.previous[place].is_some() => self.update_of(place, None),
            _ => self.update(),
        }
    }

    /// An update of a held table, incremental without an ID.
    pub fn update_of(&mut self, place: usize, id: Option<u32>) -> Message {
        let (_, shape) = self.table(place);
        let key = self.key(place, shape);
        self.update_with(id, &key, shape)
    }

    /// An update with a key and any values, timed or not.
    pub fn update_with(&mut self, id: Option<u32>, key: &[u8], shape: Shape) -> Message {
        let types = datatype::values(shape.data_types);
        let values = types.iter().map(|&n| values::value(self.random, n));
        let values: Vec<u64> = values.collect();
        let message = wire::update(id, key, shape, &values);
        match self.random.chance(self.profile.timed) {
            true => message.timed(times::remaining(self.random, &self.store)),
            false => message,
        }
    }

    /// A new key while the store isn't full, or a held one.
    fn key(&mut self, place: usize, shape: Shape) -> Vec<u8> {
        let full = self.store.free_entry().is_none();
        if !full && self.random.chance(self.profile.new_keys) {
            return self.new_key(place, shape);
        }
        match self.held_key(place) {
            Some(key) => key,
            None => self.new_key(place, shape),
        }
    }

    /// A held key of a table.
    fn held_key(&mut self, place: usize) -> Option<Vec<u8>> {
        let entries = self.store.entries.iter().flatten();
        let keys: Vec<&[u8]> = entries
            .filter(|e| e.table == place)
            .map(|e| e.key())
            .collect();
        self.random.pick_any(&keys).map(<[u8]>::to_vec)
    }

    /// A key that isn't held, or any if none is found.
    pub fn new_key(&mut self, place: usize, shape: Shape) -> Vec<u8> {
        for _ in 0..50 {
            let key = values::key(self.random, shape);
            if self.store.keyed(place, &key).is_none() {
                return key;
            }
        }
        values::key(self.random, shape)
    }

    /// An acknowledgement.
    fn acknowledgement(&mut self) -> Message {
        let id = values::number(self.random, MAX_32);
        wire::acknowledgement(id, update_id(self.random))
    }
}

/// Damages some bytes.
fn damage(random: &mut Random, bytes: &mut Vec<u8>) {
    let at = random.below(bytes.len());
    match random.below(7) {
        0 => bytes[at] = random.byte(),
        1 => bytes[at] ^= random.pick(&[1, 2, 4, 8, 16, 32, 64, 128]),
        2 => bytes[at] = random.pick(&[0, 127, 128, 239, 240, 255]),
        3 => drop(bytes.remove(at)),
        4 => bytes.insert(at, random.byte()),
        5 => bytes.truncate(at),
        _ => bytes.swap(0, at),
    }
}
