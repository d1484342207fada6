//! Messages that a session refuses, for each number from 20.

use super::builder::Builder;
use super::profile::Operation;
use super::values::{shape, table_id, update_id, Shape};
use super::wire::{self, overflows, Message, KEY_TYPE, NAME};
use crate::datatype;
use crate::frame::TABLE_CLASS;
use crate::integer::encode;
use crate::message::DEFINITION;
use crate::record::Record;
use crate::store::{BINARY, INTEGER, IPV4, STRING};

/// A message that is refused in most cases.
pub fn fault(builder: &mut Builder) -> Vec<u8> {
    for _ in 0..6 {
        let number = choose(builder);
        if let Some(bytes) = numbered(builder, number) {
            return bytes;
        }
    }
    header(builder)
}

/// A refusal number less 20; those of a full store and of a session without
/// current table go first.
fn choose(builder: &mut Builder) -> usize {
    if builder.store.free_entry().is_none() && builder.random.chance(700) {
        return 9;
    }
    if builder.record.current.is_none() && builder.random.chance(150) {
        return 7;
    }
    if builder.store.free_table().is_none() && builder.random.chance(500) {
        return builder.random.pick(&[6, 6, 6, 10]);
    }
    builder.random.weighted(&[2, 2, 2, 9, 11, 4, 1, 4, 4, 1, 5])
}

/// A message for the refusal with this number plus 20, if the state has one.
fn numbered(builder: &mut Builder, number: usize) -> Option<Vec<u8>> {
    match number {
        0 => Some(header(builder)),
        1 => Some(overflowing_length(builder)),
        2 => Some(large_length(builder)),
        3 | 4 if builder.random.chance(400) => broken_update(builder, number),
        3 => Some(base(builder).cut(builder.random)),
        4 if builder.random.chance(350) => Some(bad_key(builder)),
        4 => base(builder).out_of_range(builder.random),
        5 => disagreeing(builder).map(|message| spoiled(builder, &message)),
        6 => ninth_table(builder).map(|message| spoiled(builder, &message)),
        7 => {
            let message = unbound(builder);
            Some(spoiled(builder, &message))
        }
        8 => no_previous(builder),
        9 => no_room(builder).map(|message| spoiled(builder, &message)),
        _ => Some(not_plain(builder)),
    }
}

/// A message, sometimes cut or with a field out of range; a definition also
/// with a name that isn't plain.
fn spoiled(builder: &mut Builder, message: &Message) -> Vec<u8> {
    let bad = match builder.random.below(10) {
        0 => Some(message.cut(builder.random)),
        1 => message.out_of_range(builder.random),
        9 if message.kind == DEFINITION => Some(message.with_bad_field(NAME, builder.random)),
        _ => None,
    };
    bad.unwrap_or_else(|| message.bytes())
}

/// An unknown class or type.
fn header(builder: &mut Builder) -> Vec<u8> {
    let random = &mut *builder.random;
    let pairs = [
        [0, 5],
        [0, 127],
        [0, 128],
        [0, 255],
        [1, 2],
        [1, 128],
        [2, 0],
        [9, 128],
        [10, 0],
        [10, 4],
        [10, 127],
        [11, 130],
        [255, 0],
        [255, 255],
        [random.within(2..=9) as u8, random.byte()],
        [random.within(11..=255) as u8, random.byte()],
    ];
    random.pick(&pairs).to_vec()
}

/// Any type from 128.
fn any_kind(builder: &mut Builder) -> u8 {
    builder
        .random
        .pick(&[128, 129, 130, 131, 132, 133, 134, 135, 255])
}

/// A body length that overflows.
fn overflowing_length(builder: &mut Builder) -> Vec<u8> {
    let overflows = overflows();
    let place = builder.random.below(overflows.len());
    let kind = any_kind(builder);
    [&[TABLE_CLASS, kind], &overflows[place][..]].concat()
}

/// A body length over the limit.
fn large_length(builder: &mut Builder) -> Vec<u8> {
    let lengths = [
        1025,
        1025,
        1026,
        2287,
        2288,
        65536,
        1 << 32,
        1 << 63,
        u64::MAX,
    ];
    let length = encode(builder.random.pick(&lengths));
    let kind = any_kind(builder);
    [&[TABLE_CLASS, kind], &length[..]].concat()
}

/// A message to cut or spoil; some are refused for another reason too.
fn base(builder: &mut Builder) -> Message {
    let other = match builder.random.below(12) {
        0 => disagreeing(builder),
        1 => ninth_table(builder),
        2 => Some(unbound(builder)),
        3 => no_room(builder),
        4 => Some(any_definition(builder)),
        _ => None,
    };
    let operations = [
        Operation::Define,
        Operation::Redefine,
        Operation::Switch,
        Operation::Update,
        Operation::Update,
        Operation::Update,
        Operation::Increment,
        Operation::Increment,
        Operation::Acknowledge,
    ];
    let operation = builder.random.pick(&operations);
    other.unwrap_or_else(|| builder.message(operation))
}

/// An update that is cut, or out of range, of a new table with all kinds of
/// values; the table's definition and an update go before it.
fn broken_update(builder: &mut Builder, number: usize) -> Option<Vec<u8>> {
    builder.store.free_table()?;
    let shape = Shape {
        key_type: builder.random.pick(&[STRING, BINARY]),
        key_length: builder.random.pick(&[2, 4, 64]),
        data_types: all_kinds(builder),
    };
    let name = builder.new_name();
    let key = super::values::key(builder.random, shape);
    let definition = builder.definition(&name, shape);
    let id = Some(update_id(builder.random));
    let update = builder.update_with(id, &key, shape);
    let id = id.filter(|_| builder.random.chance(400));
    let message = builder.update_with(id, &key, shape);
    let broken = match number {
        3 => message.cut(builder.random),
        _ => message.out_of_range(builder.random)?,
    };
    Some([definition.bytes(), update.bytes(), broken].concat())
}

/// Data types with a server ID, a rate, and values of 32 and 64 bits.
fn all_kinds(builder: &mut Builder) -> u64 {
    let narrow = builder.random.pick(&[1, 2, 4, 6, 7, 9, 11, 17]);
    let rate = builder.random.pick(&[3, 5, 8, 10, 12, 14, 16, 18]);
    let wide = builder.random.pick(&[13, 15]);
    let numbers = [datatype::SERVER, narrow, rate, wide];
    numbers.into_iter().map(datatype::bit).sum()
}

/// A definition whose key type or key length is out of range.
fn bad_key(builder: &mut Builder) -> Vec<u8> {
    let message = builder.message(Operation::Define);
    let place = builder.random.pick(&[KEY_TYPE, KEY_TYPE + 1]);
    message.with_bad_field(place, builder.random)
}

/// A definition whose name isn't plain, often with another fault before or
/// behind the name.
fn not_plain(builder: &mut Builder) -> Vec<u8> {
    let other = match builder.random.below(4) {
        0 => disagreeing(builder),
        1 => ninth_table(builder),
        2 => Some(builder.message(Operation::Redefine)),
        _ => None,
    };
    let message = other.unwrap_or_else(|| any_definition(builder));
    let bad = message.fields[NAME].bad(builder.random);
    let message = message.with(NAME, bad);
    let spoiled = match builder.random.below(8) {
        0 => Some(message.up_to(NAME).bytes()),
        1 => Some(message.cut(builder.random)),
        2 | 3 => message.out_of_range(builder.random),
        _ => None,
    };
    spoiled.unwrap_or_else(|| message.bytes())
}

/// A definition of a new name with any data types.
fn any_definition(builder: &mut Builder) -> Message {
    let name = builder.new_name();
    let shape = shape(builder.random, true);
    builder.definition(&name, shape)
}

/// A definition of a held name that disagrees.
fn disagreeing(builder: &mut Builder) -> Option<Message> {
    let held = builder.held();
    let place = builder.random.pick_any(&held)?;
    let (name, held) = builder.table(place);
    let other = other_shape(builder, held);
    Some(builder.definition(&name, other))
}

/// Another shape; it differs in one respect where it can.
fn other_shape(builder: &mut Builder, held: Shape) -> Shape {
    let random = &mut *builder.random;
    let mut other = held;
    match random.below(3) {
        0 => other.key_type = of_like_length(held.key_type),
        1 if matches!(held.key_type, STRING | BINARY) => {
            other.key_length = held.key_length % 64 + 1
        }
        _ => other.data_types ^= random.pick(&datatype::BITS),
    }
    match other == held {
        true => shape_unlike(builder, held),
        false => other,
    }
}

/// Another key type that allows the same key lengths, where there is one.
fn of_like_length(key_type: u64) -> u64 {
    match key_type {
        INTEGER => IPV4,
        IPV4 => INTEGER,
        STRING => BINARY,
        BINARY => STRING,
        _ => key_type,
    }
}

/// Any shape but this one.
fn shape_unlike(builder: &mut Builder, held: Shape) -> Shape {
    loop {
        let other = shape(builder.random, false);
        if other != held {
            return other;
        }
    }
}

/// A definition of a new name while all table places are held.
fn ninth_table(builder: &mut Builder) -> Option<Message> {
    match builder.store.free_table() {
        Some(_) => None,
        None => Some(any_definition(builder)),
    }
}

/// An update without current table, or a switch to an unbound ID.
fn unbound(builder: &mut Builder) -> Message {
    if builder.record.current.is_none() && builder.random.chance(800) {
        let shape = shape(builder.random, false);
        let id = update_id(builder.random);
        let id = Some(id).filter(|_| builder.random.chance(500));
        let key = super::values::key(builder.random, shape);
        return builder.update_with(id, &key, shape);
    }
    wire::switch(unbound_id(builder))
}

/// An ID that isn't bound.
fn unbound_id(builder: &mut Builder) -> u64 {
    loop {
        let id = table_id(builder.random);
        if builder.record.table_of(id).is_none() {
            return id;
        }
    }
}

/// An incremental update of a table without previous ID; a switch to the
/// table goes before it.
fn no_previous(builder: &mut Builder) -> Option<Vec<u8>> {
    let places: Vec<usize> = without_previous(&builder.record);
    let place = builder.random.pick_any(&places)?;
    let switch = wire::switch(builder.record.bound[place]?);
    let message = builder.update_of(place, None);
    Some([switch.bytes(), spoiled(builder, &message)].concat())
}

/// The places of bound tables without previous ID.
fn without_previous(record: &Record) -> Vec<usize> {
    let places = record.bound.iter().zip(&record.previous).enumerate();
    let places = places.filter(|(_, (bound, previous))| bound.is_some() && previous.is_none());
    places.map(|(place, _)| place).collect()
}

/// An update with a new key while the store is full.
fn no_room(builder: &mut Builder) -> Option<Message> {
    let place = builder.record.current?;
    if builder.store.free_entry().is_some() {
        return None;
    }
    let (_, shape) = builder.table(place);
    let key = builder.new_key(place, shape);
    let id = Some(update_id(builder.random));
    let id = id.filter(|_| builder.record.previous[place].is_none() || builder.random.chance(300));
    Some(builder.update_with(id, &key, shape))
}
