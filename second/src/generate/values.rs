//! Numbers, names and keys for generated messages.

use super::random::Random;
use crate::datatype::{self, from_server_id};
use crate::store::{Table, INTEGER, IPV4, IPV6, KEY_LIMIT, KEY_TYPES, STRING};

/// Values next to a change of the encoding or of a limit.
pub const EDGES: [u64; 47] = [
    0,
    1,
    15,
    16,
    127,
    128,
    239,
    240,
    241,
    255,
    256,
    2287,
    2288,
    2289,
    4660,
    60000,
    264431,
    264432,
    33818863,
    33818864,
    (1 << 31) - 1,
    1 << 31,
    (1 << 32) - 2,
    (1 << 32) - 1,
    1 << 32,
    4328786159,
    4328786160,
    554084600047,
    554084600048,
    70922828777711,
    70922828777712,
    9078122083518703,
    9078122083518704,
    1161999626690365679,
    1161999626690365680,
    (1 << 60) - 1,
    1 << 60,
    (1 << 63) - 1,
    1 << 63,
    u64::MAX - (1 << 32),
    u64::MAX - (1 << 31) - 1,
    u64::MAX - (1 << 31),
    u64::MAX - (1 << 31) + 1,
    u64::MAX - 16,
    u64::MAX - 15,
    u64::MAX - 1,
    u64::MAX,
];

/// Server IDs next to a change of the encoding or of the limit.
const SERVER_EDGES: [i32; 11] = [
    0,
    1,
    239,
    240,
    2287,
    2288,
    i32::MAX - 1,
    i32::MAX,
    -1,
    i32::MIN,
    i32::MIN + 1,
];

/// A number up to `limit`.
pub fn number(random: &mut Random, limit: u64) -> u64 {
    match random.below(8) {
        0..=3 => random.bits() % limit.min(239).saturating_add(1),
        4 => limit,
        5 | 6 => edge(random, limit),
        _ => spread(random) % limit.saturating_add(1).max(1),
    }
}

/// An edge value up to `limit`.
fn edge(random: &mut Random, limit: u64) -> u64 {
    let count = EDGES.partition_point(|&edge| edge <= limit);
    random.pick(&EDGES[..count])
}

/// A number of any bit length.
fn spread(random: &mut Random) -> u64 {
    let bits = random.bits();
    (0..random.below(64)).fold(bits, |number, _| number / 2)
}

/// A value within the range of a data type, encoded.
pub fn value(random: &mut Random, data_type: u32) -> u64 {
    match data_type {
        datatype::SERVER => from_server_id(server_id(random)),
        _ if datatype::is_wide(data_type) => number(random, u64::MAX),
        _ => number(random, datatype::MAX_32),
    }
}

/// A server ID.
fn server_id(random: &mut Random) -> i32 {
    match random.below(3) {
        0 => random.below(240) as i32,
        1 => random.pick(&SERVER_EDGES),
        _ => random.bits() as i32,
    }
}

/// A table ID; few of them are frequent.
pub fn table_id(random: &mut Random) -> u64 {
    match random.below(4) {
        0 | 1 => random.below(6) as u64,
        _ => number(random, datatype::MAX_32),
    }
}

/// An update ID.
pub fn update_id(random: &mut Random) -> u32 {
    match random.below(4) {
        0 => random.pick(&[u32::MAX, u32::MAX - 1, u32::MAX - 2]),
        1 => random.pick(&[0, 1, 255, 256, 1 << 31]),
        2 => random.below(1000) as u32,
        _ => random.bits() as u32,
    }
}

/// A table name; few of them are frequent, some are first parts of others.
pub fn table_name(random: &mut Random) -> Vec<u8> {
    let long = b"name-of-thirty-two-bytes-length:";
    match random.below(16) {
        0 => b"t".to_vec(),
        1 => b"t1".to_vec(),
        2 => b"t2".to_vec(),
        3 => b"t1.".to_vec(),
        4 => long.to_vec(),
        5 => long[..31].to_vec(),
        6 => [&long[..31], b"_"].concat(),
        7 => b"-".to_vec(),
        8 => b"--".to_vec(),
        9 => b"/0".to_vec(),
        _ => any_name(random),
    }
}

/// The plain bytes, those next to bytes that aren't plain first.
const PLAIN: &[u8; 67] = b"-:AZ_az./0123456789BCDEFGHIJKLMNOPQRSTUVWXYbcdefghijklmnopqrstuvwxy";

/// A name of any plain bytes.
fn any_name(random: &mut Random) -> Vec<u8> {
    let length = random.pick(&[1, 1, 1, 2, 2, 3, 5, 31, 32]);
    let count = random.pick(&[7, PLAIN.len()]);
    (0..length).map(|_| random.pick(&PLAIN[..count])).collect()
}

/// The shape of a table.
#[derive(Clone, Copy, Debug, PartialEq, Eq)]
pub struct Shape {
    /// The key type.
    pub key_type: u64,
    /// The key length.
    pub key_length: u64,
    /// The data types.
    pub data_types: u64,
}

impl Shape {
    /// The shape of a table.
    pub fn of(table: &Table) -> Shape {
        Shape {
            key_type: table.key_type,
            key_length: table.key_length,
            data_types: table.data_types,
        }
    }
}

/// A shape with few or many data types.
pub fn shape(random: &mut Random, wide: bool) -> Shape {
    let key_type = random.pick(&KEY_TYPES);
    let key_length = key_length(random, key_type);
    let data_types = match wide {
        true => wide_data_types(random),
        false => narrow_data_types(random),
    };
    Shape {
        key_type,
        key_length,
        data_types,
    }
}

/// A key length of a key type.
fn key_length(random: &mut Random, key_type: u64) -> u64 {
    match key_type {
        INTEGER | IPV4 => 4,
        IPV6 => 16,
        _ => random.pick(&[1, 2, 3, 4, 5, 8, 16, 63, 64]),
    }
}

/// At most two data types.
fn narrow_data_types(random: &mut Random) -> u64 {
    let one = random.pick(&datatype::BITS);
    let other = random.pick(&datatype::BITS);
    random.pick(&[0, one, one, one | other])
}

/// Any data types.
fn wide_data_types(random: &mut Random) -> u64 {
    let rates = (0..19).filter(|&n| datatype::is_rate(n));
    let rates = rates.map(datatype::bit).sum();
    let any = random.bits() & datatype::LARGEST;
    let some = any & random.bits();
    let few = some & random.bits();
    let one = random.pick(&datatype::BITS);
    random.pick(&[
        some,
        some,
        few,
        one,
        one | 1,
        any,
        any & rates,
        rates,
        datatype::LARGEST,
    ])
}

/// A key for a table of this shape.
pub fn key(random: &mut Random, shape: Shape) -> Vec<u8> {
    let limit = shape.key_length as usize;
    if shape.key_type != STRING {
        return fixed_key(random, limit);
    }
    let length = match random.below(8) {
        0 => 0,
        1 => limit,
        _ => random.below(limit.min(6) + 1),
    };
    (0..length).map(|_| random.pick(b"\0\0ab\xFF")).collect()
}

/// A key of exactly `length` bytes, most of them zero.
fn fixed_key(random: &mut Random, length: usize) -> Vec<u8> {
    let mut key = vec![0; length.min(KEY_LIMIT)];
    for _ in 0..2 {
        let at = random.below(key.len());
        key[at] = random.byte();
    }
    key
}
