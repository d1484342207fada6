//! Messages as lists of fields, so that each field can be cut or spoiled.

use super::random::Random;
use super::values::Shape;
use crate::datatype;
use crate::frame::table_message;
use crate::integer::encode;
use crate::message::{ACKNOWLEDGEMENT, DEFINITION, SWITCH};
use crate::message::{INCREMENTAL, TIMED, TIMED_INCREMENTAL, UPDATE};
use crate::store::{Times, INTEGER, IPV4, IPV6, STRING};

/// A field of a body.
#[derive(Clone, Debug)]
pub struct Field {
    /// Its bytes.
    pub good: Vec<u8>,
    /// Bytes in its place that are out of range, next to a limit.
    pub near: Vec<Vec<u8>>,
    /// Bytes in its place that are out of range, far from the limits.
    pub far: Vec<Vec<u8>>,
}

impl Field {
    /// A field whose bytes are all within range.
    fn raw(bytes: &[u8]) -> Field {
        Field {
            good: bytes.to_vec(),
            near: Vec::new(),
            far: Vec::new(),
        }
    }

    /// An encoded integer with values that are out of range.
    fn integer(value: u64, near: &[u64], far: &[u64]) -> Field {
        let far = far.iter().map(|&value| encode(value));
        Field {
            good: encode(value),
            near: near.iter().map(|&value| encode(value)).collect(),
            far: far.chain(overflows()).collect(),
        }
    }

    /// An encoded integer of at most 32 bits.
    fn integer_32(value: u64) -> Field {
        Field::integer(value, &[1 << 32], &[(1 << 32) + 1, 4328786160, u64::MAX])
    }

    /// A table name, and the name with its first or its last byte not plain.
    fn name(name: &[u8]) -> Field {
        let last = name.len() - 1;
        let places = if last == 0 { vec![0] } else { vec![0, last] };
        let with = |bytes: &[u8]| {
            let all = |&at: &usize| bytes.iter().map(move |&byte| replaced(name, at, byte));
            places.iter().flat_map(all).collect()
        };
        Field {
            good: name.to_vec(),
            near: with(NEXT_TO_PLAIN),
            far: with(FAR_FROM_PLAIN),
        }
    }

    /// Whether there are bytes that are out of range.
    fn can_be_bad(&self) -> bool {
        !self.far.is_empty()
    }

    /// Bytes that are out of range.
    pub fn bad(&self, random: &mut Random) -> Vec<u8> {
        let list = match self.near.is_empty() || random.chance(300) {
            true => &self.far,
            false => &self.near,
        };
        list[random.below(list.len())].clone()
    }
}

/// Bytes that aren't plain, next to plain ones.
pub const NEXT_TO_PLAIN: &[u8] = b",;@[^`{";

/// Bytes that aren't plain; two of them are letters but for their first bit.
pub const FAR_FROM_PLAIN: &[u8] = b"\0\n +?~\x7F\x80\xC1\xFA\xFF";

/// A name with another byte at a place.
fn replaced(name: &[u8], at: usize, byte: u8) -> Vec<u8> {
    let mut name = name.to_vec();
    name[at] = byte;
    name
}

/// Encoded integers that overflow.
pub fn overflows() -> Vec<Vec<u8>> {
    let with = |first: u8, later: u8, last: u8| {
        let mut bytes = vec![later; 10];
        bytes[0] = first;
        bytes[9] = last;
        bytes
    };
    vec![
        vec![0xF0, 0xF1, 0xFE, 0xFE, 0xFE, 0xFE, 0xFE, 0xFE, 0xFE, 0x0E],
        with(0xFF, 0xFF, 0xFF),
        with(0xF0, 0x80, 0x80),
        with(0xF0, 0x80, 0x7F),
        with(0xF0, 0x80, 0x0F),
        with(0xFF, 0xFF, 0x0E),
    ]
}

/// The place of the name among the fields of a definition.
pub const NAME: usize = 2;

/// The place of the key type among the fields of a definition; the key length
/// follows it.
pub const KEY_TYPE: usize = 3;

/// A table message.
#[derive(Clone, Debug)]
pub struct Message {
    /// Its type.
    pub kind: u8,
    /// Its known fields.
    pub fields: Vec<Field>,
}

impl Message {
    /// The bytes of the known fields.
    pub fn body(&self) -> Vec<u8> {
        let parts = self.fields.iter().map(|field| &field.good[..]);
        parts.collect::<Vec<_>>().concat()
    }

    /// The whole message.
    pub fn bytes(&self) -> Vec<u8> {
        table_message(self.kind, &self.body())
    }

    /// The message with ignored bytes after its known fields.
    pub fn with_ignored(&self, ignored: &[u8]) -> Vec<u8> {
        table_message(self.kind, &[&self.body()[..], ignored].concat())
    }

    /// The message with a body that ends before one of its known fields or
    /// inside it, sometimes with other bytes in its place: an integer of one
    /// byte has no inside.
    pub fn cut(&self, random: &mut Random) -> Vec<u8> {
        let place = random.below(self.fields.len());
        let field = &self.fields[place];
        let bytes = match field.can_be_bad() && random.chance(500) {
            true => &field.far[random.below(field.far.len())],
            false => &field.good,
        };
        let length = random.below(bytes.len().max(1)).min(bytes.len());
        self.with_field(place, bytes[..length].to_vec(), false)
    }

    /// The message with a field out of range; all of it or up to there.
    pub fn out_of_range(&self, random: &mut Random) -> Option<Vec<u8>> {
        let places = (0..self.fields.len()).filter(|&n| self.fields[n].can_be_bad());
        let place = random.pick_any(&places.collect::<Vec<_>>())?;
        Some(self.with_bad_field(place, random))
    }

    /// The message with this field out of range; all of it or up to there.
    pub fn with_bad_field(&self, place: usize, random: &mut Random) -> Vec<u8> {
        let bad = self.fields[place].bad(random);
        let whole = !random.chance(300);
        self.with_field(place, bad, whole)
    }

    /// The message with other bytes in place of a field; whole or up to it.
    pub fn with_field(&self, place: usize, bytes: Vec<u8>, whole: bool) -> Vec<u8> {
        let other = self.with(place, bytes);
        match whole {
            true => other.bytes(),
            false => other.up_to(place).bytes(),
        }
    }

    /// The timed form of an update, with this remaining time.
    pub fn timed(mut self, remaining: u32) -> Message {
        let (kind, place) = match self.kind {
            UPDATE => (TIMED, 1),
            _ => (TIMED_INCREMENTAL, 0),
        };
        self.kind = kind;
        let time = Field::raw(&remaining.to_be_bytes());
        self.fields.insert(place, time);
        self
    }

    /// The message with no field behind this one.
    pub fn up_to(&self, place: usize) -> Message {
        let mut other = self.clone();
        other.fields.truncate(place + 1);
        other
    }

    /// The message with other bytes in place of a field.
    pub fn with(&self, place: usize, bytes: Vec<u8>) -> Message {
        let mut other = self.clone();
        other.fields[place].good = bytes;
        other
    }
}

/// A definition.
pub fn definition(id: u64, name: &[u8], shape: Shape, times: Option<&Times>) -> Message {
    let (near, far) = bad_key_lengths(shape.key_type);
    let mut fields = vec![
        Field::integer_32(id),
        Field::integer(name.len() as u64, &[0, 33], &[34, 239, 240, u64::MAX]),
        Field::name(name),
        key_type(shape.key_type),
        Field::integer(shape.key_length, near, far),
        Field::integer(shape.data_types, &[1 << 19], &[1 << 20, 1 << 32, u64::MAX]),
    ];
    if let Some(times) = times {
        fields.push(Field::integer_32(times.expiry));
        let rates = datatype::rates(shape.data_types);
        for (&rate, &period) in rates.iter().zip(&times.periods) {
            fields.push(pair_number(rate));
            fields.push(Field::integer_32(period));
        }
    }
    Message {
        kind: DEFINITION,
        fields,
    }
}

/// The key type of a definition; numbers between and next to the known ones
/// are out of range, and so are larger ones that end in the same bits.
fn key_type(number: u64) -> Field {
    let near = [0, 1, 3, 8];
    let far = [
        9,
        239,
        240,
        256 + number,
        (1 << 32) + number,
        (1 << 32) + 2,
        u64::MAX,
    ];
    Field::integer(number, &near, &far)
}

/// Key lengths that a key type doesn't allow, near and far.
fn bad_key_lengths(key_type: u64) -> (&'static [u64], &'static [u64]) {
    match key_type {
        INTEGER | IPV4 => (&[3, 5, 16], &[0, 1, 64, (1 << 32) + 4, u64::MAX]),
        IPV6 => (&[15, 17, 4], &[0, 1, 64, (1 << 32) + 16, u64::MAX]),
        _ => (&[0, 65], &[66, 240, (1 << 32) + 1, u64::MAX]),
    }
}

/// The number of a pair; all other data types are out of range.
fn pair_number(rate: u32) -> Field {
    let others: Vec<u64> = (0..20).filter(|&n| n != rate).map(u64::from).collect();
    let number = u64::from(rate);
    Field::integer(number, &others, &[number + 256, u64::MAX])
}

/// An update, or an incremental one where there is no ID.
pub fn update(id: Option<u32>, key: &[u8], shape: Shape, values: &[u64]) -> Message {
    let mut fields = Vec::new();
    if let Some(id) = id {
        fields.push(Field::raw(&id.to_be_bytes()));
    }
    if shape.key_type == STRING {
        let near = [shape.key_length + 1];
        let far = [65, 239, 240, u64::MAX];
        fields.push(Field::integer(key.len() as u64, &near, &far));
    }
    fields.push(Field::raw(key));
    let types = datatype::values(shape.data_types);
    fields.extend(
        types
            .iter()
            .zip(values)
            .map(|(&number, &value)| value_field(number, value)),
    );
    Message {
        kind: if id.is_some() { UPDATE } else { INCREMENTAL },
        fields,
    }
}

/// A value of an update.
fn value_field(data_type: u32, value: u64) -> Field {
    match data_type {
        datatype::SERVER => {
            let near = [1 << 31, u64::MAX - (1 << 31)];
            Field::integer(value, &near, &[(1 << 32) - 1, 1 << 32, 1 << 63])
        }
        _ if datatype::is_wide(data_type) => Field::integer(value, &[], &[]),
        _ => Field::integer_32(value),
    }
}

/// A switch.
pub fn switch(id: u64) -> Message {
    Message {
        kind: SWITCH,
        fields: vec![Field::integer_32(id)],
    }
}

/// An acknowledgement.
pub fn acknowledgement(id: u64, update: u32) -> Message {
    Message {
        kind: ACKNOWLEDGEMENT,
        fields: vec![Field::integer_32(id), Field::raw(&update.to_be_bytes())],
    }
}
