//! The encoded integer and the fields of a body.

use super::Refusal;

/// Why a field can't be read: the body ends before it is whole, or it overflows or is out of range.
#[derive(Clone, Copy, PartialEq, Eq)]
pub enum Fault {
    Short,
    Range,
}

impl Fault {
    /// The refusal of a body.
    pub fn number(self) -> u8 {
        match self {
            Fault::Short => 23,
            Fault::Range => 24,
        }
    }
}

/// The integer at the front of some bytes, and how many it takes.
pub fn read_int(bytes: &[u8]) -> Result<(u64, usize), Fault> {
    let &first = bytes.first().ok_or(Fault::Short)?;
    let mut value = u64::from(first);
    if first < 240 {
        return Ok((value, 1));
    }
    let mut weight = 16;
    for (n, &byte) in bytes[1..].iter().take(8).enumerate() {
        value += weight * u64::from(byte);
        if byte < 128 {
            return Ok((value, n + 2));
        }
        weight *= 128;
    }
    let &tenth = bytes.get(9).ok_or(Fault::Short)?;
    if tenth >= 16 {
        return Err(Fault::Range);
    }
    let value = value.checked_add(u64::from(tenth) << 60);
    value.map(|v| (v, 10)).ok_or(Fault::Range)
}

/// Writes an integer to the front of some bytes and gives its length.
pub fn write_int(bytes: &mut [u8], value: u64) -> usize {
    if value < 240 {
        bytes[0] = value as u8;
        return 1;
    }
    bytes[0] = 240 + (value % 16) as u8;
    let mut rest = (value - 240) / 16;
    let mut len = 1;
    while rest >= 128 {
        bytes[len] = 128 + (rest % 128) as u8;
        rest = (rest - 128) / 128;
        len += 1;
    }
    bytes[len] = rest as u8;
    len + 1
}

/// Whether a table's name has only letters, digits, `.`, `_`, `-`, `/` and `:`.
pub fn is_plain(name: &[u8]) -> bool {
    let plain = |b: &u8| b.is_ascii_alphanumeric() || matches!(b, b'.' | b'_' | b'-' | b'/' | b':');
    name.iter().all(plain)
}

/// The rest of a body, and how long all of it is. A field that is refused stays in the rest.
pub struct Reader<'a> {
    rest: &'a [u8],
    len: usize,
}

impl<'a> Reader<'a> {
    pub fn new(body: &'a [u8]) -> Reader<'a> {
        Reader {
            rest: body,
            len: body.len(),
        }
    }

    pub fn is_empty(&self) -> bool {
        self.rest.is_empty()
    }

    /// The refusal of the field that starts here.
    fn refused(&self, number: u8) -> Refusal {
        Refusal {
            number,
            offset: Some(self.len - self.rest.len()),
        }
    }

    /// An integer as what it stands for, which is nothing where it is out of range.
    pub fn int_as<T>(&mut self, meaning: impl FnOnce(u64) -> Option<T>) -> Result<T, Refusal> {
        let read = read_int(self.rest);
        let (value, len) = read.map_err(|fault| self.refused(fault.number()))?;
        let meant = meaning(value).ok_or_else(|| self.refused(Fault::Range.number()))?;
        self.rest = &self.rest[len..];
        Ok(meant)
    }

    pub fn int(&mut self) -> Result<u64, Refusal> {
        self.int_as(Some)
    }

    /// An integer from `low` to `high`.
    pub fn within(&mut self, low: u64, high: u64) -> Result<u64, Refusal> {
        self.int_as(|value| (low..=high).contains(&value).then_some(value))
    }

    pub fn word(&mut self) -> Result<u32, Refusal> {
        self.int_as(|value| u32::try_from(value).ok())
    }

    /// A server ID: a negative one is encoded as its value plus 2^64.
    pub fn server_id(&mut self) -> Result<i32, Refusal> {
        self.int_as(|value| i32::try_from(value as i64).ok())
    }

    pub fn bytes(&mut self, len: usize) -> Result<&'a [u8], Refusal> {
        if self.rest.len() < len {
            return Err(self.refused(Fault::Short.number()));
        }
        let (bytes, rest) = self.rest.split_at(len);
        self.rest = rest;
        Ok(bytes)
    }

    /// A table's name.
    pub fn name(&mut self, len: usize) -> Result<&'a [u8], Refusal> {
        if self.rest.get(..len).is_some_and(|name| !is_plain(name)) {
            return Err(self.refused(30));
        }
        self.bytes(len)
    }

    /// A 4-byte big-endian number.
    pub fn number(&mut self) -> Result<u32, Refusal> {
        let bytes = self.bytes(4)?;
        Ok(u32::from_be_bytes([bytes[0], bytes[1], bytes[2], bytes[3]]))
    }
}

/// A body that is written: the longest is a timed update with an ID, a string of 64 bytes and all data types.
pub struct Writer {
    bytes: [u8; 263],
    len: usize,
}

impl Writer {
    pub fn new() -> Writer {
        Writer {
            bytes: [0; 263],
            len: 0,
        }
    }

    pub fn int(&mut self, value: u64) {
        self.len += write_int(&mut self.bytes[self.len..], value);
    }

    pub fn bytes(&mut self, bytes: &[u8]) {
        self.bytes[self.len..self.len + bytes.len()].copy_from_slice(bytes);
        self.len += bytes.len();
    }

    /// A 4-byte big-endian number.
    pub fn number(&mut self, number: u32) {
        self.bytes(&number.to_be_bytes());
    }

    pub fn body(&self) -> &[u8] {
        &self.bytes[..self.len]
    }
}
