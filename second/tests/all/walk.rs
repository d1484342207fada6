//! The starts of the fields of a body, found apart from the receiver.

use second::datatype;
use second::integer::{decode, Decoded};
use second::store::Table;

/// A field's name and where it starts.
pub type Start = (&'static str, usize);

/// Goes over a body field by field, as far as its fields are whole.
pub struct Walk<'a> {
    body: &'a [u8],
    at: usize,
    starts: Vec<Start>,
}

impl Walk<'_> {
    /// Goes over an encoded integer.
    fn integer(&mut self, name: &'static str) -> Option<u64> {
        self.starts.push((name, self.at));
        match decode(&self.body[self.at..]) {
            Decoded::Value { value, length } => {
                self.at += length;
                Some(value)
            }
            _ => None,
        }
    }

    /// Goes over some bytes.
    fn raw(&mut self, name: &'static str, count: u64) -> Option<()> {
        self.starts.push((name, self.at));
        let left = self.body.len() - self.at;
        if count > left as u64 {
            return None;
        }
        self.at += count as usize;
        Some(())
    }

    /// Goes over a definition.
    fn definition(&mut self) -> Option<()> {
        self.integer("table ID")?;
        let length = self.integer("name length")?;
        self.raw("name", length)?;
        self.integer("key type")?;
        self.integer("key length")?;
        let types = self.integer("data types")?;
        self.integer("expiry")?;
        for _ in datatype::rates(types) {
            self.integer("pair number")?;
            self.integer("period")?;
        }
        Some(())
    }

    /// Goes over the key and the values of an update.
    fn entry(&mut self, table: &Table) -> Option<()> {
        match table.key_type {
            6 => {
                let length = self.integer("string length")?;
                self.raw("string", length)?;
            }
            _ => self.raw("key", table.key_length)?,
        }
        for number in datatype::present(table.data_types) {
            for name in values(number) {
                self.integer(name)?;
            }
        }
        Some(())
    }

    /// Goes over the body of a message of this type.
    fn message(&mut self, kind: u8, table: Option<&Table>) -> Option<()> {
        match kind {
            128 => {
                self.raw("update ID", 4)?;
                self.entry(table?)
            }
            129 => self.entry(table?),
            133 => {
                self.raw("update ID", 4)?;
                self.raw("remaining time", 4)?;
                self.entry(table?)
            }
            134 => {
                self.raw("remaining time", 4)?;
                self.entry(table?)
            }
            130 => self.definition(),
            131 => self.integer("table ID").map(drop),
            _ => {
                self.integer("table ID")?;
                self.raw("update ID", 4)
            }
        }
    }
}

/// The integers of a data type.
fn values(number: u32) -> &'static [&'static str] {
    match number {
        0 => &["server ID"],
        13 | 15 => &["64-bit value"],
        3 | 5 | 8 | 10 | 12 | 14 | 16 | 18 => &["elapsed", "current count", "previous count"],
        _ => &["32-bit value"],
    }
}

/// The fields of a body up to the first that isn't whole; `table` is the
/// current one.
pub fn starts(kind: u8, body: &[u8], table: Option<&Table>) -> Vec<Start> {
    let mut walk = Walk {
        body,
        at: 0,
        starts: Vec::new(),
    };
    walk.message(kind, table);
    walk.starts
}
