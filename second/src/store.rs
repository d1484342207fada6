//! The entry store: tables and entries.

use std::ops::RangeInclusive;

/// The number of table places.
pub const TABLES: usize = 8;
/// The number of entry places.
pub const ENTRIES: usize = 128;
/// The largest length of a table name.
pub const NAME_LIMIT: usize = 32;
/// The largest key length.
pub const KEY_LIMIT: usize = 64;

/// Key type: integer.
pub const INTEGER: u64 = 2;
/// Key type: IPv4 address.
pub const IPV4: u64 = 4;
/// Key type: IPv6 address.
pub const IPV6: u64 = 5;
/// Key type: string.
pub const STRING: u64 = 6;
/// Key type: binary.
pub const BINARY: u64 = 7;

/// All key types.
pub const KEY_TYPES: [u64; 5] = [INTEGER, IPV4, IPV6, STRING, BINARY];

/// The key lengths that a key type allows; `None` for an unknown type.
pub fn key_lengths(key_type: u64) -> Option<RangeInclusive<u64>> {
    match key_type {
        INTEGER | IPV4 => Some(4..=4),
        IPV6 => Some(16..=16),
        STRING | BINARY => Some(1..=KEY_LIMIT as u64),
        _ => None,
    }
}

/// Whether a table name has only letters, digits, `.`, `_`, `-`, `/` and `:`.
pub fn is_plain(name: &[u8]) -> bool {
    name.iter().all(|&byte| match byte {
        b'A'..=b'Z' | b'a'..=b'z' | b'0'..=b'9' => true,
        _ => b"._-/:".contains(&byte),
    })
}

/// The expiry and the periods of a table's rate types.
#[derive(Clone, Debug, PartialEq, Eq)]
pub struct Times {
    /// The expiry.
    pub expiry: u64,
    /// The periods of the rate types, ascending by type.
    pub periods: Vec<u64>,
}

/// A held table.
#[derive(Clone, Debug, PartialEq, Eq)]
pub struct Table {
    /// The name.
    pub name: Vec<u8>,
    /// The key type.
    pub key_type: u64,
    /// The key length; for strings the largest.
    pub key_length: u64,
    /// The data types field.
    pub data_types: u64,
    /// Expiry and periods, if the latest definition has them.
    pub times: Option<Times>,
}

impl Table {
    /// Whether two definitions agree in key type, key length and data types.
    pub fn agrees(&self, other: &Table) -> bool {
        self.key_type == other.key_type
            && self.key_length == other.key_length
            && self.data_types == other.data_types
    }
}

/// A held entry.
#[derive(Clone, Debug, PartialEq, Eq)]
pub struct Entry {
    /// The table's place.
    pub table: usize,
    /// The length of the key.
    pub key_length: usize,
    /// The key; zero past its length.
    pub key: [u8; KEY_LIMIT],
    /// The values as encoded integers, in the order of an update.
    pub values: Vec<u64>,
    /// The remaining time in milliseconds, if it has one.
    pub remaining: Option<u64>,
}

impl Entry {
    /// An entry with a key of at most [`KEY_LIMIT`] bytes and no remaining time.
    pub fn new(table: usize, key: &[u8], values: Vec<u64>) -> Entry {
        let mut padded = [0; KEY_LIMIT];
        padded[..key.len()].copy_from_slice(key);
        Entry {
            table,
            key_length: key.len(),
            key: padded,
            values,
            remaining: None,
        }
    }

    /// The entry with this remaining time.
    pub fn lasting(self, remaining: Option<u64>) -> Entry {
        Entry { remaining, ..self }
    }

    /// What is left of the entry after some time; `None` if it's removed.
    fn after(self, milliseconds: u64) -> Option<Entry> {
        match self.remaining {
            None => Some(self),
            Some(time) if time <= milliseconds => None,
            Some(time) => Some(self.lasting(Some(time - milliseconds))),
        }
    }

    /// The key without the bytes past its length.
    pub fn key(&self) -> &[u8] {
        &self.key[..self.key_length.min(KEY_LIMIT)]
    }

    /// Whether this is the entry of a table and key.
    pub fn is(&self, table: usize, key: &[u8]) -> bool {
        self.table == table && self.key_length == key.len() && self.key() == key
    }
}

/// The store.
#[derive(Clone, Debug, PartialEq, Eq)]
pub struct Store {
    /// The table places.
    pub tables: [Option<Table>; TABLES],
    /// The number of entries of each table place.
    pub counts: [u64; TABLES],
    /// The entry places.
    pub entries: [Option<Entry>; ENTRIES],
}

impl Default for Store {
    fn default() -> Store {
        Store::new()
    }
}

impl Store {
    /// An empty store.
    pub fn new() -> Store {
        Store {
            tables: std::array::from_fn(|_| None),
            counts: [0; TABLES],
            entries: std::array::from_fn(|_| None),
        }
    }

    /// The held table at a place.
    pub fn table(&self, place: usize) -> Option<&Table> {
        self.tables.get(place)?.as_ref()
    }

    /// The held entry at a place.
    pub fn entry(&self, place: usize) -> Option<&Entry> {
        self.entries.get(place)?.as_ref()
    }

    /// The place of the table with this name.
    pub fn named(&self, name: &[u8]) -> Option<usize> {
        place_of(&self.tables, |table| table.name == name)
    }

    /// The place of the entry with this table and key.
    pub fn keyed(&self, table: usize, key: &[u8]) -> Option<usize> {
        place_of(&self.entries, |entry| entry.is(table, key))
    }

    /// The lowest free table place.
    pub fn free_table(&self) -> Option<usize> {
        self.tables.iter().position(Option::is_none)
    }

    /// Passes time on a sound store: entries with no more than this left are
    /// removed, the time of the others is lowered.
    pub fn pass(&mut self, milliseconds: u32) {
        for place in &mut self.entries {
            let Some(entry) = place.take() else {
                continue;
            };
            let table = entry.table;
            *place = entry.after(milliseconds.into());
            if place.is_none() {
                self.counts[table] -= 1;
            }
        }
    }

    /// Puts an entry of a new key into a free place.
    pub fn add(&mut self, place: usize, entry: Entry) {
        self.counts[entry.table] += 1;
        self.entries[place] = Some(entry);
    }

    /// The lowest free entry place.
    pub fn free_entry(&self) -> Option<usize> {
        self.entries.iter().position(Option::is_none)
    }
}

/// The first held place whose content passes the test.
fn place_of<T>(places: &[Option<T>], test: impl Fn(&T) -> bool) -> Option<usize> {
    places
        .iter()
        .position(|place| place.as_ref().is_some_and(&test))
}
