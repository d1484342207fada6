//! The structs that the library reads and writes, field for field as in `include/peers.h`.
//!
//! Every content is allowed: what the rules don't allow is refused with [`crate::Refusal::Unsound`]. No struct has padding, so each can be
//! compared, hashed or saved as bytes.

use std::collections::BTreeMap;
use std::fmt;

/// Places for tables.
pub const TABLES: usize = 8;
/// Places for entries.
pub const ENTRIES: usize = 128;
/// The most bytes of a table's or a peer's name.
pub const NAME_MAX: usize = 32;
/// The most bytes of a key.
pub const KEY_MAX: usize = 64;
/// How many data types are rates.
pub const RATES: usize = 8;
/// Integers of an entry, the server ID aside.
pub const VALUES: usize = 34;
/// The most unfinished bytes.
pub const UNFINISHED_MAX: usize = 1027;
/// The bytes of a record's buffer: five more, so that the record has no padding.
pub const BUFFER: usize = 1032;

/// A table place.
#[repr(C)]
#[derive(Clone, Copy, Debug, PartialEq, Eq)]
pub struct Table {
    /// 1 for a held table, 0 for a free place.
    pub held: u32,
    /// The key type's number, [`crate::KeyType::number`].
    pub key_type: u32,
    /// 1 where expiry and periods are known.
    pub timed: u32,
    /// Bits 0 to 18.
    pub data_types: u32,
    /// The length of the name.
    pub name_len: usize,
    /// The length of the keys; for strings the largest.
    pub key_len: u32,
    /// The expiry in milliseconds.
    pub expiry: u32,
    /// The periods in milliseconds, by rate.
    pub periods: [u32; RATES],
    /// The name, at the front: letters and digits of ASCII, `.`, `_`, `-`, `/` and `:`.
    pub name: [u8; NAME_MAX],
}

/// An entry place.
#[repr(C)]
#[derive(Clone, Copy, Debug, PartialEq, Eq)]
pub struct Entry {
    /// 1 for a held entry, 0 for a free place.
    pub held: u32,
    /// The server ID, if the table has it.
    pub server_id: i32,
    /// 1 where the entry has a remaining time.
    pub timed: u32,
    /// The remaining time in milliseconds; not looked at where `timed` is 0.
    pub remaining: u32,
    /// The table's place.
    pub table: usize,
    /// The length of the key.
    pub key_len: usize,
    /// The key, at the front.
    pub key: [u8; KEY_MAX],
    /// The integers of the table's data types, by slot.
    pub values: [u64; VALUES],
}

/// The store.
#[repr(C)]
#[derive(Clone, Copy, PartialEq, Eq)]
pub struct Store {
    /// The table places.
    pub tables: [Table; TABLES],
    /// How many held entries the table at the same place has; 0 at a free place.
    pub counts: [u32; TABLES],
    /// The entry places.
    pub entries: [Entry; ENTRIES],
}

/// The places that aren't free, and all counts.
impl fmt::Debug for Store {
    fn fmt(&self, f: &mut fmt::Formatter<'_>) -> fmt::Result {
        let tables = self.tables.iter().enumerate();
        let entries = self.entries.iter().enumerate();
        let tables: BTreeMap<_, _> = tables.filter(|(_, table)| table.held != 0).collect();
        let entries: BTreeMap<_, _> = entries.filter(|(_, entry)| entry.held != 0).collect();
        f.debug_struct("Store")
            .field("tables", &tables)
            .field("counts", &self.counts)
            .field("entries", &entries)
            .finish()
    }
}

/// What the session knows of the table at the same place of the store.
#[repr(C)]
#[derive(Clone, Copy, Debug, PartialEq, Eq)]
pub struct Binding {
    /// 1 where `id` is bound to the table.
    pub bound: u32,
    /// 1 where the table had an update in this session.
    pub updated: u32,
    /// The sender's ID of the table.
    pub id: u32,
    /// The last committed update ID.
    pub previous: u32,
}

/// The session record but for its unfinished bytes and the sending state.
#[repr(C)]
#[derive(Clone, Copy, Debug, PartialEq, Eq)]
pub struct Connection {
    /// 0 awaiting a hello, 1 awaiting a status, 2 past the handshake.
    pub phase: u32,
    /// 1 for a closed session.
    pub closed: u32,
    /// What a closed session was closed with.
    pub number: u32,
    /// 0 without a current table, else its place plus 1.
    pub current: u32,
    /// The length of our name.
    pub local_len: usize,
    /// The length of the accepted peer's name.
    pub remote_len: usize,
    /// Our name, at the front.
    pub local: [u8; NAME_MAX],
    /// The accepted peer's name, at the front.
    pub remote: [u8; NAME_MAX],
    /// IDs by table place.
    pub bindings: [Binding; TABLES],
}

/// The sending state between two calls.
#[repr(C)]
#[derive(Clone, Copy, Debug, PartialEq, Eq)]
pub struct Sending {
    /// 0 where no table was defined to the peer, else the place of the one defined last plus 1.
    pub defined: usize,
    /// 1 where an entry was sent since that definition.
    pub sent: u32,
    /// The update ID of the entry sent last.
    pub last: u32,
}

/// The session record. Reading leaves `sending` as it is, and sending leaves all else.
#[repr(C)]
#[derive(Clone, Copy, PartialEq, Eq)]
pub struct Session {
    /// All but the unfinished bytes and the sending state.
    pub connection: Connection,
    /// How many bytes of `buffer` are unfinished, at most [`UNFINISHED_MAX`].
    pub len: usize,
    /// The unfinished bytes, at the front. Those past them aren't looked at, but in the record of a refused opening, where all are 0; a call
    /// that takes bytes leaves zeros there.
    pub buffer: [u8; BUFFER],
    /// The sending state.
    pub sending: Sending,
}

/// Of the buffer the unfinished bytes alone.
impl fmt::Debug for Session {
    fn fmt(&self, f: &mut fmt::Formatter<'_>) -> fmt::Result {
        f.debug_struct("Session")
            .field("connection", &self.connection)
            .field("len", &self.len)
            .field("buffer", &&self.buffer[..self.len.min(BUFFER)])
            .field("sending", &self.sending)
            .finish()
    }
}

/// What opening and reading give back.
#[repr(C)]
#[derive(Clone, Copy, Debug, PartialEq, Eq)]
pub struct Outcome {
    /// Bytes of the piece that were taken.
    pub taken: usize,
    /// The length of the reply.
    pub reply_len: usize,
    /// The answer's number.
    pub number: u32,
    /// How many values the answer has.
    pub count: u32,
    /// The answer's values, zeros after them.
    pub values: [u64; 4],
}

/// What opening gives back.
#[repr(C)]
#[derive(Clone, Copy, Debug, PartialEq, Eq)]
pub struct Opened {
    /// The record.
    pub session: Session,
    /// The outcome, with no bytes taken.
    pub outcome: Outcome,
}

/// What a sending call gives back.
#[repr(C)]
#[derive(Clone, Copy, Debug, PartialEq, Eq)]
pub struct Sent {
    /// 0, or the refusal's number.
    pub number: u32,
    /// The length of the message, 0 where it is refused.
    pub len: u32,
}
