//! The refusal numbers and their replies.

/// The reply room is too small.
pub const ROOM: u8 = 1;
/// The session is closed.
pub const CLOSED: u8 = 2;
/// Opening: a name is outside the rule.
pub const NAME: u8 = 3;
/// The record or the store isn't sound.
pub const UNSOUND: u8 = 4;
/// The hello is malformed.
pub const HELLO: u8 = 10;
/// The hello's version is unknown.
pub const VERSION: u8 = 11;
/// The hello isn't addressed to us.
pub const ADDRESSED: u8 = 12;
/// The hello's sender isn't the accepted peer.
pub const SENDER: u8 = 13;
/// The status isn't 200.
pub const STATUS: u8 = 14;
/// The status is malformed.
pub const STATUS_FORM: u8 = 15;
/// The class or type of a message is unknown.
pub const HEADER: u8 = 20;
/// The body length overflows.
pub const LENGTH: u8 = 21;
/// The body is over the limit.
pub const SIZE: u8 = 22;
/// The body ends before a field is whole.
pub const CUT: u8 = 23;
/// A field overflows or is out of range.
pub const RANGE: u8 = 24;
/// A definition disagrees with the held table of its name.
pub const DISAGREES: u8 = 25;
/// A new name, and all table places are held.
pub const TABLES: u8 = 26;
/// No current table, or a switch to an unbound ID.
pub const UNBOUND: u8 = 27;
/// An incremental update, and the table has no previous ID.
pub const PREVIOUS: u8 = 28;
/// A new key, and all entry places are held.
pub const ENTRIES: u8 = 29;
/// A table name has a byte that isn't plain.
pub const NOT_PLAIN: u8 = 30;
/// Sending: the room is too small.
pub const SENDING_ROOM: u8 = 31;
/// Sending: the table place isn't held, or the entry place isn't of the table
/// defined last.
pub const NOT_THERE: u8 = 32;
/// Sending: the handshake is unfinished.
pub const HANDSHAKE: u8 = 34;

/// A refusal.
#[derive(Clone, Copy, Debug, PartialEq, Eq)]
pub struct Refusal {
    /// Its number.
    pub number: u8,
    /// Where the failing field starts in the body; 23, 24 and 30 have it.
    pub offset: Option<usize>,
}

impl Refusal {
    /// The refusal of a field that starts at `offset`.
    pub fn at(number: u8, offset: usize) -> Refusal {
        let offset = Some(offset);
        Refusal { number, offset }
    }
}

impl From<u8> for Refusal {
    /// A refusal without offset.
    fn from(number: u8) -> Refusal {
        let offset = None;
        Refusal { number, offset }
    }
}

/// The reply that goes with a refusal.
pub fn reply(number: u8) -> &'static [u8] {
    match number {
        HELLO => b"501\n",
        VERSION => b"502\n",
        ADDRESSED => b"503\n",
        SENDER => b"504\n",
        SIZE | TABLES | ENTRIES => &[1, 1],
        HEADER | LENGTH | CUT | RANGE | DISAGREES | UNBOUND | PREVIOUS | NOT_PLAIN => &[1, 0],
        _ => &[],
    }
}

/// Whether a closed record may hold this number.
pub fn closes(number: u8) -> bool {
    matches!(number, 0 | ROOM | NAME | 10..=15 | 20..=30)
}
