//! What a call answers.

use crate::layout::Outcome;
use std::fmt;

/// How an update was committed.
#[derive(Clone, Copy, Debug, PartialEq, Eq, Hash)]
pub enum Commit {
    /// The key wasn't held: the entry is new.
    New,
    /// The key was held: its values were replaced.
    Replaced,
}

/// The answer of a call. Later versions may have more, so a `match` ends with `_`.
#[derive(Clone, Copy, Debug, PartialEq, Eq, Hash)]
#[non_exhaustive]
pub enum Answer {
    /// More bytes are wanted.
    More,
    /// The peer's hello was accepted.
    Hello {
        /// The peer's process number.
        process: u32,
        /// The peer's relative process number.
        relative: u32,
    },
    /// The peer's status is 200.
    Status,
    /// The peer asks for a resynchronisation.
    Request,
    /// The peer's resynchronisation is finished.
    Finished,
    /// The peer's resynchronisation is finished in part.
    Partial,
    /// The peer confirms the end of a resynchronisation.
    Confirmed,
    /// A heartbeat.
    Heartbeat,
    /// The peer's error message: the session is closed with 0.
    Error {
        /// Its type: 0 protocol error, 1 size limit.
        kind: u8,
    },
    /// A definition: this table is current.
    Table {
        /// The table's place.
        place: usize,
    },
    /// A switch: this table is current.
    Switch {
        /// The table's place.
        place: usize,
    },
    /// An update was committed; the reply is its acknowledgement.
    Update {
        /// The table's place.
        table: usize,
        /// The update ID.
        id: u32,
        /// The entry's place.
        entry: usize,
        /// New or replaced.
        commit: Commit,
    },
    /// An acknowledgement.
    Acknowledgement {
        /// The table's ID.
        id: u32,
        /// The update ID.
        update: u32,
    },
    /// A message of another type, skipped by its length.
    Skipped {
        /// Its type.
        kind: u8,
    },
    /// A refusal.
    Refused {
        /// Why.
        refusal: Refusal,
        /// Where the message's body broke, for [`Refusal::Cut`], [`Refusal::Range`] and [`Refusal::TableName`]: the offset in the body, from
        /// 0, at which the failing field starts. A field is one integer, also a length or a 4-byte update ID, or the bytes of a name or a
        /// key; where no byte of it is there, the offset is the body's length.
        offset: Option<usize>,
    },
}

/// Why a call refused.
///
/// Those below 10 change nothing (opening gives no session), and neither do the last three, which sending alone gives; the others close the
/// session. Later versions may have more, so a `match` ends with `_`.
#[derive(Clone, Copy, Debug, PartialEq, Eq, Hash)]
#[non_exhaustive]
#[repr(u8)]
pub enum Refusal {
    /// Too little room for a reply.
    Room = 1,
    /// The session is closed.
    Closed = 2,
    /// Opening: a name outside the rule.
    Name = 3,
    /// Record or store hold what the rules don't allow.
    Unsound = 4,
    /// The hello is malformed.
    Hello = 10,
    /// The hello's version is unknown.
    Version = 11,
    /// The hello is for another peer.
    Addressed = 12,
    /// The hello is from another peer.
    Sender = 13,
    /// The peer refused us.
    Status = 14,
    /// The status is malformed.
    StatusForm = 15,
    /// Unknown class or type.
    Header = 20,
    /// The body's length overflows.
    Length = 21,
    /// The body is over 1,024 bytes.
    Size = 22,
    /// The body ends before a field is whole.
    Cut = 23,
    /// A field overflows or is out of range.
    Range = 24,
    /// The held table of this name is another.
    Disagrees = 25,
    /// A new name, and all table places are held.
    Tables = 26,
    /// No current table, or a switch to an unbound ID.
    Unbound = 27,
    /// An incremental update without a previous ID.
    Previous = 28,
    /// A new key, and all entry places are held.
    Entries = 29,
    /// A table name with a byte that isn't a letter, a digit or one of `.`, `_`, `-`, `/` and `:`.
    TableName = 30,
    /// Sending: too little room for a message.
    SendRoom = 31,
    /// Sending: the table place isn't held, or the entry place isn't of the table defined last.
    Place = 32,
    /// Sending: the handshake is unfinished.
    Handshake = 34,
}

impl Refusal {
    /// All refusals, ascending.
    pub const ALL: [Refusal; 24] = [
        Refusal::Room,
        Refusal::Closed,
        Refusal::Name,
        Refusal::Unsound,
        Refusal::Hello,
        Refusal::Version,
        Refusal::Addressed,
        Refusal::Sender,
        Refusal::Status,
        Refusal::StatusForm,
        Refusal::Header,
        Refusal::Length,
        Refusal::Size,
        Refusal::Cut,
        Refusal::Range,
        Refusal::Disagrees,
        Refusal::Tables,
        Refusal::Unbound,
        Refusal::Previous,
        Refusal::Entries,
        Refusal::TableName,
        Refusal::SendRoom,
        Refusal::Place,
        Refusal::Handshake,
    ];

    /// Its number.
    pub fn number(self) -> u8 {
        self as u8
    }

    /// The refusal of a number, if there is one.
    pub fn of(number: u8) -> Option<Refusal> {
        Refusal::ALL.into_iter().find(|r| r.number() == number)
    }

    /// The refusal of a number that a call gave. The library gives no others.
    pub(crate) fn given(number: u32) -> Refusal {
        let refusal = u8::try_from(number).ok().and_then(Refusal::of);
        refusal.expect("the library gives no other number")
    }

    /// What it means, in the words of `peers_refusal_text`.
    pub fn text(self) -> &'static str {
        match self {
            Refusal::Room => "too little room for a reply",
            Refusal::Closed => "the session is closed",
            Refusal::Name => "a name outside the rule",
            Refusal::Unsound => "record or store hold what the rules don't allow",
            Refusal::Hello => "the hello is malformed",
            Refusal::Version => "the hello's version is unknown",
            Refusal::Addressed => "the hello is for another peer",
            Refusal::Sender => "the hello is from another peer",
            Refusal::Status => "the peer refused us",
            Refusal::StatusForm => "the status is malformed",
            Refusal::Header => "unknown class or type",
            Refusal::Length => "the body's length overflows",
            Refusal::Size => "the body is over 1,024 bytes",
            Refusal::Cut => "the body ends before a field is whole",
            Refusal::Range => "a field overflows or is out of range",
            Refusal::Disagrees => "the held table of this name is another",
            Refusal::Tables => "a new name, and all table places are held",
            Refusal::Unbound => "no current table, or a switch to an unbound ID",
            Refusal::Previous => "an incremental update without a previous ID",
            Refusal::Entries => "a new key, and all entry places are held",
            Refusal::TableName => {
                "a table name with a byte that isn't a letter, a digit or one of . _ - / :"
            }
            Refusal::SendRoom => "too little room for a message",
            Refusal::Place => {
                "the table place isn't held, or the entry place isn't of the table defined last"
            }
            Refusal::Handshake => "the handshake is unfinished",
        }
    }
}

impl fmt::Display for Refusal {
    fn fmt(&self, f: &mut fmt::Formatter<'_>) -> fmt::Result {
        write!(f, "refused with {}: {}", self.number(), self.text())
    }
}

impl std::error::Error for Refusal {}

/// What closed a session.
#[derive(Clone, Copy, Debug, PartialEq, Eq, Hash)]
pub enum Closed {
    /// A refusal of ours.
    Refused(Refusal),
    /// The peer's error message.
    PeerError,
}

impl Closed {
    /// The number that the record has: the refusal's, or 0.
    pub fn number(self) -> u8 {
        match self {
            Closed::Refused(refusal) => refusal.number(),
            Closed::PeerError => 0,
        }
    }

    /// What a closed record's number stands for, if a record can be closed with it. A refused opening's has 1 or 3.
    pub(crate) fn of(number: u32) -> Option<Closed> {
        match number {
            0 => Some(Closed::PeerError),
            1 | 3 | 10..=30 => Refusal::of(number as u8).map(Closed::Refused),
            _ => None,
        }
    }
}

/// As the refusal, or in the words of `peers_refusal_text`.
impl fmt::Display for Closed {
    fn fmt(&self, f: &mut fmt::Formatter<'_>) -> fmt::Result {
        match self {
            Closed::Refused(refusal) => refusal.fmt(f),
            Closed::PeerError => f.write_str("closed by the peer's error message"),
        }
    }
}

/// What it means, in the words of `peers_answer_text`, and its values.
impl fmt::Display for Answer {
    fn fmt(&self, f: &mut fmt::Formatter<'_>) -> fmt::Result {
        match self {
            Answer::More => f.write_str("more bytes are wanted"),
            Answer::Hello { process, relative } => {
                write!(f, "hello (process {process}, relative {relative})")
            }
            Answer::Status => f.write_str("status"),
            Answer::Request => f.write_str("resynchronisation requested"),
            Answer::Finished => f.write_str("resynchronisation finished"),
            Answer::Partial => f.write_str("resynchronisation finished in part"),
            Answer::Confirmed => f.write_str("resynchronisation confirmed"),
            Answer::Heartbeat => f.write_str("heartbeat"),
            Answer::Error { kind } => {
                write!(f, "error message: the session is closed (type {kind})")
            }
            Answer::Table { place } => write!(f, "table defined (place {place})"),
            Answer::Switch { place } => write!(f, "table switched (place {place})"),
            Answer::Update {
                table,
                id,
                entry,
                commit,
            } => write!(
                f,
                "entry committed (table {table}, update {id}, entry {entry}, {commit})"
            ),
            Answer::Acknowledgement { id, update } => {
                write!(f, "acknowledgement (table ID {id}, update {update})")
            }
            Answer::Skipped { kind } => write!(f, "message skipped (type {kind})"),
            Answer::Refused {
                refusal,
                offset: None,
            } => refusal.fmt(f),
            Answer::Refused {
                refusal,
                offset: Some(offset),
            } => write!(f, "{refusal} (at offset {offset} of the body)"),
        }
    }
}

impl fmt::Display for Commit {
    fn fmt(&self, f: &mut fmt::Formatter<'_>) -> fmt::Result {
        f.write_str(match self {
            Commit::New => "new",
            Commit::Replaced => "replaced",
        })
    }
}

impl Answer {
    /// The answer of a number and its values. The library gives no other numbers, and values that fit.
    pub(crate) fn of(outcome: &Outcome) -> Answer {
        let values = &outcome.values;
        match outcome.number {
            256 => Answer::More,
            257 => Answer::Hello {
                process: values[0] as u32,
                relative: values[1] as u32,
            },
            258 => Answer::Status,
            259 => Answer::Request,
            260 => Answer::Finished,
            261 => Answer::Partial,
            262 => Answer::Confirmed,
            263 => Answer::Heartbeat,
            264 => Answer::Error {
                kind: values[0] as u8,
            },
            265 => Answer::Table {
                place: values[0] as usize,
            },
            266 => Answer::Switch {
                place: values[0] as usize,
            },
            267 => Answer::update(values),
            268 => Answer::Acknowledgement {
                id: values[0] as u32,
                update: values[1] as u32,
            },
            269 => Answer::Skipped {
                kind: values[0] as u8,
            },
            number => Answer::refused(number, &values[..outcome.count as usize]),
        }
    }

    fn update(values: &[u64; 4]) -> Answer {
        Answer::Update {
            table: values[0] as usize,
            id: values[1] as u32,
            entry: values[2] as usize,
            commit: if values[3] == 0 {
                Commit::New
            } else {
                Commit::Replaced
            },
        }
    }

    fn refused(number: u32, values: &[u64]) -> Answer {
        Answer::Refused {
            refusal: Refusal::given(number),
            offset: values.first().map(|&offset| offset as usize),
        }
    }
}
