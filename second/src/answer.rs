//! The answer of a call and what comes with it.

use crate::refusal::{reply, Refusal};

/// Whether an update made an entry or replaced its values.
#[derive(Clone, Copy, Debug, PartialEq, Eq)]
pub enum Commit {
    /// The key wasn't held.
    New,
    /// The key was held.
    Replaced,
}

/// The answer of a call.
#[derive(Clone, Copy, Debug, PartialEq, Eq)]
pub enum Answer {
    /// More bytes are wanted.
    More,
    /// An accepted hello.
    Hello {
        /// The sender's process ID.
        process: u32,
        /// The sender's relative process ID.
        relative: u32,
    },
    /// An accepted status.
    Status,
    /// Control: synchronisation request.
    Request,
    /// Control: synchronisation finished.
    Finished,
    /// Control: synchronisation partial.
    Partial,
    /// Control: synchronisation confirmed.
    Confirm,
    /// Control: heartbeat.
    Heartbeat,
    /// The peer's error message.
    Error {
        /// Its type.
        kind: u8,
    },
    /// A definition.
    Table {
        /// The table's place.
        place: usize,
    },
    /// A switch.
    Switch {
        /// The table's place.
        place: usize,
    },
    /// An update of any form.
    Update {
        /// The table's place.
        table: usize,
        /// The update ID.
        id: u32,
        /// The entry's place.
        entry: usize,
        /// New or replaced.
        commit: Commit,
    },
    /// An acknowledgement.
    Acknowledged {
        /// The table ID.
        id: u32,
        /// The update ID.
        update: u32,
    },
    /// A message of an unknown type from 128 up, skipped by its length.
    Skipped {
        /// Its type.
        kind: u8,
    },
    /// A refusal.
    Refused(Refusal),
}

/// An answer of the byte model with its reply.
#[derive(Clone, Debug, PartialEq, Eq)]
pub struct Response {
    /// The answer.
    pub answer: Answer,
    /// The bytes for the peer.
    pub reply: Vec<u8>,
}

impl Response {
    /// An answer without reply.
    pub fn silent(answer: Answer) -> Response {
        Response::with(answer, &[])
    }

    /// An answer with a reply.
    pub fn with(answer: Answer, reply: &[u8]) -> Response {
        let reply = reply.to_vec();
        Response { answer, reply }
    }

    /// A refusal with its reply.
    pub fn refused(refusal: impl Into<Refusal>) -> Response {
        let refusal = refusal.into();
        Response::with(Answer::Refused(refusal), reply(refusal.number))
    }
}

/// What a call gives back.
#[derive(Clone, Copy, Debug, PartialEq, Eq)]
pub struct Outcome {
    /// The number of bytes taken.
    pub taken: usize,
    /// The length of the reply.
    pub reply: usize,
    /// The answer.
    pub answer: Answer,
}
