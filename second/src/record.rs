//! The session record that the host lends to each call.

use crate::store::TABLES;

/// Who writes the hello.
#[derive(Clone, Copy, Debug, Default, PartialEq, Eq)]
pub enum Role {
    /// We read a hello.
    #[default]
    Answerer,
    /// We write a hello and read a status.
    Caller,
}

/// How far the session is.
#[derive(Clone, Copy, Debug, Default, PartialEq, Eq)]
pub enum Phase {
    /// The hello or status isn't read yet.
    #[default]
    Handshake,
    /// Messages are read.
    Open,
    /// Closed with a number.
    Closed(u8),
}

/// The session record. Reading leaves the last two fields, sending changes
/// nothing else.
#[derive(Clone, Debug, Default, PartialEq, Eq)]
pub struct Record {
    /// How far the session is.
    pub phase: Phase,
    /// Who writes the hello.
    pub role: Role,
    /// Our name.
    pub our_name: Vec<u8>,
    /// The one accepted peer's name.
    pub peer_name: Vec<u8>,
    /// The unfinished bytes.
    pub unfinished: Vec<u8>,
    /// The sender's ID of each table.
    pub bound: [Option<u64>; TABLES],
    /// The last committed update ID of each table in this session.
    pub previous: [Option<u64>; TABLES],
    /// The place of the current table.
    pub current: Option<usize>,
    /// The place of the table that a sending call defined last.
    pub defined: Option<usize>,
    /// The update ID that was sent last since that definition.
    pub sent: Option<u32>,
}

impl Record {
    /// The record of an opened session.
    pub fn opened(role: Role, our_name: &[u8], peer_name: &[u8]) -> Record {
        Record {
            role,
            our_name: our_name.to_vec(),
            peer_name: peer_name.to_vec(),
            ..Record::default()
        }
    }

    /// The record of a refused opening.
    pub fn refused(number: u8) -> Record {
        Record {
            phase: Phase::Closed(number),
            ..Record::default()
        }
    }

    /// Whether the session is closed.
    pub fn is_closed(&self) -> bool {
        matches!(self.phase, Phase::Closed(_))
    }

    /// Binds an ID to a table: it's the table's only one and no other table's.
    pub fn bind(&mut self, place: usize, id: u64) {
        for bound in &mut self.bound {
            if *bound == Some(id) {
                *bound = None;
            }
        }
        self.bound[place] = Some(id);
    }

    /// The place of the table that an ID is bound to.
    pub fn table_of(&self, id: u64) -> Option<usize> {
        self.bound.iter().position(|&bound| bound == Some(id))
    }
}
