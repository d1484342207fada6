//! The session record, opening, reading and sending.

use crate::answer::{Answer, Closed, Refusal};
use crate::ffi;
use crate::layout;
use crate::store::{front, Store};
use std::fmt;

/// Room that opening asks for.
pub const OPENING_ROOM: usize = 101;
/// Room that a reading call asks for.
pub const READING_ROOM: usize = 12;
/// Room that a sending call asks for.
pub const SEND_ROOM: usize = 1036;

/// The record of one connection.
#[derive(Clone, PartialEq, Eq)]
pub struct Session {
    record: layout::Session,
}

/// What a reading call gives back.
#[derive(Clone, Copy, Debug, PartialEq, Eq)]
pub struct Step<'a> {
    /// Bytes of the piece that were taken. The others are offered again.
    pub taken: usize,
    /// The bytes that go to the peer, at the front of the room.
    pub reply: &'a [u8],
    /// The answer.
    pub answer: Answer,
}

impl Session {
    /// Opens a session that reads the peer's hello, where our name is `local` and the one accepted peer's is `remote`: each 1 to 32
    /// bytes from 33 to 126.
    ///
    /// # Errors
    ///
    /// [`Refusal::Name`].
    pub fn answerer(local: &[u8], remote: &[u8]) -> Result<Session, Refusal> {
        let mut room = [0; OPENING_ROOM];
        opened(ffi::open_answerer(local, remote, &mut room)).map(|(session, _)| session)
    }

    /// Opens a session that reads the peer's status, and gives the hello for the peer with our two process numbers, at the front of
    /// the room.
    ///
    /// ```
    /// let mut room = [0; peers::OPENING_ROOM];
    /// let (session, hello) = peers::Session::caller(b"east", b"west", 7, 0, &mut room)?;
    /// assert_eq!(hello, b"HAProxyS 2.1\nwest\neast 7 0\n"); // goes to the peer
    /// # Ok::<(), peers::Refusal>(())
    /// ```
    ///
    /// # Errors
    ///
    /// [`Refusal::Room`] for a room under [`OPENING_ROOM`], else [`Refusal::Name`]; the room is then as it was.
    pub fn caller<'a>(
        local: &[u8],
        remote: &[u8],
        process: u32,
        relative: u32,
        room: &'a mut [u8],
    ) -> Result<(Session, &'a [u8]), Refusal> {
        let (session, len) = opened(ffi::open_caller(local, remote, process, relative, room))?;
        Ok((session, &room[..len]))
    }

    /// Takes bytes up to the end of one message, or up to the byte that shows a refusal, or all of them.
    ///
    /// The room is [`READING_ROOM`] bytes or more; past the reply it stays as it was. Replies go to the peer in the order of the calls, each at once or several together.
    pub fn read<'a>(&mut self, store: &mut Store, piece: &[u8], room: &'a mut [u8]) -> Step<'a> {
        let outcome = ffi::read(&mut self.record, store.layout_mut(), piece, room);
        Step {
            taken: outcome.taken,
            reply: &room[..outcome.reply_len],
            answer: Answer::of(&outcome),
        }
    }

    /// Writes the definition of the table at a place, under this ID, for the peer: one whole message, at the front of the room. Messages and
    /// replies go to the peer in the order of their calls. It is the table defined last from now on.
    ///
    /// The room is [`SEND_ROOM`] bytes or more; past the message it stays as it was. Of the record only the sending state changes
    /// ([`Session::defined`], [`Session::last_sent`]): a message that is read in part and what was read don't matter.
    ///
    /// # Errors
    ///
    /// In this order: [`Refusal::SendRoom`], [`Refusal::Unsound`], [`Refusal::Closed`], [`Refusal::Handshake`], and [`Refusal::Place`] where
    /// no table is held at the place. Nothing is then written or changed, and the session isn't closed by it.
    pub fn send_definition<'a>(
        &mut self,
        store: &Store,
        table: usize,
        id: u32,
        room: &'a mut [u8],
    ) -> Result<&'a [u8], Refusal> {
        let sent = ffi::send_definition(&mut self.record, store.layout(), table, id, room);
        message(sent, room)
    }

    /// Writes the entry at a place, under this update ID, for the peer: one whole message, at the front of the room. It is an entry of the
    /// table defined last. The peer acknowledges the ID ([`Answer::Acknowledgement`], which needs no reply).
    ///
    /// The first entry after a definition goes with its ID; a later one goes without it where the ID is the last one's plus 1 (0 after
    /// 4294967295). An entry with a remaining time goes with it. Room and record are as in [`Session::send_definition`].
    ///
    /// # Errors
    ///
    /// As [`Session::send_definition`], and [`Refusal::Place`] where no entry of the table defined last is held at the place.
    pub fn send_entry<'a>(
        &mut self,
        store: &Store,
        entry: usize,
        id: u32,
        room: &'a mut [u8],
    ) -> Result<&'a [u8], Refusal> {
        let sent = ffi::send_entry(&mut self.record, store.layout(), entry, id, room);
        message(sent, room)
    }

    /// What a closed session was closed with: 0 after the peer's error message, else a refusal's number.
    pub fn closed_with(&self) -> Option<u8> {
        let connection = &self.record.connection;
        // no session is closed with a number past 255: a call on such a record is refused with 4
        let number = u8::try_from(connection.number).ok();
        number.filter(|_| connection.closed == 1)
    }

    /// What closed the session; nothing while it is open, nor for a record whose number closes none, which every call refuses with
    /// [`Refusal::Unsound`].
    pub fn closed_by(&self) -> Option<Closed> {
        let connection = &self.record.connection;
        Closed::of(connection.number).filter(|_| connection.closed == 1)
    }

    /// Whether the handshake is done.
    pub fn is_established(&self) -> bool {
        self.record.connection.phase == 2
    }

    /// The place of the current table.
    pub fn current(&self) -> Option<usize> {
        let place = self.record.connection.current.checked_sub(1)?;
        Some(place as usize)
    }

    /// The sender's ID of the table at a place.
    pub fn bound_id(&self, place: usize) -> Option<u32> {
        let binding = self.record.connection.bindings.get(place)?;
        (binding.bound == 1).then_some(binding.id)
    }

    /// The last committed update ID of the table at a place, in this session.
    pub fn last_update(&self, place: usize) -> Option<u32> {
        let binding = self.record.connection.bindings.get(place)?;
        (binding.updated == 1).then_some(binding.previous)
    }

    /// The place of the table that was defined to the peer last.
    pub fn defined(&self) -> Option<usize> {
        self.record.sending.defined.checked_sub(1)
    }

    /// The update ID that was sent last, since that definition.
    pub fn last_sent(&self) -> Option<u32> {
        let sending = &self.record.sending;
        (sending.sent == 1).then_some(sending.last)
    }

    /// Whether the table at a place is bound or was updated in this session, or is the one that was defined to the peer last. A closed
    /// session uses none.
    pub fn uses(&self, place: usize) -> bool {
        let read = self.bound_id(place).is_some() || self.last_update(place).is_some();
        let used = read || self.defined() == Some(place);
        used && self.closed_by().is_none()
    }

    /// The bytes of a message that isn't whole.
    pub fn unfinished(&self) -> &[u8] {
        &self.record.buffer[..self.record.len.min(layout::UNFINISHED_MAX)]
    }

    /// The record as the library has it.
    pub fn layout(&self) -> &layout::Session {
        &self.record
    }

    /// The record as the library has it, to be changed: any content is allowed.
    pub fn layout_mut(&mut self) -> &mut layout::Session {
        &mut self.record
    }
}

/// Its names, how far it is, and of unfinished bytes their number.
impl fmt::Debug for Session {
    fn fmt(&self, f: &mut fmt::Formatter<'_>) -> fmt::Result {
        let connection = &self.record.connection;
        let local = front(&connection.local, connection.local_len).escape_ascii();
        let remote = front(&connection.remote, connection.remote_len).escape_ascii();
        f.debug_struct("Session")
            .field("local", &format_args!("{local}"))
            .field("remote", &format_args!("{remote}"))
            .field("established", &self.is_established())
            .field("closed_by", &self.closed_by())
            .field("current", &self.current())
            .field("unfinished", &self.unfinished().len())
            .field("defined", &self.defined())
            .field("last_sent", &self.last_sent())
            .finish()
    }
}

impl From<layout::Session> for Session {
    fn from(record: layout::Session) -> Session {
        Session { record }
    }
}

/// The message at the front of the room, or the refusal.
fn message(sent: layout::Sent, room: &[u8]) -> Result<&[u8], Refusal> {
    match sent.number {
        0 => Ok(&room[..sent.len as usize]),
        number => Err(Refusal::given(number)),
    }
}

/// The session and the length of the reply, or the refusal.
fn opened(opened: layout::Opened) -> Result<(Session, usize), Refusal> {
    match Answer::of(&opened.outcome) {
        Answer::Refused { refusal, .. } => Err(refusal),
        _ => Ok((opened.session.into(), opened.outcome.reply_len)),
    }
}
