//! A whole store taught to a peer.

use crate::answer::Refusal;
use crate::session::{Session, SEND_ROOM};
use crate::store::Store;
use std::iter::once;

/// What one of a whole store's messages sends. The host gives each an ID.
#[derive(Clone, Copy, Debug, PartialEq, Eq, Hash)]
pub enum Part {
    /// The definition of the table at this place; its ID is the table's.
    Table(usize),
    /// The entry at this place; its ID is the update's.
    Entry(usize),
}

/// IDs for [`Session::teach`]: a table has its place as ID, and update IDs count up from the first, with 0 after 4294967295.
pub fn ids_from(first: u32) -> impl FnMut(Part) -> u32 {
    let mut next = first;
    move |part| match part {
        Part::Table(place) => place as u32,
        Part::Entry(_) => {
            let id = next;
            next = next.wrapping_add(1);
            id
        }
    }
}

impl Store {
    /// What teaches all of it: each held table, by place, and after each its entries, by place.
    pub fn parts(&self) -> impl Iterator<Item = Part> + '_ {
        self.tables().flat_map(|table| {
            let entries = self.entries();
            let own = entries.filter(move |entry| entry.table().place() == table.place());
            once(Part::Table(table.place())).chain(own.map(|entry| Part::Entry(entry.place())))
        })
    }
}

impl Session {
    /// Teaches all of a store to the peer: the messages that do it, each of which is written when it is asked for. They go to the peer in
    /// this order.
    ///
    /// ```
    /// # use peers::{Session, Store, READING_ROOM};
    /// # let (mut store, mut session) = (Store::boxed(), Session::answerer(b"east", b"west")?);
    /// # let mut rest = &b"HAProxyS 2.1\neast\nwest 7 0\n\n\x82\x06\x01\x01t\x02\x04\x04\n\x80\x09\0\0\0\x09key1\x05"[..];
    /// # while !rest.is_empty() {
    /// #     let taken = session.read(&mut store, rest, &mut [0; READING_ROOM]).taken;
    /// #     rest = &rest[taken..];
    /// # }
    /// let mut sent = Vec::new(); // stands for the socket that is written
    /// for message in session.teach(&store, peers::ids_from(1)) {
    ///     sent.extend(message?);
    /// }
    /// sent.extend([0, 1]); // where the peer asked for a resynchronisation: it is finished
    /// assert_eq!(sent, b"\n\x82\x06\0\x01t\x02\x04\x04\n\x80\x09\0\0\0\x01key1\x05\0\x01");
    /// # Ok::<(), peers::Refusal>(())
    /// ```
    ///
    /// The host gives an ID to each table and an update ID to each entry: by [`ids_from`], or as it likes. The peer acknowledges each entry
    /// with both. No other call is made on session and store meanwhile; what changes in the store afterwards goes when it is taught again.
    ///
    /// # Errors
    ///
    /// A refusal ends it: [`Refusal::Unsound`], [`Refusal::Closed`] or [`Refusal::Handshake`]. Without tables nothing is sent, and
    /// nothing refused.
    pub fn teach<'a>(
        &'a mut self,
        store: &'a Store,
        mut ids: impl FnMut(Part) -> u32 + 'a,
    ) -> impl Iterator<Item = Result<Vec<u8>, Refusal>> + 'a {
        let mut refused = false;
        let mut parts = store.parts();
        std::iter::from_fn(move || {
            let part = parts.next().filter(|_| !refused)?;
            let sent = self.send(store, part, ids(part));
            refused = sent.is_err();
            Some(sent)
        })
    }

    /// The message of a part.
    fn send(&mut self, store: &Store, part: Part, id: u32) -> Result<Vec<u8>, Refusal> {
        let mut room = [0; SEND_ROOM];
        let sent = match part {
            Part::Table(place) => self.send_definition(store, place, id, &mut room),
            Part::Entry(place) => self.send_entry(store, place, id, &mut room),
        };
        sent.map(<[u8]>::to_vec)
    }
}
