//! Entries that are purged where a new key needs a place and none is free, as a balancer's own table does.

use peers::layout::{ENTRIES, TABLES};
use peers::{Answer, Refusal, Session, Store, READING_ROOM};
use std::cmp::Reverse;
use std::mem;
use std::time::Duration;

/// How many entries go at a time.
const AT_A_TIME: usize = 4;

/// A new key, and all entry places are held.
const NO_PLACE: Answer = Answer::Refused {
    refusal: Refusal::Entries,
    offset: None,
};

/// What was purged of a store.
pub struct Purging {
    is_on: bool,
    /// Takes the store as it was before a call.
    spare: Box<Store>,
    /// The place that was purged last.
    last: usize,
    /// How many entries were purged of the table at each place.
    counts: [u64; TABLES],
}

/// What a reading call gave.
pub struct Read {
    pub taken: usize,
    pub answer: Answer,
    /// The place of the table of which entries were purged for it.
    pub purged: Option<usize>,
}

impl Purging {
    pub fn new(is_on: bool) -> Purging {
        Purging {
            is_on,
            spare: Store::boxed(),
            last: ENTRIES - 1,
            counts: [0; TABLES],
        }
    }

    /// How many entries were purged of the table at a place.
    pub fn count(&self, table: usize) -> u64 {
        self.counts.get(table).copied().unwrap_or(0)
    }

    /// How many entries were purged.
    pub fn total(&self) -> u64 {
        self.counts.iter().sum()
    }

    /// A reading call, under one hold of the store's lock. Where it is refused since no entry place is free, record and store are put back,
    /// entries are purged, and the same bytes are offered again: nothing of the first call is sent or seen. What is to be sent joins the reply.
    pub fn read(
        &mut self,
        session: &mut Session,
        store: &mut Box<Store>,
        piece: &[u8],
        reply: &mut Vec<u8>,
    ) -> Read {
        let mut room = [0; READING_ROOM];
        let mut purged = None;
        let before = (self.is_on && is_full(store)).then(|| session.clone());
        if before.is_some() {
            *self.spare.layout_mut() = *store.layout();
        }
        let mut step = session.read(store, piece, &mut room);
        if let Some(before) = before.filter(|_| step.answer == NO_PLACE) {
            *session = before;
            mem::swap(store, &mut self.spare);
            purged = Some(self.purge(store));
            step = session.read(store, piece, &mut room);
        }
        reply.extend_from_slice(step.reply);
        Read {
            taken: step.taken,
            answer: step.answer,
            purged,
        }
    }

    /// Frees entries of the table with the most of them, the first among equals. Gives its place.
    fn purge(&mut self, store: &mut Store) -> usize {
        let by_count = |&table: &usize| Reverse(store.entries_of(table));
        let table = (0..TABLES).min_by_key(by_count).unwrap_or(0);
        for _ in 0..AT_A_TIME {
            if let Some(place) = next(store, table, self.last) {
                store.free_entry(place);
                self.last = place;
                self.counts[table] += 1;
            }
        }
        table
    }
}

fn is_full(store: &Store) -> bool {
    let held: u32 = (0..TABLES).map(|table| store.entries_of(table)).sum();
    held as usize == ENTRIES
}

/// The place of a table's entry that goes next: the one with the least remaining time, those without a time last; among equals the next one
/// behind the place that was purged last, the first place again after the last one.
fn next(store: &Store, table: usize, last: usize) -> Option<usize> {
    let own = store.entries().filter(|e| e.table().place() == table);
    let ranks = own.map(|entry| {
        let time = entry.remaining().unwrap_or(Duration::MAX);
        let turn = (entry.place() + ENTRIES - last - 1) % ENTRIES;
        (time, turn, entry.place())
    });
    ranks.min().map(|(_, _, place)| place)
}

#[cfg(test)]
mod tests {
    use super::*;
    use peers::Closed;

    /// A store with these tables' entries, from place 0 on: each with its table and its remaining time.
    fn store(entries: &[(usize, Option<u32>)]) -> Box<Store> {
        let mut store = Store::boxed();
        let layout = store.layout_mut();
        for (place, &(table, time)) in entries.iter().enumerate() {
            layout.tables[table].held = 1;
            layout.counts[table] += 1;
            let entry = &mut layout.entries[place];
            (entry.held, entry.table) = (1, table);
            entry.timed = time.is_some().into();
            entry.remaining = time.unwrap_or(0);
        }
        store
    }

    /// The places that go with each of so many purges.
    fn purged(entries: &[(usize, Option<u32>)], times: usize) -> Vec<Vec<usize>> {
        let (mut store, mut purging) = (store(entries), Purging::new(true));
        let mut purge = || {
            let held = |store: &Store| store.entries().map(|e| e.place()).collect::<Vec<_>>();
            let before = held(&store);
            purging.purge(&mut store);
            let after = held(&store);
            before.into_iter().filter(|p| !after.contains(p)).collect()
        };
        (0..times).map(|_| purge()).collect()
    }

    #[test]
    fn the_least_remaining_times_go() {
        let entries = [70, 20, 60, 10, 50, 30, 40, 0].map(|time| (0, Some(time)));
        assert_eq!(purged(&entries, 2), [[1, 3, 5, 7], [0, 2, 4, 6]]);
    }

    #[test]
    fn entries_without_a_time_go_last() {
        let times = [
            None,
            Some(u32::MAX),
            None,
            Some(5),
            Some(7),
            None,
            Some(6),
            None,
        ];
        let entries = times.map(|time| (0, time));
        assert_eq!(purged(&entries, 2), [[1, 3, 4, 6], [0, 2, 5, 7]]);
    }

    #[test]
    fn equals_go_in_turn() {
        let untimed = purged(&[(0, None); 10], 3);
        assert_eq!(untimed, [vec![0, 1, 2, 3], vec![4, 5, 6, 7], vec![8, 9]]);
        // the place that was purged last holds another key since
        assert_eq!(next(&store(&[(0, None); 10]), 0, 3), Some(4));
        assert_eq!(next(&store(&[(0, None); 10]), 0, 9), Some(0));
        // place 126 has the least time; the turn goes on behind it, and behind the last place comes the first
        let mut entries = [(0, Some(9)); ENTRIES];
        entries[126].1 = Some(1);
        assert_eq!(purged(&entries, 2), [[0, 1, 126, 127], [2, 3, 4, 5]]);
    }

    #[test]
    fn the_table_with_the_most_entries_is_purged() {
        let mut entries = vec![(1, Some(1)); 3];
        entries.extend([(5, Some(9)); 5]);
        entries.extend([(2, Some(9)); 5]);
        let places = purged(&entries, 4);
        // table 2 has the lower place of two equals, then table 5 has the most, then table 1
        assert_eq!(places[0], [8, 9, 10, 11]);
        assert_eq!(places[1], [3, 4, 5, 6]);
        assert_eq!(places[2], [0, 1, 2]);
        assert_eq!(places[3], [12]);
    }

    #[test]
    fn what_was_purged_is_counted() {
        let (mut store, mut purging) = (store(&[(3, None); 6]), Purging::new(true));
        assert_eq!(purging.purge(&mut store), 3);
        purging.purge(&mut store);
        assert_eq!((purging.count(3), purging.count(0)), (6, 0));
        assert_eq!(purging.total(), 6);
        assert_eq!(store.entries_of(3), 0);
    }

    /// A session whose peer sent a definition and updates of these keys, and what the last one gave.
    fn sent(keys: usize, is_on: bool) -> (Session, Box<Store>, Purging, Answer, Vec<u8>) {
        let mut session = Session::answerer(b"east", b"west").unwrap();
        let (mut store, mut purging) = (Store::boxed(), Purging::new(is_on));
        let mut messages = vec![b"HAProxyS 2.1\neast\nwest 7 0\n".to_vec()];
        messages.push(b"\n\x82\x0a\x01\x02t1\x02\x04\x04\xf0\x97\x1c".to_vec());
        for key in 0..keys as u32 {
            let numbers = [key.to_be_bytes(), key.to_be_bytes()].concat();
            messages.push([b"\n\x80\x09", &numbers[..], &[5]].concat());
        }
        let mut last = (Answer::More, Vec::new());
        for message in messages {
            // in two pieces: the record that is put back has unfinished bytes
            for piece in [&message[..2], &message[2..]] {
                let mut reply = Vec::new();
                let read = purging.read(&mut session, &mut store, piece, &mut reply);
                assert_eq!(read.taken, piece.len());
                last = (read.answer, reply);
            }
        }
        (session, store, purging, last.0, last.1)
    }

    #[test]
    fn a_full_store_is_not_purged() {
        let (_, store, purging, ..) = sent(ENTRIES, true);
        assert_eq!((store.entries_of(0), purging.total()), (128, 0));
    }

    #[test]
    fn a_new_key_finds_a_place() {
        let (session, store, purging, answer, reply) = sent(ENTRIES + 1, true);
        assert!(matches!(answer, Answer::Update { id: 128, .. }));
        assert_eq!(reply, b"\n\x84\x05\x01\0\0\0\x80");
        assert_eq!(session.closed_with(), None);
        assert_eq!((store.entries_of(0), purging.total()), (125, 4));
        let (_, store, purging, ..) = sent(ENTRIES + 5, true);
        assert_eq!((store.entries_of(0), purging.total()), (125, 8));
    }

    #[test]
    fn without_it_a_new_key_is_refused() {
        let (session, store, purging, ..) = sent(ENTRIES + 1, false);
        assert_eq!(session.closed_by(), Some(Closed::Refused(Refusal::Entries)));
        assert_eq!((store.entries_of(0), purging.total()), (128, 0));
    }
}
