//! What the page and the metrics show beside the tables.

use peers::Refusal;
use std::collections::BTreeMap;
use std::sync::{Mutex, MutexGuard, PoisonError};
use std::time::SystemTime;

/// Whether a peer has sent all of its entries since its last connection began.
#[derive(Clone, Copy, Debug, PartialEq, Eq)]
pub enum Taught {
    NotAsked,
    Asked,
    /// It sent what it has, and lacks entries itself.
    Partial,
    Finished,
}

/// A refusal.
#[derive(Clone, Debug)]
pub struct Refused {
    pub refusal: Refusal,
    pub offset: Option<usize>,
    pub table: Option<String>,
    pub when: SystemTime,
}

/// The figures of a peer at a moment.
#[derive(Clone, Debug)]
pub struct Shown {
    /// Whether a connection is past its handshake, and since when that is so.
    pub established: bool,
    pub since: SystemTime,
    /// When a byte came last.
    pub heard: Option<SystemTime>,
    /// Connections that were past their handshake.
    pub connections: u64,
    pub updates: u64,
    /// How often each refusal was, by its number.
    pub refusals: BTreeMap<u8, u64>,
    pub refused: Option<Refused>,
    /// The table that had no place last.
    pub unplaced: Option<String>,
    pub taught: Taught,
    /// Entries that were freed for new ones.
    pub purged: u64,
}

/// The figures of a peer, which each event sets.
pub struct Figures(Mutex<Shown>);

impl Figures {
    pub fn new(begun: SystemTime) -> Figures {
        Figures(Mutex::new(Shown {
            established: false,
            since: begun,
            heard: None,
            connections: 0,
            updates: 0,
            refusals: BTreeMap::new(),
            refused: None,
            unplaced: None,
            taught: Taught::NotAsked,
            purged: 0,
        }))
    }

    fn shown(&self) -> MutexGuard<'_, Shown> {
        self.0.lock().unwrap_or_else(PoisonError::into_inner)
    }

    pub fn copy(&self) -> Shown {
        self.shown().clone()
    }

    /// A connection is past its handshake. It may have taken the place of an older one.
    pub fn established(&self) {
        let (mut shown, now) = (self.shown(), SystemTime::now());
        (shown.established, shown.since) = (true, now);
        shown.heard = Some(now);
        shown.connections += 1;
        shown.taught = Taught::NotAsked;
    }

    /// The connection has ended, and there is no newer one.
    pub fn ended(&self) {
        let mut shown = self.shown();
        (shown.established, shown.since) = (false, SystemTime::now());
    }

    /// Bytes came.
    pub fn heard(&self) {
        self.shown().heard = Some(SystemTime::now());
    }

    /// An update was committed.
    pub fn updated(&self) {
        self.shown().updates += 1;
    }

    /// A definition was taken.
    pub fn defined(&self, table: &str) {
        let mut shown = self.shown();
        if shown.unplaced.as_deref() == Some(table) {
            shown.unplaced = None;
        }
    }

    /// A message, or its status, was refused.
    pub fn refused(&self, refusal: Refusal, offset: Option<usize>, table: Option<String>) {
        let mut shown = self.shown();
        *shown.refusals.entry(refusal.number()).or_default() += 1;
        if refusal == Refusal::Tables {
            shown.unplaced.clone_from(&table);
        }
        shown.refused = Some(Refused {
            refusal,
            offset,
            table,
            when: SystemTime::now(),
        });
    }

    /// It was asked for its entries, or answered that: what wasn't asked for says nothing of all its entries. What it has finished to teach was
    /// taken whole.
    pub fn taught(&self, taught: Taught) {
        let mut shown = self.shown();
        if taught == Taught::Asked || shown.taught != Taught::NotAsked {
            shown.taught = taught;
        }
        if shown.taught == Taught::Finished {
            shown.unplaced = None;
        }
    }

    /// So many entries were freed for new ones of it.
    pub fn purged(&self, count: u64) {
        self.shown().purged += count;
    }
}

/// A peer with its figures.
pub struct PeerShown {
    pub name: String,
    pub address: Option<String>,
    pub shown: Shown,
}

impl PeerShown {
    /// Whether our entries are its: it is asked for them, or has sent some.
    fn feeds(&self) -> bool {
        self.address.is_some() || self.shown.updates > 0
    }
}

/// All peers with their figures.
pub struct Overview {
    pub name: String,
    pub begun: SystemTime,
    pub now: SystemTime,
    pub peers: Vec<PeerShown>,
    /// Lines that weren't written.
    pub lost: u64,
}

impl Overview {
    /// Since when no peer that feeds us is connected; nothing while one is.
    pub fn unfed_since(&self) -> Option<SystemTime> {
        let feeding = self.peers.iter().filter(|peer| peer.feeds());
        let mut since = self.begun;
        for peer in feeding {
            if peer.shown.established {
                return None;
            }
            since = since.max(peer.shown.since);
        }
        Some(since)
    }
}

#[cfg(test)]
mod tests {
    use super::*;
    use std::time::{Duration, UNIX_EPOCH};

    fn at(second: u64) -> SystemTime {
        UNIX_EPOCH + Duration::from_secs(second)
    }

    fn peer(address: Option<&str>, updates: u64, established: bool, since: u64) -> PeerShown {
        let mut shown = Figures::new(at(since)).copy();
        (shown.updates, shown.established) = (updates, established);
        PeerShown {
            name: "west".to_owned(),
            address: address.map(str::to_owned),
            shown,
        }
    }

    #[test]
    fn since_when_no_peer_feeds_us() {
        let unfed = |peers| {
            let overview = Overview {
                name: "east".to_owned(),
                begun: at(100),
                now: at(1_000),
                peers,
                lost: 0,
            };
            overview.unfed_since()
        };
        let there = Some("192.0.2.7:10000");
        // those that don't feed us don't count, connected or not
        assert_eq!(unfed(vec![peer(None, 0, true, 300)]), Some(at(100)));
        assert_eq!(unfed(vec![peer(None, 0, false, 300)]), Some(at(100)));
        assert_eq!(unfed(vec![peer(there, 0, false, 100)]), Some(at(100)));
        assert_eq!(unfed(vec![peer(there, 0, true, 300)]), None);
        assert_eq!(unfed(vec![peer(None, 1, true, 300)]), None);
        // the last that left
        let left = || vec![peer(there, 0, false, 300), peer(None, 5, false, 400)];
        assert_eq!(unfed(left()), Some(at(400)));
        let mut one_stays = left();
        one_stays.push(peer(there, 0, true, 200));
        assert_eq!(unfed(one_stays), None);
    }

    #[test]
    fn events_set_the_figures() {
        let figures = Figures::new(at(100));
        figures.refused(Refusal::Tables, None, Some("t8".to_owned()));
        figures.refused(Refusal::Range, Some(3), Some("t".to_owned()));
        figures.refused(Refusal::Range, Some(4), None);
        let shown = figures.copy();
        assert_eq!(shown.refusals, BTreeMap::from([(24, 2), (26, 1)]));
        let last = shown.refused.unwrap();
        assert_eq!((last.refusal, last.offset), (Refusal::Range, Some(4)));
        assert_eq!((last.table, shown.unplaced), (None, Some("t8".to_owned())));
        figures.defined("t");
        assert!(figures.copy().unplaced.is_some());
        figures.defined("t8");
        assert_eq!(figures.copy().unplaced, None);
        figures.refused(Refusal::Tables, None, Some("t9".to_owned()));
        figures.taught(Taught::Finished);
        assert_eq!(figures.copy().taught, Taught::NotAsked);
        figures.taught(Taught::Asked);
        figures.taught(Taught::Partial);
        assert!(figures.copy().unplaced.is_some());
        figures.taught(Taught::Finished);
        assert_eq!(figures.copy().unplaced, None);
        figures.purged(4);
        figures.purged(4);
        figures.updated();
        figures.established();
        let shown = figures.copy();
        assert_eq!((shown.purged, shown.updates, shown.connections), (8, 1, 1));
        assert!(shown.established && shown.since > at(100) && shown.heard.is_some());
        assert_eq!(shown.taught, Taught::NotAsked);
        figures.ended();
        assert!(!figures.copy().established);
    }
}
