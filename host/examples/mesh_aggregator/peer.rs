//! A peer: its name, its address, the connection with it, and when it is dialled next.

use crate::faults::Faults;
use crate::figures::Figures;
use crate::teaching::Teaching;
use std::collections::hash_map::RandomState;
use std::hash::{BuildHasher, Hasher};
use std::net::{Shutdown, TcpStream};
use std::sync::{Mutex, MutexGuard, PoisonError};
use std::time::{Duration, Instant, SystemTime};

/// The first wait after a failure, in milliseconds. It doubles with each further one.
const FIRST_WAIT: u64 = 1_000;
/// With the random time at most a minute.
const LONGEST_WAIT: u64 = 60_000 - LATEST;
/// The random time that is added to each wait, so that peers which dial each other at the same time don't do so again.
const EARLIEST: u64 = 50;
const LATEST: u64 = 2_050;
/// So many connections within that time which took an open one's place aren't those of one client.
const CONTESTED: usize = 3;
const CONTEST_TIME: Duration = Duration::from_secs(60);
/// A connection that lasts so long was a good one: the waits begin anew. A silent one doesn't last so long.
const GOOD_TIME: Duration = Duration::from_secs(60);

pub struct Peer {
    pub name: String,
    pub address: Option<String>,
    /// What failed with it.
    pub faults: Faults,
    /// What is shown of it.
    pub figures: Figures,
    state: Mutex<State>,
}

struct State {
    /// The connection that is past its handshake, with its number.
    live: Option<(u64, TcpStream)>,
    /// What came on it of the peer's entries.
    teaching: Teaching,
    /// How many connections there were.
    count: u64,
    /// When connections took an open one's place, and the last one's number and words for it.
    replaced: Vec<Instant>,
    last_replaced: Option<(u64, String)>,
    /// The last wait, in milliseconds, without its random time.
    wait: u64,
    /// When it may be dialled.
    due: Instant,
}

impl Peer {
    pub fn new(name: &str, address: Option<&str>, begun: SystemTime) -> Peer {
        let state = State {
            live: None,
            teaching: Teaching::default(),
            count: 0,
            replaced: Vec::new(),
            last_replaced: None,
            wait: 0,
            due: Instant::now(),
        };
        Peer {
            name: name.to_owned(),
            address: address.map(str::to_owned),
            faults: Faults::new(format!("{name}: ")),
            figures: Figures::new(begun),
            state: Mutex::new(state),
        }
    }

    fn state(&self) -> MutexGuard<'_, State> {
        self.state.lock().unwrap_or_else(PoisonError::into_inner)
    }

    /// Whether it is to be dialled now.
    pub fn is_due(&self) -> bool {
        let state = self.state();
        state.live.is_none() && Instant::now() >= state.due
    }

    /// A connection is past its handshake. Only one may stay, and the last one does: an older one is closed. Gives the connection's number.
    pub fn established(&self, stream: TcpStream) -> u64 {
        let mut state = self.state();
        state.count += 1;
        if let Some((_, older)) = state.live.take() {
            state.replaces(&older, &stream);
            let _ = older.shutdown(Shutdown::Both); // it may be closed already
        }
        state.live = Some((state.count, stream));
        state.teaching = Teaching::default();
        self.figures.established();
        state.count
    }

    /// What is told when a connection took an open one's place, and others did so shortly before: clients with one name close each other's
    /// connections.
    pub fn contested(&self, number: u64) -> Option<String> {
        let state = self.state();
        let (last, how) = state.last_replaced.as_ref()?;
        let count = state.replaced.len();
        (*last == number && count >= CONTESTED).then(|| {
            format!("{count} connections within a minute took an open one's place, the last {how}: more than one client may have this name")
        })
    }

    /// Whether a connection may go on reading: it is the live one, or not past its handshake. The store's lock is held while it is asked and
    /// for the call that follows, so an older connection changes nothing once a newer one has made a call.
    pub fn is_live(&self, number: Option<u64>) -> bool {
        number.is_none() || self.state().number() == number
    }

    /// How far its teaching is, where it is connected.
    pub fn teaching(&self) -> Option<Teaching> {
        let state = self.state();
        state.live.as_ref().map(|_| state.teaching)
    }

    /// Changes how far its teaching is, if the connection is the live one.
    pub fn change_teaching(&self, number: Option<u64>, change: impl FnOnce(&mut Teaching)) {
        let mut state = self.state();
        if number.is_some() && state.number() == number {
            change(&mut state.teaching);
        }
    }

    /// A connection has ended, or a dial failed. After a good connection without a refusal the peer is dialled again soon, otherwise after a
    /// wait that grows. Gives the wait, or nothing where a newer connection stays.
    pub fn ended(&self, number: Option<u64>, lasted: Duration, refused: bool) -> Option<Duration> {
        let mut state = self.state();
        if state.number() != number {
            return None;
        }
        if state.live.take().is_some() {
            self.figures.ended();
        }
        let good = number.is_some() && lasted >= GOOD_TIME;
        if good {
            state.wait = 0;
        }
        if refused || !good {
            state.wait = (state.wait * 2).clamp(FIRST_WAIT, LONGEST_WAIT);
        }
        let wait = Duration::from_millis(state.wait + random_time());
        state.due = Instant::now() + wait;
        Some(wait)
    }
}

impl State {
    /// The live connection's number.
    fn number(&self) -> Option<u64> {
        self.live.as_ref().map(|(number, _)| *number)
    }

    /// Notes that the last connection takes an open one's place.
    fn replaces(&mut self, older: &TcpStream, newer: &TcpStream) {
        let now = Instant::now();
        self.replaced.retain(|when| now - *when < CONTEST_TIME);
        self.replaced.push(now);
        let how = format!("from {} that of {}", address(newer), address(older));
        self.last_replaced = Some((self.count, how));
    }
}

/// The other side's address, as text.
fn address(stream: &TcpStream) -> String {
    stream
        .peer_addr()
        .map_or("an unknown address".to_owned(), |at| at.to_string())
}

/// The standard library's hash keys are its only source of random numbers.
fn random_time() -> u64 {
    let random = RandomState::new().build_hasher().finish();
    EARLIEST + random % (LATEST - EARLIEST + 1)
}

#[cfg(test)]
mod tests {
    use super::*;
    use peers::Answer;
    use std::net::TcpListener;

    /// Ends a connection that lasted so many seconds, and tests its wait: this base in milliseconds, and the random time.
    fn end(peer: &Peer, lasted: u64, refused: bool, base: u64) {
        let listener = TcpListener::bind("127.0.0.1:0").unwrap();
        let stream = TcpStream::connect(listener.local_addr().unwrap()).unwrap();
        let number = peer.established(stream);
        let wait = peer.ended(Some(number), Duration::from_secs(lasted), refused);
        let wait = wait.unwrap().as_millis() as u64;
        assert!(
            (base + EARLIEST..=base + LATEST).contains(&wait),
            "{wait} after {lasted} seconds"
        );
        assert!(wait <= 60_000);
    }

    #[test]
    fn waits_grow() {
        let peer = Peer::new("west", None, SystemTime::now());
        for base in [1_000, 2_000, 4_000, 8_000, 16_000, 32_000, 57_950, 57_950] {
            end(&peer, 59, true, base);
        }
    }

    #[test]
    fn silent_connections_are_no_good_ones() {
        let peer = Peer::new("west", None, SystemTime::now());
        for base in [1_000, 2_000, 4_000] {
            end(&peer, 5, false, base);
        }
    }

    #[test]
    fn waits_begin_anew() {
        let peer = Peer::new("west", None, SystemTime::now());
        end(&peer, 5, true, 1_000);
        end(&peer, 5, true, 2_000);
        end(&peer, 60, true, 1_000);
        end(&peer, 60, false, 0);
        end(&peer, 5, true, 1_000);
    }

    #[test]
    fn a_newer_connection_is_taught_anew() {
        let peer = Peer::new("west", None, SystemTime::now());
        let listener = TcpListener::bind("127.0.0.1:0").unwrap();
        let connect = || TcpStream::connect(listener.local_addr().unwrap()).unwrap();
        let finish = |number| {
            peer.change_teaching(Some(number), |teaching| teaching.ask(0));
            peer.change_teaching(Some(number), |teaching| teaching.note(Answer::Finished));
        };
        assert_eq!(peer.teaching(), None);
        let older = peer.established(connect());
        finish(older);
        assert!(peer.teaching().unwrap().is_finished(0));
        let newer = peer.established(connect());
        finish(older);
        assert_eq!(peer.teaching(), Some(Teaching::default()));
        peer.ended(Some(newer), Duration::ZERO, false);
        assert_eq!(peer.teaching(), None);
    }

    #[test]
    fn a_newer_connection_stays() {
        let peer = Peer::new("west", None, SystemTime::now());
        let listener = TcpListener::bind("127.0.0.1:0").unwrap();
        let connect = || TcpStream::connect(listener.local_addr().unwrap()).unwrap();
        let older = peer.established(connect());
        let newer = peer.established(connect());
        assert!(peer.is_live(None) && peer.is_live(Some(newer)));
        assert!(!peer.is_live(Some(older)));
        assert_eq!(peer.ended(Some(older), Duration::ZERO, false), None);
        assert_eq!(peer.ended(None, Duration::ZERO, false), None);
        assert!(!peer.is_due());
        assert!(peer.figures.copy().established);
        assert!(peer.ended(Some(newer), Duration::ZERO, false).is_some());
        assert!(!peer.figures.copy().established);
    }

    #[test]
    fn connections_that_replace_each_other_are_noticed() {
        let peer = Peer::new("west", None, SystemTime::now());
        let listener = TcpListener::bind("127.0.0.1:0").unwrap();
        let connect = || TcpStream::connect(listener.local_addr().unwrap()).unwrap();
        let mut numbers = Vec::new();
        for contested in [false, false, false, true, true] {
            let number = peer.established(connect());
            assert_eq!(peer.contested(number).is_some(), contested);
            numbers.push(number);
        }
        assert_eq!(peer.contested(numbers[3]), None);
        assert!(peer.ended(numbers.pop(), Duration::ZERO, false).is_some());
        let number = peer.established(connect());
        assert_eq!(peer.contested(number), None);
    }
}
