//! A peer: its name, its address, the connection with it, and when it is dialled next.

use crate::host::Reported;
use std::collections::hash_map::RandomState;
use std::hash::{BuildHasher, Hasher};
use std::net::{Shutdown, TcpStream};
use std::sync::{Mutex, MutexGuard, PoisonError};
use std::time::{Duration, Instant};

/// The first wait after a failure, in milliseconds. It doubles with each further one.
const FIRST_WAIT: u64 = 1_000;
/// With the random time at most a minute.
const LONGEST_WAIT: u64 = 60_000 - LATEST;
/// The random time that is added to each wait, so that peers which dial each other at the same time don't do so again.
const EARLIEST: u64 = 50;
const LATEST: u64 = 2_050;
/// A connection that lasts so long was a good one: the waits begin anew. A silent one doesn't last so long.
const GOOD_TIME: Duration = Duration::from_secs(60);

pub struct Peer {
    pub name: String,
    pub address: Option<String>,
    /// What was told of refusals by it, and of dials that failed.
    pub reported: Reported,
    state: Mutex<State>,
}

struct State {
    /// The connection that is past its handshake, with its number.
    live: Option<(u64, TcpStream)>,
    /// How many connections there were.
    count: u64,
    /// The last wait, in milliseconds, without its random time.
    wait: u64,
    /// When it may be dialled.
    due: Instant,
}

impl Peer {
    pub fn new(name: &str, address: Option<&str>) -> Peer {
        let state = State {
            live: None,
            count: 0,
            wait: 0,
            due: Instant::now(),
        };
        Peer {
            name: name.to_owned(),
            address: address.map(str::to_owned),
            reported: Reported::default(),
            state: Mutex::new(state),
        }
    }

    fn state(&self) -> MutexGuard<'_, State> {
        self.state.lock().unwrap_or_else(PoisonError::into_inner)
    }

    /// Whether it is to be dialled now.
    pub fn is_due(&self) -> bool {
        let state = self.state();
        state.live.is_none() && Instant::now() >= state.due
    }

    /// A connection is past its handshake. Only one may stay, and the last one does: an older one is closed. Gives the connection's number.
    pub fn established(&self, stream: TcpStream) -> u64 {
        let mut state = self.state();
        if let Some((_, older)) = state.live.take() {
            let _ = older.shutdown(Shutdown::Both); // it may be closed already
        }
        state.count += 1;
        state.live = Some((state.count, stream));
        state.count
    }

    /// A connection has ended, or a dial failed. After a good connection without a refusal the peer is dialled again soon, otherwise after a
    /// wait that grows. Gives the wait, or nothing where a newer connection stays.
    pub fn ended(&self, number: Option<u64>, lasted: Duration, refused: bool) -> Option<Duration> {
        let mut state = self.state();
        if state.live.as_ref().map(|(live, _)| *live) != number {
            return None;
        }
        state.live = None;
        let good = number.is_some() && lasted >= GOOD_TIME;
        if good {
            state.wait = 0;
        }
        if refused || !good {
            state.wait = (state.wait * 2).clamp(FIRST_WAIT, LONGEST_WAIT);
        }
        let wait = Duration::from_millis(state.wait + random_time());
        state.due = Instant::now() + wait;
        Some(wait)
    }
}

/// The standard library's hash keys are its only source of random numbers.
fn random_time() -> u64 {
    let random = RandomState::new().build_hasher().finish();
    EARLIEST + random % (LATEST - EARLIEST + 1)
}

#[cfg(test)]
mod tests {
    use super::*;
    use std::net::TcpListener;

    /// Ends a connection that lasted so many seconds, and tests its wait: this base in milliseconds, and the random time.
    fn end(peer: &Peer, lasted: u64, refused: bool, base: u64) {
        let listener = TcpListener::bind("127.0.0.1:0").unwrap();
        let stream = TcpStream::connect(listener.local_addr().unwrap()).unwrap();
        let number = peer.established(stream);
        let wait = peer.ended(Some(number), Duration::from_secs(lasted), refused);
        let wait = wait.unwrap().as_millis() as u64;
        assert!(
            (base + EARLIEST..=base + LATEST).contains(&wait),
            "{wait} after {lasted} seconds"
        );
        assert!(wait <= 60_000);
    }

    #[test]
    fn waits_grow() {
        let peer = Peer::new("west", None);
        for base in [1_000, 2_000, 4_000, 8_000, 16_000, 32_000, 57_950, 57_950] {
            end(&peer, 59, true, base);
        }
    }

    #[test]
    fn silent_connections_are_no_good_ones() {
        let peer = Peer::new("west", None);
        for base in [1_000, 2_000, 4_000] {
            end(&peer, 5, false, base);
        }
    }

    #[test]
    fn waits_begin_anew() {
        let peer = Peer::new("west", None);
        end(&peer, 5, true, 1_000);
        end(&peer, 5, true, 2_000);
        end(&peer, 60, true, 1_000);
        end(&peer, 60, false, 0);
        end(&peer, 5, true, 1_000);
    }

    #[test]
    fn a_newer_connection_stays() {
        let peer = Peer::new("west", None);
        let listener = TcpListener::bind("127.0.0.1:0").unwrap();
        let connect = || TcpStream::connect(listener.local_addr().unwrap()).unwrap();
        let older = peer.established(connect());
        let newer = peer.established(connect());
        assert_eq!(peer.ended(Some(older), Duration::ZERO, false), None);
        assert_eq!(peer.ended(None, Duration::ZERO, false), None);
        assert!(!peer.is_due());
        assert!(peer.ended(Some(newer), Duration::ZERO, false).is_some());
    }
}
