//! What all threads share: the store, the peers, and the lines on standard error.

use crate::admission::Admission;
use crate::faults::{Faults, Kind, Line};
use crate::figures::{Overview, PeerShown};
use crate::log::Log;
use crate::options::Options;
use crate::peer::Peer;
use crate::purging::Purging;
use crate::subject::Subject;
use peers::{Refusal, Store};
use std::fmt;
use std::sync::{Arc, Mutex, MutexGuard, PoisonError};
use std::time::{Duration, Instant, SystemTime};

/// The store, what was purged of it, and up to when time has passed in it.
pub struct Tables {
    pub store: Box<Store>,
    pub purging: Purging,
    passed: Instant,
}

impl Tables {
    /// Passes the time since the last tick. What is less than a millisecond stays for the next.
    fn tick(&mut self) -> Result<(), Refusal> {
        let since = Duration::from_millis(self.passed.elapsed().as_millis() as u64);
        self.passed += since;
        self.store.pass_time(since)
    }
}

pub struct Host {
    pub options: Options,
    pub peers: Vec<Peer>,
    pub admission: Arc<Admission>,
    pub log: Log,
    tables: Mutex<Tables>,
    /// What failed that is no peer's.
    pub faults: Faults,
    pub begun: Instant,
    begun_at: SystemTime,
}

impl Host {
    pub fn new(options: Options, log: Log) -> Host {
        let begun_at = SystemTime::now();
        let peers = options.peers.iter();
        Host {
            peers: peers
                .map(|(name, at)| Peer::new(name, at.as_deref(), begun_at))
                .collect(),
            admission: Admission::new(options.connections),
            log,
            tables: Mutex::new(Tables {
                store: Store::boxed(),
                purging: Purging::new(!options.nopurge),
                passed: Instant::now(),
            }),
            faults: Faults::new(String::new()),
            begun: Instant::now(),
            begun_at,
            options,
        }
    }

    /// The store, locked, in which all time has passed.
    ///
    /// # Errors
    ///
    /// [`Refusal::Unsound`] where the store holds what the rules don't allow. Nothing here brings it there.
    pub fn tables(&self) -> Result<MutexGuard<'_, Tables>, Refusal> {
        let mut tables = self.tables.lock().unwrap_or_else(PoisonError::into_inner);
        tables.tick()?;
        Ok(tables)
    }

    /// A copy of the store, in which all time has passed. It is made quickly, so that who makes text of it holds up no peer.
    ///
    /// # Errors
    ///
    /// As [`Host::tables`].
    pub fn copy(&self) -> Result<Box<Store>, Refusal> {
        Ok(self.tables()?.store.clone())
    }

    /// What is shown beside the tables, as of now.
    pub fn overview(&self) -> Overview {
        let peers = self.peers.iter().map(|peer| PeerShown {
            name: peer.name.clone(),
            address: peer.address.clone(),
            shown: peer.figures.copy(),
        });
        Overview {
            name: self.options.name.clone(),
            begun: self.begun_at,
            peers: peers.collect(),
            now: SystemTime::now(),
            lost: self.log.lost(),
        }
    }

    /// A line for an event, if they are asked for.
    pub fn event(&self, line: fmt::Arguments<'_>) {
        if self.options.verbose {
            self.fault(line);
        }
    }

    /// A line for a message, if they are asked for.
    pub fn message(&self, line: fmt::Arguments<'_>) {
        if self.options.messages {
            self.fault(line);
        }
    }

    /// A line for a refusal or a fault.
    pub fn fault(&self, line: fmt::Arguments<'_>) {
        self.log.push(line.to_string());
    }

    /// What fails, of a peer or of the host. Anybody can cause it again and again, so not each line of a kind is a fault.
    pub fn fails(&self, faults: &Faults, kind: Kind, subject: Option<Subject>, what: String) {
        self.line(faults.fails(Instant::now(), kind, subject, what));
    }

    /// What failed, and works now.
    pub fn works(&self, faults: &Faults, is_over: impl Fn(Kind, Option<&Subject>) -> bool) {
        for line in faults.works(Instant::now(), is_over) {
            self.line(line);
        }
    }

    /// Passes the time, and tells what it brings.
    ///
    /// # Errors
    ///
    /// As [`Host::tables`].
    pub fn tick(&self, now: Instant) -> Result<(), Refusal> {
        drop(self.tables()?);
        let of_peers = self.peers.iter().map(|peer| &peer.faults);
        for faults in of_peers.chain([&self.faults]) {
            for line in faults.due(now) {
                self.line(line);
            }
        }
        Ok(())
    }

    fn line(&self, line: Line) {
        if line.told {
            self.fault(format_args!("{}", line.text));
        } else {
            self.event(format_args!("{}", line.text));
        }
    }
}

#[cfg(test)]
mod tests {
    use super::*;
    use std::io::{self, Write};
    use std::sync::mpsc::{channel, Sender};

    struct Lines(Sender<String>);

    impl Write for Lines {
        fn write(&mut self, bytes: &[u8]) -> io::Result<usize> {
            let line = String::from_utf8_lossy(bytes).into_owned();
            self.0.send(line).map_err(io::Error::other)?;
            Ok(bytes.len())
        }

        fn flush(&mut self) -> io::Result<()> {
            Ok(())
        }
    }

    #[test]
    fn a_tick_tells_what_is_over() {
        let (written, lines) = channel();
        let options = Options {
            peers: vec![("west".to_owned(), None)],
            ..Options::default()
        };
        let host = Host::new(options, Log::start(Lines(written)).unwrap());
        let (faults, now) = (&host.peers[0].faults, Instant::now());
        host.fails(faults, Kind::Contested, None, "contested".to_owned());
        let next = || lines.recv_timeout(Duration::from_secs(30)).unwrap();
        assert!(next().ends_with(" west: contested\n"));
        host.tick(now).unwrap();
        host.tick(now + Duration::from_secs(61)).unwrap();
        let over = next();
        assert!(over.contains(" west: a connection stays again ("), "{over}");
    }
}
