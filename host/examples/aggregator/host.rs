//! What all threads share: the store, the peers, and the lines on standard error.

use crate::options::Options;
use crate::peer::Peer;
use peers::{Refusal, Store};
use std::fmt;
use std::io::{self, Write};
use std::ops::Deref;
use std::sync::atomic::{AtomicU64, Ordering};
use std::sync::{Arc, Mutex, MutexGuard, PoisonError};
use std::time::{Duration, Instant};

/// The store, and up to when time has passed in it.
pub struct Tables {
    pub store: Box<Store>,
    passed: Instant,
}

impl Tables {
    /// Passes the time since the last tick. What is less than a millisecond stays for the next.
    fn tick(&mut self) -> Result<(), Refusal> {
        let since = Duration::from_millis(self.passed.elapsed().as_millis() as u64);
        self.passed += since;
        self.store.pass_time(since)
    }
}

pub struct Host {
    pub options: Options,
    pub peers: Vec<Peer>,
    tables: Mutex<Tables>,
    accepted: AtomicU64,
    /// What was told of connections that are no peer's.
    unaccepted: Reported,
}

impl Host {
    pub fn new(options: Options) -> Host {
        let peers = options.peers.iter();
        Host {
            peers: peers
                .map(|(name, at)| Peer::new(name, at.as_deref()))
                .collect(),
            tables: Mutex::new(Tables {
                store: Store::boxed(),
                passed: Instant::now(),
            }),
            accepted: AtomicU64::new(0),
            unaccepted: Reported::default(),
            options,
        }
    }

    /// The store, locked, in which all time has passed.
    ///
    /// # Errors
    ///
    /// [`Refusal::Unsound`] where the store holds what the rules don't allow. Nothing here brings it there.
    pub fn tables(&self) -> Result<MutexGuard<'_, Tables>, Refusal> {
        let mut tables = self.tables.lock().unwrap_or_else(PoisonError::into_inner);
        tables.tick()?;
        Ok(tables)
    }

    /// A place for one more accepted connection, if there is one. It is free again when the guard is dropped.
    pub fn admit(self: &Arc<Host>) -> Option<Admitted> {
        let before = self.accepted.fetch_add(1, Ordering::SeqCst);
        let admitted = Admitted(Arc::clone(self));
        (before < self.options.connections).then_some(admitted)
    }

    /// A line for an event, if they are asked for.
    pub fn event(&self, line: fmt::Arguments<'_>) {
        if self.options.verbose {
            self.fault(line);
        }
    }

    /// A line for a message, if they are asked for.
    pub fn message(&self, line: fmt::Arguments<'_>) {
        if self.options.messages {
            self.fault(line);
        }
    }

    /// A line for a refusal or a fault.
    pub fn fault(&self, line: fmt::Arguments<'_>) {
        // as one write, so that lines of others don't come between; nobody may be there to read it
        let _ = io::stderr().write_all(format!("{line}\n").as_bytes());
    }

    /// A line for what is wrong: as a fault the first time in a while, else as an event.
    pub fn repeated(&self, reported: &Reported, what: &str, line: fmt::Arguments<'_>) {
        if reported.is_first(what) {
            self.fault(line);
        } else {
            self.event(line);
        }
    }

    /// A line for a connection that is no peer's. Anybody can cause one, so each kind is a fault once in a while only.
    pub fn unaccepted(&self, what: &str, from: &str) {
        self.repeated(&self.unaccepted, what, format_args!("{from}: {what}"));
    }
}

/// The last faults that were told, and when.
#[derive(Default)]
pub struct Reported(Mutex<Vec<(String, Instant)>>);

impl Reported {
    /// How long the same isn't told again, and how many are kept.
    const TIME: Duration = Duration::from_secs(600);
    const MOST: usize = 16;

    fn is_first(&self, what: &str) -> bool {
        let mut told = self.0.lock().unwrap_or_else(PoisonError::into_inner);
        told.retain(|(_, when)| when.elapsed() < Reported::TIME);
        if told.iter().any(|(old, _)| old == what) {
            return false;
        }
        if told.len() == Reported::MOST {
            told.remove(0);
        }
        told.push((what.to_owned(), Instant::now()));
        true
    }
}

/// One accepted connection of those that may be open.
pub struct Admitted(Arc<Host>);

impl Deref for Admitted {
    type Target = Host;

    fn deref(&self) -> &Host {
        &self.0
    }
}

impl Drop for Admitted {
    fn drop(&mut self) {
        self.accepted.fetch_sub(1, Ordering::SeqCst);
    }
}
