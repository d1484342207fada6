//! An empty store in a box.

use crate::common::{listing, State};
use peers::Store;
use std::thread;

/// Runs on a thread with so many kilobytes of stack.
fn on_stack(kilobytes: usize, run: impl FnOnce() + Send + 'static) {
    let thread = thread::Builder::new().stack_size(kilobytes << 10);
    thread.spawn(run).unwrap().join().unwrap();
}

/// Zeros are what the library calls an empty store.
#[test]
fn is_the_empty_store() {
    on_stack(1024, || assert!(*Store::boxed() == Store::new()));
}

/// The store alone takes less stack than its own size, and a session on it what a reading call takes.
#[test]
fn on_a_small_stack() {
    on_stack(40, || assert_eq!(Store::boxed().tables().count(), 0));
    on_stack(160, || {
        let mut state = State::answerer();
        assert_eq!(state.offer(&listing()).len(), 5);
    });
}
