//! A receiver of stick tables over the HAProxy peers protocol, 2.1, that can teach its tables to another.
//!
//! The host owns sockets and timers. It keeps one [`Session`] for each connection and one [`Store`], and gives
//! [`Session::read`] the bytes as they come:
//!
//! ```
//! use peers::{Session, Store, READING_ROOM};
//!
//! let mut store = Store::boxed();
//! let mut session = Session::answerer(b"east", b"west")?;
//! let mut room = [0; READING_ROOM];
//! let mut sent = Vec::new(); // stands for the socket that is written
//! let mut rest = &b"HAProxyS 2.1\neast\nwest 7 0\n\0\x01"[..]; // and what was read from it
//! while !rest.is_empty() && session.closed_with().is_none() {
//!     let step = session.read(&mut store, rest, &mut room);
//!     if step.taken == 0 {
//!         break; // refused with 2 or 4: offered again, the bytes would be refused again
//!     }
//!     sent.extend_from_slice(step.reply);
//!     rest = &rest[step.taken..];
//! }
//! assert_eq!(sent, b"200\n\0\x03");
//! # Ok::<(), peers::Refusal>(())
//! ```
//!
//! On its ticks it gives [`Store::pass_time`] the time since the last one, which frees the entries whose time is over. A status page asks
//! [`Store::entries_of`] how many entries a table has. [`Session::teach`] sends all that a store holds to a peer, a message at a time. A host
//! with several peers on one listener judges their hellos with an [`Answerer`].
//!
//! The work is done by the static library `libpeers.a`, each of whose functions is proved to meet its contract.
//! Nothing is global: calls on different sessions and stores can run at the same time.
//! The first call asks the archive for its version, and panics where it isn't this wrapper's.

#![deny(missing_docs)]
#![deny(unsafe_code)]

mod answer;
mod answerer;
mod data;
#[allow(unsafe_code)]
pub mod ffi;
pub mod layout;
mod session;
mod store;
mod teaching;

pub use answer::{Answer, Closed, Commit, Refusal};
pub use answerer::{Answerer, Judged};
pub use data::{DataType, KeyType};
pub use session::{Session, Step, OPENING_ROOM, READING_ROOM, SEND_ROOM};
pub use store::{Entry, Store, Table, Value};
pub use teaching::{ids_from, Part};

/// The archive that was linked.
pub const ARCHIVE: &str = env!("PEERS_ARCHIVE");

/// The version of the calls and that of the structs' layout which this wrapper is written for, as in `include/peers.h`.
pub const VERSION: (u32, u32) = (ffi::VERSION, ffi::LAYOUT);

/// The version and the layout of the archive that was linked. Where they aren't [`VERSION`], the first call panics.
pub fn archive_version() -> (u32, u32) {
    ffi::archive()
}
