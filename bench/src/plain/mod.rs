//! A receiver and sender over the library's structs, by references and without proofs: the same rules and the same tests, written as one
//! would write them in Rust. The benchmark compares the library with it.

mod frame;
mod handshake;
mod key_type;
mod message;
mod sending;
mod sound;
mod time;
mod wire;

use crate::layout::{Connection, Outcome, Session, Store, UNFINISHED_MAX};

pub use sending::{send_definition, send_entry};
use sound::is_sound;
pub use sound::mark;
pub use time::pass_time;

/// Room that a reading call asks for.
const READING_ROOM: usize = 12;

/// What a message did: the answer's number and values, and the reply at the front of its bytes.
struct Settled {
    number: u32,
    count: u32,
    values: [u64; 4],
    reply_len: usize,
    reply: [u8; READING_ROOM],
}

/// Why a message is refused: the number, and where in its body the field starts that can't be read.
struct Refusal {
    number: u8,
    offset: Option<usize>,
}

/// A refusal that isn't a field's.
impl From<u8> for Refusal {
    fn from(number: u8) -> Refusal {
        Refusal {
            number,
            offset: None,
        }
    }
}

/// What bytes come to: they end nothing, or their first part does what it says.
enum Judged {
    Waiting,
    Settled { used: usize, settled: Settled },
}

impl Settled {
    fn new(number: u32, values: &[u64], reply: &[u8]) -> Settled {
        let mut settled = Settled {
            number,
            count: values.len() as u32,
            values: [0; 4],
            reply_len: reply.len(),
            reply: [0; READING_ROOM],
        };
        settled.values[..values.len()].copy_from_slice(values);
        settled.reply[..reply.len()].copy_from_slice(reply);
        settled
    }

    /// A refusal, which closes the connection.
    fn refused(connection: &mut Connection, refusal: impl Into<Refusal>) -> Settled {
        let Refusal { number, offset } = refusal.into();
        connection.closed = 1;
        connection.number = number.into();
        let offset = offset.map(|offset| offset as u64);
        Settled::new(number.into(), offset.as_slice(), refusal_reply(number))
    }
}

/// The reply that goes with a refusal.
fn refusal_reply(number: u8) -> &'static [u8] {
    match number {
        10 => b"501\n",
        11 => b"502\n",
        12 => b"503\n",
        13 => b"504\n",
        22 | 26 | 29 => &[1, 1],
        20..=30 => &[1, 0],
        _ => &[],
    }
}

/// One reading call. It stays a call of its own, as the library's is.
#[inline(never)]
pub fn read(session: &mut Session, store: &mut Store, piece: &[u8], reply: &mut [u8]) -> Outcome {
    if reply.len() < READING_ROOM {
        return outcome(0, &Settled::new(1, &[], &[]));
    }
    if !is_sound(session, store) {
        return outcome(0, &Settled::new(4, &[], &[]));
    }
    if session.connection.closed == 1 {
        return outcome(0, &Settled::new(2, &[], &[]));
    }
    receive(session, store, piece, reply)
}

/// A reading call on a sound open record: what `read` does after its tests.
pub fn receive(
    session: &mut Session,
    store: &mut Store,
    piece: &[u8],
    reply: &mut [u8],
) -> Outcome {
    if piece.is_empty() {
        return outcome(0, &Settled::new(256, &[], &[]));
    }
    let held = session.len;
    if held == 0 {
        return take(session, store, 0, piece, piece.len(), reply);
    }
    // the longest message has one byte more than can be unfinished
    let mut joined = [0; UNFINISHED_MAX + 1];
    let added = piece.len().min(joined.len() - held);
    joined[..held].copy_from_slice(&session.buffer[..held]);
    joined[held..held + added].copy_from_slice(&piece[..added]);
    take(session, store, held, &joined[..held + added], added, reply)
}

/// Takes bytes of which the first `held` were unfinished and `added` came.
fn take(
    session: &mut Session,
    store: &mut Store,
    held: usize,
    bytes: &[u8],
    added: usize,
    reply: &mut [u8],
) -> Outcome {
    match judge(&mut session.connection, store, bytes) {
        Judged::Waiting => {
            session.len = bytes.len();
            session.buffer[..bytes.len()].copy_from_slice(bytes);
            session.buffer[bytes.len()..].fill(0);
            outcome(added, &Settled::new(256, &[], &[]))
        }
        Judged::Settled { used, settled } => {
            session.len = 0;
            session.buffer.fill(0);
            reply[..settled.reply_len].copy_from_slice(&settled.reply[..settled.reply_len]);
            outcome(used - held, &settled)
        }
    }
}

fn outcome(taken: usize, settled: &Settled) -> Outcome {
    Outcome {
        taken,
        reply_len: settled.reply_len,
        number: settled.number,
        count: settled.count,
        values: settled.values,
    }
}

fn judge(connection: &mut Connection, store: &mut Store, bytes: &[u8]) -> Judged {
    match connection.phase {
        0 => handshake::hello(connection, bytes),
        1 => handshake::status(connection, bytes),
        _ => message::judge(connection, store, bytes),
    }
}
