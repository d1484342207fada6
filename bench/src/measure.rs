//! Nanoseconds per message: the best of several rounds, in which all that is compared takes turns.

use crate::receivers::{Library, Part, Plain, Receiver, Role, Second, SEND_ROOM};
use std::hint::black_box;
use std::time::{Duration, Instant};

/// How many times a call is made, or a message offered, before the clock is asked.
pub const MESSAGES: usize = 40;

/// How long a round is at the least: so long that every receiver is warm, and so short that a busy machine seldom interrupts it. Where
/// the slower receiver alone had longer rounds, it would be interrupted more, and its ratio would show that.
const ROUND: Duration = Duration::from_millis(1);

/// What is measured: a state to start from, and pieces that are each offered until taken.
pub struct Load {
    /// Bytes that are taken before.
    pub before: Vec<u8>,
    /// Pieces that are timed.
    pub pieces: Vec<Vec<u8>>,
    /// How many messages all pieces hold.
    pub messages: usize,
    /// Whether each piece goes to a clone of its own, and is timed by itself.
    pub cloned: bool,
}

impl Load {
    /// Pieces of one message, taken one after another.
    pub fn new(before: Vec<u8>, pieces: Vec<Vec<u8>>) -> Load {
        Load {
            messages: pieces.len(),
            before,
            pieces,
            cloned: false,
        }
    }

    /// One message, taken so many times by a clone of the state before.
    pub fn cloned(before: Vec<u8>, piece: Vec<u8>, times: usize) -> Load {
        Load {
            cloned: true,
            ..Load::new(before, vec![piece; times])
        }
    }

    /// A receiver that has taken what comes before.
    pub fn receiver<R: Receiver>(&self) -> R {
        let mut receiver = R::open(Role::Answerer);
        receiver.take_all(&self.before);
        receiver
    }
}

/// The best of several rounds, in turns; a round gives nanoseconds.
pub fn in_turns<const N: usize>(rounds: usize, mut all: [&mut dyn FnMut() -> f64; N]) -> [f64; N] {
    let mut best = [f64::MAX; N];
    for _ in 0..rounds {
        for (best, round) in best.iter_mut().zip(&mut all) {
            *best = best.min(round());
        }
    }
    best
}

/// Nanoseconds per message of the library, the plain receiver and the second program's.
pub fn times(load: &Load, rounds: usize) -> [f64; 3] {
    let library: Library = load.receiver();
    let plain: Plain = load.receiver();
    let second: Second = load.receiver();
    in_turns(
        rounds,
        [
            &mut || round(&library, load),
            &mut || round(&plain, load),
            &mut || round(&second, load),
        ],
    )
}

/// Nanoseconds per message in one round: the load again and again, each time from the start.
pub fn round<R: Receiver>(start: &R, load: &Load) -> f64 {
    let part = match load.cloned {
        true => 1,
        false => load.pieces.len(),
    };
    let (mut spent, mut messages) = (Duration::ZERO, 0);
    while spent < ROUND {
        let parts = load.pieces.chunks(part);
        spent += parts.map(|pieces| taking(start, pieces)).sum();
        messages += load.messages;
    }
    spent.as_nanos() as f64 / messages as f64
}

/// How long a clone takes for some pieces.
fn taking<R: Receiver>(start: &R, pieces: &[Vec<u8>]) -> Duration {
    let mut receiver = start.clone();
    let began = Instant::now();
    for piece in pieces {
        black_box(receiver.take_all(black_box(piece)));
    }
    began.elapsed()
}

/// Nanoseconds of one call that is made again and again, whatever it takes.
pub fn calls<R: Receiver>(start: &R, piece: &[u8], room: &mut [u8]) -> f64 {
    let mut receiver = start.clone();
    repeated(|| _ = black_box(receiver.read(black_box(piece), room)))
}

/// Nanoseconds of passing a millisecond again and again.
pub fn passes<R: Receiver>(start: &R) -> f64 {
    let mut receiver = start.clone();
    repeated(|| _ = black_box(receiver.pass(black_box(1))))
}

/// Nanoseconds of passing so much time that every entry is freed, each time on a clone; the clock's are in it.
pub fn freeing<R: Receiver>(start: &R) -> f64 {
    let (mut spent, mut count) = (Duration::ZERO, 0);
    while spent < ROUND {
        let mut receiver = start.clone();
        let began = Instant::now();
        black_box(receiver.pass(black_box(u32::MAX)));
        spent += began.elapsed();
        count += 1;
    }
    spent.as_nanos() as f64 / f64::from(count)
}

/// Nanoseconds of a heartbeat, of passing a millisecond and of freeing all entries, by turns, each of the library, the plain receiver and the
/// second program's.
pub fn beats_and_passes(before: Vec<u8>, rounds: usize) -> [[f64; 3]; 3] {
    let load = Load::new(before, vec![vec![0, 4]; MESSAGES]);
    let library: Library = load.receiver();
    let plain: Plain = load.receiver();
    let second: Second = load.receiver();
    let [a, b, c, d, e, f, g, h, i] = in_turns(
        rounds,
        [
            &mut || round(&library, &load),
            &mut || round(&plain, &load),
            &mut || round(&second, &load),
            &mut || passes(&library),
            &mut || passes(&plain),
            &mut || passes(&second),
            &mut || freeing(&library),
            &mut || freeing(&plain),
            &mut || freeing(&second),
        ],
    );
    [[a, b, c], [d, e, f], [g, h, i]]
}

/// Nanoseconds of sending the table at the first place again and again.
fn definitions<R: Receiver>(start: &R) -> f64 {
    let mut sender = start.clone();
    let mut room = [0; SEND_ROOM];
    repeated(|| _ = black_box(sender.send(black_box(Part::Table(0)), 1, &mut room)))
}

/// Nanoseconds of sending the first entries of that table again and again, each ID following the last.
fn entries<R: Receiver>(start: &R, count: u32) -> f64 {
    let mut sender = start.clone();
    let mut room = [0; SEND_ROOM];
    sender
        .send(Part::Table(0), 1, &mut room)
        .expect("the table is held");
    let mut id = 0;
    repeated(|| {
        let place = (id % count) as usize;
        let sent = sender.send(black_box(Part::Entry(place)), id, &mut room);
        black_box(sent).expect("the entry is held");
        id += 1;
    })
}

/// Nanoseconds of a heartbeat, of sending the table's definition and of sending an entry, by turns, each of the library, the plain receiver
/// and the second program's. So many entries are held.
pub fn beats_and_sends(before: Vec<u8>, count: u32, rounds: usize) -> [[f64; 3]; 3] {
    let load = Load::new(before, vec![vec![0, 4]; MESSAGES]);
    let library: Library = load.receiver();
    let plain: Plain = load.receiver();
    let second: Second = load.receiver();
    let [a, b, c, d, e, f, g, h, i] = in_turns(
        rounds,
        [
            &mut || round(&library, &load),
            &mut || round(&plain, &load),
            &mut || round(&second, &load),
            &mut || definitions(&library),
            &mut || definitions(&plain),
            &mut || definitions(&second),
            &mut || entries(&library, count),
            &mut || entries(&plain, count),
            &mut || entries(&second, count),
        ],
    );
    [[a, b, c], [d, e, f], [g, h, i]]
}

/// Sends a table and its first entries, and has another read each message, if it is there: the number of messages.
fn teach<R: Receiver>(sender: &mut R, mut reader: Option<&mut R>, count: u32) -> u32 {
    let mut room = [0; SEND_ROOM];
    let entries = (0..count).map(|n| (Part::Entry(n as usize), n));
    for (part, id) in [(Part::Table(0), 1)].into_iter().chain(entries) {
        let sent = sender.send(black_box(part), id, &mut room);
        let len = sent.expect("table and entries are held");
        if let Some(reader) = &mut reader {
            black_box(reader.take_all(&room[..len]));
        }
    }
    1 + count
}

/// Nanoseconds per message of a whole store that is sent, and read too if another session is given, each time from the start.
fn whole_stores<R: Receiver>(start: &R, reader: Option<&R>, count: u32) -> f64 {
    let (mut spent, mut messages) = (Duration::ZERO, 0);
    while spent < ROUND {
        let (mut sender, mut reader) = (start.clone(), reader.cloned());
        let began = Instant::now();
        messages += teach(&mut sender, reader.as_mut(), count);
        spent += began.elapsed();
    }
    spent.as_nanos() as f64 / f64::from(messages)
}

/// Nanoseconds per message of a store with so many entries that is taught: sent alone, and sent and read, by turns, each of the library, the
/// plain receiver and the second program's.
pub fn taught(before: Vec<u8>, empty: Vec<u8>, count: u32, rounds: usize) -> [[f64; 3]; 2] {
    let (full, empty) = (Load::new(before, vec![]), Load::new(empty, vec![]));
    let library: [Library; 2] = [full.receiver(), empty.receiver()];
    let plain: [Plain; 2] = [full.receiver(), empty.receiver()];
    let second: [Second; 2] = [full.receiver(), empty.receiver()];
    let [a, b, c, d, e, f] = in_turns(
        rounds,
        [
            &mut || whole_stores(&library[0], None, count),
            &mut || whole_stores(&plain[0], None, count),
            &mut || whole_stores(&second[0], None, count),
            &mut || whole_stores(&library[0], Some(&library[1]), count),
            &mut || whole_stores(&plain[0], Some(&plain[1]), count),
            &mut || whole_stores(&second[0], Some(&second[1]), count),
        ],
    );
    [[a, b, c], [d, e, f]]
}

/// Nanoseconds of a function that is called again and again.
pub fn repeated(mut function: impl FnMut()) -> f64 {
    let (began, mut count) = (Instant::now(), 0);
    while began.elapsed() < ROUND {
        (0..MESSAGES).for_each(|_| function());
        count += MESSAGES;
    }
    began.elapsed().as_nanos() as f64 / count as f64
}

/// Nanoseconds that the clock itself takes.
pub fn clock(rounds: usize) -> f64 {
    let mut round = || {
        let spent: Duration = (0..MESSAGES).map(|_| Instant::now().elapsed()).sum();
        spent.as_nanos() as f64 / MESSAGES as f64
    };
    let [best] = in_turns(rounds, [&mut round]);
    best
}
