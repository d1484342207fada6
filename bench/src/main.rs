//! Prints what a call costs, beside two other receivers on the same streams in the same run.

#![forbid(unsafe_code)]

use bench::measure::{beats_and_passes, beats_and_sends, taught};
use bench::measure::{calls, clock, in_turns, times, Load, MESSAGES};
use bench::receivers::{Library, Plain, Second, ROOM};
use bench::rows::{document, heading, heading_of_bytes, row, row_of_bytes, row_of_ratios};
use bench::streams::{filling, long_filling, long_updates, message, update, updates};
use bench::streams::{traffic_filling, traffic_updates, BY_LENGTH, HELLO};
use bench::{archive, machine, shares};

/// Rounds of each measurement, of which the best counts.
const ROUNDS: usize = 100;

/// Heartbeats, and updates of held keys: what the document has of them, for 1 entry and for 128.
fn store_levels() -> Vec<[f64; 3]> {
    let mut told = Vec::new();
    heading("By entries held");
    let heartbeats = |entries| Load::new(filling(entries), vec![vec![0, 4]; MESSAGES]);
    row("0 entries, heartbeat", times(&heartbeats(0), ROUNDS));
    for (level, entries) in [("1 entry", 1), ("64 entries", 64), ("128 entries", 128)] {
        let single = Load::new(filling(entries), updates(MESSAGES as u32, entries));
        let joined = Load {
            messages: MESSAGES,
            ..Load::new(filling(entries), vec![single.pieces.concat()])
        };
        for (what, load, is_told) in [
            ("heartbeat", &heartbeats(entries), entries != 64),
            ("update, one to a piece", &single, entries != 64),
            ("update, 40 to a piece", &joined, false),
        ] {
            let times = times(load, ROUNDS);
            row(&format!("{level}, {what}"), times);
            told.extend(is_told.then_some(times));
        }
    }
    told
}

/// Time that passes and frees no entry, and all, beside a heartbeat in the same rounds.
fn passing() {
    heading("Passing time, by entries held: 1 ms, and so much that all entries are freed");
    for entries in [0, 64, 128] {
        let [beats, passes, frees] = beats_and_passes(filling(entries), ROUNDS);
        row(&format!("{entries} entries, heartbeat"), beats);
        row(&format!("{entries} entries, passing 1 ms"), passes);
        row_of_ratios("passing 1 ms to heartbeat", passes, beats);
        row(&format!("{entries} entries, freeing all"), frees);
        row_of_ratios("freeing all to heartbeat", frees, beats);
    }
}

/// A definition and an entry sent, beside a heartbeat in the same rounds: the aim is at most 1.5 times as long.
fn sending() {
    heading("Sending, by entries held: a definition, and an entry whose ID follows the last");
    for (level, entries) in [("1 entry", 1), ("64 entries", 64), ("128 entries", 128)] {
        let [beats, definitions, updates] = beats_and_sends(filling(entries), entries, ROUNDS);
        row(&format!("{level}, heartbeat"), beats);
        row(&format!("{level}, a definition"), definitions);
        row_of_ratios("a definition to heartbeat", definitions, beats);
        row(&format!("{level}, an entry"), updates);
        row_of_ratios("an entry to heartbeat", updates, beats);
    }
}

/// A store taught to an empty one: a definition and 128 entries.
fn teaching() {
    heading("A store of 128 entries taught, per message of 129");
    let [sent, read] = taught(filling(128), HELLO.to_vec(), 128, ROUNDS);
    row("sent", sent);
    row("sent and read by another", read);
}

/// Updates of keys that aren't held.
fn new_keys() {
    heading(&format!(
        "An update of a new key, each to a clone of the state; the clock's {:.0} ns are in it",
        clock(ROUNDS)
    ));
    for entries in [0, 64, 127] {
        let load = Load::cloned(filling(entries), update(1000, entries), MESSAGES);
        row(&format!("{entries} entries before"), times(&load, ROUNDS));
    }
}

/// One message of growing length.
fn lengths() {
    heading_of_bytes("One message of n body bytes in one piece");
    for body in [0, 16, 64, 256, 1024] {
        let whole = message(200, &vec![7; body]);
        let len = whole.len();
        let load = Load::new(filling(1), vec![whole; MESSAGES]);
        row_of_bytes(&format!("{body} bytes"), times(&load, ROUNDS), len);
    }
}

/// Values of growing length: what reading an integer costs.
fn value_lengths() {
    heading("An update of 1 held key, bytes in and bytes out taking n bytes each");
    for (bytes, value) in BY_LENGTH {
        let updates = traffic_updates(MESSAGES as u32, value);
        let load = Load::new(traffic_filling(value), updates);
        row(&format!("n = {bytes}"), times(&load, ROUNDS));
    }
}

/// One message whole and in pieces, down to byte by byte.
fn reassembly() {
    let whole = message(200, &[7; 1024]);
    heading_of_bytes(&format!("One message of {} bytes in pieces", whole.len()));
    for (piece, messages, rounds) in [
        (whole.len(), MESSAGES, ROUNDS),
        (256, 10, ROUNDS),
        (16, 1, ROUNDS),
        (1, 1, 20),
    ] {
        let pieces: Vec<_> = whole.chunks(piece).map(<[u8]>::to_vec).collect();
        let load = Load {
            messages,
            ..Load::new(filling(1), vec![pieces; messages].concat())
        };
        let name = format!("pieces of {piece}, best of {rounds} rounds");
        row_of_bytes(&name, times(&load, rounds), whole.len());
    }
}

/// What one call costs where most of its piece stays untaken.
fn fronts() {
    heading("A heartbeat at the front of a piece of n bytes");
    let load = Load::new(filling(1), vec![]);
    let library: Library = load.receiver();
    let plain: Plain = load.receiver();
    let second: Second = load.receiver();
    for len in [2, 100, 10_000, 1_000_000] {
        let piece = &[vec![0, 4], vec![0; len - 2]].concat();
        let times = in_turns(
            ROUNDS,
            [
                &mut || calls(&library, piece, &mut [0; ROOM]),
                &mut || calls(&plain, piece, &mut [0; ROOM]),
                &mut || calls(&second, piece, &mut [0; ROOM]),
            ],
        );
        row(&format!("{len} bytes"), times);
    }
}

/// Many messages in one session.
fn message_counts() {
    heading("n updates of 128 held keys, one after another");
    for (count, rounds) in [(1_000, 15), (10_000, 5), (100_000, 2)] {
        let load = Load::new(filling(128), updates(count, 128));
        let name = format!("{count} updates, best of {rounds} rounds");
        row(&name, times(&load, rounds));
    }
}

/// Keys with one hash have to be compared themselves: an update with none, and with two.
fn one_hash() -> [[f64; 3]; 2] {
    heading("An update of 128 held keys of 64 bytes");
    let [apart, same] = [false, true].map(|twins| {
        let load = Load::new(long_filling(twins), long_updates(MESSAGES as u32, twins));
        times(&load, ROUNDS)
    });
    row("128 entries", apart);
    row("128 entries, two keys with one hash", same);
    row_of_ratios("two keys with one hash to none", same, apart);
    [apart, same]
}

fn main() {
    println!("Machine: {}", machine::text());
    println!("Library: {}", archive::text());
    println!("Best of {ROUNDS} rounds where no other number is told, receivers in turns.");
    let levels = store_levels();
    passing();
    sending();
    teaching();
    new_keys();
    lengths();
    value_lengths();
    reassembly();
    fronts();
    message_counts();
    let long = one_hash();
    shares::print(ROUNDS);
    document(&machine::name(), &levels, long);
}
