//! Where the time of a call goes: library and plain receiver side by side.

use crate::measure::{in_turns, repeated, round, Load, MESSAGES};
use crate::plain;
use crate::receivers::{Library, Plain, Receiver, ROOM};
use crate::streams::{filling, message, update};
use std::hint::black_box;

/// Heartbeats with so many entries held.
fn heartbeats(entries: u32) -> Load {
    Load::new(filling(entries), vec![vec![0, 4]; MESSAGES])
}

/// Prints what each message costs, and which parts of it the entries and the message itself take.
pub fn print(rounds: usize) {
    println!("\nWhere the time goes, with 128 entries held: ns, and per cent of the call");
    println!("base: a heartbeat with no entry held; entries: what it takes more with 128; message: what this message takes more than a heartbeat");
    println!("{:<32}{:>52}{:>52}", "", "library", "plain");
    let names = ["whole", "base", "entries", "message"];
    let names = names.map(|name| format!("{name:>13}")).concat();
    println!("{:<32}{names}{names}", "");
    let full = || filling(128);
    let updating = |number| vec![update(1000, number); MESSAGES];
    for (name, load) in [
        (
            "skipped message",
            Load::new(full(), vec![message(200, &[7; 16]); MESSAGES]),
        ),
        ("update at the first place", Load::new(full(), updating(0))),
        ("update at the last place", Load::new(full(), updating(127))),
    ] {
        line(name, &load, rounds);
    }
    println!(
        "plain, update at the last place without tests, measured by itself: {:.0} ns",
        untested(rounds)
    );
}

/// Nanoseconds of a plain update without any test.
fn untested(rounds: usize) -> f64 {
    let mut own: Plain = Load::new(filling(128), vec![]).receiver();
    let piece = &update(1000, 127);
    let mut room = [0; ROOM];
    let mut call = || {
        let piece = black_box(piece);
        black_box(plain::receive(
            &mut own.session,
            &mut own.store,
            piece,
            &mut room,
        ));
    };
    let [best] = in_turns(rounds, [&mut || repeated(&mut call)]);
    best
}

/// Starts of a receiver: for a heartbeat with no entry, for one with 128, and for the message.
fn starts<R: Receiver>(loads: [&Load; 3]) -> [R; 3] {
    loads.map(Load::receiver)
}

fn line(name: &str, load: &Load, rounds: usize) {
    let (empty, full) = (heartbeats(0), heartbeats(128));
    let loads = [&empty, &full, load];
    let library: [Library; 3] = starts(loads);
    let plain: [Plain; 3] = starts(loads);
    let [a, b, c, d, e, f] = in_turns(
        rounds,
        [
            &mut || round(&library[0], loads[0]),
            &mut || round(&plain[0], loads[0]),
            &mut || round(&library[1], loads[1]),
            &mut || round(&plain[1], loads[1]),
            &mut || round(&library[2], loads[2]),
            &mut || round(&plain[2], loads[2]),
        ],
    );
    println!("{name:<32}{}{}", parts(a, c, e), parts(b, d, f));
}

/// The whole, and its parts with their shares.
fn parts(empty: f64, full: f64, whole: f64) -> String {
    let part = |ns: f64| format!("{ns:>8.0}{:>4.0}%", 100.0 * ns / whole);
    let parts = [empty, full - empty, whole - full].map(part);
    format!("{whole:>13.0}{}", parts.concat())
}
