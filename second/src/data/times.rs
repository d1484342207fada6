//! Scripts of timed updates and of passing time.

use super::scripts::{shape, Script, EXAMPLE, HELLO};
use crate::generate::values::Shape;
use crate::generate::wire::{self, Message};
use crate::record::Role;
use crate::replay::Command;
use crate::store::{Times, BINARY, ENTRIES};

/// Times next to the limits, to an expiry of 60,000 and to 2^31.
const TIMES: [u32; 11] = [
    0,
    1,
    2,
    59_999,
    60_000,
    60_001,
    (1 << 31) - 1,
    1 << 31,
    (1 << 31) + 1,
    u32::MAX - 1,
    u32::MAX,
];

/// All scripts of this kind.
pub fn times() -> Vec<u8> {
    let mut script = Script::default();
    expiries(&mut script);
    passing(&mut script);
    twice(&mut script);
    anywhere(&mut script);
    inside(&mut script);
    places(&mut script);
    script.0
}

/// The shape of the tables: keys of one byte, one value.
fn bytes() -> Shape {
    shape(BINARY, 1, 1 << 2)
}

/// A definition with or without an expiry; its ID is 1.
fn table(name: &[u8], expiry: Option<u32>) -> Vec<u8> {
    let times = expiry.map(|expiry| Times {
        expiry: expiry.into(),
        periods: Vec::new(),
    });
    wire::definition(1, name, bytes(), times.as_ref()).bytes()
}

/// An update of a key, incremental without an ID, timed with a time.
fn update(id: Option<u32>, key: u8, time: Option<u32>) -> Vec<u8> {
    let message: Message = wire::update(id, &[key], bytes(), &[key.into()]);
    match time {
        Some(time) => message.timed(time).bytes(),
        None => message.bytes(),
    }
}

/// Adds tables with each expiry and none: each form of an update, new and on
/// a held entry, and a later definition that changes the expiry.
fn expiries(script: &mut Script) {
    for expiry in TIMES.map(Some).into_iter().chain([None]) {
        script.open();
        script.pieces(&[&table(b"t", expiry)]);
        for (key, time) in [(1, None), (2, Some(0)), (3, Some(u32::MAX)), (4, None)] {
            script.pieces(&[&update(Some(7), key, time)]);
            script.pieces(&[&update(None, key + 10, time)]);
        }
        script.add(Command::Dump);
        for (key, time) in [(1, Some(5)), (2, None), (3, None), (4, Some(0))] {
            script.pieces(&[&update(None, key, time)]);
            script.pieces(&[&update(Some(u32::MAX), key + 10, time)]);
        }
        script.add(Command::Dump);
        script.pieces(&[&table(b"t", Some(77)), &update(None, 1, None)]);
        script.add(Command::Dump);
        script.pieces(&[&table(b"t", None), &update(None, 2, None)]);
        script.add(Command::Dump);
    }
}

/// Adds a session with one entry of each time and one of none.
fn all_times(script: &mut Script) {
    script.open();
    script.pieces(&[&table(b"t", None), &update(Some(9), 0, None)]);
    for (key, time) in TIMES.into_iter().enumerate() {
        script.pieces(&[&update(None, key as u8 + 1, Some(time))]);
    }
}

/// Passes each time on entries of all times, then takes the free places.
fn passing(script: &mut Script) {
    for time in TIMES {
        all_times(script);
        script.add(Command::Pass(time));
        script.add(Command::Dump);
        for key in 20..24 {
            script.pieces(&[&update(None, key, Some(key.into()))]);
        }
        script.add(Command::Dump);
    }
}

/// Passes one time after another, and both at once.
fn twice(script: &mut Script) {
    let pairs = [
        (0, 0),
        (0, 1),
        (1, 1),
        (59_999, 1),
        (1, 59_999),
        (60_000, u32::MAX - 60_000),
        (u32::MAX, 0),
    ];
    for (one, other) in pairs {
        for times in [&[one, other][..], &[one + other]] {
            all_times(script);
            for &time in times {
                script.add(Command::Pass(time));
            }
            script.add(Command::Dump);
        }
    }
}

/// Passes time in the handshake, inside a message, after a refusal, after the
/// peer's error and before a reconnection.
fn anywhere(script: &mut Script) {
    let pass = |script: &mut Script| {
        script.add(Command::Pass(1));
        script.add(Command::Dump);
    };
    script.add(Command::Open(Role::Answerer));
    pass(script);
    script.pieces(&[&HELLO[..9]]);
    pass(script);
    script.pieces(&[&HELLO[9..]]);
    let message = update(None, 1, Some(3));
    for ending in [&[0, 5][..], &[1, 0], &message[..5]] {
        all_times(script);
        let (one, other) = message.split_at(6);
        script.pieces(&[one]);
        pass(script);
        script.pieces(&[other, ending]);
        pass(script);
        script.pieces(&[&[0, 4]]);
        script.add(Command::Reconnect(Role::Caller));
        pass(script);
        script.pieces(&[b"200\n", EXAMPLE]);
        pass(script);
    }
}

/// Passes time at every place inside an update of each form for a key that has
/// 3 left: 2 leave the entry to be replaced, 3 remove it before its update.
fn inside(script: &mut Script) {
    let forms = [
        (Some(9), None),
        (None, None),
        (Some(9), Some(3)),
        (None, Some(0)),
    ];
    for (id, time) in forms {
        let message = update(id, 2, time);
        for (cut, passed) in (1..message.len()).flat_map(|cut| [(cut, 2), (cut, 3)]) {
            let (one, other) = message.split_at(cut);
            script.open();
            script.pieces(&[&table(b"t", Some(4)), &update(Some(8), 1, None)]);
            script.pieces(&[&update(None, 2, Some(3)), one]);
            script.add(Command::Pass(passed));
            script.pieces(&[other]);
            script.add(Command::Dump);
        }
    }
}

/// Fills the store with entries of three times, passes two of them and fills
/// it again, one by one, until it refuses; then frees it on the closed session
/// and goes on with the next.
fn places(script: &mut Script) {
    script.open();
    script.pieces(&[&table(b"t", Some(10)), &update(Some(9), 0, Some(5))]);
    for key in 1..ENTRIES as u8 {
        let time = [Some(5), None, Some(20)][usize::from(key) % 3];
        script.pieces(&[&update(None, key, time)]);
    }
    script.pieces(&[&update(None, 1, None)]);
    for time in [5, 5] {
        script.add(Command::Pass(time));
        script.add(Command::Dump);
    }
    for key in 128..=214 {
        script.pieces(&[&update(None, key, Some(1))]);
    }
    script.add(Command::Dump);
    script.add(Command::Pass(1));
    script.add(Command::Dump);
    script.add(Command::Reconnect(Role::Answerer));
    script.pieces(&[HELLO, &table(b"t", Some(10)), &update(Some(1), 214, None)]);
    script.pieces(&[&update(None, 128, Some(u32::MAX)), &update(None, 2, None)]);
    script.add(Command::Dump);
}
