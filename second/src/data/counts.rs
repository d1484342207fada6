//! A script with a dump after each step that could touch the counts.

use super::scripts::{shape, Script, HELLO};
use crate::generate::values::Shape;
use crate::generate::wire;
use crate::record::Role;
use crate::replay::Command;
use crate::store::{Times, BINARY, ENTRIES, TABLES};

/// The shape of the tables: keys of one byte, no values.
fn bytes() -> Shape {
    shape(BINARY, 1, 0)
}

/// The definition of a table; its ID is its place, its expiry 10 times that.
fn table(place: usize) -> Vec<u8> {
    let times = Times {
        expiry: 10 * place as u64,
        periods: Vec::new(),
    };
    let name = [b'a' + place as u8];
    wire::definition(place as u64, &name, bytes(), Some(&times)).bytes()
}

/// An update of a key.
fn update(id: Option<u32>, key: u8, time: Option<u32>) -> Vec<u8> {
    let message = wire::update(id, &[key], bytes(), &[]);
    match time {
        Some(time) => message.timed(time).bytes(),
        None => message.bytes(),
    }
}

impl Script {
    /// Adds a piece and a dump.
    fn shown(&mut self, piece: &[u8]) {
        self.pieces(&[piece]);
        self.add(Command::Dump);
    }

    /// Adds a passing call and a dump.
    fn passed(&mut self, milliseconds: u32) {
        self.add(Command::Pass(milliseconds));
        self.add(Command::Dump);
    }
}

/// Counts that rise and fall in all tables, and calls that leave them.
pub fn counts() -> Vec<u8> {
    let mut script = Script::default();
    one_by_one(&mut script);
    refused(&mut script);
    one_table(&mut script);
    script.0
}

/// Adds entries to each table, one more than to the one before, and passes
/// time until none is left.
fn one_by_one(script: &mut Script) {
    script.add(Command::Open(Role::Answerer));
    script.add(Command::Dump);
    script.shown(HELLO);
    for place in 0..TABLES {
        script.shown(&table(place));
        script.shown(&update(Some(9), 0, None));
        for key in 1..=place as u8 {
            script.pieces(&[&update(None, key, Some(3))]);
        }
        script.shown(&update(None, 0, None));
    }
    for time in [0, 2, 1, 10, 20, 0, u32::MAX, 1] {
        script.passed(time);
    }
}

/// Adds refused messages of each kind on a store with entries, and sessions
/// that follow on it.
fn refused(script: &mut Script) {
    let message = update(Some(9), 1, None);
    let cut = [0x0A, 0x80, 4, 0, 0, 0, 9];
    let unbound = wire::switch(77).bytes();
    let disagreeing = wire::definition(1, b"b", shape(BINARY, 2, 0), None).bytes();
    let not_plain = wire::definition(1, b"b ", bytes(), None).bytes();
    let endings: [&[u8]; 6] = [&cut, &unbound, &disagreeing, &not_plain, &[0, 5], &[1, 0]];
    script.open();
    script.pieces(&[&table(1), &message, &update(Some(9), 2, Some(1))]);
    for ending in endings {
        script.shown(ending);
        script.shown(&message);
        script.add(Command::Reconnect(Role::Caller));
        script.shown(b"200\n");
        script.pieces(&[&table(2), &message]);
    }
    script.passed(5);
}

/// Fills the store with the entries of one table, refuses another, and passes
/// time for all but one.
fn one_table(script: &mut Script) {
    script.open();
    script.pieces(&[&table(7), &update(Some(9), 0, Some(u32::MAX))]);
    for key in 1..ENTRIES as u8 {
        script.pieces(&[&update(None, key, None)]);
    }
    script.shown(&update(None, 5, Some(70)));
    script.shown(&update(None, 200, None));
    script.passed(69);
    script.passed(1);
}
