//! Scripts of definitions: key types and names.

use super::scripts::{shape, Script, HELLO};
use crate::frame::table_message;
use crate::generate::values::Shape;
use crate::generate::wire::{self, Message};
use crate::generate::wire::{FAR_FROM_PLAIN, KEY_TYPE, NAME, NEXT_TO_PLAIN};
use crate::integer::encode;
use crate::message::DEFINITION;
use crate::record::Role;
use crate::replay::Command;
use crate::store::{Times, INTEGER, IPV4, TABLES};

/// Definitions with key types in and out of range, each at the end of the body
/// and with key lengths next to every limit.
pub fn key_types() -> Vec<u8> {
    let mut script = Script::default();
    let mut numbers: Vec<u64> = (0..=9).collect();
    numbers.extend([16, 127, 128, 239, 240, 258, 65538, u64::MAX]);
    numbers.extend((0..=8).map(|number| (1 << 32) + number));
    for number in numbers {
        let start = [&[1, 1, b'k'], &encode(number)[..]].concat();
        script.after(&[], &table_message(DEFINITION, &start));
        for length in [0, 1, 3, 4, 5, 15, 16, 17, 63, 64, 65, (1 << 32) + 4] {
            let body = [&start[..], &encode(length), &[0]].concat();
            script.after(&[], &table_message(DEFINITION, &body));
            script.add(Command::Dump);
        }
    }
    script.0
}

/// Plain bytes, those next to bytes of another kind among them.
const PLAIN: &[u8] = b"-./09:AZ_az";

/// Names of every byte, and names that aren't plain: at the first, second and
/// last place, with and without other faults, on few and on all tables, and
/// divided.
pub fn names() -> Vec<u8> {
    let mut script = Script::default();
    for byte in 0..=255 {
        script.after(&[], &named(&[byte]).bytes());
    }
    for &byte in PLAIN.iter().chain(NEXT_TO_PLAIN).chain(FAR_FROM_PLAIN) {
        for length in [3, 32] {
            for at in [0, 1, length - 1] {
                let mut name = vec![b'n'; length];
                name[at] = byte;
                script.after(&[], &named(&name).bytes());
                script.after(&[], &named(&name).up_to(NAME).bytes());
            }
        }
    }
    with_other_faults(&mut script, b"n;n");
    with_other_faults(&mut script, b"\xFF");
    on_all_tables(&mut script);
    divided(&mut script);
    script.0
}

/// The shape of the tables.
fn integers() -> Shape {
    shape(INTEGER, 4, 1 << 3)
}

/// A definition with this name.
fn named(name: &[u8]) -> Message {
    let times = Times {
        expiry: 5,
        periods: vec![6],
    };
    wire::definition(1, name, integers(), Some(&times))
}

/// Adds definitions with a name that isn't plain: cut after every byte, and
/// with every other field out of range.
fn with_other_faults(script: &mut Script, name: &[u8]) {
    let message = named(name);
    let body = message.body();
    for length in 0..=body.len() {
        script.after(&[], &table_message(DEFINITION, &body[..length]));
    }
    for (place, field) in message.fields.iter().enumerate() {
        for bad in field.near.iter().chain(&field.far) {
            script.after(&[], &message.with_field(place, bad.clone(), true));
        }
    }
}

/// Adds definitions on a store with all tables held.
fn on_all_tables(script: &mut Script) {
    let names: [&[u8]; 5] = [b"table:0", b"table:9", b"table;0", b"table:0\n", b"\0"];
    let tables = (0..TABLES).map(|place| format!("table:{place}"));
    let tables: Vec<Vec<u8>> = tables.map(|name| named(name.as_bytes()).bytes()).collect();
    for name in names {
        let message = named(name);
        script.after(&tables, &message.bytes());
        script.after(&tables, &message.with(KEY_TYPE, encode(IPV4)).bytes());
        script.add(Command::Dump);
    }
}

/// Adds a definition divided in two in every way, then calls on the closed
/// session, and last a new session on the store.
fn divided(script: &mut Script) {
    let held = named(b"n:n").bytes();
    let message = named(b"n;n").bytes();
    for cut in 0..=message.len() {
        let (one, two) = message.split_at(cut);
        script.after(std::slice::from_ref(&held), one);
        script.pieces(&[two, &message, &[0, 4]]);
        script.add(Command::Dump);
    }
    script.add(Command::Reconnect(Role::Answerer));
    script.pieces(&[HELLO, &held]);
    script.add(Command::Dump);
}
