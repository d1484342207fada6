//! Sizes and offsets, and then limits and the numbers of types, places and phases, are those of `constants.txt`, which the C test reads too. No
//! struct has padding: its size is the sum of its fields'.

use crate::common::State;
use peers::layout::{Binding, Connection, Entry, Opened, Outcome, Session, Store, Table};
use peers::layout::{Sending, Sent};
use peers::{DataType, KeyType, Value};
use std::fmt::Write;
use std::mem::{align_of, offset_of, size_of};

/// The size of the field that a function gives.
fn size_of_field<S, F>(_: fn(&S) -> &F) -> usize {
    size_of::<F>()
}

macro_rules! describe {
    ($text:ident, $name:literal, $type:ty: $($field:ident)*) => {
        writeln!($text, "{} {} {}", $name, size_of::<$type>(), align_of::<$type>()).unwrap();
        $(writeln!($text, "{}.{} {}", $name, stringify!($field), offset_of!($type, $field)).unwrap();)*
        let fields = [$(size_of_field(|s: &$type| &s.$field)),*];
        assert_eq!(fields.iter().sum::<usize>(), size_of::<$type>(), "padding in {}", $name);
    };
}

fn structs() -> String {
    let mut text = String::new();
    describe!(text, "table", Table: held key_type timed data_types name_len key_len expiry periods name);
    describe!(text, "entry", Entry: held server_id timed remaining table key_len key values);
    describe!(text, "store", Store: tables counts entries);
    describe!(text, "binding", Binding: bound updated id previous);
    describe!(text, "connection", Connection: phase closed number current local_len remote_len local remote bindings);
    describe!(text, "sending", Sending: defined sent last);
    describe!(text, "session", Session: connection len buffer sending);
    describe!(text, "outcome", Outcome: taken reply_len number count values);
    describe!(text, "opened", Opened: session outcome);
    describe!(text, "sent", Sent: number len);
    text
}

/// The limits by their names in C.
fn limits() -> String {
    macro_rules! named {
        ($from:path: $($name:ident)*) => {{
            use $from as from;
            [$(format!("PEERS_{} {}\n", stringify!($name), from::$name)),*].concat()
        }};
    }
    named!(peers::layout: TABLES ENTRIES NAME_MAX KEY_MAX RATES VALUES UNFINISHED_MAX BUFFER)
        + &named!(peers: OPENING_ROOM READING_ROOM SEND_ROOM)
}

/// Key types and data types by their names in C, the latter as they are in HAProxy's configuration.
fn types() -> String {
    let keys = KeyType::ALL.map(|t| (format!("KEY_{t:?}"), t.number()));
    let data = DataType::ALL.map(|t| (t.name().to_owned(), t.number()));
    let lines = keys.into_iter().chain(data);
    lines
        .map(|(name, number)| format!("PEERS_{} {number}\n", name.to_uppercase()))
        .collect()
}

/// A table with all data types, whose periods are their own places, and an entry whose values are.
fn numbered() -> State {
    let mut state = State::established();
    let store = state.store.layout_mut();
    (store.tables[0].held, store.entries[0].held) = (1, 1);
    (store.tables[0].data_types, store.tables[0].timed) = (0x7_FFFF, 1);
    store.tables[0].periods = [0, 1, 2, 3, 4, 5, 6, 7];
    store.entries[0].values = std::array::from_fn(|slot| slot as u64);
    state
}

/// The place of each data type's values, and of each rate's period.
fn places() -> String {
    let state = numbered();
    let entry = state.store.entry(0).expect("it is held");
    let (mut slots, mut periods) = (String::new(), String::new());
    for (data_type, value) in entry.values() {
        let name = data_type.name().to_uppercase();
        let slot = match value {
            Value::Server(_) => continue,
            Value::Number(slot) => slot,
            Value::Rate {
                elapsed,
                current,
                previous,
            } => {
                assert_eq!((current, previous), (elapsed + 1, elapsed + 2));
                let period = entry.table().period(data_type).expect("it is a rate");
                writeln!(periods, "PEERS_PERIOD_{name} {period}").unwrap();
                elapsed
            }
        };
        writeln!(slots, "PEERS_SLOT_{name} {slot}").unwrap();
    }
    slots + &periods
}

/// How far a session is.
fn phases() -> String {
    let phase = |state: State| state.session.layout().connection.phase;
    let [hello, status] = [State::answerer(), State::caller()].map(phase);
    let established = phase(State::established());
    format!("PEERS_AWAITING_HELLO {hello}\nPEERS_AWAITING_STATUS {status}\nPEERS_ESTABLISHED {established}\n")
}

#[test]
fn all_of_the_file() {
    let text = [structs(), limits(), types(), places(), phases()].concat();
    let lines = include_str!("../../constants.txt").lines();
    for (number, (own, expected)) in text.lines().zip(lines).enumerate() {
        assert_eq!(own, expected, "line {}", number + 1);
    }
    assert_eq!(text, include_str!("../../constants.txt"));
}

/// A data type is its number, and the bit of a table at that place.
#[test]
fn data_types_by_number() {
    let mut state = numbered();
    let mut bit = 1;
    for number in 0..=255 {
        let data_type = DataType::of(number);
        assert_eq!(
            data_type.map(DataType::number),
            (number < 19).then_some(number)
        );
        if let Some(data_type) = data_type {
            state.store.layout_mut().tables[0].data_types = bit;
            let table = state.store.table(0).expect("it is held");
            assert_eq!(table.data_types().collect::<Vec<_>>(), [data_type]);
            bit *= 2;
        }
    }
}

/// The header's constants by their names, but for those that the texts of answers and refusals cover, and the versions.
fn header_constants() -> Vec<String> {
    let (mut found, mut covered) = (Vec::new(), false);
    for line in include_str!("../../../include/peers.h").lines() {
        if line.starts_with("enum ") {
            covered = ["enum peers_answer {", "enum peers_refusal {"].contains(&line);
        }
        let line = line.replace(" = ", " ").replace(',', " ");
        let words: Vec<_> = line
            .trim_start_matches("#define ")
            .split_whitespace()
            .collect();
        let versions = ["PEERS_VERSION", "PEERS_LAYOUT"];
        if let [name, number, ..] = words[..] {
            let named = name.starts_with("PEERS_") && number.parse::<u32>().is_ok();
            if named && !covered && !versions.contains(&name) {
                found.push(format!("{name} {number}"));
            }
        }
    }
    found
}

/// No constant of the header is missing in the file.
#[test]
fn all_of_the_header() {
    let lines = include_str!("../../constants.txt").lines();
    let constants: Vec<_> = lines.filter(|line| line.starts_with("PEERS_")).collect();
    assert_eq!(header_constants(), constants);
}
