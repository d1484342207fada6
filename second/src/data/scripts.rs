//! Scripts that go through the limits one by one.

use super::{counts, definitions, sending, times};
use crate::datatype;
use crate::frame::table_message;
use crate::generate::values::Shape;
use crate::generate::wire::{self, Field, Message};
use crate::integer::encode;
use crate::record::Role;
use crate::replay::Command;
use crate::store::{Times, BINARY, ENTRIES, INTEGER, IPV4, IPV6, STRING, TABLES};
use std::collections::BTreeSet;

/// An accepted hello.
pub const HELLO: &[u8] = b"HAProxyS 2.1\neast\nwest 7 0\n";

/// The messages of the listing's example.
pub const EXAMPLE: &[u8] = &[
    0x0A, 0x82, 0x0A, 0x01, 0x02, 0x74, 0x31, 0x02, 0x04, 0x04, 0xF0, 0x97, 0x1C, // table
    0x0A, 0x80, 0x0B, 0xFF, 0xFF, 0xFF, 0xFF, 0x00, 0x00, 0x00, 0x2A, 0xF4, 0x94,
    0x01, // update
    0x0A, 0x81, 0x05, 0x00, 0x00, 0x00, 0x2A, 0x05, // incremental update
    0x00, 0x01, // finished
];

/// A definition of a table with a server ID: name `s`, integer keys.
const SERVER_TABLE: &[u8] = &[0x0A, 0x82, 0x06, 0x01, 0x01, 0x73, 0x02, 0x04, 0x01];

/// All scripts with their names.
pub fn all() -> Vec<(&'static str, Vec<u8>)> {
    let mut list = vec![
        ("divisions", divisions()),
        ("cases", cases()),
        ("fields", fields()),
        ("key-types", definitions::key_types()),
        ("names", definitions::names()),
        ("headers", headers()),
        ("hellos", hellos()),
        ("statuses", statuses()),
        ("limits", limits()),
        ("full", full()),
        ("times", times::times()),
        ("counts", counts::counts()),
        ("sending", sending::sending()),
    ];
    list.extend(ends());
    list
}

/// Scripts that end early, with their names.
fn ends() -> [(&'static str, Vec<u8>); 15] {
    [
        ("end-empty", b"".to_vec()),
        ("end-unknown", b"O\0XD".to_vec()),
        ("end-reconnection-first", b"N\0O\0".to_vec()),
        ("end-call-first", b"C\x0C\0\0O\0".to_vec()),
        ("end-dump-first", b"DO\0".to_vec()),
        ("end-time-first", b"T\0\0\0\0O\0".to_vec()),
        ("end-definition-first", b"P\0\0\0\0\0\x04\x0CO\0".to_vec()),
        ("end-entry-first", b"E\0\0\0\0\0\x04\x0CO\0".to_vec()),
        ("end-cut-open", b"O\0O".to_vec()),
        ("end-cut-reconnection", b"O\x01N".to_vec()),
        ("end-cut-call", b"O\0C\x0C\0".to_vec()),
        ("end-cut-time", b"O\0T\0\0\0\x01T\0\0\0".to_vec()),
        ("end-cut-definition", cut_sending(b'P')),
        ("end-cut-entry", cut_sending(b'E')),
        ("end-cut-piece", b"O\0C\x0C\0\x05HAPr".to_vec()),
    ]
}

/// A script with a whole sending command and one without its last byte.
fn cut_sending(letter: u8) -> Vec<u8> {
    let command = [letter, 0, 0, 0, 0, 1, 4, 0x0C];
    [b"O\0", &command[..], &command[..7]].concat()
}

/// A script under way.
#[derive(Default)]
pub struct Script(pub Vec<u8>);

impl Script {
    /// Adds a command.
    pub fn add(&mut self, command: Command) {
        command.write(&mut self.0);
    }

    /// Adds calls for a piece; each message's bytes are one piece of a call.
    pub fn pieces(&mut self, pieces: &[&[u8]]) {
        for piece in pieces {
            self.add(Command::Call { room: 12, piece });
        }
    }

    /// Adds an open answerer's session.
    pub fn open(&mut self) {
        self.add(Command::Open(Role::Answerer));
        self.pieces(&[HELLO]);
    }

    /// Adds a session with a message after others.
    pub fn after(&mut self, before: &[Vec<u8>], message: &[u8]) {
        self.open();
        for message in before {
            self.pieces(&[message]);
        }
        self.pieces(&[message]);
    }

    /// Adds a session with the parts of a hello and a message behind it.
    fn hello(&mut self, parts: [&[u8]; 5]) {
        let [protocol, version, addressed, sender, numbers] = parts;
        let hello = [
            protocol, version, b"\n", addressed, b"\n", sender, numbers, b"\n",
        ];
        self.add(Command::Open(Role::Answerer));
        self.pieces(&[&hello.concat(), &[0, 1]]);
        self.add(Command::Dump);
    }
}

/// The messages of the example, one by one.
fn example_messages() -> [&'static [u8]; 5] {
    let (table, rest) = EXAMPLE.split_at(13);
    let (update, rest) = rest.split_at(14);
    let (incremental, finished) = rest.split_at(8);
    [HELLO, table, update, incremental, finished]
}

/// The example with each of its messages divided in two in every way, and
/// byte by byte.
fn divisions() -> Vec<u8> {
    let mut script = Script::default();
    let messages = example_messages();
    for (place, message) in messages.iter().enumerate() {
        for cut in 0..=message.len() {
            let (one, two) = message.split_at(cut);
            script.add(Command::Open(Role::Answerer));
            script.pieces(&messages[..place]);
            script.pieces(&[one]);
            if !two.is_empty() {
                script.pieces(&[two]);
            }
            script.pieces(&messages[place + 1..]);
            script.add(Command::Dump);
        }
    }
    script.add(Command::Open(Role::Answerer));
    for message in messages {
        script.pieces(&message.chunks(1).collect::<Vec<_>>());
    }
    script.add(Command::Dump);
    script.0
}

/// The cases of the document, each in a session of its own.
fn cases() -> Vec<u8> {
    let mut script = Script::default();
    let overflow = [0xF0, 0xF1, 0xFE, 0xFE, 0xFE, 0xFE, 0xFE, 0xFE, 0xFE, 0x0E];
    let headers: [&[u8]; 6] = [
        &[0x0A, 0xFF, 0xF0, 0x31],
        &[0x0A, 0xFF, 0xF1, 0x31],
        &[&[0x0A, 0xFF], &overflow[..]].concat(),
        &[0x00, 0x05],
        &[0x0A, 0x80, 0x00],
        &[],
    ];
    for bytes in headers {
        script.open();
        script.pieces(&[bytes]);
        script.add(Command::Dump);
    }
    let max = u64::MAX;
    let edge = 1 << 31;
    for value in [0, edge - 1, edge, max - edge, max - edge + 1, max] {
        script.open();
        script.pieces(&[SERVER_TABLE, &server_update(&encode(value))]);
        script.add(Command::Dump);
    }
    script.open();
    script.pieces(&[SERVER_TABLE, &server_update(&overflow)]);
    script.add(Command::Dump);
    script.0
}

/// An update of the table with a server ID.
fn server_update(value: &[u8]) -> Vec<u8> {
    let body = [&[0, 0, 0, 1, 0, 0, 0, 2], value].concat();
    [&[0x0A, 0x80, body.len() as u8], &body[..]].concat()
}

/// Messages with each field cut after every byte, also inside an integer that
/// is longer, and with every value that is out of range.
fn fields() -> Vec<u8> {
    let mut script = Script::default();
    for (before, message) in field_messages() {
        let body = message.body();
        for length in 0..=body.len() {
            script.after(&before, &table_message(message.kind, &body[..length]));
        }
        for (place, field) in message.fields.iter().enumerate() {
            for bad in field.near.iter().chain(&field.far) {
                script.after(&before, &message.with_field(place, bad.clone(), true));
            }
            for last in ends_of_body(field) {
                script.after(&before, &message.with_field(place, last, false));
            }
        }
    }
    script.0
}

/// Bytes in place of a field at the end of a body: out of range, and cut
/// inside a long integer or a name that isn't plain.
fn ends_of_body(field: &Field) -> Vec<Vec<u8>> {
    let mut list = field.near.clone();
    if let Some(long) = field.far.last() {
        let cuts = BTreeSet::from([1, long.len() - 1, long.len()]);
        list.extend(cuts.iter().map(|&length| long[..length].to_vec()));
    }
    list
}

/// Each key type with its smallest and largest key length.
const KEYS: [(u64, u64); 7] = [
    (INTEGER, 4),
    (IPV4, 4),
    (IPV6, 16),
    (STRING, 64),
    (BINARY, 64),
    (STRING, 1),
    (BINARY, 1),
];

/// Messages, each with those that go before it.
fn field_messages() -> Vec<(Vec<Vec<u8>>, Message)> {
    let times = Times {
        expiry: 60000,
        periods: vec![1000, 4294967295],
    };
    let rates = shape(STRING, 10, 1 << 3 | 1 << 18);
    let mut list = vec![
        (vec![], wire::definition(300, b"name", rates, Some(&times))),
        (vec![], wire::acknowledgement(300, 7)),
        (vec![EXAMPLE[..13].to_vec()], wire::switch(1)),
    ];
    for (key_type, key_length) in KEYS {
        let shape = shape(key_type, key_length, 0);
        let definition = wire::definition(1, b"k", shape, None);
        let update = wire::update(Some(9), &vec![7; key_length as usize], shape, &[]);
        list.push((vec![], definition.clone()));
        list.push((vec![definition.bytes()], update));
    }
    for data_type in 0..datatype::COUNT {
        let shape = shape(STRING, 2, datatype::bit(data_type));
        let values = vec![240; datatype::values(shape.data_types).len()];
        let definition = wire::definition(1, b"d", shape, None).bytes();
        let update = wire::update(Some(u32::MAX), b"k", shape, &values);
        list.push((vec![definition], update));
    }
    list.extend(other_forms(STRING, b"key", &[0, 2, 3, 13]));
    list.extend(other_forms(IPV4, b"\x01\x02\x03\x04", &[18]));
    list
}

/// Updates of the other forms with these data types, and what goes before
/// each.
fn other_forms(key_type: u64, key: &[u8], data_types: &[u32]) -> [(Vec<Vec<u8>>, Message); 3] {
    let bits = data_types.iter().map(|&number| datatype::bit(number));
    let shape = shape(key_type, key.len() as u64, bits.sum());
    let values = vec![240; datatype::values(shape.data_types).len()];
    let definition = wire::definition(1, b"i", shape, None);
    let update = |id| wire::update(id, key, shape, &values);
    let before = vec![definition.bytes(), update(Some(9)).bytes()];
    let timed = update(Some(9)).timed(u32::MAX);
    let messages = [update(None), update(None).timed(60_000), timed];
    messages.map(|message| (before.clone(), message))
}

/// A shape.
pub fn shape(key_type: u64, key_length: u64, data_types: u64) -> Shape {
    Shape {
        key_type,
        key_length,
        data_types,
    }
}

/// Headers next to those that are known.
fn headers() -> Vec<u8> {
    let mut script = Script::default();
    let classes = [0, 1, 2, 9, 10, 11, 127, 128, 254, 255];
    let kinds = [
        0, 1, 2, 3, 4, 5, 6, 16, 127, 128, 129, 130, 131, 132, 133, 134, 135, 136, 254, 255,
    ];
    for class in classes {
        for kind in kinds {
            script.open();
            script.pieces(&[&[class], &[kind, 0]]);
        }
    }
    script.0
}

/// Every accepted and refused hello of the generator's lists, and damaged
/// ones.
fn hellos() -> Vec<u8> {
    let mut script = Script::default();
    let parts: [&[&[u8]]; 5] = [
        &[b"HAProxyS ", b"HaproxyS ", b"HAProxyS", b"HAProxyS  ", b""],
        &[b"2.1", b"2.0", b"2.2", b"2.10", b"", b"2.1\r"],
        &[b"east", b"west", b"", b"east ", b"eas", b" "],
        &[b"west ", b"east ", b"", b" ", b"wes ", b"west", b"west  "],
        &[
            b"7 0",
            b"4294967295 0",
            b"4294967296 0",
            b"0 4294967296",
            b"0000000007 0",
            b"00000000007 0",
            b"7 00000000007",
            b"7",
            b"7 ",
            b" 7",
            b"",
            b"7 0 ",
            b"7  0",
            b"7 0 1",
            b"-7 0",
            b"7 x",
            b"7 0\r",
        ],
    ];
    for (place, list) in parts.iter().enumerate() {
        for part in list.iter() {
            let mut chosen = parts.map(|list| list[0]);
            chosen[place] = part;
            script.hello(chosen);
        }
    }
    for [version, addressed, sender] in several_faults() {
        script.hello([b"HAProxyS ", version, addressed, sender, b"7 0"]);
    }
    for place in 1..4 {
        for length in 50..=66 {
            let filler = vec![b'x'; length];
            let mut chosen = parts.map(|list| list[0]);
            let long = [&filler[..], b" "].concat();
            chosen[place] = if place == 3 { &long } else { &filler };
            script.hello(chosen);
        }
    }
    script.0
}

/// Versions, addressed names and senders, good and bad in all combinations.
fn several_faults() -> Vec<[&'static [u8]; 3]> {
    let mut list: Vec<[&[u8]; 3]> = Vec::new();
    for version in [&b"2.1"[..], b"2.2", b""] {
        for addressed in [&b"east"[..], b"else", b""] {
            for sender in [&b"west "[..], b"else ", b""] {
                list.push([version, addressed, sender]);
            }
        }
    }
    list
}

/// Statuses, known and malformed.
fn statuses() -> Vec<u8> {
    let mut script = Script::default();
    let codes = [
        0, 20, 100, 199, 200, 201, 299, 300, 301, 400, 500, 501, 502, 503, 504, 505, 999,
    ];
    let codes = codes.iter().map(|code| format!("{code:03}\n").into_bytes());
    let others: [&[u8]; 8] = [
        b"200\r",
        b"2000",
        b"300 ",
        b"\n\n\n\n",
        b" 200",
        b"20\n\n",
        b"HAPr",
        b"200\0",
    ];
    for status in codes.chain(others.map(<[u8]>::to_vec)) {
        for cut in 0..4 {
            script.add(Command::Open(Role::Caller));
            script.pieces(&[&status[..cut], &status[cut..]]);
            script.add(Command::Dump);
        }
    }
    script.0
}

/// The most unfinished bytes, the longest bodies and long pieces.
fn limits() -> Vec<u8> {
    let mut script = Script::default();
    let filler = [b'x'; 64];
    let (version, name) = (&filler[..55], &filler[..60]);
    let hello = [b"HAProxyS ", version, b"\n", &filler, b"\n", name, b" 7 0"].concat();
    for last in [b"\n", b"x"] {
        script.add(Command::Open(Role::Answerer));
        script.pieces(&[&hello]);
        script.add(Command::Dump);
        script.pieces(&[last]);
        script.add(Command::Dump);
    }
    script.add(Command::Open(Role::Answerer));
    script.pieces(&[&[b'x'; 3000]]);
    for message in longest_messages() {
        long_message(&mut script, &message);
    }
    longest_update(&mut script);
    for kind in 128..=135 {
        script.open();
        script.pieces(&[&[0x0A, kind, 0xF1], &[0x31, 0x00]]);
        overflowing_length(&mut script, kind);
    }
    script.0
}

/// Messages with a body of 1,024 bytes; all but the first need its table.
fn longest_messages() -> Vec<Vec<u8>> {
    let starts: [(u8, &[u8]); 7] = [
        (0x82, &EXAMPLE[3..13]),
        (0x80, &EXAMPLE[16..27]),
        (0x85, &[0, 0, 0, 9, 0, 0, 0, 5, 0, 0, 0, 0x2A, 7]),
        (0x83, &[1]),
        (0x84, &[0xF0, 0x00, 1, 2, 3, 4]),
        (0x87, &[]),
        (0xFF, &[]),
    ];
    let long = |(kind, start): (u8, &[u8])| {
        let mut body = start.to_vec();
        body.resize(1024, 0xEE);
        table_message(kind, &body)
    };
    starts.map(long).to_vec()
}

/// Adds the update with the most bytes: whole, cut after each of its last
/// bytes, and with its last value out of range.
fn longest_update(script: &mut Script) {
    let shape = shape(BINARY, 64, datatype::LARGEST);
    let definition = wire::definition(1, b"u", shape, None).bytes();
    let types = datatype::values(shape.data_types);
    let largest = |&number: &u32| match number {
        datatype::SERVER => u64::MAX,
        _ if datatype::is_wide(number) => u64::MAX,
        _ => datatype::MAX_32,
    };
    let values: Vec<u64> = types.iter().map(largest).collect();
    let update = wire::update(Some(7), &[1; 64], shape, &values);
    let body = update.body();
    for length in body.len() - 12..=body.len() {
        let message = table_message(update.kind, &body[..length]);
        script.after(std::slice::from_ref(&definition), &message);
    }
    let last = update.fields.len() - 1;
    let field = &update.fields[last];
    for bad in field.near.iter().chain(&field.far) {
        let message = update.with_field(last, bad.clone(), true);
        script.after(std::slice::from_ref(&definition), &message);
    }
}

/// Adds sessions with a long message: in one piece with the next message,
/// and with its last byte in a piece of its own.
fn long_message(script: &mut Script, message: &[u8]) {
    let table = &EXAMPLE[..13];
    let next = [message, &[0x00, 0x01]].concat();
    let (most, last) = message.split_at(message.len() - 1);
    script.open();
    script.pieces(&[table, &next, &next[message.len()..]]);
    script.open();
    script.pieces(&[table, most]);
    script.add(Command::Dump);
    script.pieces(&[last]);
    script.add(Command::Dump);
}

/// Adds a session with a length that overflows, byte by byte.
fn overflowing_length(script: &mut Script, kind: u8) {
    script.open();
    script.pieces(&[&[0x0A, kind]]);
    script.pieces(&[0xFF; 11].chunks(1).collect::<Vec<_>>());
    script.add(Command::Dump);
}

/// A full store: each refusal that needs it, alone and with other faults, in
/// sessions of their own.
fn full() -> Vec<u8> {
    let mut script = Script::default();
    script.open();
    for place in 0..TABLES {
        script.pieces(&[&full_definition(place).bytes()]);
        for number in (0..ENTRIES).filter(|number| number % TABLES == place) {
            let update = full_update(Some(number as u32), number as u8);
            script.pieces(&[&update.bytes()]);
        }
    }
    script.add(Command::Dump);
    for (place, message) in full_endings() {
        script.add(Command::Reconnect(Role::Caller));
        script.pieces(&[b"200\n", &full_definition(place).bytes(), &message]);
        script.pieces(&[&full_update(None, place as u8).bytes()]);
    }
    script.add(Command::Dump);
    script.0
}

/// The shape of the tables of the full store.
fn full_shape() -> Shape {
    shape(BINARY, 1, 1 << 2 | 1 << 4)
}

/// The definition of a table of the full store; its ID is its place.
fn full_definition(place: usize) -> Message {
    wire::definition(place as u64, &[b'a' + place as u8], full_shape(), None)
}

/// An update of the full store.
fn full_update(id: Option<u32>, key: u8) -> Message {
    wire::update(id, &[key], full_shape(), &[240, 1])
}

/// Messages on the full store, each with the place of the current table.
fn full_endings() -> Vec<(usize, Vec<u8>)> {
    let mut endings = Vec::new();
    for place in [0, 7] {
        let known = full_update(Some(u32::MAX), place as u8);
        let new = full_update(Some(9), 200);
        let other = full_update(Some(9), place as u8 + 1);
        let ninth = wire::definition(9, b"ninth", full_shape(), None);
        let held = wire::definition(9, b"c", full_shape(), None);
        let disagreeing = wire::definition(9, b"c", shape(BINARY, 2, 1 << 2 | 1 << 4), None);
        let incremental = full_update(None, 200);
        let timed = [&known, &new, &incremental].map(|message| message.clone().timed(5));
        let untimed = [known, new, other, ninth, held, disagreeing, incremental];
        for message in untimed.iter().chain(&timed) {
            endings.extend(variants(message).into_iter().map(|bytes| (place, bytes)));
        }
    }
    endings
}

/// A message whole, cut by one byte, and with its last field out of range.
fn variants(message: &Message) -> [Vec<u8>; 3] {
    let body = message.body();
    let last = message.fields.len() - 1;
    let bad = message.fields[last].near[0].clone();
    [
        message.bytes(),
        table_message(message.kind, &body[..body.len() - 1]),
        message.with_field(last, bad, true),
    ]
}
