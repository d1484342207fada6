//! The replay script: its commands, their output and the dump.

use crate::answer::Outcome;
use crate::call::{open, pass_time, read, Opening, OPENING_ROOM};
use crate::datatype;
use crate::listing::{add_line, add_reply, answer_line, hex, OUR_NAME, PEER_NAME};
use crate::record::{Phase, Record, Role};
use crate::send::{send_definition, send_entry};
use crate::store::{Entry, Store, Table};

/// The content of a room before a call.
pub const FILL: u8 = 0xAA;

/// The process ID of our hello.
pub const PROCESS: u32 = 7;
/// The relative process ID of our hello.
pub const RELATIVE: u32 = 0;

/// A command of a script.
#[derive(Clone, Copy, Debug, PartialEq, Eq)]
pub enum Command<'a> {
    /// `O`: a new session and an empty store.
    Open(Role),
    /// `N`: a new session on the store as it stands.
    Reconnect(Role),
    /// `C`: one reading call.
    Call {
        /// The room of the reply buffer.
        room: u8,
        /// The piece.
        piece: &'a [u8],
    },
    /// `T`: one passing call with this many milliseconds.
    Pass(u32),
    /// `P` or `E`: one sending call.
    Send(Sending),
    /// `D`: a dump.
    Dump,
}

/// What a sending call sends.
#[derive(Clone, Copy, Debug, PartialEq, Eq)]
pub enum Item {
    /// `P`: the definition of a table.
    Definition,
    /// `E`: an entry.
    Entry,
}

/// A sending call.
#[derive(Clone, Copy, Debug, PartialEq, Eq)]
pub struct Sending {
    /// What it sends.
    pub item: Item,
    /// The place of the table or the entry.
    pub place: u8,
    /// The table ID or the update ID.
    pub id: u32,
    /// The room.
    pub room: u16,
}

impl Sending {
    /// Makes the call; gives its result and the room after it.
    pub fn make(self, record: &mut Record, store: &Store) -> (Result<usize, u8>, Vec<u8>) {
        let mut room = vec![FILL; self.room.into()];
        let call = match self.item {
            Item::Definition => send_definition,
            Item::Entry => send_entry,
        };
        let result = call(record, store, self.place.into(), self.id, &mut room);
        (result, room)
    }

    /// Adds the command to a script.
    fn write(self, script: &mut Vec<u8>) {
        let letter = match self.item {
            Item::Definition => b'P',
            Item::Entry => b'E',
        };
        script.extend([letter, self.place]);
        script.extend(self.id.to_be_bytes());
        script.extend(self.room.to_be_bytes());
    }
}

impl Command<'_> {
    /// Adds the command to a script.
    pub fn write(&self, script: &mut Vec<u8>) {
        match self {
            Command::Open(role) => script.extend([b'O', role_byte(*role)]),
            Command::Reconnect(role) => script.extend([b'N', role_byte(*role)]),
            Command::Call { room, piece } => {
                script.extend([b'C', *room]);
                script.extend((piece.len() as u16).to_be_bytes());
                script.extend_from_slice(piece);
            }
            Command::Pass(milliseconds) => {
                script.push(b'T');
                script.extend(milliseconds.to_be_bytes());
            }
            Command::Send(sending) => sending.write(script),
            Command::Dump => script.push(b'D'),
        }
    }
}

/// The byte of a role.
fn role_byte(role: Role) -> u8 {
    match role {
        Role::Answerer => 0,
        Role::Caller => 1,
    }
}

/// The role of a byte.
fn role_of(byte: u8) -> Option<Role> {
    match byte {
        0 => Some(Role::Answerer),
        1 => Some(Role::Caller),
        _ => None,
    }
}

/// The command at the front of a script and what follows it; `None` if there
/// is no whole command.
pub fn command(script: &[u8]) -> Option<(Command<'_>, &[u8])> {
    match script {
        [b'O', role, rest @ ..] => Some((Command::Open(role_of(*role)?), rest)),
        [b'N', role, rest @ ..] => Some((Command::Reconnect(role_of(*role)?), rest)),
        [b'D', rest @ ..] => Some((Command::Dump, rest)),
        [b'T', a, b, c, d, rest @ ..] => {
            let milliseconds = u32::from_be_bytes([*a, *b, *c, *d]);
            Some((Command::Pass(milliseconds), rest))
        }
        [b'P', rest @ ..] => sending(Item::Definition, rest),
        [b'E', rest @ ..] => sending(Item::Entry, rest),
        [b'C', room, high, low, rest @ ..] => {
            let length = usize::from(u16::from_be_bytes([*high, *low]));
            let piece = rest.get(..length)?;
            Some((Command::Call { room: *room, piece }, &rest[length..]))
        }
        _ => None,
    }
}

/// A sending command without its letter, and what follows it.
fn sending(item: Item, script: &[u8]) -> Option<(Command<'_>, &[u8])> {
    let [place, a, b, c, d, high, low, rest @ ..] = script else {
        return None;
    };
    let sending = Sending {
        item,
        place: *place,
        id: u32::from_be_bytes([*a, *b, *c, *d]),
        room: u16::from_be_bytes([*high, *low]),
    };
    Some((Command::Send(sending), rest))
}

/// Opens a session as the script's `O` and `N` do and gives the reply.
pub fn session(role: Role) -> (Record, Vec<u8>) {
    let opening = Opening {
        role,
        our_name: OUR_NAME,
        peer_name: PEER_NAME,
        process: PROCESS,
        relative: RELATIVE,
    };
    let mut room = [FILL; OPENING_ROOM];
    let (record, outcome) = open(&opening, &mut room);
    (record, room[..outcome.reply].to_vec())
}

/// The output of a whole script.
pub fn replay(script: &[u8]) -> Vec<u8> {
    let mut output = Vec::new();
    let mut state = None;
    let mut rest = script;
    while let Some((command, after)) = command(rest) {
        if !carry_out(command, &mut state, &mut output) {
            break;
        }
        rest = after;
    }
    add_line(&mut output, "end");
    output
}

/// Carries out a command; false if it can't come here.
fn carry_out(command: Command, state: &mut Option<(Record, Store)>, output: &mut Vec<u8>) -> bool {
    if let Command::Open(role) = command {
        *state = Some((opened(role, output), Store::new()));
        return true;
    }
    let Some((record, store)) = state else {
        return false;
    };
    match command {
        Command::Open(role) | Command::Reconnect(role) => *record = opened(role, output),
        Command::Call { room, piece } => call(record, store, room, piece, output),
        Command::Pass(milliseconds) => {
            let number = pass_time(store, milliseconds);
            add_line(output, &format!("passed {number}"));
        }
        Command::Send(sending) => send(record, store, sending, output),
        Command::Dump => dump(record, store, output),
    }
    true
}

/// Opens a session and prints it.
fn opened(role: Role, output: &mut Vec<u8>) -> Record {
    let (record, reply) = session(role);
    add_line(output, "open");
    add_reply(output, &reply);
    record
}

/// Makes one reading call and prints it.
fn call(record: &mut Record, store: &mut Store, room: u8, piece: &[u8], output: &mut Vec<u8>) {
    let mut buffer = vec![FILL; usize::from(room)];
    let Outcome {
        taken,
        reply,
        answer,
    } = read(record, store, piece, &mut buffer);
    add_line(output, &format!("took {taken}"));
    add_line(output, &answer_line(answer, record, store));
    add_reply(output, &buffer[..reply]);
    add_spoiled(output, &buffer[reply..]);
}

/// Makes one sending call and prints it.
fn send(record: &mut Record, store: &Store, sending: Sending, output: &mut Vec<u8>) {
    let (result, room) = sending.make(record, store);
    let line = match result {
        Ok(length) => format!("sent {}", hex(&room[..length])),
        Err(number) => format!("refused {number}"),
    };
    add_line(output, &line);
    add_spoiled(output, &room[result.unwrap_or(0)..]);
}

/// Adds a line if a call changed the part of a room that it must leave.
fn add_spoiled(output: &mut Vec<u8>, rest: &[u8]) {
    if rest.iter().any(|&byte| byte != FILL) {
        add_line(output, "spoiled");
    }
}

/// Prints the record and the store.
pub fn dump(record: &Record, store: &Store, output: &mut Vec<u8>) {
    add_line(output, &phase_line(record.phase));
    let unfinished = hex_or_dash(&record.unfinished);
    add_line(output, &format!("unfinished {unfinished}"));
    add_line(
        output,
        &format!("current {}", number_or_dash(record.current)),
    );
    add_line(
        output,
        &format!("defined {}", number_or_dash(record.defined)),
    );
    add_line(output, &format!("sent {}", number_or_dash(record.sent)));
    dump_ids(record, output);
    for (place, table) in held(&store.tables) {
        add_line(output, &table_line(place, table));
    }
    add_line(output, &counts_line(&store.counts));
    for (place, entry) in held(&store.entries) {
        add_line(output, &entry_line(place, entry, store));
    }
}

/// The held places with their content.
fn held<T>(places: &[Option<T>]) -> impl Iterator<Item = (usize, &T)> {
    let places = places.iter().enumerate();
    places.filter_map(|(place, content)| Some((place, content.as_ref()?)))
}

/// The line of the phase.
fn phase_line(phase: Phase) -> String {
    match phase {
        Phase::Handshake => "session handshake".into(),
        Phase::Open => "session open".into(),
        Phase::Closed(number) => format!("session closed {number}"),
    }
}

/// Bytes in hex, or `-` if there are none.
fn hex_or_dash(bytes: &[u8]) -> String {
    match bytes {
        [] => "-".into(),
        _ => hex(bytes),
    }
}

/// A number in decimal, or `-` if there is none.
fn number_or_dash(number: Option<impl ToString>) -> String {
    number.map_or("-".into(), |number| number.to_string())
}

/// Prints bound and previous IDs by place.
fn dump_ids(record: &Record, output: &mut Vec<u8>) {
    for (place, (bound, previous)) in record.bound.iter().zip(&record.previous).enumerate() {
        if let Some(id) = bound {
            add_line(output, &format!("bound {place} {id}"));
        }
        if let Some(id) = previous {
            add_line(output, &format!("previous {place} {id}"));
        }
    }
}

/// The line of a table.
fn table_line(place: usize, table: &Table) -> String {
    let name = hex(&table.name);
    let head = format!("table {place} {name}");
    let shape = [table.key_type, table.key_length, table.data_types];
    let mut words = vec![head];
    words.extend(shape.iter().map(u64::to_string));
    match &table.times {
        None => words.push("-".into()),
        Some(times) => {
            words.push(times.expiry.to_string());
            words.extend(times.periods.iter().map(u64::to_string));
        }
    }
    words.join(" ")
}

/// The line of the counts, by place.
fn counts_line(counts: &[u64]) -> String {
    let counts: Vec<String> = counts.iter().map(u64::to_string).collect();
    format!("counts {}", counts.join(" "))
}

/// The line of an entry.
fn entry_line(place: usize, entry: &Entry, store: &Store) -> String {
    let key = hex_or_dash(entry.key());
    let data_types = store.table(entry.table).map_or(0, |table| table.data_types);
    let remaining = entry
        .remaining
        .map_or("-".into(), |time| format!("T{time}"));
    let mut words = vec![format!("entry {place} {} {key} {remaining}", entry.table)];
    for (number, &value) in datatype::values(data_types).into_iter().zip(&entry.values) {
        words.push(value_word(number, value));
    }
    words.join(" ")
}

/// A value in decimal, a server ID signed.
fn value_word(number: u32, value: u64) -> String {
    match datatype::server_id(value) {
        Some(id) if number == datatype::SERVER => id.to_string(),
        _ => value.to_string(),
    }
}
