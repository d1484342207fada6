//! The lines of the listing and the listing program.

use crate::answer::{Answer, Commit};
use crate::call::{open, read, Opening, OPENING_ROOM, READING_ROOM};
use crate::record::{Phase, Record, Role};
use crate::refusal::Refusal;
use crate::store::Store;
use std::io::{self, Read, Write};

/// Our name in the programs.
pub const OUR_NAME: &[u8] = b"east";
/// The accepted peer's name in the programs.
pub const PEER_NAME: &[u8] = b"west";

/// Bytes as capital hex digits.
pub fn hex(bytes: &[u8]) -> String {
    bytes.iter().map(|byte| format!("{byte:02X}")).collect()
}

/// The line of an answer, without LF; `more` for more wanted.
pub fn answer_line(answer: Answer, record: &Record, store: &Store) -> String {
    match answer {
        Answer::More => "more".into(),
        Answer::Hello { process, relative } => hello_line(record, process, relative),
        Answer::Status => "status".into(),
        Answer::Request => "request".into(),
        Answer::Finished => "finished".into(),
        Answer::Partial => "partial".into(),
        Answer::Confirm => "confirm".into(),
        Answer::Heartbeat => "heartbeat".into(),
        Answer::Error { kind } => format!("error {kind}"),
        Answer::Table { place } => table_line(store, place),
        Answer::Switch { place } => format!("switch {place}"),
        Answer::Update {
            table,
            id,
            entry,
            commit,
        } => format!("update {table} {id} {entry} {}", commit_word(commit)),
        Answer::Acknowledged { id, update } => format!("ack {id} {update}"),
        Answer::Skipped { kind } => format!("skipped {kind}"),
        Answer::Refused(refusal) => refusal_line(refusal),
    }
}

/// The line of an accepted hello.
fn hello_line(record: &Record, process: u32, relative: u32) -> String {
    let name = String::from_utf8_lossy(&record.peer_name);
    format!("hello {name} {process} {relative}")
}

/// The line of a definition.
fn table_line(store: &Store, place: usize) -> String {
    let name = store.table(place).map_or(&[][..], |table| &table.name);
    format!("table {place} {}", hex(name))
}

/// The line of a refusal.
fn refusal_line(refusal: Refusal) -> String {
    let number = refusal.number;
    match refusal.offset {
        None => format!("refused {number}"),
        Some(offset) => format!("refused {number} {offset}"),
    }
}

/// The last word of an update's line.
fn commit_word(commit: Commit) -> &'static str {
    match commit {
        Commit::New => "new",
        Commit::Replaced => "replaced",
    }
}

/// Adds a line to some output.
pub fn add_line(output: &mut Vec<u8>, line: &str) {
    output.extend_from_slice(line.as_bytes());
    output.push(b'\n');
}

/// Adds the line of a reply, if there is one.
pub fn add_reply(output: &mut Vec<u8>, reply: &[u8]) {
    if !reply.is_empty() {
        add_line(output, &format!("reply {}", hex(reply)));
    }
}

/// A session of the listing.
pub struct Listing {
    record: Record,
    store: Store,
}

impl Default for Listing {
    fn default() -> Listing {
        Listing::new()
    }
}

impl Listing {
    /// Opens the session.
    pub fn new() -> Listing {
        let opening = Opening {
            role: Role::Answerer,
            our_name: OUR_NAME,
            peer_name: PEER_NAME,
            process: 0,
            relative: 0,
        };
        let (record, _) = open(&opening, &mut [0; OPENING_ROOM]);
        let store = Store::new();
        Listing { record, store }
    }

    /// Whether the session is closed.
    pub fn is_closed(&self) -> bool {
        self.record.is_closed()
    }

    /// Reads a piece, call after call; nothing after the closing byte.
    pub fn piece(&mut self, piece: &[u8], output: &mut Vec<u8>) {
        let mut rest = piece;
        while !rest.is_empty() && !self.is_closed() {
            let mut room = [0; READING_ROOM];
            let outcome = read(&mut self.record, &mut self.store, rest, &mut room);
            if outcome.answer != Answer::More {
                let line = answer_line(outcome.answer, &self.record, &self.store);
                add_line(output, &line);
            }
            add_reply(output, &room[..outcome.reply]);
            if outcome.taken == 0 {
                break;
            }
            rest = &rest[outcome.taken..];
        }
    }

    /// The last line.
    pub fn end(&self, output: &mut Vec<u8>) {
        let line = match self.record.phase {
            Phase::Closed(number) => format!("end closed {number}"),
            Phase::Handshake | Phase::Open => {
                format!("end open {}", self.record.unfinished.len())
            }
        };
        add_line(output, &line);
    }
}

/// The listing of a whole input.
pub fn listing(input: &[u8]) -> Vec<u8> {
    let mut output = Vec::new();
    let mut session = Listing::new();
    session.piece(input, &mut output);
    session.end(&mut output);
    output
}

/// The listing program: reads pieces as they come, writes after each.
pub fn list(input: &mut dyn Read, output: &mut dyn Write) -> io::Result<()> {
    let mut session = Listing::new();
    let mut buffer = [0; 4096];
    while !session.is_closed() {
        let count = match input.read(&mut buffer) {
            Ok(0) => break,
            Ok(count) => count,
            Err(error) if error.kind() == io::ErrorKind::Interrupted => continue,
            Err(error) => return Err(error),
        };
        let mut lines = Vec::new();
        session.piece(&buffer[..count], &mut lines);
        output.write_all(&lines)?;
        output.flush()?;
    }
    let mut last = Vec::new();
    session.end(&mut last);
    output.write_all(&last)
}
