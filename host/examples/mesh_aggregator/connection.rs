//! A connection with its session record: what comes is read, what the rules ask for is sent.

use crate::faults::Kind;
use crate::figures::Taught;
use crate::handshake::{is_timeout, HANDSHAKE_TIME};
use crate::host::{Host, Tables};
use crate::peer::Peer;
use crate::subject::Subject;
use crate::teaching;
use peers::{Answer, Session};
use std::io::{self, ErrorKind, Read, Write};
use std::net::{Shutdown, TcpStream};
use std::time::{Duration, Instant};

/// After so long without a byte from us a heartbeat is sent.
const HEARTBEAT_TIME: Duration = Duration::from_secs(3);
/// A peer that sends no byte for so long is gone.
const SILENCE_TIME: Duration = Duration::from_secs(5);

const REQUEST: [u8; 2] = [0, 0];
const FINISHED: [u8; 2] = [0, 1];
const PARTIAL: [u8; 2] = [0, 2];
const HEARTBEAT: [u8; 2] = [0, 4];

pub struct Connection<'a> {
    host: &'a Host,
    peer: &'a Peer,
    stream: TcpStream,
    session: Session,
    /// Its number at the peer, once the handshake is done.
    number: Option<u64>,
    since: Instant,
    heard: Instant,
    said: Instant,
    asked: Instant,
}

impl<'a> Connection<'a> {
    pub fn new(
        host: &'a Host,
        peer: &'a Peer,
        stream: TcpStream,
        session: Session,
    ) -> Connection<'a> {
        let now = Instant::now();
        Connection {
            host,
            peer,
            stream,
            session,
            number: None,
            since: now,
            heard: now,
            said: now,
            asked: now,
        }
    }

    /// Serves it until it ends. `status` answers the peer's hello, if it sent one, and `first` came behind it.
    pub fn run(mut self, status: &[u8], first: &[u8]) {
        let begun = self.establish(status).and_then(|()| self.take(first));
        let ended = begun.and_then(|()| self.serve());
        let refused = self.session.closed_with().is_some();
        let wait = self.peer.ended(self.number, self.since.elapsed(), refused);
        // after that: a peer that sees the end and calls again takes no open one's place. It may be closed already
        let _ = self.stream.shutdown(Shutdown::Both);
        let replaced = self.number.is_some() && wait.is_none();
        let unread = matches!(&ended, Err(e) if e.kind() == ErrorKind::TimedOut);
        let why = match ended {
            _ if refused => "closed after a refusal or the peer's error message".to_owned(),
            _ if replaced => "closed for a newer connection".to_owned(),
            Ok(why) => why.to_owned(),
            Err(e) => format!("closed: {e}"),
        };
        let again = match wait.filter(|_| self.peer.address.is_some()) {
            Some(wait) => format!("; dialled in {} ms", wait.as_millis()),
            None => String::new(),
        };
        if unread && !replaced && !refused {
            self.fails(Kind::Unread, None, format!("{why}{again}"));
        } else {
            let name = &self.peer.name;
            self.host.event(format_args!("{name}: {why}{again}"));
        }
    }

    /// Reads until the session is closed, or the peer is gone. Says why it ended.
    fn serve(&mut self) -> io::Result<&'static str> {
        let mut piece = [0; 4096];
        while self.session.closed_with().is_none() {
            if self.number.is_none() && self.since.elapsed() >= HANDSHAKE_TIME {
                return Ok("closed, the handshake took too long");
            }
            self.send_timely()?;
            match self.stream.read(&mut piece) {
                Ok(0) => return Ok("closed by the peer"),
                Ok(len) => {
                    self.heard = Instant::now();
                    self.peer.figures.heard();
                    self.take(&piece[..len])?;
                }
                Err(e) if !is_timeout(&e) => return Err(e),
                Err(_) if self.heard.elapsed() < SILENCE_TIME => {}
                Err(_) => return Ok("closed, nothing was heard for 5 seconds"),
            }
        }
        Ok("closed")
    }

    /// Once, when the handshake is done: an older connection with the peer is closed, the peer's hello is answered, and a peer that we know the
    /// address of is asked for its entries, whoever made the connection. A peer that calls twice has its answers in the order in which its
    /// connections became the live one.
    fn establish(&mut self, status: &[u8]) -> io::Result<()> {
        if self.number.is_some() || !self.session.is_established() {
            return Ok(());
        }
        let number = self.peer.established(self.stream.try_clone()?);
        self.number = Some(number);
        self.send(status)?;
        let faults = &self.peer.faults;
        self.host.works(faults, |kind, _| kind.is_of_handshake());
        if let Some(what) = self.peer.contested(number) {
            self.fails(Kind::Contested, None, what);
        }
        match self.peer.address {
            Some(_) => self.ask(),
            None => Ok(()),
        }
    }

    /// Sends what is due: a request or a heartbeat.
    fn send_timely(&mut self) -> io::Result<()> {
        if self.number.is_none() {
            Ok(())
        } else if self.is_request_due() {
            self.ask()
        } else if self.said.elapsed() >= HEARTBEAT_TIME {
            self.send(&HEARTBEAT)
        } else {
            Ok(())
        }
    }

    /// Whether the peer is to be asked again: after an answer in part, or because all peers are asked again and again.
    fn is_request_due(&self) -> bool {
        let teaching = self.peer.teaching();
        let is_partial = teaching.is_some_and(|teaching| teaching.is_partial());
        let again = is_partial.then_some(teaching::AGAIN_TIME);
        let time = [self.host.options.ask, again].into_iter().flatten().min();
        let is_over = time.is_some_and(|time| self.asked.elapsed() >= time);
        self.peer.address.is_some() && is_over
    }

    /// Asks the peer for all of its entries.
    fn ask(&mut self) -> io::Result<()> {
        let tables = self.host.tables().map_err(io::Error::other)?;
        let purged = tables.purging.total();
        drop(tables);
        self.peer
            .change_teaching(self.number, |teaching| teaching.ask(purged));
        self.asked = Instant::now();
        self.peer.figures.taught(Taught::Asked);
        self.send(&REQUEST)
    }

    /// Offers what came until all is taken or the session is closed, and sends what is to be sent.
    fn take(&mut self, piece: &[u8]) -> io::Result<()> {
        let mut rest = piece;
        while !rest.is_empty() && self.session.closed_with().is_none() {
            let mut reply = Vec::new();
            let taken = self.read(rest, &mut reply)?;
            rest = &rest[taken..];
            self.send(&reply)?;
            self.establish(&[])?;
        }
        Ok(())
    }

    /// One reading call under the lock, and the whole store's messages under the same hold of it where the peer asks. Gives the bytes taken.
    fn read(&mut self, rest: &[u8], reply: &mut Vec<u8>) -> io::Result<usize> {
        let mut tables = self.host.tables().map_err(io::Error::other)?;
        if !self.peer.is_live(self.number) {
            return Err(io::Error::other("a newer connection took over"));
        }
        let Tables { store, purging, .. } = &mut *tables;
        let (begun, current) = (self.session.unfinished().to_vec(), self.session.current());
        let before = purging.total();
        let read = purging.read(&mut self.session, store, rest, reply);
        let (taken, answer) = (read.taken, read.answer);
        self.peer.figures.purged(purging.total() - before);
        self.peer
            .change_teaching(self.number, |teaching| teaching.note(answer));
        if answer == Answer::Request {
            self.teach(&tables, reply)?;
        }
        let subject = if self.names_table(answer) {
            let table = current.and_then(|place| tables.store.table(place));
            Subject::of(&[&begun, &rest[..taken]].concat(), table)
        } else {
            None
        };
        let purged = read.purged;
        let purged = purged.and_then(|table| about_purged(&tables, table));
        drop(tables); // nothing is told while it is held
        self.tell_purged(purged);
        self.count(answer, subject.as_ref());
        self.tell(answer, subject, reply.len());
        match taken {
            0 => Err(io::Error::other("the session or the store isn't sound")), // the same bytes would be refused again
            _ => Ok(taken),
        }
    }

    /// All of the store, and whether that is finished.
    fn teach(&mut self, tables: &Tables, out: &mut Vec<u8>) -> io::Result<()> {
        for message in self.session.teach(&tables.store, peers::ids_from(1)) {
            out.extend(message.map_err(io::Error::other)?);
        }
        let purged = tables.purging.total();
        let is_whole = teaching::is_whole(&self.host.peers, self.peer, purged);
        out.extend(if is_whole { FINISHED } else { PARTIAL });
        Ok(())
    }

    /// Whether it is asked which table the message is about.
    fn names_table(&self, answer: Answer) -> bool {
        let refused = matches!(answer, Answer::Refused { .. });
        refused || self.host.options.messages || self.peer.faults.any()
    }

    /// What an answer changes of the peer's figures.
    fn count(&self, answer: Answer, subject: Option<&Subject>) {
        let figures = &self.peer.figures;
        let table = || subject.map(|subject| subject.table.clone());
        match answer {
            Answer::Update { .. } => figures.updated(),
            Answer::Table { .. } => figures.defined(&table().unwrap_or_default()),
            Answer::Refused { refusal, offset } => figures.refused(refusal, offset, table()),
            Answer::Finished => figures.taught(Taught::Finished),
            Answer::Partial => figures.taught(Taught::Partial),
            _ => {}
        }
    }

    /// A line for an answer, and for what works again by it.
    fn tell(&self, answer: Answer, subject: Option<Subject>, sent: usize) {
        let (host, name) = (self.host, &self.peer.name);
        let about = Subject::end(subject.as_ref());
        let asked = self.peer.address.is_some();
        host.works(&self.peer.faults, |kind, refused| {
            kind.is_over(answer, refused, subject.as_ref(), asked)
        });
        match answer {
            Answer::More | Answer::Heartbeat => {}
            Answer::Refused { refusal, .. } => {
                self.fails(Kind::Refused(refusal), subject, format!("{answer}{about}"));
            }
            Answer::Error { .. } => self.fails(Kind::Error, None, answer.to_string()),
            Answer::Request => host.event(format_args!("{name}: {answer}, {sent} bytes sent")),
            Answer::Status | Answer::Finished | Answer::Partial | Answer::Confirmed => {
                host.event(format_args!("{name}: {answer}"));
            }
            _ => host.message(format_args!("{name}: {answer}{about}")),
        }
    }

    /// A line for a table of which entries were purged for a key of this peer.
    fn tell_purged(&self, purged: Option<(String, u64)>) {
        let Some((table, count)) = purged else {
            return;
        };
        let what =
            format!("no entry place is free, entries of table {table} are purged for new keys");
        self.fails(Kind::Purged, None, format!("{what}, {count} until now"));
    }

    fn fails(&self, kind: Kind, subject: Option<Subject>, what: String) {
        self.host.fails(&self.peer.faults, kind, subject, what);
    }

    fn send(&mut self, bytes: &[u8]) -> io::Result<()> {
        if bytes.is_empty() {
            return Ok(());
        }
        self.said = Instant::now();
        let sent = self.stream.write_all(bytes);
        sent.map_err(|e| match is_timeout(&e) {
            true => io::Error::new(ErrorKind::TimedOut, "it read nothing for 5 seconds"),
            false => e,
        })
    }
}

/// A purged table's name, and how many entries were purged of it.
fn about_purged(tables: &Tables, table: usize) -> Option<(String, u64)> {
    let name = tables.store.table(table)?.name().escape_ascii();
    Some((name.to_string(), tables.purging.count(table)))
}

#[cfg(test)]
mod tests {
    use super::*;
    use crate::log::Log;
    use crate::options::{self, Asked};
    use peers::{DataType, Value, READING_ROOM};
    use std::net::TcpListener;

    fn host() -> Host {
        let words = ["east", "127.0.0.1:0", "west"].map(Into::into);
        match options::read(words.into_iter()) {
            Ok(Asked::Run(options)) => Host::new(options, Log::start(io::sink()).unwrap()),
            _ => panic!("it isn't such a command line"),
        }
    }

    /// A connection whose hello was read, and the peer's end of it.
    fn called(host: &Host) -> (Connection<'_>, TcpStream) {
        let listener = TcpListener::bind("127.0.0.1:0").unwrap();
        let theirs = TcpStream::connect(listener.local_addr().unwrap()).unwrap();
        let (ours, _) = listener.accept().unwrap();
        let mut session = Session::answerer(b"east", b"west").unwrap();
        let hello = b"HAProxyS 2.1\neast\nwest 7 0\n";
        let mut tables = host.tables().unwrap();
        session.read(&mut tables.store, hello, &mut [0; READING_ROOM]);
        drop(tables);
        (Connection::new(host, &host.peers[0], ours, session), theirs)
    }

    /// One past its handshake.
    fn connected(host: &Host) -> (Connection<'_>, TcpStream) {
        let (mut connection, theirs) = called(host);
        connection.establish(&[]).unwrap();
        (connection, theirs)
    }

    /// A definition, and an update of its one key.
    fn update(value: u8) -> Vec<u8> {
        let table = b"\n\x82\x0a\x01\x02t1\x02\x04\x04\xf0\x97\x1c";
        [table, &b"\n\x80\x09\0\0\0\x01\0\0\0\x2a"[..], &[value]].concat()
    }

    #[test]
    fn a_connection_is_live_before_its_hello_is_answered() {
        let host = host();
        for _ in 0..100 {
            let (connection, mut theirs) = called(&host);
            std::thread::scope(|scope| {
                scope.spawn(|| connection.run(b"200\n", &[]));
                theirs.read_exact(&mut [0; 4]).unwrap();
                let is_live = host.peers[0].teaching().is_some();
                theirs.shutdown(Shutdown::Both).unwrap();
                assert!(is_live);
            });
        }
    }

    #[test]
    fn an_older_connection_changes_nothing() {
        let host = host();
        let (mut older, _first) = connected(&host);
        older.take(&update(1)).unwrap();
        let (mut newer, _second) = connected(&host);
        newer.take(&update(2)).unwrap();
        assert!(older.take(&update(3)).is_err());
        let tables = host.tables().unwrap();
        let value = tables.store.entry(0).unwrap().value(DataType::Gpc0);
        assert_eq!(value, Some(Value::Number(2)));
    }
}
