//! A connection with its session record: what comes is read, what the rules ask for is sent.

use crate::handshake::{is_timeout, HANDSHAKE_TIME};
use crate::host::Host;
use crate::peer::Peer;
use crate::subject;
use peers::{Answer, Session, Store, READING_ROOM};
use std::io::{self, Read, Write};
use std::net::{Shutdown, TcpStream};
use std::time::{Duration, Instant};

/// After so long without a byte from us a heartbeat is sent.
const HEARTBEAT_TIME: Duration = Duration::from_secs(3);
/// A peer that sends no byte for so long is gone.
const SILENCE_TIME: Duration = Duration::from_secs(5);

const REQUEST: [u8; 2] = [0, 0];
const FINISHED: [u8; 2] = [0, 1];
const HEARTBEAT: [u8; 2] = [0, 4];

pub struct Connection<'a> {
    host: &'a Host,
    peer: &'a Peer,
    stream: TcpStream,
    session: Session,
    /// Its number at the peer, once the handshake is done.
    number: Option<u64>,
    since: Instant,
    heard: Instant,
    said: Instant,
    asked: Instant,
}

impl<'a> Connection<'a> {
    pub fn new(
        host: &'a Host,
        peer: &'a Peer,
        stream: TcpStream,
        session: Session,
    ) -> Connection<'a> {
        let now = Instant::now();
        Connection {
            host,
            peer,
            stream,
            session,
            number: None,
            since: now,
            heard: now,
            said: now,
            asked: now,
        }
    }

    /// Serves it until it ends. `first` came already.
    pub fn run(mut self, first: &[u8]) {
        let begun = self.establish().and_then(|()| self.take(first));
        let ended = begun.and_then(|()| self.serve());
        let _ = self.stream.shutdown(Shutdown::Both); // it may be closed already
        let refused = self.session.closed_with().is_some();
        let wait = self.peer.ended(self.number, self.since.elapsed(), refused);
        let why = match ended {
            _ if refused => "closed after a refusal or the peer's error message".to_owned(),
            Ok(why) => why.to_owned(),
            Err(e) => format!("closed: {e}"),
        };
        let name = &self.peer.name;
        match wait.filter(|_| self.peer.address.is_some()) {
            Some(wait) => self.host.event(format_args!(
                "{name}: {why}; dialled in {} ms",
                wait.as_millis()
            )),
            None => self.host.event(format_args!("{name}: {why}")),
        }
    }

    /// Reads until the session is closed, or the peer is gone. Says why it ended.
    fn serve(&mut self) -> io::Result<&'static str> {
        let mut piece = [0; 4096];
        while self.session.closed_with().is_none() {
            if self.number.is_none() && self.since.elapsed() >= HANDSHAKE_TIME {
                return Ok("closed, the handshake took too long");
            }
            self.send_timely()?;
            match self.stream.read(&mut piece) {
                Ok(0) => return Ok("closed by the peer or for a newer connection"),
                Ok(len) => {
                    self.heard = Instant::now();
                    self.take(&piece[..len])?;
                }
                Err(e) if !is_timeout(&e) => return Err(e),
                Err(_) if self.heard.elapsed() < SILENCE_TIME => {}
                Err(_) => return Ok("closed, nothing was heard for 5 seconds"),
            }
        }
        Ok("closed")
    }

    /// Once, when the handshake is done: an older connection with the peer is closed, and a peer that we know the address of is asked for its
    /// entries, whoever made the connection.
    fn establish(&mut self) -> io::Result<()> {
        if self.number.is_some() || !self.session.is_established() {
            return Ok(());
        }
        self.number = Some(self.peer.established(self.stream.try_clone()?));
        match self.peer.address {
            Some(_) => self.ask(),
            None => Ok(()),
        }
    }

    /// Sends what is due: a request, if peers are asked again and again, or a heartbeat.
    fn send_timely(&mut self) -> io::Result<()> {
        let ask = self.peer.address.as_ref().and(self.host.options.ask);
        if self.number.is_none() {
            Ok(())
        } else if ask.is_some_and(|time| self.asked.elapsed() >= time) {
            self.ask()
        } else if self.said.elapsed() >= HEARTBEAT_TIME {
            self.send(&HEARTBEAT)
        } else {
            Ok(())
        }
    }

    /// Asks the peer for all of its entries.
    fn ask(&mut self) -> io::Result<()> {
        self.asked = Instant::now();
        self.send(&REQUEST)
    }

    /// Offers what came until all is taken or the session is closed, and sends what is to be sent.
    fn take(&mut self, piece: &[u8]) -> io::Result<()> {
        let mut rest = piece;
        while !rest.is_empty() && self.session.closed_with().is_none() {
            let mut reply = Vec::new();
            let taken = self.read(rest, &mut reply)?;
            rest = &rest[taken..];
            self.send(&reply)?;
            self.establish()?;
        }
        Ok(())
    }

    /// One reading call under the lock, and the whole store's messages under the same hold of it where the peer asks. Gives the bytes taken.
    fn read(&mut self, rest: &[u8], reply: &mut Vec<u8>) -> io::Result<usize> {
        let mut room = [0; READING_ROOM];
        let mut tables = self.host.tables().map_err(io::Error::other)?;
        let store = &mut tables.store;
        let (begun, current) = (self.session.unfinished().to_vec(), self.session.current());
        let step = self.session.read(store, rest, &mut room);
        let (taken, answer) = (step.taken, step.answer);
        reply.extend_from_slice(step.reply);
        if answer == Answer::Request {
            teach(&mut self.session, store, reply)?;
        }
        let about = if self.names_table(answer) {
            let table = current.and_then(|place| store.table(place));
            subject::about(&[&begun, &rest[..taken]].concat(), table)
        } else {
            String::new()
        };
        drop(tables); // nothing is written while it is held
        self.tell(answer, &about, reply.len());
        match taken {
            0 => Err(io::Error::other("the session or the store isn't sound")), // the same bytes would be refused again
            _ => Ok(taken),
        }
    }

    /// Whether the line for an answer says which table the message is about.
    fn names_table(&self, answer: Answer) -> bool {
        matches!(answer, Answer::Refused { .. }) || self.host.options.messages
    }

    /// A line for an answer.
    fn tell(&self, answer: Answer, about: &str, sent: usize) {
        let (host, name) = (self.host, &self.peer.name);
        match answer {
            Answer::More | Answer::Heartbeat => {}
            Answer::Refused { .. } | Answer::Error { .. } => {
                let what = format!("{answer}{about}");
                host.repeated(&self.peer.reported, &what, format_args!("{name}: {what}"));
            }
            Answer::Request => host.event(format_args!("{name}: {answer}, {sent} bytes sent")),
            Answer::Status | Answer::Finished | Answer::Partial | Answer::Confirmed => {
                host.event(format_args!("{name}: {answer}"));
            }
            _ => host.message(format_args!("{name}: {answer}{about}")),
        }
    }

    fn send(&mut self, bytes: &[u8]) -> io::Result<()> {
        if bytes.is_empty() {
            return Ok(());
        }
        self.said = Instant::now();
        self.stream.write_all(bytes)
    }
}

/// All of the store, and that it is finished.
fn teach(session: &mut Session, store: &Store, out: &mut Vec<u8>) -> io::Result<()> {
    for message in session.teach(store, peers::ids_from(1)) {
        out.extend(message.map_err(io::Error::other)?);
    }
    out.extend(FINISHED);
    Ok(())
}
