//! The start of a connection, in either role, up to its session record.

use crate::admission::Place;
use crate::connection::Connection;
use crate::faults::Kind;
use crate::host::Host;
use crate::peer::Peer;
use peers::{Answer, Answerer, Session, OPENING_ROOM, READING_ROOM};
use std::io::{self, ErrorKind, Read, Write};
use std::net::TcpStream;
use std::time::{Duration, Instant};

/// How long a handshake may take, from the connection on.
pub const HANDSHAKE_TIME: Duration = Duration::from_secs(5);

/// How long a reading or a writing may wait. A thread looks at its timers after each.
const READ_TIME: Duration = Duration::from_millis(200);
const WRITE_TIME: Duration = Duration::from_secs(5);

/// A connection whose hello is accepted.
pub struct Accepted<'a> {
    pub connection: Connection<'a>,
    /// What answers the hello.
    pub status: Vec<u8>,
    /// What came behind it.
    pub rest: Vec<u8>,
}

/// Reads a peer's hello. Gives the connection if it is accepted: it doesn't wait any more then. A hello that is refused is answered.
pub fn answer<'a>(
    host: &'a Host,
    place: &Place,
    mut stream: TcpStream,
    from: &str,
) -> io::Result<Option<Accepted<'a>>> {
    set_times(&stream)?;
    let since = Instant::now();
    let names = host.peers.iter().map(|peer| &peer.name);
    let answerer = Answerer::new(host.options.name.as_bytes(), names).map_err(io::Error::other)?;
    let mut hello = Vec::new();
    let mut room = [0; READING_ROOM];
    let judged = loop {
        read_more(&mut stream, &mut hello, since)?;
        let judged = answerer.judge(&hello, &mut room);
        if judged.step.answer != Answer::More {
            break judged;
        }
    };
    let step = judged.step;
    let Some(peer) = judged.peer.map(|place| &host.peers[place]) else {
        stream.write_all(step.reply)?;
        if let Answer::Refused { refusal, .. } = step.answer {
            let what = format!("{from}: {}", step.answer);
            host.fails(&host.faults, Kind::Refused(refusal), None, what);
        }
        return Ok(None);
    };
    if !place.leave() {
        return Err(io::Error::other("a newer connection took its place"));
    }
    let name = &peer.name;
    host.event(format_args!("{name}: {} from {from}", step.answer));
    Ok(Some(Accepted {
        connection: Connection::new(host, peer, stream, judged.session),
        status: step.reply.to_vec(),
        rest: hello.split_off(step.taken),
    }))
}

/// Adds what comes next to the hello.
fn read_more(stream: &mut TcpStream, hello: &mut Vec<u8>, since: Instant) -> io::Result<()> {
    let mut piece = [0; 256];
    while since.elapsed() < HANDSHAKE_TIME {
        match stream.read(&mut piece) {
            Ok(0) => return Err(ErrorKind::UnexpectedEof.into()),
            Ok(len) => {
                hello.extend_from_slice(&piece[..len]);
                return Ok(());
            }
            Err(e) if is_timeout(&e) => {}
            Err(e) => return Err(e),
        }
    }
    Err(io::Error::other("the hello took too long"))
}

/// Sends our hello on a connection that we made. The status is read with what follows it.
pub fn call<'a>(host: &'a Host, peer: &'a Peer, stream: TcpStream) -> io::Result<Connection<'a>> {
    set_times(&stream)?;
    let mut room = [0; OPENING_ROOM];
    let (ours, theirs) = (host.options.name.as_bytes(), peer.name.as_bytes());
    let opened = Session::caller(ours, theirs, std::process::id(), 0, &mut room);
    let (session, hello) = opened.map_err(io::Error::other)?;
    (&stream).write_all(hello)?;
    host.event(format_args!("{}: connected, hello sent", peer.name));
    Ok(Connection::new(host, peer, stream, session))
}

fn set_times(stream: &TcpStream) -> io::Result<()> {
    stream.set_nodelay(true)?;
    stream.set_read_timeout(Some(READ_TIME))?;
    stream.set_write_timeout(Some(WRITE_TIME))
}

/// Whether nothing came in the time that a reading may wait.
pub fn is_timeout(e: &io::Error) -> bool {
    let kinds = [
        ErrorKind::WouldBlock,
        ErrorKind::TimedOut,
        ErrorKind::Interrupted,
    ];
    kinds.contains(&e.kind())
}
