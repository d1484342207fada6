//! The start of a connection, in either role, up to its session record.

use crate::connection::Connection;
use crate::host::Host;
use crate::peer::Peer;
use peers::{Answer, Refusal, Session, OPENING_ROOM, READING_ROOM};
use std::io::{self, ErrorKind, Read, Write};
use std::net::TcpStream;
use std::time::{Duration, Instant};

/// How long a handshake may take, from the connection on.
pub const HANDSHAKE_TIME: Duration = Duration::from_secs(5);

/// How long a reading or a writing may wait. A thread looks at its timers after each.
const READ_TIME: Duration = Duration::from_millis(200);
const WRITE_TIME: Duration = Duration::from_secs(5);

/// A hello that was judged.
struct Judged<'a> {
    session: Session,
    peer: &'a Peer,
    answer: Answer,
    taken: usize,
    reply: Vec<u8>,
}

/// Reads a peer's hello and answers it. Gives the connection, with the bytes that came behind the hello, if it is accepted.
pub fn answer<'a>(
    host: &'a Host,
    mut stream: TcpStream,
    from: &str,
) -> io::Result<Option<(Connection<'a>, Vec<u8>)>> {
    set_times(&stream)?;
    let since = Instant::now();
    let mut hello = Vec::new();
    let judged = loop {
        read_more(&mut stream, &mut hello, since)?;
        if let Some(judged) = judge(host, &hello)? {
            break judged;
        }
    };
    stream.write_all(&judged.reply)?;
    if let Answer::Refused { .. } = judged.answer {
        host.unaccepted(&judged.answer.to_string(), from);
        return Ok(None);
    }
    let name = &judged.peer.name;
    host.event(format_args!("{name}: {} from {from}", judged.answer));
    let connection = Connection::new(host, judged.peer, stream, judged.session);
    Ok(Some((connection, hello.split_off(judged.taken))))
}

/// Adds what comes next to the hello.
fn read_more(stream: &mut TcpStream, hello: &mut Vec<u8>, since: Instant) -> io::Result<()> {
    let mut piece = [0; 256];
    while since.elapsed() < HANDSHAKE_TIME {
        match stream.read(&mut piece) {
            Ok(0) => return Err(ErrorKind::UnexpectedEof.into()),
            Ok(len) => {
                hello.extend_from_slice(&piece[..len]);
                return Ok(());
            }
            Err(e) if is_timeout(&e) => {}
            Err(e) => return Err(e),
        }
    }
    Err(io::Error::other("the hello took too long"))
}

/// Offers the hello to a new record for each peer, until one doesn't say that it is from another. Nothing where more bytes are wanted.
fn judge<'a>(host: &'a Host, hello: &[u8]) -> io::Result<Option<Judged<'a>>> {
    let mut judged = None;
    let mut tables = host.tables().map_err(io::Error::other)?;
    for peer in &host.peers {
        let (ours, theirs) = (host.options.name.as_bytes(), peer.name.as_bytes());
        let mut session = Session::answerer(ours, theirs).map_err(io::Error::other)?;
        let mut room = [0; READING_ROOM];
        let step = session.read(&mut tables.store, hello, &mut room);
        if step.answer == Answer::More {
            return Ok(None);
        }
        judged = Some(Judged {
            answer: step.answer,
            taken: step.taken,
            reply: step.reply.to_vec(),
            session,
            peer,
        });
        if !matches!(
            step.answer,
            Answer::Refused {
                refusal: Refusal::Sender,
                ..
            }
        ) {
            break;
        }
    }
    Ok(judged)
}

/// Sends our hello on a connection that we made. The status is read with what follows it.
pub fn call<'a>(host: &'a Host, peer: &'a Peer, stream: TcpStream) -> io::Result<Connection<'a>> {
    set_times(&stream)?;
    let mut room = [0; OPENING_ROOM];
    let (ours, theirs) = (host.options.name.as_bytes(), peer.name.as_bytes());
    let opened = Session::caller(ours, theirs, std::process::id(), 0, &mut room);
    let (session, hello) = opened.map_err(io::Error::other)?;
    (&stream).write_all(hello)?;
    host.event(format_args!("{}: connected, hello sent", peer.name));
    Ok(Connection::new(host, peer, stream, session))
}

fn set_times(stream: &TcpStream) -> io::Result<()> {
    stream.set_nodelay(true)?;
    stream.set_read_timeout(Some(READ_TIME))?;
    stream.set_write_timeout(Some(WRITE_TIME))
}

/// Whether nothing came in the time that a reading may wait.
pub fn is_timeout(e: &io::Error) -> bool {
    let kinds = [
        ErrorKind::WouldBlock,
        ErrorKind::TimedOut,
        ErrorKind::Interrupted,
    ];
    kinds.contains(&e.kind())
}
