//! The metrics over HTTP: `GET /metrics`, one request for each connection.

use crate::faults::Kind;
use crate::handshake::is_timeout;
use crate::host::Host;
use crate::metrics;
use std::io::{self, ErrorKind, Read, Write};
use std::net::{Shutdown, TcpListener, TcpStream};
use std::sync::Arc;
use std::thread;
use std::time::{Duration, Instant};

const ACCEPT: Kind = Kind::Accept("a reader of the metrics");
/// The most bytes that a request may have.
const LONGEST: usize = 8_192;
/// How long a connection may last.
const TIME: Duration = Duration::from_secs(2);
/// How many may be open at a time. Others are closed at once.
const MOST: usize = 8;
/// How long to wait after a connection that couldn't be accepted: it may be for lack of files.
const PAUSE: Duration = Duration::from_secs(1);

const OK: &str = "200 OK";
const BAD: &str = "400 Bad Request";
const NOT_FOUND: &str = "404 Not Found";
const NOT_ALLOWED: &str = "405 Method Not Allowed";
const TOO_LATE: &str = "408 Request Timeout";
const TOO_LONG: &str = "431 Request Header Fields Too Large";
const UNSOUND: &str = "500 Internal Server Error";

/// Starts the thread that accepts readers, if an address is named for it.
pub fn start(host: &Arc<Host>) -> Result<(), String> {
    let Some(address) = &host.options.metrics else {
        return Ok(());
    };
    let bound = TcpListener::bind(address).and_then(|listener| {
        host.event(format_args!("metrics at {}", listener.local_addr()?));
        serve(Arc::clone(host), listener)
    });
    bound.map_err(|e| format!("can't listen at {address}: {e}"))
}

fn serve(host: Arc<Host>, listener: TcpListener) -> io::Result<()> {
    let open = Arc::new(()); // each reader's thread has one more reference to it
    let accept = move || loop {
        match listener.accept() {
            Ok((reader, _)) => {
                host.works(&host.faults, |kind, _| kind == ACCEPT);
                if Arc::strong_count(&open) <= MOST {
                    admit(&host, reader, Arc::clone(&open));
                }
            }
            Err(e) => {
                let what = format!("a reader of the metrics wasn't accepted: {e}");
                host.fails(&host.faults, ACCEPT, None, what);
                thread::sleep(PAUSE);
            }
        }
    };
    thread::Builder::new().spawn(accept)?;
    Ok(())
}

fn admit(host: &Arc<Host>, mut reader: TcpStream, open: Arc<()>) {
    let host = Arc::clone(host);
    let give = move || {
        if let Err(e) = give(&host, &mut reader) {
            host.event(format_args!("the metrics weren't written: {e}"));
        }
        drop(open);
    };
    let _ = thread::Builder::new().spawn(give); // without a thread it is closed
}

/// Reads a request, answers it, and waits until the other side has closed, so that it gets the answer also where it had sent more.
fn give(host: &Host, reader: &mut TcpStream) -> io::Result<()> {
    let end = Instant::now() + TIME;
    let judged = request(reader, end).and_then(|request| judge(&request));
    let made = judged.and_then(|()| match host.copy() {
        Ok(store) => Ok(metrics::text(&host.overview(), &store)),
        Err(_) => Err(UNSOUND),
    });
    let (status, body) = match made {
        Ok(body) => (OK, body),
        Err(status) => (status, format!("{status}\n")),
    };
    reader.set_write_timeout(Some(TIME))?;
    reader.write_all(answer(status, &body).as_bytes())?;
    reader.shutdown(Shutdown::Write)?;
    while read_some(reader, end).is_ok_and(|bytes| !bytes.is_empty()) {}
    Ok(())
}

/// A whole answer. The connection ends with it.
fn answer(status: &str, body: &str) -> String {
    let (kind, allow) = match status {
        OK => ("text/plain; version=0.0.4; charset=utf-8", ""),
        NOT_ALLOWED => ("text/plain", "Allow: GET\r\n"),
        _ => ("text/plain", ""),
    };
    let len = body.len();
    format!("HTTP/1.1 {status}\r\nContent-Type: {kind}\r\nContent-Length: {len}\r\n{allow}Connection: close\r\n\r\n{body}")
}

/// The bytes of a request up to the empty line, or the status that says why there is none.
fn request(reader: &mut TcpStream, end: Instant) -> Result<Vec<u8>, &'static str> {
    let mut request = Vec::new();
    while !is_whole(&request) {
        if request.len() > LONGEST {
            return Err(TOO_LONG);
        }
        match read_some(reader, end) {
            Ok(bytes) if bytes.is_empty() => return Err(BAD),
            Ok(bytes) => request.extend(bytes),
            Err(e) if is_timeout(&e) => return Err(TOO_LATE),
            Err(_) => return Err(BAD),
        }
    }
    Ok(request)
}

/// What comes next, until the end of the connection's time. After it nothing is read, though more may come.
fn read_some(reader: &mut TcpStream, end: Instant) -> io::Result<Vec<u8>> {
    let left = end.saturating_duration_since(Instant::now());
    if left.is_zero() {
        return Err(ErrorKind::TimedOut.into());
    }
    reader.set_read_timeout(Some(left))?;
    let mut piece = [0; 1_024];
    let len = reader.read(&mut piece)?;
    Ok(piece[..len].to_vec())
}

/// Whether the empty line came, with which a request without a body ends.
fn is_whole(request: &[u8]) -> bool {
    let ends = |end: &[u8]| request.windows(end.len()).any(|part| part == end);
    ends(b"\r\n\r\n") || ends(b"\n\n")
}

/// Whether a request is for the metrics, or the status that it gets.
fn judge(request: &[u8]) -> Result<(), &'static str> {
    let line = request.split(|&byte| byte == b'\n').next();
    let line = String::from_utf8_lossy(line.unwrap_or_default());
    let words: Vec<_> = line.trim_end_matches('\r').split(' ').collect();
    let [method, target, version] = words[..] else {
        return Err(BAD);
    };
    let path = target.split('?').next();
    match (version, path, method) {
        ("HTTP/1.0" | "HTTP/1.1", Some("/metrics"), "GET") => Ok(()),
        ("HTTP/1.0" | "HTTP/1.1", Some("/metrics"), _) => Err(NOT_ALLOWED),
        ("HTTP/1.0" | "HTTP/1.1", ..) => Err(NOT_FOUND),
        _ => Err(BAD),
    }
}

#[cfg(test)]
mod tests {
    use super::*;

    #[test]
    fn requests_are_judged() {
        for (line, judged) in [
            ("GET /metrics HTTP/1.1", Ok(())),
            ("GET /metrics HTTP/1.0", Ok(())),
            ("GET /metrics?a=b HTTP/1.1", Ok(())),
            ("HEAD /metrics HTTP/1.1", Err(NOT_ALLOWED)),
            ("get /metrics HTTP/1.1", Err(NOT_ALLOWED)),
            ("GET / HTTP/1.1", Err(NOT_FOUND)),
            ("GET /metricss HTTP/1.1", Err(NOT_FOUND)),
            ("POST / HTTP/1.1", Err(NOT_FOUND)),
            ("GET /metrics", Err(BAD)),
            ("GET /metrics HTTP/2", Err(BAD)),
            ("GET  /metrics HTTP/1.1", Err(BAD)),
            ("HAProxyS 2.1", Err(BAD)),
            ("", Err(BAD)),
        ] {
            for end in ["\r\n\r\n", "\n\n", "\r\nHost: a\r\n\r\n"] {
                let request = format!("{line}{end}");
                assert!(is_whole(request.as_bytes()));
                assert_eq!(judge(request.as_bytes()), judged, "{request:?}");
            }
            assert!(!is_whole(format!("{line}\r\n").as_bytes()));
        }
    }

    /// A connection on which this was sent.
    fn sent(bytes: &[u8]) -> (TcpStream, TcpStream) {
        let listener = TcpListener::bind("127.0.0.1:0").unwrap();
        let mut near = TcpStream::connect(listener.local_addr().unwrap()).unwrap();
        let (far, _) = listener.accept().unwrap();
        near.write_all(bytes).unwrap();
        (near, far)
    }

    fn asked(bytes: &[u8]) -> Result<Vec<u8>, &'static str> {
        let (_near, mut far) = sent(bytes);
        request(&mut far, Instant::now() + Duration::from_millis(200))
    }

    #[test]
    fn requests_are_bounded() {
        let mut long = b"GET /metrics HTTP/1.1\r\nHost: ".to_vec();
        assert_eq!(asked(&long), Err(TOO_LATE));
        long.resize(LONGEST - 4, b'a');
        long.extend(b"\r\n\r\n");
        assert_eq!(asked(&long), Ok(long.clone()));
        long.resize(LONGEST + 2_000, b'a');
        long[30..].fill(b'a');
        assert_eq!(asked(&long), Err(TOO_LONG));
        let (_near, mut far) = sent(b"more");
        let read = read_some(&mut far, Instant::now());
        assert!(read.is_err_and(|e| is_timeout(&e)));
    }
}
