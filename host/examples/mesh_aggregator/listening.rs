//! Connections that peers make.

use crate::admission::Place;
use crate::faults::Kind;
use crate::handshake;
use crate::host::Host;
use std::io;
use std::net::{SocketAddr, TcpListener, TcpStream};
use std::sync::Arc;
use std::thread;
use std::time::Duration;

const ACCEPT: Kind = Kind::Accept("a connection");
/// How long to wait after a connection that couldn't be accepted: it may be for lack of files.
const PAUSE: Duration = Duration::from_secs(1);

/// Starts the thread that accepts connections.
pub fn start(host: &Arc<Host>, listener: TcpListener) -> io::Result<()> {
    let host = Arc::clone(host);
    let accept = move || loop {
        match listener.accept() {
            Ok((stream, from)) => {
                host.works(&host.faults, |kind, _| kind == ACCEPT);
                admit(&host, stream, from);
            }
            Err(e) => {
                let what = format!("a connection wasn't accepted: {e}");
                host.fails(&host.faults, ACCEPT, None, what);
                thread::sleep(PAUSE);
            }
        }
    };
    thread::Builder::new().spawn(accept)?;
    Ok(())
}

/// Starts a thread for a connection. Where too many wait for their hello, the oldest of them goes.
fn admit(host: &Arc<Host>, stream: TcpStream, from: SocketAddr) {
    let (place, closed) = match host.admission.admit(&stream, from) {
        Ok(admitted) => admitted,
        Err(e) => {
            let what = format!("{from}: closed: {e}");
            return host.fails(&host.faults, Kind::Thread, None, what);
        }
    };
    match closed {
        Some(oldest) => {
            let most = host.options.connections;
            let what = format!(
                "{oldest}: closed before its hello, {most} newer connections wait for theirs"
            );
            host.fails(&host.faults, Kind::Full, None, what);
        }
        None => host.works(&host.faults, |kind, _| kind == Kind::Full),
    }
    let own = Arc::clone(host);
    let run = move || serve(&own, &place, stream, &from.to_string());
    match thread::Builder::new().spawn(run) {
        Ok(_) => host.works(&host.faults, |kind, _| kind == Kind::Thread),
        Err(e) => {
            let what = format!("{from}: closed, no thread for it: {e}");
            host.fails(&host.faults, Kind::Thread, None, what);
        }
    }
}

fn serve(host: &Host, place: &Place, stream: TcpStream, from: &str) {
    host.event(format_args!("{from}: connected to us"));
    match handshake::answer(host, place, stream, from) {
        Ok(Some(accepted)) => accepted.connection.run(&accepted.status, &accepted.rest),
        Ok(None) => {}
        Err(e) => host.event(format_args!("{from}: closed before its hello: {e}")),
    }
}
