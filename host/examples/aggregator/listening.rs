//! Connections that peers make.

use crate::handshake;
use crate::host::{Admitted, Host};
use std::io;
use std::net::{SocketAddr, TcpListener, TcpStream};
use std::sync::Arc;
use std::thread;
use std::time::Duration;

/// How long to wait after a connection that couldn't be accepted: it may be for lack of files.
const PAUSE: Duration = Duration::from_secs(1);

/// Starts the thread that accepts connections.
pub fn start(host: &Arc<Host>, listener: TcpListener) -> io::Result<()> {
    let host = Arc::clone(host);
    let accept = move || loop {
        match listener.accept() {
            Ok((stream, from)) => admit(&host, stream, from),
            Err(e) => {
                host.fault(format_args!("a connection wasn't accepted: {e}"));
                thread::sleep(PAUSE);
            }
        }
    };
    thread::Builder::new().spawn(accept)?;
    Ok(())
}

/// Starts a thread for a connection, if not too many are open.
fn admit(host: &Arc<Host>, stream: TcpStream, from: SocketAddr) {
    let Some(admitted) = host.admit() else {
        let most = host.options.connections;
        let what = format!("closed, {most} connections are open");
        return host.unaccepted(&what, &from.to_string());
    };
    let started = thread::Builder::new().spawn(move || serve(&admitted, stream, &from.to_string()));
    if let Err(e) = started {
        host.fault(format_args!("{from}: closed, no thread for it: {e}"));
    }
}

fn serve(host: &Admitted, stream: TcpStream, from: &str) {
    host.event(format_args!("{from}: connected to us"));
    match handshake::answer(host, stream, from) {
        Ok(Some((connection, rest))) => connection.run(&rest),
        Ok(None) => {}
        Err(e) => host.event(format_args!("{from}: closed before its hello: {e}")),
    }
}
