//! Connections that we make.

use crate::faults::Kind;
use crate::handshake;
use crate::host::Host;
use crate::peer::Peer;
use std::io::{self, ErrorKind};
use std::net::{TcpStream, ToSocketAddrs};
use std::sync::Arc;
use std::thread;
use std::time::Duration;

/// How often it is looked whether a peer is to be dialled.
const LOOK: Duration = Duration::from_millis(100);
const CONNECT_TIME: Duration = Duration::from_secs(5);
/// A peer that doesn't listen yet when we begin is no fault: so long, and once.
const BEGINNING: Duration = Duration::from_secs(10);

/// Starts a thread for each peer that has an address.
pub fn start(host: &Arc<Host>) -> io::Result<()> {
    for place in 0..host.peers.len() {
        let host = Arc::clone(host);
        thread::Builder::new().spawn(move || keep(&host, &host.peers[place]))?;
    }
    Ok(())
}

/// Dials a peer while there is no connection with it.
fn keep(host: &Host, peer: &Peer) {
    let mut first = true;
    while let Some(address) = &peer.address {
        thread::sleep(LOOK);
        if peer.is_due() {
            dial(host, peer, address, first);
            first = false;
        }
    }
}

/// Dials a peer, and serves the connection until it ends.
fn dial(host: &Host, peer: &Peer, address: &str, first: bool) {
    let connected = connect(address);
    if !peer.is_due() {
        return; // the peer has called us meanwhile
    }
    match connected.and_then(|stream| handshake::call(host, peer, stream)) {
        Ok(connection) => connection.run(&[], &[]),
        Err(e) => {
            let wait = peer.ended(None, Duration::ZERO, false);
            let again = wait.map_or(String::new(), |wait| {
                format!("; again in {} ms", wait.as_millis())
            });
            let what = format!("can't connect to {address}: {e}{again}");
            if is_fault(first, host.begun.elapsed(), e.kind()) {
                host.fails(&peer.faults, Kind::Dial, None, what);
            } else {
                host.event(format_args!("{}: {what}", peer.name));
            }
        }
    }
}

/// Whether a failed dial is a fault, after we have run so long.
fn is_fault(first: bool, running: Duration, kind: ErrorKind) -> bool {
    !first || running >= BEGINNING || kind != ErrorKind::ConnectionRefused
}

/// Connects to the first address of a name that answers.
fn connect(address: &str) -> io::Result<TcpStream> {
    let mut failed = io::Error::other("the name has no address");
    for at in address.to_socket_addrs()? {
        match TcpStream::connect_timeout(&at, CONNECT_TIME) {
            Ok(stream) => return Ok(stream),
            Err(e) => failed = e,
        }
    }
    Err(failed)
}

#[cfg(test)]
mod tests {
    use super::*;

    #[test]
    fn the_first_refused_dial_at_the_beginning_is_no_fault() {
        let (early, refused) = (Duration::from_secs(1), ErrorKind::ConnectionRefused);
        assert!(!is_fault(true, early, refused));
        assert!(is_fault(false, early, refused));
        assert!(is_fault(true, BEGINNING, refused));
        assert!(is_fault(true, early, ErrorKind::TimedOut));
    }
}
