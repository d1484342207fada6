//! Connections that we make.

use crate::handshake;
use crate::host::Host;
use crate::peer::Peer;
use std::io;
use std::net::{TcpStream, ToSocketAddrs};
use std::sync::Arc;
use std::thread;
use std::time::Duration;

/// How often it is looked whether a peer is to be dialled.
const LOOK: Duration = Duration::from_millis(100);
const CONNECT_TIME: Duration = Duration::from_secs(5);

/// Starts a thread for each peer that has an address.
pub fn start(host: &Arc<Host>) -> io::Result<()> {
    for place in 0..host.peers.len() {
        let host = Arc::clone(host);
        thread::Builder::new().spawn(move || keep(&host, &host.peers[place]))?;
    }
    Ok(())
}

/// Dials a peer while there is no connection with it.
fn keep(host: &Host, peer: &Peer) {
    while let Some(address) = &peer.address {
        thread::sleep(LOOK);
        if peer.is_due() {
            dial(host, peer, address);
        }
    }
}

/// Dials a peer, and serves the connection until it ends.
fn dial(host: &Host, peer: &Peer, address: &str) {
    let connected = connect(address);
    if !peer.is_due() {
        return; // the peer has called us meanwhile
    }
    match connected.and_then(|stream| handshake::call(host, peer, stream)) {
        Ok(connection) => connection.run(&[]),
        Err(e) => {
            let (name, wait) = (&peer.name, peer.ended(None, Duration::ZERO, false));
            let what = format!("can't connect to {address}: {e}");
            let again = wait.map_or(String::new(), |wait| {
                format!("; again in {} ms", wait.as_millis())
            });
            let line = format_args!("{name}: {what}{again}");
            host.repeated(&peer.reported, &what, line);
        }
    }
}

/// Connects to the first address of a name that answers.
fn connect(address: &str) -> io::Result<TcpStream> {
    let mut failed = io::Error::other("the name has no address");
    for at in address.to_socket_addrs()? {
        match TcpStream::connect_timeout(&at, CONNECT_TIME) {
            Ok(stream) => return Ok(stream),
            Err(e) => failed = e,
        }
    }
    Err(failed)
}
