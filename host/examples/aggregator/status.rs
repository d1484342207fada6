//! The status page: a Unix socket that gives the tables to its owner.

use crate::host::Host;
use crate::page;
use std::fs;
use std::io::{self, ErrorKind, Read, Write};
use std::os::unix::fs::{FileTypeExt, PermissionsExt};
use std::os::unix::net::{UnixListener, UnixStream};
use std::sync::Arc;
use std::thread;
use std::time::Duration;

/// How long a reader may keep the page waiting, and a page its reader.
const WRITE_TIME: Duration = Duration::from_secs(2);
const READ_TIME: Duration = Duration::from_secs(5);
/// How long to wait after a connection that couldn't be accepted: it may be for lack of files.
const PAUSE: Duration = Duration::from_secs(1);

/// The socket's path, which goes when this is dropped.
pub struct Path(String);

impl Drop for Path {
    fn drop(&mut self) {
        let _ = fs::remove_file(&self.0); // somebody else may have removed it
    }
}

/// Starts the thread that gives the page, if a path is named for it.
pub fn start(host: &Arc<Host>) -> Result<Option<Path>, String> {
    let Some(path) = host.options.status.clone() else {
        return Ok(None);
    };
    let listener = bind(&path).map_err(|e| format!("can't listen at {path}: {e}"))?;
    serve(Arc::clone(host), listener).map_err(|e| e.to_string())?;
    Ok(Some(Path(path)))
}

/// A socket that its owner alone may connect to.
fn bind(path: &str) -> io::Result<UnixListener> {
    if UnixStream::connect(path).is_err_and(|e| e.kind() == ErrorKind::ConnectionRefused) {
        remove_socket(path)?;
    }
    let listener = UnixListener::bind(path)?;
    fs::set_permissions(path, fs::Permissions::from_mode(0o600))?;
    Ok(listener)
}

/// Starts the thread that accepts readers.
fn serve(host: Arc<Host>, listener: UnixListener) -> io::Result<()> {
    let accept = move || loop {
        match listener.accept() {
            Ok((reader, _)) => give(&host, reader),
            Err(e) => {
                host.fault(format_args!("a reader of the page wasn't accepted: {e}"));
                thread::sleep(PAUSE);
            }
        }
    };
    thread::Builder::new().spawn(accept)?;
    Ok(())
}

/// Removes the socket of a run that ended without removing it, and no other file.
fn remove_socket(path: &str) -> io::Result<()> {
    if fs::symlink_metadata(path)?.file_type().is_socket() {
        fs::remove_file(path)?;
    }
    Ok(())
}

/// Makes the page under the lock, and writes it after.
fn give(host: &Host, mut reader: UnixStream) {
    let page = match host.tables() {
        Ok(tables) => page::text(&tables.store),
        Err(refusal) => format!("{refusal}\n"),
    };
    let given = reader
        .set_write_timeout(Some(WRITE_TIME))
        .and_then(|()| reader.write_all(page.as_bytes()));
    if let Err(e) = given {
        host.event(format_args!("the status page wasn't written: {e}"));
    }
}

/// The page of another aggregator that runs here.
pub fn ask(path: &str) -> Result<String, String> {
    let mut page = String::new();
    let asked = UnixStream::connect(path).and_then(|mut socket| {
        socket.set_read_timeout(Some(READ_TIME))?;
        socket.read_to_string(&mut page)
    });
    asked.map_err(|e| format!("{path}: {e}"))?;
    Ok(page)
}
