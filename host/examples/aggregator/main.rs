//! An aggregator: a host that peers with load balancers, holds their tables, shows them, and teaches them to each of its peers that asks.
//!
//! One store for all connections with a lock around it, one thread and one session record for each connection. `--help` says how it is called.

#![deny(unsafe_code)]

mod connection;
mod dialling;
mod handshake;
mod host;
mod listening;
mod options;
mod page;
mod peer;
#[allow(unsafe_code)]
mod signals;
mod status;
mod subject;

use host::Host;
use options::{Asked, Options};
use std::io::{self, Write};
use std::net::TcpListener;
use std::process::ExitCode;
use std::sync::Arc;
use std::thread;
use std::time::Duration;

/// How often time is passed while nothing is read.
const TICK: Duration = Duration::from_millis(200);

fn main() -> ExitCode {
    let done = match options::read(std::env::args_os().skip(1)) {
        Ok(Asked::Help) => print(options::HELP),
        Ok(Asked::Show(path)) => status::ask(&path).and_then(|page| print(&page)),
        Ok(Asked::Run(options)) => run(options),
        Err(said) => {
            let _ = writeln!(io::stderr(), "aggregator: {said}\nTry aggregator --help");
            return ExitCode::from(2);
        }
    };
    match done {
        Ok(()) => ExitCode::SUCCESS,
        Err(said) => {
            let _ = writeln!(io::stderr(), "aggregator: {said}");
            ExitCode::FAILURE
        }
    }
}

/// Runs until a signal ends it, and then prints the tables.
fn run(options: Options) -> Result<(), String> {
    signals::catch();
    let listen = &options.listen;
    let listener =
        TcpListener::bind(listen).map_err(|e| format!("can't listen at {listen}: {e}"))?;
    let at = listener.local_addr().map_err(|e| e.to_string())?;
    let host = Arc::new(Host::new(options));
    host.event(format_args!("listening at {at}"));
    let socket = status::start(&host)?;
    listening::start(&host, listener).map_err(|e| e.to_string())?;
    dialling::start(&host).map_err(|e| e.to_string())?;
    while !signals::ended() {
        thread::sleep(TICK);
        drop(host.tables().map_err(|e| e.to_string())?);
    }
    // a second signal ends it, should the output not be read
    signals::release();
    // the lock is kept until the end: no call is made after the tables are printed
    let tables = host.tables().map_err(|e| e.to_string())?;
    drop(socket);
    let printed = print(&page::text(&tables.store));
    std::mem::forget(tables);
    printed
}

fn print(text: &str) -> Result<(), String> {
    let mut out = io::stdout().lock();
    let printed = out.write_all(text.as_bytes()).and_then(|()| out.flush());
    printed.map_err(|e| format!("standard output: {e}"))
}
