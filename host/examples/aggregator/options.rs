//! The command line.

use peers::Session;
use std::ffi::OsString;
use std::time::Duration;

/// What `--help` prints.
pub const HELP: &str = "\
Peers with load balancers, holds their stick tables, shows them, and teaches them to a peer that asks.

aggregator [OPTION].. NAME ADDRESS PEER..   runs until SIGTERM or SIGINT, then prints the tables
aggregator --show PATH                      prints the tables of the one that runs with --status PATH
aggregator -h, --help                       prints this

  NAME      our name, as the peers have it in their configuration: 1 to 32 printable characters, no space
  ADDRESS   where to listen, as 0.0.0.0:10000
  PEER      a peer's name and address, as west@192.0.2.7:10000: it may call us, is dialled while there is no connection
            with it, and is asked for all of its entries when one begins. A name alone may call us, and is neither dialled
            nor asked: for a standby, which asks us, and whose entries are older than ours.

  --status PATH      a Unix socket that gives the tables to its owner
  --ask SECONDS      ask again after so many seconds: for a standby, since it gets later changes with the next answer
  --connections N    the most connections that are accepted at a time; others are closed at once. Unless said, 16, or
                     twice as many as there are peers
  -v, --verbose      a line on standard error for each event; without it only for refusals and faults
  --messages         and a line for each message about tables that is read, and each that is skipped

Standard input isn't read. The exit status is 0 after a signal, 1 after a fault, 2 for a command line that isn't as above.
";

/// What the command line asks for.
pub enum Asked {
    Help,
    Show(String),
    Run(Options),
}

/// What a run needs.
#[derive(Default)]
pub struct Options {
    pub name: String,
    pub listen: String,
    /// Name and address of each peer.
    pub peers: Vec<(String, Option<String>)>,
    pub status: Option<String>,
    /// After how long peers are asked again.
    pub ask: Option<Duration>,
    pub connections: u64,
    pub verbose: bool,
    pub messages: bool,
}

/// Reads the command line, or says what is wrong with it.
pub fn read(arguments: impl Iterator<Item = OsString>) -> Result<Asked, String> {
    let arguments = arguments.map(text).collect::<Result<Vec<_>, _>>()?;
    match arguments.as_slice() {
        [option, path] if option == "--show" => Ok(Asked::Show(path.clone())),
        _ => read_options(arguments.into_iter()),
    }
}

fn read_options(mut arguments: impl Iterator<Item = String>) -> Result<Asked, String> {
    let mut options = Options::default();
    let mut plain = Vec::new();
    while let Some(argument) = arguments.next() {
        let mut value = || {
            let next = arguments.next();
            next.ok_or(format!("{argument} needs a value"))
        };
        match argument.as_str() {
            "--help" | "-h" => return Ok(Asked::Help),
            "--show" => return Err("--show needs a path, and nothing beside it".to_owned()),
            "--status" => options.status = Some(value()?),
            "--ask" => options.ask = Some(Duration::from_secs(count(&argument, &value()?)?)),
            "--connections" => options.connections = count(&argument, &value()?)?,
            "--verbose" | "-v" => options.verbose = true,
            "--messages" => options.messages = true,
            other if other.starts_with('-') => return Err(format!("unknown option {other}")),
            _ => plain.push(argument),
        }
    }
    set_names(&mut options, plain)?;
    if options.connections == 0 {
        options.connections = 16.max(2 * options.peers.len() as u64);
    }
    Ok(Asked::Run(options))
}

fn text(argument: OsString) -> Result<String, String> {
    argument
        .into_string()
        .map_err(|argument| format!("{argument:?} isn't UTF-8"))
}

fn count(option: &str, text: &str) -> Result<u64, String> {
    let count = text.parse().ok().filter(|&n| n > 0);
    count.ok_or(format!("{option} {text}: not a number from 1 on"))
}

/// Our name, where we listen, and the peers.
fn set_names(options: &mut Options, plain: Vec<String>) -> Result<(), String> {
    let mut plain = plain.into_iter();
    options.name = plain.next().ok_or("our name is missing")?;
    test_name(&options.name)?;
    options.listen = plain.next().ok_or("the address to listen at is missing")?;
    test_address(&options.listen)?;
    for peer in plain {
        let (name, at) = match peer.rsplit_once('@') {
            Some((name, at)) => (name.to_owned(), Some(at.to_owned())),
            None => (peer, None),
        };
        test_name(&name)?;
        at.as_deref().map_or(Ok(()), test_address)?;
        if name == options.name || options.peers.iter().any(|(other, _)| *other == name) {
            return Err(format!("the name {name} is there twice"));
        }
        options.peers.push((name, at));
    }
    if options.peers.is_empty() {
        return Err("no peer is named".to_owned());
    }
    Ok(())
}

/// Whether a session can be opened with a name.
fn test_name(text: &str) -> Result<(), String> {
    match Session::answerer(text.as_bytes(), text.as_bytes()) {
        Ok(_) => Ok(()),
        Err(_) => Err(format!(
            "{text:?} isn't a name: 1 to 32 printable characters, no space"
        )),
    }
}

/// Whether an address has a host and a port.
fn test_address(text: &str) -> Result<(), String> {
    let parts = text.rsplit_once(':');
    let right = parts.is_some_and(|(host, port)| !host.is_empty() && port.parse::<u16>().is_ok());
    right
        .then_some(())
        .ok_or(format!("{text:?} isn't an address as 192.0.2.7:10000"))
}
