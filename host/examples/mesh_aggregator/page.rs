//! Peers and tables as text. Tables have the form of HAProxy's `show table`.

use crate::clock::utc;
use crate::figures::{Overview, PeerShown, Refused, Taught};
use peers::layout::{ENTRIES, TABLES};
use peers::{DataType, Entry, KeyType, Store, Table, Value};
use std::fmt::Write;
use std::net::{Ipv4Addr, Ipv6Addr};

/// The whole page.
pub fn text(overview: &Overview, store: &Store) -> String {
    let mut page = summary(overview, store);
    for peer in &overview.peers {
        page += &peer_line(peer);
    }
    for peer in &overview.peers {
        if let Some(table) = &peer.shown.unplaced {
            page += &format!("# no place for table: {table}, of peer: {}\n", peer.name);
        }
    }
    page + &tables(store)
}

/// Who we are, how much is held, and how old it is.
fn summary(overview: &Overview, store: &Store) -> String {
    let (name, begun, now) = (&overview.name, utc(overview.begun), utc(overview.now));
    let (tables, entries) = (store.tables().count(), store.entries().count());
    let current = match overview.unfed_since() {
        None => "yes".to_owned(),
        Some(since) => format!(
            "no, no peer that feeds us is connected since {}",
            utc(since)
        ),
    };
    format!(
        "# aggregator: {name}, begun: {begun}, now: {now}, lines not written: {}\n\
         # tables: {tables} of {TABLES}, entries: {entries} of {ENTRIES}, current: {current}\n",
        overview.lost
    )
}

/// A peer's figures.
fn peer_line(peer: &PeerShown) -> String {
    let shown = &peer.shown;
    let state = match shown.established {
        true => "established",
        false => "not connected",
    };
    let teaching = match shown.taught {
        Taught::NotAsked => "not asked",
        Taught::Asked => "asked",
        Taught::Partial => "finished in part",
        Taught::Finished => "finished",
    };
    format!(
        "# peer: {}, address: {}, state: {state}, since: {}, heard: {}, updates: {}, refused last: {}, teaching: {teaching}, purged: {}\n",
        peer.name,
        peer.address.as_deref().unwrap_or("none"),
        utc(shown.since),
        shown.heard.map_or("never".to_owned(), utc),
        shown.updates,
        shown.refused.as_ref().map_or("none".to_owned(), refused),
        shown.purged,
    )
}

/// A refusal's number, when it was, and what is known of its place.
fn refused(refused: &Refused) -> String {
    let number = refused.refusal.number();
    let offset = refused.offset.map(|offset| format!(" offset {offset}"));
    let table = refused
        .table
        .as_ref()
        .map(|table| format!(" table {table}"));
    let (offset, table) = (offset.unwrap_or_default(), table.unwrap_or_default());
    format!("{number}{offset}{table} at {}", utc(refused.when))
}

/// Each table with its entries. The number in front of an entry is its place in the store; all tables share its 128 places.
fn tables(store: &Store) -> String {
    let mut page = String::new();
    for table in store.tables() {
        let used = store.entries_of(table.place());
        let name = table.name().escape_ascii();
        let kind = kind(table);
        page += &format!("# table: {name}, type: {kind}, size:{ENTRIES}, used:{used}\n");
        let columns: Vec<_> = table.data_types().map(|t| Column::of(table, t)).collect();
        let entries = store.entries();
        for entry in entries.filter(|entry| entry.table().place() == table.place()) {
            add_line(&mut page, entry, &columns);
        }
    }
    match page.is_empty() {
        true => "# no table\n".to_owned(),
        false => page,
    }
}

/// A data type of a table: what stands in front of its values, and a rate's period.
struct Column {
    front: String,
    period: Option<u32>,
}

impl Column {
    fn of(table: Table<'_>, data_type: DataType) -> Column {
        let (name, period) = (data_type.name(), table.period(data_type));
        let front = match period {
            Some(period) => format!(" {name}({period})="),
            None => format!(" {name}="),
        };
        Column { front, period }
    }
}

/// A key type's name in HAProxy's configuration.
fn kind(table: Table<'_>) -> &'static str {
    match table.key_type() {
        Some(KeyType::Integer) => "integer",
        Some(KeyType::Ipv4) => "ip",
        Some(KeyType::Ipv6) => "ipv6",
        Some(KeyType::String) => "string",
        Some(KeyType::Binary) => "binary",
        None => "unknown",
    }
}

/// An entry's place, key, remaining milliseconds and values.
fn add_line(page: &mut String, entry: Entry<'_>, columns: &[Column]) {
    // writing to a string doesn't fail
    let _ = write!(page, "{}: key={} exp=", entry.place(), key(entry));
    let _ = match entry.remaining() {
        Some(time) => write!(page, "{}", time.as_millis()),
        None => page.write_str("none"),
    };
    for (column, (_, value)) in columns.iter().zip(entry.values()) {
        let _ = write!(page, "{}{}", column.front, number(value, column.period));
    }
    page.push('\n');
}

/// A key by its kind.
fn key(entry: Entry<'_>) -> String {
    let bytes = entry.key();
    let kind = entry.table().key_type();
    match (
        kind,
        <[u8; 4]>::try_from(bytes),
        <[u8; 16]>::try_from(bytes),
    ) {
        (Some(KeyType::Integer), Ok(four), _) => u32::from_be_bytes(four).to_string(),
        (Some(KeyType::Ipv4), Ok(four), _) => Ipv4Addr::from(four).to_string(),
        (Some(KeyType::Ipv6), _, Ok(sixteen)) => Ipv6Addr::from(sixteen).to_string(),
        (Some(KeyType::String), ..) => escaped(bytes),
        _ => hex(bytes),
    }
}

/// Text as HAProxy escapes it: a space and an equals sign too, so that a line can be split at them.
fn escaped(bytes: &[u8]) -> String {
    let mut text = String::new();
    for &byte in bytes {
        match byte {
            b'\t' => text += "\\t",
            b'\n' => text += "\\n",
            b'\r' => text += "\\r",
            0x1B => text += "\\e",
            b' ' | b'=' | b'\\' => text.extend(['\\', byte.into()]),
            0x21..=0x7E => text.push(byte.into()),
            _ => text += &format!("\\x{byte:02X}"),
        }
    }
    text
}

fn hex(bytes: &[u8]) -> String {
    bytes.iter().fold(String::new(), |mut text, byte| {
        let _ = write!(text, "{byte:02X}"); // writing to a string doesn't fail
        text
    })
}

/// A value as one number. A rate is that of its entry's last update: nothing is counted off since.
fn number(value: Value, period: Option<u32>) -> i128 {
    match value {
        Value::Server(id) => id.into(),
        Value::Number(number) => number.into(),
        Value::Rate {
            elapsed,
            current,
            previous,
        } => rate(
            period.unwrap_or(0).into(),
            elapsed.into(),
            current.into(),
            previous.into(),
        ),
    }
}

/// The events of one period, as HAProxy counts them: those of the current one, and of the previous one the part that isn't over yet. One
/// alone in the previous period counts whole.
fn rate(period: i128, elapsed: i128, current: i128, previous: i128) -> i128 {
    let (left, current, previous) = match elapsed {
        _ if period == 0 => return current,
        _ if elapsed <= period => (period - elapsed, current, previous),
        _ if elapsed <= 2 * period => (2 * period - elapsed, 0, current),
        _ => return 0,
    };
    match (current, previous) {
        (0, 1) => 1,
        _ => current + previous * left / period,
    }
}
