//! The tables as text, in the form of HAProxy's `show table`.

use peers::layout::ENTRIES;
use peers::{Entry, KeyType, Store, Table, Value};
use std::fmt::Write;
use std::net::{Ipv4Addr, Ipv6Addr};

/// Each table with its entries. The number in front of an entry is its place in the store; all tables share its 128 places.
pub fn text(store: &Store) -> String {
    let mut page = String::new();
    for table in store.tables() {
        let used = store.entries_of(table.place());
        let name = table.name().escape_ascii();
        let kind = kind(table);
        page += &format!("# table: {name}, type: {kind}, size:{ENTRIES}, used:{used}\n");
        let entries = store.entries();
        for entry in entries.filter(|entry| entry.table().place() == table.place()) {
            page += &line(entry);
        }
    }
    page
}

/// A key type's name in HAProxy's configuration.
fn kind(table: Table<'_>) -> &'static str {
    match table.key_type() {
        Some(KeyType::Integer) => "integer",
        Some(KeyType::Ipv4) => "ip",
        Some(KeyType::Ipv6) => "ipv6",
        Some(KeyType::String) => "string",
        Some(KeyType::Binary) => "binary",
        None => "unknown",
    }
}

/// An entry's place, key, remaining milliseconds and values.
fn line(entry: Entry<'_>) -> String {
    let mut line = format!("{}: key={} exp=", entry.place(), key(entry));
    line += &entry
        .remaining()
        .map_or("none".to_owned(), |time| time.as_millis().to_string());
    for (data_type, value) in entry.values() {
        let name = data_type.name();
        let period = entry.table().period(data_type);
        let period_text = period.map_or(String::new(), |period| format!("({period})"));
        line += &format!(" {name}{period_text}={}", number(value, period));
    }
    line + "\n"
}

/// A key by its kind.
fn key(entry: Entry<'_>) -> String {
    let bytes = entry.key();
    let kind = entry.table().key_type();
    match (
        kind,
        <[u8; 4]>::try_from(bytes),
        <[u8; 16]>::try_from(bytes),
    ) {
        (Some(KeyType::Integer), Ok(four), _) => u32::from_be_bytes(four).to_string(),
        (Some(KeyType::Ipv4), Ok(four), _) => Ipv4Addr::from(four).to_string(),
        (Some(KeyType::Ipv6), _, Ok(sixteen)) => Ipv6Addr::from(sixteen).to_string(),
        (Some(KeyType::String), ..) => escaped(bytes),
        _ => hex(bytes),
    }
}

/// Text as HAProxy escapes it: a space and an equals sign too, so that a line can be split at them.
fn escaped(bytes: &[u8]) -> String {
    let mut text = String::new();
    for &byte in bytes {
        match byte {
            b'\t' => text += "\\t",
            b'\n' => text += "\\n",
            b'\r' => text += "\\r",
            0x1B => text += "\\e",
            b' ' | b'=' | b'\\' => text.extend(['\\', byte.into()]),
            0x21..=0x7E => text.push(byte.into()),
            _ => text += &format!("\\x{byte:02X}"),
        }
    }
    text
}

fn hex(bytes: &[u8]) -> String {
    bytes.iter().fold(String::new(), |mut text, byte| {
        let _ = write!(text, "{byte:02X}"); // writing to a string doesn't fail
        text
    })
}

/// A value as one number. A rate is that of its entry's last update: nothing is counted off since.
fn number(value: Value, period: Option<u32>) -> i128 {
    match value {
        Value::Server(id) => id.into(),
        Value::Number(number) => number.into(),
        Value::Rate {
            elapsed,
            current,
            previous,
        } => rate(
            period.unwrap_or(0).into(),
            elapsed.into(),
            current.into(),
            previous.into(),
        ),
    }
}

/// The events of one period, as HAProxy counts them: those of the current one, and of the previous one the part that isn't over yet. One
/// alone in the previous period counts whole.
fn rate(period: i128, elapsed: i128, current: i128, previous: i128) -> i128 {
    let (left, current, previous) = match elapsed {
        _ if period == 0 => return current,
        _ if elapsed <= period => (period - elapsed, current, previous),
        _ if elapsed <= 2 * period => (2 * period - elapsed, 0, current),
        _ => return 0,
    };
    match (current, previous) {
        (0, 1) => 1,
        _ => current + previous * left / period,
    }
}
