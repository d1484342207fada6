//! Streams to measure on.

use peers::KeyType;

/// The hello of `west` to `east`.
pub const HELLO: &[u8] = b"HAProxyS 2.1\neast\nwest 7 0\n";

/// An encoded integer.
pub fn int(value: u64) -> Vec<u8> {
    if value < 240 {
        return vec![value as u8];
    }
    let mut bytes = vec![240 + (value % 16) as u8];
    let mut rest = (value - 240) / 16;
    while rest >= 128 {
        bytes.push(128 + (rest % 128) as u8);
        rest = (rest - 128) / 128;
    }
    bytes.push(rest as u8);
    bytes
}

/// A stick table message.
pub fn message(kind: u8, body: &[u8]) -> Vec<u8> {
    [&[10, kind], &int(body.len() as u64)[..], body].concat()
}

/// A definition of a table of strings with connection and request counters and rates, as rate limiting has it.
pub fn definition(id: u32) -> Vec<u8> {
    let mut body = int(id.into());
    body.extend([1, b'a' + id as u8, KeyType::String.number(), 64]);
    body.extend(int(1 << 4 | 1 << 5 | 1 << 9 | 1 << 10));
    for time in [60_000, 5, 10_000, 10, 10_000] {
        body.extend(int(time));
    }
    message(130, &body)
}

/// The key of an entry: an address as text.
pub fn key(number: u32) -> Vec<u8> {
    format!("2001:db8:0:{:x}::{:x}", number % 7, number).into_bytes()
}

/// An update of a key in the current table.
pub fn update(id: u32, number: u32) -> Vec<u8> {
    update_of(id, &key(number))
}

/// The same with a remaining time in milliseconds.
pub fn timed_update(id: u32, time: u32, number: u32) -> Vec<u8> {
    let entry = entry_of(&key(number), &values(id));
    message(
        133,
        &[&id.to_be_bytes(), &time.to_be_bytes(), &entry[..]].concat(),
    )
}

fn values(id: u32) -> [u64; 8] {
    [17, 900, 4, 3, u64::from(id) % 10_000, 2_000, 70, 65]
}

fn update_of(id: u32, key: &[u8]) -> Vec<u8> {
    update_with(id, key, &values(id))
}

fn update_with(id: u32, key: &[u8], values: &[u64]) -> Vec<u8> {
    message(
        128,
        &[&id.to_be_bytes(), &entry_of(key, values)[..]].concat(),
    )
}

/// A string key and values as they stand in a body.
fn entry_of(key: &[u8], values: &[u64]) -> Vec<u8> {
    let values = values.iter().flat_map(|&value| int(value));
    let key = [key.len() as u8].into_iter().chain(key.iter().copied());
    key.chain(values).collect()
}

/// Messages that open a session, define a table and fill so many entries.
pub fn filling(entries: u32) -> Vec<u8> {
    let mut bytes = HELLO.to_vec();
    bytes.extend(definition(1));
    bytes.extend((0..entries).flat_map(|n| update(n, n)));
    bytes
}

/// Updates of keys that are held, spread over all of them.
pub fn updates(count: u32, entries: u32) -> Vec<Vec<u8>> {
    (0..count)
        .map(|n| update(1000 + n, n.wrapping_mul(37) % entries))
        .collect()
}

// ---- values by length

/// Values that take 1, 5 and 10 bytes.
pub const BY_LENGTH: [(usize, u64); 3] = [(1, 200), (5, 1_000_000_000), (10, u64::MAX)];

/// As `filling(1)`, where the table has bytes in and bytes out.
pub fn traffic_filling(value: u64) -> Vec<u8> {
    let mut body = vec![1, 1, b'a', KeyType::String.number(), 64];
    body.extend(int(1 << 13 | 1 << 15));
    [HELLO, &message(130, &body), &traffic(0, value)].concat()
}

/// Updates of this entry, both values being the same.
pub fn traffic_updates(count: u32, value: u64) -> Vec<Vec<u8>> {
    (0..count).map(|n| traffic(1000 + n, value)).collect()
}

fn traffic(id: u32, value: u64) -> Vec<u8> {
    update_with(id, &key(0), &[value, value])
}

// ---- keys of 64 bytes

/// The key of one of 128 entries. With `twins` the last key has the first one's mark: as the mark is
/// `(mark * 65599 + word) % 2147483647` over words of four bytes, one more in the first word is 65599 less in the second.
pub fn long_key(number: u32, twins: bool) -> Vec<u8> {
    if !(twins && number == 127) {
        return format!("{number:k>64}").into_bytes();
    }
    let mut key = long_key(0, false);
    let [first, second] = [0, 4].map(|at| word(&key[at..at + 4]));
    key[..4].copy_from_slice(&(first + 1).to_le_bytes());
    key[4..8].copy_from_slice(&(second - 65_599).to_le_bytes());
    key
}

fn word(bytes: &[u8]) -> u32 {
    bytes.iter().rev().fold(0, |n, &b| n << 8 | u32::from(b))
}

/// As `filling(128)`, with keys of 64 bytes.
pub fn long_filling(twins: bool) -> Vec<u8> {
    let mut bytes = filling(0);
    bytes.extend((0..128).flat_map(|n| update_of(n, &long_key(n, twins))));
    bytes
}

/// As `updates`, of these keys.
pub fn long_updates(count: u32, twins: bool) -> Vec<Vec<u8>> {
    let key = |n: u32| long_key(n.wrapping_mul(37) % 128, twins);
    (0..count).map(|n| update_of(1000 + n, &key(n))).collect()
}
