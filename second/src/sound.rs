//! Soundness of the record and the store.
//!
//! Each row of "Not sound means" is a function that is true where the row
//! holds no fault.

use crate::datatype::{self, MAX_32};
use crate::frame::{frame, Frame};
use crate::handshake::is_name;
use crate::model::greet;
use crate::record::{Phase, Record};
use crate::refusal;
use crate::store::{is_plain, key_lengths, Entry, Store, Table, KEY_LIMIT, NAME_LIMIT, STRING};

/// Whether the record and the store are sound.
pub fn is_sound(record: &Record, store: &Store) -> bool {
    store_is_sound(store) && record_is_sound(record, store)
}

/// Whether the store is sound.
pub fn store_is_sound(store: &Store) -> bool {
    names_are_within_limits(store)
        && names_are_plain(store)
        && key_types_are_known(store)
        && key_lengths_match_types(store)
        && data_types_are_known(store)
        && expiries_are_32_bit(store)
        && period_counts_match(store)
        && periods_are_32_bit(store)
        && names_are_distinct(store)
        && entry_tables_are_held(store)
        && entry_key_lengths_match(store)
        && entry_keys_are_padded(store)
        && value_counts_match(store)
        && values_are_within_range(store)
        && remaining_times_are_32_bit(store)
        && entries_are_distinct(store)
        && counts_match(store)
}

/// Whether the record is sound on this store.
pub fn record_is_sound(record: &Record, store: &Store) -> bool {
    is_refused_opening(record)
        || (closing_number_is_known(record)
            && both_names_are_names(record)
            && bound_ids_are_32_bit(record)
            && previous_ids_are_32_bit(record)
            && bound_tables_are_held(record, store)
            && previous_tables_are_held(record, store)
            && current_table_is_held(record, store)
            && current_table_is_bound(record)
            && bound_ids_are_distinct(record)
            && defined_table_is_held(record, store)
            && closed_has_no_unfinished(record)
            && unfinished_shows_nothing(record))
}

/// The record of a refused opening: its number, all else empty.
pub fn is_refused_opening(record: &Record) -> bool {
    let numbers = [refusal::ROOM, refusal::NAME];
    numbers.iter().any(|&n| *record == Record::refused(n))
}

/// The held tables.
fn tables(store: &Store) -> impl Iterator<Item = &Table> {
    store.tables.iter().flatten()
}

/// The held entries.
fn entries(store: &Store) -> impl Iterator<Item = &Entry> {
    store.entries.iter().flatten()
}

/// A test of every held entry with its table; free tables aren't looked at.
fn all_with_table(store: &Store, test: impl Fn(&Entry, &Table) -> bool) -> bool {
    entries(store).all(|entry| {
        store
            .table(entry.table)
            .is_none_or(|table| test(entry, table))
    })
}

/// A table's name has 1 to 32 bytes.
pub fn names_are_within_limits(store: &Store) -> bool {
    tables(store).all(|table| (1..=NAME_LIMIT).contains(&table.name.len()))
}

/// A table's name has plain bytes only.
pub fn names_are_plain(store: &Store) -> bool {
    tables(store).all(|table| is_plain(&table.name))
}

/// A table's key type is known.
pub fn key_types_are_known(store: &Store) -> bool {
    tables(store).all(|table| key_lengths(table.key_type).is_some())
}

/// A table's key length is one of its key type.
pub fn key_lengths_match_types(store: &Store) -> bool {
    tables(store).all(|table| {
        key_lengths(table.key_type).is_none_or(|lengths| lengths.contains(&table.key_length))
    })
}

/// A table's data types are bits 0 to 18.
pub fn data_types_are_known(store: &Store) -> bool {
    tables(store).all(|table| table.data_types <= datatype::LARGEST)
}

/// A table's expiry is at most 2^32 - 1.
pub fn expiries_are_32_bit(store: &Store) -> bool {
    let mut times = tables(store).filter_map(|table| table.times.as_ref());
    times.all(|times| times.expiry <= MAX_32)
}

/// A table with an expiry has a period for each rate type.
pub fn period_counts_match(store: &Store) -> bool {
    tables(store).all(|table| {
        let rates = datatype::rates(table.data_types).len();
        let times = table.times.as_ref();
        times.is_none_or(|times| times.periods.len() == rates)
    })
}

/// A table's periods are at most 2^32 - 1.
pub fn periods_are_32_bit(store: &Store) -> bool {
    let times = tables(store).filter_map(|table| table.times.as_ref());
    times
        .flat_map(|times| &times.periods)
        .all(|&period| period <= MAX_32)
}

/// No two tables have one name.
pub fn names_are_distinct(store: &Store) -> bool {
    are_distinct(tables(store), |one, other| one.name == other.name)
}

/// An entry's table place is below 8 and held.
pub fn entry_tables_are_held(store: &Store) -> bool {
    entries(store).all(|entry| store.table(entry.table).is_some())
}

/// An entry's key length is its table's, or at most that for strings.
pub fn entry_key_lengths_match(store: &Store) -> bool {
    all_with_table(store, |entry, table| {
        let length = entry.key_length as u64;
        match table.key_type {
            STRING => length <= table.key_length,
            _ => length == table.key_length,
        }
    })
}

/// Key bytes past the length are zero.
pub fn entry_keys_are_padded(store: &Store) -> bool {
    entries(store).all(|entry| {
        let padding = &entry.key[entry.key_length.min(KEY_LIMIT)..];
        padding.iter().all(|&byte| byte == 0)
    })
}

/// An entry has the values of its table's data types.
pub fn value_counts_match(store: &Store) -> bool {
    all_with_table(store, |entry, table| {
        entry.values.len() == datatype::values(table.data_types).len()
    })
}

/// Each value is within the range of its data type.
pub fn values_are_within_range(store: &Store) -> bool {
    all_with_table(store, |entry, table| {
        let types = datatype::values(table.data_types);
        let mut pairs = types.iter().zip(&entry.values);
        pairs.all(|(&number, &value)| datatype::fits(number, value))
    })
}

/// An entry's remaining time is at most 2^32 - 1.
pub fn remaining_times_are_32_bit(store: &Store) -> bool {
    entries(store).all(|entry| entry.remaining.is_none_or(|time| time <= MAX_32))
}

/// No two entries have one table and key.
pub fn entries_are_distinct(store: &Store) -> bool {
    are_distinct(entries(store), |one, other| {
        one.table == other.table && one.key_length == other.key_length && one.key == other.key
    })
}

/// The count of each table place is the number of its entries, 0 where the
/// place is free.
pub fn counts_match(store: &Store) -> bool {
    let mut counts = store.counts.iter().enumerate();
    counts.all(|(place, &count)| count == walked(store, place))
}

/// The number of entries of the held table at a place, 0 where it's free.
fn walked(store: &Store, place: usize) -> u64 {
    match store.table(place) {
        None => 0,
        Some(_) => entries(store).filter(|entry| entry.table == place).count() as u64,
    }
}

/// Whether no two of the items are equal by the given test.
fn are_distinct<'a, T: 'a>(
    items: impl Iterator<Item = &'a T>,
    equal: impl Fn(&T, &T) -> bool,
) -> bool {
    let items: Vec<&T> = items.collect();
    let earlier = |n: usize| items[..n].iter().any(|other| equal(items[n], other));
    !(0..items.len()).any(earlier)
}

/// A closed record's number is one that closes.
pub fn closing_number_is_known(record: &Record) -> bool {
    match record.phase {
        Phase::Closed(number) => refusal::closes(number),
        Phase::Handshake | Phase::Open => true,
    }
}

/// Both names are within the rule for opening.
pub fn both_names_are_names(record: &Record) -> bool {
    is_name(&record.our_name) && is_name(&record.peer_name)
}

/// Bound IDs are at most 2^32 - 1.
pub fn bound_ids_are_32_bit(record: &Record) -> bool {
    record.bound.iter().flatten().all(|&id| id <= MAX_32)
}

/// Previous IDs are at most 2^32 - 1.
pub fn previous_ids_are_32_bit(record: &Record) -> bool {
    record.previous.iter().flatten().all(|&id| id <= MAX_32)
}

/// A bound ID's table is held.
pub fn bound_tables_are_held(record: &Record, store: &Store) -> bool {
    marked_tables_are_held(&record.bound, store)
}

/// A previous ID's table is held.
pub fn previous_tables_are_held(record: &Record, store: &Store) -> bool {
    marked_tables_are_held(&record.previous, store)
}

/// Each place with an ID is a held table's.
fn marked_tables_are_held(ids: &[Option<u64>], store: &Store) -> bool {
    let mut places = ids.iter().zip(&store.tables);
    places.all(|(id, table)| id.is_none() || table.is_some())
}

/// The current table's place is below 8 and held.
pub fn current_table_is_held(record: &Record, store: &Store) -> bool {
    record
        .current
        .is_none_or(|place| store.table(place).is_some())
}

/// The current table has an ID.
pub fn current_table_is_bound(record: &Record) -> bool {
    let id = |place: usize| record.bound.get(place).copied().flatten();
    record.current.is_none_or(|place| id(place).is_some())
}

/// No ID is bound to two tables.
pub fn bound_ids_are_distinct(record: &Record) -> bool {
    are_distinct(record.bound.iter().flatten(), |one, other| one == other)
}

/// The place of the table defined last is below 8 and held.
pub fn defined_table_is_held(record: &Record, store: &Store) -> bool {
    record
        .defined
        .is_none_or(|place| store.table(place).is_some())
}

/// A closed record has no unfinished bytes.
pub fn closed_has_no_unfinished(record: &Record) -> bool {
    !record.is_closed() || record.unfinished.is_empty()
}

/// No first part of the unfinished bytes, nor all, ends a message or shows a
/// refusal.
pub fn unfinished_shows_nothing(record: &Record) -> bool {
    let bytes = &record.unfinished;
    (1..=bytes.len()).all(|count| !shows_something(record, &bytes[..count]))
}

/// Whether some bytes end a message or show a refusal.
fn shows_something(record: &Record, bytes: &[u8]) -> bool {
    match record.phase {
        Phase::Handshake => greet(record, bytes).is_some(),
        Phase::Open => frame(bytes) != Frame::Unfinished,
        Phase::Closed(_) => false,
    }
}
