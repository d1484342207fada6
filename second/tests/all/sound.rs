//! Soundness, row by row and in both directions.

use crate::common::{definition, free_entry, table, timed, update, Session};
use second::record::{Phase, Record, Role};
use second::sound::*;
use second::store::{Entry, Store};

const MAX: u64 = 4294967295;
const RATES: u64 = 1 << 3 | 1 << 18;

/// A session with three tables and entries of each.
fn base() -> Session {
    let mut session = Session::with_tables(&[
        &timed(1, b"a", [2, 4, 1 | 1 << 2 | 1 << 13], &[5]),
        &timed(2, b"b", [6, 10, RATES], &[5, 3, 6, 18, 7]),
        &definition(3, b"c", [7, 64, 0]),
    ]);
    session.one(128, &update(9, &[7; 64], &[]));
    session.one(131, &[2]);
    let string = [&[0, 0, 0, 1, 3], &b"key"[..], &[1, 2, 3, 4, 5, 6]].concat();
    session.one(128, &string);
    session.one(131, &[1]);
    session.one(128, &update(3, &[1, 2, 3, 4], &[5, MAX, u64::MAX]));
    assert!(is_sound(&session.record, &session.store));
    session
}

type StoreRow = fn(&Store) -> bool;

const STORE_ROWS: [(&str, StoreRow); 17] = [
    ("name length", names_are_within_limits),
    ("plain names", names_are_plain),
    ("key type", key_types_are_known),
    ("key length", key_lengths_match_types),
    ("data types", data_types_are_known),
    ("expiry", expiries_are_32_bit),
    ("period count", period_counts_match),
    ("period", periods_are_32_bit),
    ("distinct names", names_are_distinct),
    ("entry table", entry_tables_are_held),
    ("entry key length", entry_key_lengths_match),
    ("entry padding", entry_keys_are_padded),
    ("value count", value_counts_match),
    ("value", values_are_within_range),
    ("remaining time", remaining_times_are_32_bit),
    ("distinct entries", entries_are_distinct),
    ("counts", counts_match),
];

/// Changes the store; exactly the named rows must fail, or none.
fn store_case(rows: &[&str], change: impl Fn(&mut Store)) {
    let mut session = base();
    change(&mut session.store);
    for (name, row) in STORE_ROWS {
        assert_eq!(row(&session.store), !rows.contains(&name), "{name}");
    }
    assert_eq!(store_is_sound(&session.store), rows.is_empty());
    if !rows.is_empty() {
        assert!(!is_sound(&session.record, &session.store));
    }
}

/// Changes the table at place 0 and frees its entry.
fn table_case(rows: &[&str], change: impl Fn(&mut second::store::Table)) {
    store_case(rows, |store| {
        free_entry(store, 2);
        change(store.tables[0].as_mut().unwrap());
    });
}

/// Changes the entry at a place.
fn entry_case(rows: &[&str], place: usize, change: impl Fn(&mut Entry)) {
    store_case(rows, |store| change(store.entries[place].as_mut().unwrap()));
}

#[test]
fn a_sound_store() {
    store_case(&[], |_| {});
    assert!(store_is_sound(&Store::new()));
}

#[test]
fn table_names() {
    table_case(&["name length"], |table| table.name = vec![]);
    table_case(&["name length"], |table| table.name = vec![b'n'; 33]);
    table_case(&[], |table| table.name = vec![b':'; 32]);
    for byte in 0..=255u8 {
        let plain = byte.is_ascii_alphanumeric() || b"._-/:".contains(&byte);
        let rows: &[&str] = if plain { &[] } else { &["plain names"] };
        table_case(rows, |table| table.name = vec![byte, b'n']);
        table_case(rows, |table| table.name = vec![b'n', byte]);
    }
    table_case(&["distinct names"], |table| table.name = b"b".to_vec());
    table_case(&[], |table| table.name = b"b-".to_vec());
}

#[test]
fn table_shapes() {
    for key_type in [0, 1, 3, 8, 255, (1 << 32) + 2, u64::MAX] {
        table_case(&["key type"], |table| table.key_type = key_type);
    }
    table_case(&[], |table| table.key_type = 4);
    table_case(&["key length"], |table| table.key_type = 5);
    for (key_type, length, good) in [
        (2, 3, false),
        (2, 16, false),
        (4, 5, false),
        (4, 16, false),
        (5, 16, true),
        (5, 15, false),
        (5, 4, false),
        (6, 0, false),
        (6, 1, true),
        (6, 64, true),
        (6, 65, false),
        (7, 0, false),
        (7, 64, true),
        (7, 65, false),
    ] {
        let rows: &[&str] = if good { &[] } else { &["key length"] };
        table_case(rows, |table| {
            table.key_type = key_type;
            table.key_length = length;
        });
    }
    table_case(&["data types"], |table| table.data_types |= 1 << 19);
    table_case(&["data types"], |table| table.data_types |= 1 << 63);
    table_case(&[], |table| table.data_types |= 1 << 17);
}

#[test]
fn table_times() {
    table_case(&[], |table| table.times.as_mut().unwrap().expiry = MAX);
    table_case(&["expiry"], |table| {
        table.times.as_mut().unwrap().expiry = MAX + 1
    });
    table_case(&["period count"], |table| {
        table.times.as_mut().unwrap().periods = vec![1]
    });
    table_case(&["period count"], |table| table.data_types |= 1 << 3);
    table_case(&[], |table| table.times = None);
    let period = |value: u64| {
        move |store: &mut Store| {
            let table = store.tables[1].as_mut().unwrap();
            table.times.as_mut().unwrap().periods[1] = value;
        }
    };
    store_case(&[], period(MAX));
    store_case(&["period"], period(MAX + 1));
    let without = |store: &mut Store| store.tables[1].as_mut().unwrap().times = None;
    store_case(&[], without);
}

#[test]
fn entry_tables() {
    for place in [3, 7, 8, usize::MAX] {
        let moved = |store: &mut Store| {
            store.entries[2].as_mut().unwrap().table = place;
            store.counts[0] -= 1;
        };
        store_case(&["entry table"], moved);
        if let 3 | 7 = place {
            store_case(&["entry table", "counts"], |store| {
                moved(store);
                store.counts[place] = 1;
            });
        }
    }
    store_case(&["entry table"], |store| {
        store.tables[2] = None;
        store.counts[2] = 0;
    });
}

#[test]
fn counts() {
    for place in 0..8 {
        for count in [0, 1, 2, 128, 1 << 32, u64::MAX] {
            let right = count == u64::from(place < 3);
            let rows: &[&str] = if right { &[] } else { &["counts"] };
            store_case(rows, |store| store.counts[place] = count);
        }
    }
    // A count that another one makes up for is off too.
    store_case(&["counts"], |store| store.counts = [2, 0, 1, 0, 0, 0, 0, 0]);
    store_case(&["counts"], |store| store.counts = [1, 1, 0, 1, 0, 0, 0, 0]);
    // The places of entries and tables that are free.
    store_case(&["counts"], |store| store.entries[0] = None);
    store_case(&[], |store| free_entry(store, 0));
    store_case(&["entry table", "counts"], |store| store.tables[2] = None);
    let without = |store: &mut Store| {
        free_entry(store, 0);
        store.tables[2] = None;
    };
    store_case(&[], without);
    store_case(&["counts"], |store| {
        without(store);
        store.counts[2] = 1;
    });
}

#[test]
fn entry_keys() {
    entry_case(&["entry key length", "entry padding"], 2, |entry| {
        entry.key_length = 3
    });
    entry_case(&["entry key length"], 2, |entry| entry.key_length = 5);
    entry_case(&["entry key length"], 2, |entry| {
        entry.key_length = usize::MAX
    });
    entry_case(&["entry padding"], 2, |entry| entry.key[4] = 1);
    entry_case(&["entry padding"], 2, |entry| entry.key[63] = 1);
    entry_case(&[], 2, |entry| entry.key[3] = 0);
    entry_case(&["entry padding"], 1, |entry| entry.key_length = 2);
    entry_case(&[], 1, |entry| entry.key_length = 10);
    entry_case(&["entry key length"], 1, |entry| entry.key_length = 11);
    entry_case(&[], 1, |entry| {
        entry.key = [0; 64];
        entry.key_length = 0;
    });
    entry_case(&["entry key length"], 0, |entry| entry.key_length = 65);
}

#[test]
fn entry_values() {
    entry_case(&[], 2, |entry| entry.values[0] = (1 << 31) - 1);
    entry_case(&["value"], 2, |entry| entry.values[0] = 1 << 31);
    entry_case(&[], 2, |entry| entry.values[0] = u64::MAX - (1 << 31) + 1);
    entry_case(&["value"], 2, |entry| {
        entry.values[0] = u64::MAX - (1 << 31)
    });
    entry_case(&["value"], 2, |entry| entry.values[1] = MAX + 1);
    entry_case(&[], 2, |entry| entry.values[2] = 0);
    for place in 0..6 {
        entry_case(&[], 1, |entry| entry.values[place] = MAX);
        entry_case(&["value"], 1, |entry| entry.values[place] = MAX + 1);
    }
    entry_case(&["value count"], 2, |entry| entry.values.truncate(2));
    entry_case(&["value count"], 2, |entry| entry.values.push(0));
}

#[test]
fn remaining_times() {
    for place in 0..3 {
        for time in [None, Some(0), Some(1), Some(MAX)] {
            entry_case(&[], place, |entry| entry.remaining = time);
        }
        for time in [MAX + 1, u64::MAX] {
            let rows = &["remaining time"];
            entry_case(rows, place, |entry| entry.remaining = Some(time));
        }
    }
}

#[test]
fn distinct_entries() {
    let copy = |store: &mut Store| store.add(127, store.entries[2].clone().unwrap());
    store_case(&["distinct entries"], copy);
    store_case(&["distinct entries"], |store| {
        copy(store);
        store.entries[127].as_mut().unwrap().values = vec![0; 3];
    });
    store_case(&[], |store| {
        copy(store);
        store.entries[127].as_mut().unwrap().key[0] ^= 1;
    });
    store_case(&[], |store| {
        store.add(90, Entry::new(1, b"key\0", vec![0; 6]));
    });
    store_case(&[], |store| {
        store.tables[5] = Some(table(b"f", [2, 4, 0], None));
        store.add(127, Entry::new(5, &[1, 2, 3, 4], vec![]));
    });
}

type RecordRow = fn(&Record, &Store) -> bool;

const RECORD_ROWS: [(&str, RecordRow); 12] = [
    ("number", |record, _| closing_number_is_known(record)),
    ("names", |record, _| both_names_are_names(record)),
    ("bound range", |record, _| bound_ids_are_32_bit(record)),
    ("previous range", |record, _| {
        previous_ids_are_32_bit(record)
    }),
    ("bound held", bound_tables_are_held),
    ("previous held", previous_tables_are_held),
    ("current held", current_table_is_held),
    ("current bound", |record, _| current_table_is_bound(record)),
    ("bound twice", |record, _| bound_ids_are_distinct(record)),
    ("defined held", defined_table_is_held),
    ("closed", |record, _| closed_has_no_unfinished(record)),
    ("unfinished", |record, _| unfinished_shows_nothing(record)),
];

/// Changes the record; exactly the named rows must fail, or none.
fn record_case(rows: &[&str], change: impl Fn(&mut Record)) {
    let mut session = base();
    change(&mut session.record);
    for (name, row) in RECORD_ROWS {
        let holds = row(&session.record, &session.store);
        assert_eq!(holds, !rows.contains(&name), "{name}");
    }
    let sound = is_sound(&session.record, &session.store);
    assert_eq!(sound, rows.is_empty());
}

#[test]
fn a_sound_record() {
    record_case(&[], |_| {});
    for role in [Role::Answerer, Role::Caller] {
        assert!(is_sound(&crate::common::record(role), &Store::new()));
        assert!(is_sound(&crate::common::record(role), &base().store));
    }
}

#[test]
fn closing_numbers() {
    for number in 0..=255 {
        let good = matches!(number, 0 | 1 | 3 | 10..=15 | 20..=30);
        let rows: &[&str] = if good { &[] } else { &["number"] };
        record_case(rows, |record| record.phase = Phase::Closed(number));
    }
}

#[test]
fn record_names() {
    let names: [(&[u8], bool); 6] = [
        (b"", false),
        (&[b'n'; 32], true),
        (&[b'n'; 33], false),
        (b"a b", false),
        (b"a\x7F", false),
        (b"!~", true),
    ];
    for (name, good) in names {
        let rows: &[&str] = if good { &[] } else { &["names"] };
        record_case(rows, |record| record.our_name = name.to_vec());
        record_case(rows, |record| record.peer_name = name.to_vec());
    }
}

#[test]
fn ids_of_tables() {
    record_case(&[], |record| record.bound[0] = Some(MAX));
    record_case(&["bound range"], |record| record.bound[0] = Some(MAX + 1));
    record_case(&[], |record| record.previous[0] = Some(MAX));
    record_case(&["previous range"], |record| {
        record.previous[0] = Some(MAX + 1)
    });
    record_case(&["bound held"], |record| record.bound[3] = Some(50));
    record_case(&["previous held"], |record| record.previous[7] = Some(50));
    record_case(&["bound twice"], |record| record.bound[0] = Some(2));
    record_case(&[], |record| record.bound[1] = None);
    record_case(&[], |record| record.previous = [None; 8]);
    record_case(&[], |record| record.previous[1] = record.previous[0]);
}

#[test]
fn current_marks() {
    record_case(&[], |record| record.current = None);
    record_case(&[], |record| record.current = Some(1));
    record_case(&["current held", "current bound"], |record| {
        record.current = Some(3)
    });
    record_case(&["current held", "current bound"], |record| {
        record.current = Some(8)
    });
    record_case(&["current bound"], |record| record.bound[0] = None);
}

#[test]
fn tables_defined_last() {
    for place in 0..3 {
        record_case(&[], |record| record.defined = Some(place));
    }
    for place in [3, 7, 8, 128, usize::MAX] {
        record_case(&["defined held"], |record| record.defined = Some(place));
        record_case(&["defined held"], |record| {
            record.phase = Phase::Closed(0);
            record.defined = Some(place);
        });
    }
    // It may have no ID of the peer's.
    record_case(&[], |record| {
        record.defined = Some(1);
        record.bound[1] = None;
        record.previous[1] = None;
    });
    for id in [0, u32::MAX] {
        record_case(&[], |record| record.sent = Some(id));
        record_case(&[], |record| {
            record.defined = Some(1);
            record.sent = Some(id);
        });
    }
}

#[test]
fn well_formed_ids_in_the_handshake() {
    record_case(&[], |record| record.phase = Phase::Handshake);
}

#[test]
fn unfinished_bytes_of_messages() {
    let with = |bytes: &[u8]| {
        let bytes = bytes.to_vec();
        move |record: &mut Record| record.unfinished = bytes.clone()
    };
    let good: [&[u8]; 6] = [
        &[0],
        &[255],
        &[10, 128],
        &[10, 128, 0xF0],
        &[10, 128, 2, 0],
        &[
            10, 255, 0xFF, 0xFF, 0xFF, 0xFF, 0xFF, 0xFF, 0xFF, 0xFF, 0xFF,
        ],
    ];
    for bytes in good {
        record_case(&[], with(bytes));
    }
    let bad: [&[u8]; 8] = [
        &[0, 0],
        &[0, 1, 10],
        &[2, 0],
        &[10, 127, 5],
        &[10, 128, 0],
        &[10, 135, 1, 7, 0],
        &[10, 128, 0xF1, 0x31],
        &[
            10, 128, 0xFF, 0xFF, 0xFF, 0xFF, 0xFF, 0xFF, 0xFF, 0xFF, 0xFF, 0xFF,
        ],
    ];
    for bytes in bad {
        record_case(&["unfinished"], with(bytes));
    }
    let mut longest = vec![10, 255, 0xF0, 0x31];
    longest.resize(1027, 1);
    record_case(&[], with(&longest));
    longest.push(1);
    record_case(&["unfinished"], with(&longest));
    longest.push(1);
    record_case(&["unfinished"], with(&longest));
}

#[test]
fn unfinished_bytes_of_handshakes() {
    let with = |role: Role, bytes: &[u8]| {
        let bytes = bytes.to_vec();
        move |record: &mut Record| {
            record.phase = Phase::Handshake;
            record.role = role;
            record.unfinished = bytes.clone();
        }
    };
    record_case(&[], with(Role::Caller, b"xyz"));
    record_case(&["unfinished"], with(Role::Caller, b"200\n"));
    record_case(&["unfinished"], with(Role::Caller, b"xyz1"));
    record_case(&["unfinished"], with(Role::Caller, b"xyz12"));
    record_case(&[], with(Role::Answerer, b"xyz12\n\n"));
    record_case(&["unfinished"], with(Role::Answerer, b"xyz12\n\n\n"));
    record_case(&["unfinished"], with(Role::Answerer, b"xyz12\n\n\nw"));
    record_case(&[], with(Role::Answerer, &[b'x'; 64]));
    record_case(&["unfinished"], with(Role::Answerer, &[b'x'; 65]));
    let line = [b'x'; 64];
    let longest = [&line[..], b"\n", &line, b"\n", &line].concat();
    record_case(&[], with(Role::Answerer, &longest));
    let longer = [&longest[..], b"x"].concat();
    record_case(&["unfinished"], with(Role::Answerer, &longer));
}

#[test]
fn unfinished_bytes_of_a_closed_record() {
    record_case(&["closed"], |record| {
        record.phase = Phase::Closed(0);
        record.unfinished = vec![0];
    });
}

#[test]
fn refused_openings() {
    let store = base().store;
    for number in [1, 3] {
        let record = Record::refused(number);
        assert!(is_refused_opening(&record));
        assert!(is_sound(&record, &store));
        assert!(is_sound(&record, &Store::new()));
        let changes: [fn(&mut Record); 7] = [
            |record| record.our_name = b"east".to_vec(),
            |record| record.role = Role::Caller,
            |record| record.unfinished = vec![0],
            |record| record.current = Some(0),
            |record| record.bound[0] = Some(0),
            |record| record.defined = Some(0),
            |record| record.sent = Some(0),
        ];
        for change in changes {
            let mut changed = record.clone();
            change(&mut changed);
            assert!(!is_sound(&changed, &store));
        }
    }
    for number in [0, 2, 4, 10, 20] {
        assert!(!is_sound(&Record::refused(number), &store));
    }
}
