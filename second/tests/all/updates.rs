//! Updates and the entry store.

use crate::common::{definition, free_entry, message, powers, refused, refused_at};
use crate::common::{start_of_cut, update, Session};
use second::answer::{Answer, Commit};
use second::integer::encode;
use second::record::Phase;
use second::store::{Entry, ENTRIES};

const MAX: u64 = 4294967295;

/// A session with one table of this shape.
fn with_shape(shape: [u64; 3]) -> Session {
    Session::with_tables(&[&definition(1, b"t", shape)])
}

fn new(table: usize, id: u32, entry: usize) -> Answer {
    let commit = Commit::New;
    Answer::Update {
        table,
        id,
        entry,
        commit,
    }
}

fn replaced(table: usize, id: u32, entry: usize) -> Answer {
    let commit = Commit::Replaced;
    Answer::Update {
        table,
        id,
        entry,
        commit,
    }
}

#[test]
fn an_update_is_held_and_acknowledged() {
    let mut session = with_shape([2, 4, 4]);
    let response = session.respond(&message(128, &update(0x01020304, b"key0", &[4660])));
    assert_eq!(response.answer, new(0, 0x01020304, 0));
    assert_eq!(response.reply, [10, 132, 5, 1, 1, 2, 3, 4]);
    assert_eq!(session.entries(), [&Entry::new(0, b"key0", vec![4660])]);
    assert_eq!(session.record.previous[0], Some(0x01020304));
}

#[test]
fn acknowledgements_have_the_bound_id() {
    for (id, length) in [(0, 8), (239, 8), (240, 9), (2288, 10), (MAX, 12)] {
        let mut session = Session::with_tables(&[&definition(id, b"t", [2, 4, 0])]);
        let response = session.respond(&message(128, &update(MAX as u32, &[0; 4], &[])));
        let body = [&encode(id)[..], &[0xFF; 4]].concat();
        let expected = [&[10, 132, body.len() as u8], &body[..]].concat();
        assert_eq!(response.reply, expected);
        assert_eq!(response.reply.len(), length);
    }
}

#[test]
fn a_known_key_is_replaced() {
    let mut session = with_shape([2, 4, 4]);
    session.one(128, &update(1, b"aaaa", &[1]));
    session.one(128, &update(2, b"bbbb", &[2]));
    assert_eq!(
        session.one(128, &update(9, b"aaaa", &[3])),
        replaced(0, 9, 0)
    );
    assert_eq!(
        session.one(129, &update(0, b"bbbb", &[4])[4..]),
        replaced(0, 10, 1)
    );
    let expected = [
        &Entry::new(0, b"aaaa", vec![3]),
        &Entry::new(0, b"bbbb", vec![4]),
    ];
    assert_eq!(session.entries(), expected);
}

#[test]
fn one_key_in_two_tables() {
    let one = definition(1, b"a", [2, 4, 0]);
    let two = definition(2, b"b", [2, 4, 0]);
    let mut session = Session::with_tables(&[&one, &two]);
    assert_eq!(session.one(128, &update(5, b"kkkk", &[])), new(1, 5, 0));
    session.one(131, &[1]);
    assert_eq!(session.one(128, &update(6, b"kkkk", &[])), new(0, 6, 1));
    assert_eq!(
        session.one(128, &update(7, b"kkkk", &[])),
        replaced(0, 7, 1)
    );
}

#[test]
fn an_entry_takes_the_lowest_free_place() {
    let mut session = with_shape([2, 4, 0]);
    for key in 0..4 {
        session.one(128, &update(key, &key.to_be_bytes(), &[]));
    }
    free_entry(&mut session.store, 1);
    free_entry(&mut session.store, 2);
    assert_eq!(session.one(129, b"next"), new(0, 4, 1));
    assert_eq!(session.one(129, b"last"), new(0, 5, 2));
    assert_eq!(session.one(129, b"more"), new(0, 6, 4));
}

#[test]
fn a_table_takes_the_lowest_free_place() {
    let one = definition(1, b"a", [2, 4, 0]);
    let two = definition(2, b"b", [2, 4, 0]);
    let mut session = Session::with_tables(&[&one, &two]);
    session.store.tables[0] = None;
    session.record.bound[0] = None;
    let answer = session.one(130, &definition(3, b"c", [2, 4, 0]));
    assert_eq!(answer, Answer::Table { place: 0 });
}

#[test]
fn a_full_store() {
    let mut session = with_shape([2, 4, 0]);
    for key in 0..ENTRIES as u32 {
        let answer = session.one(128, &update(key, &key.to_be_bytes(), &[]));
        assert_eq!(answer, new(0, key, key as usize));
    }
    let known = 127u32.to_be_bytes();
    assert_eq!(session.one(129, &known), replaced(0, 128, 127));
    let full = session.clone();
    let response = session.respond(&message(128, &update(500, b"none", &[])));
    assert_eq!(response.answer, refused(29));
    assert_eq!(response.reply, [1, 1]);
    let mut expected = full.clone();
    expected.record.phase = Phase::Closed(29);
    assert_eq!(session, expected);
    assert_eq!(full.would(129, b"none"), refused(29));
    assert_eq!(full.would(128, &update(1, b"non", &[])), refused_at(23, 4));
    let define = definition(4, b"u", [2, 4, 0]);
    assert_eq!(full.would(130, &define), Answer::Table { place: 1 });
}

#[test]
fn fixed_keys() {
    for (key_type, length) in [(2, 4), (4, 4), (5, 16), (7, 1), (7, 7), (7, 64)] {
        let mut session = with_shape([key_type, length, 2]);
        let key: Vec<u8> = (1..=length as u8).collect();
        assert_eq!(session.one(128, &update(1, &key, &[9])), new(0, 1, 0));
        assert_eq!(session.entries(), [&Entry::new(0, &key, vec![9])]);
        let short = &key[1..];
        assert_eq!(
            session.would(128, &update(1, short, &[])),
            refused_at(23, 4)
        );
    }
}

#[test]
fn string_keys() {
    let mut session = with_shape([6, 10, 2]);
    for (n, length) in [0, 1, 9, 10].into_iter().enumerate() {
        let key = vec![b'k'; length];
        let body = [&[0, 0, 0, 1, length as u8], &key[..], &[7]].concat();
        assert_eq!(session.one(128, &body), new(0, 1, n));
        assert_eq!(session.entries()[n], &Entry::new(0, &key, vec![7]));
    }
    assert_eq!(session.would(128, &[0, 0, 0, 1, 11]), refused_at(24, 4));
    let long = [&[0, 0, 0, 1, 11], &[b'k'; 11][..], &[7]].concat();
    assert_eq!(session.would(128, &long), refused_at(24, 4));
    let huge = [&[0, 0, 0, 1], &encode(u64::MAX)[..]].concat();
    assert_eq!(session.would(128, &huge), refused_at(24, 4));
    assert_eq!(
        session.would(128, &[0, 0, 0, 1, 10, b'k']),
        refused_at(23, 5)
    );
    assert_eq!(session.would(128, &[0, 0, 0, 1]), refused_at(23, 4));
}

#[test]
fn string_keys_differ_by_length() {
    let mut session = with_shape([6, 4, 0]);
    let keys: [&[u8]; 4] = [b"", b"\0", b"a", b"a\0"];
    for (n, key) in keys.iter().enumerate() {
        let body = [&[0, 0, 0, 1, key.len() as u8], *key].concat();
        assert_eq!(session.one(128, &body), new(0, 1, n));
        assert_eq!(session.one(128, &body), replaced(0, 1, n));
    }
}

#[test]
fn all_data_types() {
    let rates = [3, 5, 8, 10, 12, 14, 16, 18];
    let mut session = with_shape([2, 4, (1 << 19) - 1]);
    let mut values = Vec::new();
    for number in 0..19 {
        match number {
            0 => values.push(u64::MAX),
            13 | 15 => values.push(u64::MAX - number),
            _ if rates.contains(&number) => values.extend([MAX, number, MAX - number]),
            _ => values.push(MAX - number),
        }
    }
    assert_eq!(values.len(), 35);
    assert_eq!(session.one(128, &update(1, b"kkkk", &values)), new(0, 1, 0));
    assert_eq!(session.entries(), [&Entry::new(0, b"kkkk", values.clone())]);
    let body = update(1, b"kkkk", &values);
    let mut fields = vec![4, 4];
    fields.extend(values.iter().map(|&value| encode(value).len()));
    for length in 0..body.len() {
        let start = start_of_cut(&fields, length);
        assert_eq!(
            session.would(128, &body[..length]),
            refused_at(23, start),
            "{length}"
        );
    }
    let mut longer = body.clone();
    longer.extend([0xFF; 30]);
    assert_eq!(session.would(128, &longer), replaced(0, 1, 0));
}

#[test]
fn widths_of_each_data_type() {
    for (number, bit) in powers().take(19).enumerate() {
        let rate = [3, 5, 8, 10, 12, 14, 16, 18].contains(&number);
        let count = if rate { 3 } else { 1 };
        let session = with_shape([2, 4, bit]);
        for place in 0..count {
            for value in [0, 239, 240, (1 << 31) - 1, MAX, MAX + 1, u64::MAX] {
                let mut values = vec![1; count];
                values[place] = value;
                let good = match number {
                    0 => value < 1 << 31 || value == u64::MAX,
                    13 | 15 => true,
                    _ => value <= MAX,
                };
                let expected = if good {
                    new(0, 1, 0)
                } else {
                    refused_at(24, 8 + place)
                };
                let answer = session.would(128, &update(1, b"kkkk", &values));
                assert_eq!(answer, expected, "{number} {value}");
            }
        }
        let overflow = [&update(1, b"kkkk", &[])[..], &[0xFF; 10]].concat();
        assert_eq!(session.would(128, &overflow), refused_at(24, 8));
        assert_eq!(session.would(128, &overflow[..17]), refused_at(23, 8));
    }
}

#[test]
fn server_ids() {
    let good = [
        (0, 0),
        (1, 1),
        ((1 << 31) - 1, i32::MAX),
        (u64::MAX, -1),
        (u64::MAX - (1 << 31) + 1, i32::MIN),
    ];
    for (value, id) in good {
        let mut session = with_shape([2, 4, 1]);
        assert_eq!(
            session.one(128, &update(1, b"kkkk", &[value])),
            new(0, 1, 0)
        );
        let held = session.entries()[0].values[0];
        assert_eq!(second::datatype::server_id(held), Some(id));
        assert_eq!(second::datatype::from_server_id(id), value);
    }
    for value in [1 << 31, MAX, MAX + 1, 1 << 63, u64::MAX - (1 << 31)] {
        let session = with_shape([2, 4, 1]);
        let answer = session.would(128, &update(1, b"kkkk", &[value]));
        assert_eq!(answer, refused_at(24, 8), "{value}");
    }
}

#[test]
fn server_id_minus_1_as_bytes() {
    let mut session = with_shape([2, 4, 1]);
    let bytes = [0xFF, 0xF0, 0xFE, 0xFE, 0xFE, 0xFE, 0xFE, 0xFE, 0xFE, 0x0E];
    let body = [&[0, 0, 0, 1, 0, 0, 0, 0], &bytes[..]].concat();
    assert_eq!(session.one(128, &body), new(0, 1, 0));
    assert_eq!(
        second::datatype::server_id(session.entries()[0].values[0]),
        Some(-1)
    );
}

#[test]
fn incremental_updates() {
    let mut session = with_shape([2, 4, 0]);
    session.one(128, &update(MAX as u32 - 1, b"kkkk", &[]));
    for id in [MAX as u32, 0, 1] {
        let response = session.respond(&message(129, b"kkkk"));
        assert_eq!(response.answer, replaced(0, id, 0));
        assert_eq!(response.reply[4..], id.to_be_bytes());
        assert_eq!(session.record.previous[0], Some(u64::from(id)));
    }
}

#[test]
fn previous_ids_are_per_table() {
    let one = definition(1, b"a", [2, 4, 0]);
    let two = definition(2, b"b", [2, 4, 0]);
    let mut session = Session::with_tables(&[&one, &two]);
    session.one(128, &update(100, b"kkkk", &[]));
    session.one(131, &[1]);
    assert_eq!(session.would(129, b"kkkk"), refused(28));
    session.one(128, &update(7, b"kkkk", &[]));
    session.one(131, &[2]);
    assert_eq!(session.one(129, b"kkkk"), replaced(1, 101, 0));
    session.one(131, &[1]);
    assert_eq!(session.one(129, b"kkkk"), replaced(0, 8, 1));
}

#[test]
fn a_redefinition_keeps_the_previous_id() {
    let mut session = with_shape([2, 4, 0]);
    session.one(128, &update(41, b"kkkk", &[]));
    session.one(130, &definition(300, b"t", [2, 4, 0]));
    let response = session.respond(&message(129, b"kkkk"));
    assert_eq!(response.answer, replaced(0, 42, 0));
    assert_eq!(response.reply, [10, 132, 6, 0xFC, 3, 0, 0, 0, 42]);
}

#[test]
fn refused_updates_leave_the_rest() {
    let base = with_shape([2, 4, 4]);
    let cut = update(1, b"kkkk", &[]);
    let over = update(1, b"kkkk", &[MAX + 1]);
    let cases = [
        (128, cut, 23, refused_at(23, 8)),
        (128, over, 24, refused_at(24, 8)),
        (129, vec![], 28, refused(28)),
    ];
    for (kind, body, number, answer) in cases {
        let mut session = base.clone();
        let response = session.respond(&message(kind, &body));
        assert_eq!(response.answer, answer);
        assert_eq!(response.reply, [1, 0]);
        let mut expected = base.clone();
        expected.record.phase = Phase::Closed(number);
        assert_eq!(session, expected);
    }
}

#[test]
fn order_of_update_refusals() {
    let none = Session::open();
    for body in [&[][..], &[0; 3], &[0xFF; 30]] {
        assert_eq!(none.would(128, body), refused(27));
        assert_eq!(none.would(129, body), refused(27));
    }
    let mut session = with_shape([2, 4, 4]);
    for body in [&[][..], &[0; 3], &[0xFF; 30]] {
        assert_eq!(session.would(129, body), refused(28));
    }
    session.one(128, &update(1, b"kkkk", &[1]));
    assert_eq!(session.would(128, &[]), refused_at(23, 0));
    assert_eq!(session.would(129, &[]), refused_at(23, 0));
    assert_eq!(session.would(129, &[0xFF; 30]), refused_at(24, 4));
}

#[test]
fn an_update_before_any_definition() {
    let mut session = Session::open();
    let response = session.respond(&[0x0A, 0x80, 0x00]);
    assert_eq!(response.answer, refused(27));
    assert_eq!(response.reply, [1, 0]);
    assert_eq!(session.record.phase, Phase::Closed(27));
}

#[test]
fn a_body_of_1024_bytes() {
    let mut session = with_shape([2, 4, 4]);
    let mut body = update(1, b"kkkk", &[1]);
    body.resize(1024, 0xFF);
    assert_eq!(session.one(128, &body), new(0, 1, 0));
    body.push(0xFF);
    let bytes = message(128, &body);
    assert_eq!(session.respond(&bytes[..4]).answer, refused(22));
}

#[test]
fn bodies_are_judged_when_whole() {
    let session = with_shape([2, 4, 4]);
    let none = Session::open();
    let body = [0xFF; 30];
    for kind in 128..=134 {
        for start in [&session, &none] {
            let bytes = message(kind, &body);
            let mut copy = start.clone();
            let last = bytes.len() - 1;
            assert_eq!(copy.send(&bytes[..last]), []);
            assert_eq!(copy.record.unfinished, bytes[..last]);
            assert!(matches!(
                copy.respond(&bytes[last..]).answer,
                Answer::Refused(_)
            ));
        }
    }
}

#[test]
fn order_of_definition_refusals() {
    let mut session = Session::open();
    for place in 0..8u8 {
        let name = [b'0' + place];
        session.one(130, &definition(u64::from(place), &name, [2, 4, 1 << 3]));
    }
    // A new name with 8 tables, cut or out of range.
    let ninth = definition(1, b"x", [2, 4, 1 << 3]);
    assert_eq!(session.would(130, &ninth), refused(26));
    assert_eq!(session.would(130, &ninth[..4]), refused_at(23, 4));
    let over = [&ninth[..], &encode(MAX + 1)].concat();
    assert_eq!(session.would(130, &over), refused_at(24, 6));
    // A held name that disagrees, cut or out of range.
    let other = definition(1, b"3", [4, 4, 1 << 3]);
    assert_eq!(session.would(130, &other), refused(25));
    assert_eq!(session.would(130, &other[..4]), refused_at(23, 4));
    let over = [&other[..], &encode(MAX + 1)].concat();
    assert_eq!(session.would(130, &over), refused_at(24, 6));
    let cut = [&other[..], &[1, 3]].concat();
    assert_eq!(session.would(130, &cut), refused_at(23, 8));
}
