//! Definitions and switches.

use crate::common::{definition, encoded, powers, refused, refused_at, start_of_cut};
use crate::common::{table, timed, update, Session};
use second::answer::Answer;
use second::integer::encode;
use second::record::Phase;

const MAX: u64 = 4294967295;

#[test]
fn a_new_table() {
    let mut session = Session::open();
    let body = timed(5, b"t1", [2, 4, 4], &[60000]);
    let response = session.respond(&crate::common::message(130, &body));
    assert_eq!(response.answer, Answer::Table { place: 0 });
    assert_eq!(response.reply, []);
    assert_eq!(
        session.tables(),
        [&table(b"t1", [2, 4, 4], Some((60000, &[])))]
    );
    assert_eq!(session.record.bound[0], Some(5));
    assert_eq!(session.record.previous, [None; 8]);
    assert_eq!(session.record.current, Some(0));
    assert_eq!(session.entries(), [] as [&second::store::Entry; 0]);
}

#[test]
fn eight_tables_and_a_ninth() {
    let mut session = Session::open();
    for place in 0..8 {
        let body = definition(100 + place as u64, &[b'a' + place as u8], [2, 4, 0]);
        assert_eq!(session.one(130, &body), Answer::Table { place });
        assert_eq!(session.record.current, Some(place));
    }
    let held = session.clone();
    let response = session.respond(&crate::common::message(
        130,
        &definition(1, b"x", [2, 4, 0]),
    ));
    assert_eq!(response.answer, refused(26));
    assert_eq!(response.reply, [1, 1]);
    assert_eq!(session.record.phase, Phase::Closed(26));
    assert_eq!(session.store, held.store);
    assert_eq!(session.record.bound, held.record.bound);
    let mut session = held;
    let again = definition(1, b"d", [2, 4, 0]);
    assert_eq!(session.one(130, &again), Answer::Table { place: 3 });
}

/// The answer of a definition of a new name on an empty store.
fn defined(body: &[u8]) -> Answer {
    Session::open().one(130, body)
}

#[test]
fn ids() {
    for id in [0, 1, 239, 240, MAX] {
        assert_eq!(
            defined(&definition(id, b"t", [2, 4, 0])),
            Answer::Table { place: 0 }
        );
    }
    for id in [MAX + 1, u64::MAX] {
        assert_eq!(defined(&definition(id, b"t", [2, 4, 0])), refused_at(24, 0));
        assert_eq!(defined(&encode(id)), refused_at(24, 0));
    }
}

#[test]
fn name_lengths() {
    for length in [1, 2, 31, 32] {
        let body = definition(1, &vec![b'-'; length], [2, 4, 0]);
        assert_eq!(defined(&body), Answer::Table { place: 0 });
    }
    for length in [0, 33, 64, 300] {
        let body = definition(1, &vec![b'n'; length], [2, 4, 0]);
        assert_eq!(defined(&body), refused_at(24, 1), "{length}");
        let start = encoded(&[1, length as u64]);
        assert_eq!(defined(&start), refused_at(24, 1), "{length}");
    }
}

/// Whether a byte may be part of a table name.
fn plain(byte: u8) -> bool {
    byte.is_ascii_alphanumeric() || matches!(byte, b'.' | b'_' | b'-' | b'/' | b':')
}

#[test]
fn names_of_every_byte() {
    for byte in 0..=255 {
        let expected = match plain(byte) {
            true => Answer::Table { place: 0 },
            false => refused_at(30, 2),
        };
        for length in [1, 2, 32] {
            for at in [0, length / 2, length - 1] {
                let mut name = vec![b'n'; length];
                name[at] = byte;
                let body = definition(1, &name, [2, 4, 0]);
                assert_eq!(defined(&body), expected, "{byte} {length} {at}");
            }
        }
    }
    assert_eq!((0..=255).filter(|&byte| plain(byte)).count(), 67);
}

#[test]
fn a_name_that_is_not_plain_closes_the_session() {
    let base = Session::with_tables(&[&definition(1, b"t", [2, 4, 0])]);
    let mut session = base.clone();
    let body = definition(1, b"t\n", [2, 4, 0]);
    let response = session.respond(&crate::common::message(130, &body));
    assert_eq!(response.answer, refused_at(30, 2));
    assert_eq!(response.reply, [1, 0]);
    let mut expected = base;
    expected.record.phase = Phase::Closed(30);
    assert_eq!(session, expected);
}

#[test]
fn a_name_is_judged_when_whole_and_before_the_key_type() {
    let body = definition(300, b" n", [2, 4, 0]);
    for length in 0..=body.len() {
        let start = start_of_cut(&[2, 1, 2], length);
        let expected = match length < 5 {
            true => refused_at(23, start),
            false => refused_at(30, 3),
        };
        assert_eq!(defined(&body[..length]), expected, "{length}");
    }
    for shape in [[0, 4, 0], [2, 5, 0], [2, 4, 1 << 19], [u64::MAX; 3]] {
        assert_eq!(defined(&definition(1, b"n ", shape)), refused_at(30, 2));
    }
    let overflow = [&encoded(&[1, 1])[..], b" ", &[0xFF; 10]].concat();
    assert_eq!(defined(&overflow), refused_at(30, 2));
    assert_eq!(
        defined(&definition(MAX + 1, b" ", [2, 4, 0])),
        refused_at(24, 0)
    );
    assert_eq!(
        defined(&definition(1, &[b' '; 33], [2, 4, 0])),
        refused_at(24, 1)
    );
}

#[test]
fn a_name_that_is_not_plain_on_a_full_store() {
    let mut session = Session::open();
    for name in b"abcdefgh" {
        session.one(130, &definition(u64::from(*name), &[*name], [2, 4, 0]));
    }
    assert_eq!(
        session.would(130, &definition(1, b"i", [2, 4, 0])),
        refused(26)
    );
    assert_eq!(
        session.would(130, &definition(1, b"i ", [2, 4, 0])),
        refused_at(30, 2)
    );
    assert_eq!(
        session.would(130, &definition(1, b"a", [4, 4, 0])),
        refused(25)
    );
    assert_eq!(
        session.would(130, &definition(1, b"a\0", [4, 4, 0])),
        refused_at(30, 2)
    );
}

#[test]
fn key_types_and_lengths() {
    for key_type in 0..12 {
        for key_length in 0..70 {
            let body = definition(1, b"t", [key_type, key_length, 0]);
            let good = match key_type {
                2 | 4 => key_length == 4,
                5 => key_length == 16,
                6 | 7 => (1..=64).contains(&key_length),
                _ => false,
            };
            let known = [2, 4, 5, 6, 7].contains(&key_type);
            let expected = match good {
                true => Answer::Table { place: 0 },
                false => refused_at(24, if known { 4 } else { 3 }),
            };
            assert_eq!(defined(&body), expected, "{key_type} {key_length}");
        }
    }
    for key_type in [255, 258, 1 << 32, (1 << 32) + 2, u64::MAX] {
        assert_eq!(
            defined(&definition(1, b"t", [key_type, 4, 0])),
            refused_at(24, 3)
        );
    }
    for key_length in [260, (1 << 32) + 4, u64::MAX] {
        let body = definition(1, b"t", [6, key_length, 0]);
        assert_eq!(defined(&body), refused_at(24, 4));
    }
}

#[test]
fn a_wrong_key_type_is_refused_before_the_next_field() {
    for key_type in [0, 1, 3, 8, 9, 240, (1 << 32) + 2] {
        let start = encoded(&[1, 1, b't'.into(), key_type]);
        assert_eq!(defined(&start), refused_at(24, 3), "{key_type}");
    }
    for key_type in [2, 4, 5, 6, 7] {
        let start = encoded(&[1, 1, b't'.into(), key_type]);
        assert_eq!(defined(&start), refused_at(23, 4), "{key_type}");
    }
}

#[test]
fn data_types() {
    for bit in powers().take(19) {
        let body = definition(1, b"t", [2, 4, bit]);
        assert_eq!(defined(&body), Answer::Table { place: 0 });
    }
    let all = definition(1, b"t", [2, 4, (1 << 19) - 1]);
    assert_eq!(defined(&all), Answer::Table { place: 0 });
    for types in [1 << 19, 1 << 31, 1 << 32, u64::MAX] {
        assert_eq!(
            defined(&definition(1, b"t", [2, 4, types])),
            refused_at(24, 5)
        );
    }
}

#[test]
fn every_cut_of_a_definition() {
    let rates = 1 << 3 | 1 << 5;
    let body = timed(300, b"name", [6, 10, rates], &[60000, 3, 10000, 5, MAX]);
    let types_end = definition(300, b"name", [6, 10, rates]).len();
    let fields = [2, 1, 4, 1, 1, 1, 3, 1, 3, 1, 5];
    assert_eq!(body.len(), fields.iter().sum());
    for length in 0..body.len() {
        let start = start_of_cut(&fields, length);
        let expected = match length == types_end {
            true => Answer::Table { place: 0 },
            false => refused_at(23, start),
        };
        assert_eq!(defined(&body[..length]), expected, "{length}");
    }
    assert_eq!(defined(&body), Answer::Table { place: 0 });
}

#[test]
fn a_byte_after_the_data_types_begins_the_expiry() {
    let mut body = definition(1, b"t", [2, 4, 1 << 3]);
    body.push(9);
    assert_eq!(defined(&body), refused_at(23, 7));
    body.extend([3]);
    assert_eq!(defined(&body), refused_at(23, 8));
    body.extend([7]);
    let mut session = Session::open();
    assert_eq!(session.one(130, &body), Answer::Table { place: 0 });
    assert_eq!(
        session.tables()[0].times,
        table(b"", [0; 3], Some((9, &[7]))).times
    );
}

#[test]
fn expiry_and_periods_are_32_bit() {
    let shape = [2, 4, 1 << 18];
    let good = timed(1, b"t", shape, &[MAX, 18, MAX]);
    assert_eq!(defined(&good), Answer::Table { place: 0 });
    assert_eq!(
        defined(&timed(1, b"t", shape, &[MAX + 1, 18, 1])),
        refused_at(24, 8)
    );
    assert_eq!(
        defined(&timed(1, b"t", shape, &[MAX + 1])),
        refused_at(24, 8)
    );
    assert_eq!(
        defined(&timed(1, b"t", shape, &[1, 18, MAX + 1])),
        refused_at(24, 10)
    );
}

#[test]
fn pairs_go_in_ascending_order() {
    let rates = [3, 5, 8, 10, 12, 14, 16, 18];
    let types = 1 << 3 | 1 << 5 | 1 << 8 | 1 << 10 | 1 << 12 | 1 << 14 | 1 << 16 | 1 << 18;
    let mut times = vec![1];
    times.extend(rates.iter().flat_map(|&rate| [rate, 1000 + rate]));
    let mut session = Session::open();
    let body = timed(1, b"t", [2, 4, types], &times);
    assert_eq!(session.one(130, &body), Answer::Table { place: 0 });
    let periods: Vec<u64> = rates.iter().map(|rate| 1000 + rate).collect();
    assert_eq!(session.tables()[0].times.as_ref().unwrap().periods, periods);
    for place in 0..8 {
        for number in (0..20).chain([256 + rates[place], u64::MAX]) {
            let mut other = times.clone();
            other[1 + 2 * place] = number;
            let expected = match number == rates[place] {
                true => Answer::Table { place: 0 },
                false => refused_at(24, 10 + 3 * place),
            };
            assert_eq!(defined(&timed(1, b"t", [2, 4, types], &other)), expected);
        }
    }
}

#[test]
fn a_wrong_pair_number_is_refused_before_its_period() {
    let body = timed(1, b"t", [2, 4, 1 << 8], &[1, 5]);
    assert_eq!(defined(&body), refused_at(24, 8));
}

#[test]
fn types_that_are_no_rates_have_no_pairs() {
    let shape = [2, 4, 1 | 1 << 2 | 1 << 13];
    let mut session = Session::open();
    let body = timed(1, b"t", shape, &[12, 99, 98]);
    assert_eq!(session.one(130, &body), Answer::Table { place: 0 });
    assert_eq!(session.tables(), [&table(b"t", shape, Some((12, &[])))]);
}

#[test]
fn a_held_name_must_agree() {
    let base = Session::with_tables(&[&definition(1, b"t", [6, 10, 4])]);
    let disagreeing = [
        [7, 10, 4],
        [6, 9, 4],
        [6, 11, 4],
        [6, 10, 5],
        [6, 10, 0],
        [2, 4, 4],
    ];
    for shape in disagreeing {
        let mut session = base.clone();
        let response = session.respond(&crate::common::message(130, &definition(2, b"t", shape)));
        assert_eq!(response.answer, refused(25));
        assert_eq!(response.reply, [1, 0]);
        let mut expected = base.clone();
        expected.record.phase = Phase::Closed(25);
        assert_eq!(session, expected);
    }
    let agreeing = definition(2, b"t", [6, 10, 4]);
    assert_eq!(base.would(130, &agreeing), Answer::Table { place: 0 });
    let other_name = definition(2, b"t-", [6, 11, 4]);
    assert_eq!(base.would(130, &other_name), Answer::Table { place: 1 });
}

#[test]
fn expiry_and_periods_are_replaced() {
    let shape = [2, 4, 1 << 3];
    let mut session = Session::with_tables(&[&timed(1, b"t", shape, &[7, 3, 8])]);
    session.one(130, &timed(1, b"t", shape, &[9, 3, 10]));
    assert_eq!(session.tables(), [&table(b"t", shape, Some((9, &[10])))]);
    session.one(130, &definition(1, b"t", shape));
    assert_eq!(session.tables(), [&table(b"t", shape, None)]);
    session.one(130, &timed(1, b"t", shape, &[1, 3, 2]));
    assert_eq!(session.tables(), [&table(b"t", shape, Some((1, &[2])))]);
}

/// Two tables with IDs 1 and 2 and one entry each; the second is current.
fn two_tables() -> Session {
    let mut session = Session::with_tables(&[&definition(1, b"a", [2, 4, 0])]);
    session.one(128, &update(10, &[0; 4], &[]));
    session.one(130, &definition(2, b"b", [2, 4, 0]));
    session.one(128, &update(20, &[0; 4], &[]));
    session
}

#[test]
fn a_redefinition_changes_the_id_and_keeps_the_rest() {
    let mut session = two_tables();
    let before = session.clone();
    let answer = session.one(130, &definition(7, b"a", [2, 4, 0]));
    assert_eq!(answer, Answer::Table { place: 0 });
    let mut expected = before;
    expected.record.bound[0] = Some(7);
    expected.record.current = Some(0);
    assert_eq!(session, expected);
    assert_eq!(session.would(131, &encode(1)), refused(27));
    assert_eq!(session.would(131, &encode(7)), Answer::Switch { place: 0 });
}

#[test]
fn an_id_taken_from_another_table() {
    let mut session = two_tables();
    let before = session.clone();
    session.one(130, &definition(2, b"a", [2, 4, 0]));
    let mut expected = before;
    expected.record.bound = [Some(2), None, None, None, None, None, None, None];
    expected.record.current = Some(0);
    assert_eq!(session, expected);
    assert_eq!(session.would(131, &encode(1)), refused(27));
    assert_eq!(session.would(131, &encode(2)), Answer::Switch { place: 0 });
    session.one(130, &definition(1, b"b", [2, 4, 0]));
    assert_eq!(session.record.previous[1], Some(20));
    assert_eq!(session.record.bound[..2], [Some(2), Some(1)]);
}

#[test]
fn a_new_table_takes_an_id_from_another() {
    let mut session = two_tables();
    session.one(130, &definition(1, b"c", [2, 4, 0]));
    assert_eq!(session.record.bound[..3], [None, Some(2), Some(1)]);
    assert_eq!(session.record.current, Some(2));
}

#[test]
fn switches() {
    let mut session = two_tables();
    assert_eq!(session.one(131, &encode(1)), Answer::Switch { place: 0 });
    assert_eq!(session.record.current, Some(0));
    assert_eq!(session.one(131, &encode(2)), Answer::Switch { place: 1 });
    let ignored = [2, 0xFF, 0xFF];
    assert_eq!(session.one(131, &ignored), Answer::Switch { place: 1 });
    assert_eq!(session.record.current, Some(1));
}

#[test]
fn faulty_switches() {
    let session = two_tables();
    assert_eq!(session.would(131, &[]), refused_at(23, 0));
    assert_eq!(session.would(131, &[0xF0, 0x80]), refused_at(23, 0));
    assert_eq!(session.would(131, &encode(MAX + 1)), refused_at(24, 0));
    assert_eq!(session.would(131, &[0xFF; 10]), refused_at(24, 0));
    assert_eq!(session.would(131, &encode(MAX)), refused(27));
    assert_eq!(session.would(131, &encode(0)), refused(27));
    assert_eq!(Session::open().would(131, &encode(1)), refused(27));
}

#[test]
fn a_reconnection_finds_the_tables_and_no_ids() {
    let mut session = two_tables();
    session.record = crate::common::record(second::record::Role::Caller);
    session.send(b"200\n");
    assert_eq!(session.would(131, &encode(1)), refused(27));
    assert_eq!(session.would(128, &update(1, &[0; 4], &[])), refused(27));
    let answer = session.one(130, &definition(9, b"b", [2, 4, 0]));
    assert_eq!(answer, Answer::Table { place: 1 });
    assert_eq!(session.would(129, &[0; 4]), refused(28));
    let disagreeing = definition(9, b"a", [4, 4, 0]);
    assert_eq!(session.would(130, &disagreeing), refused(25));
}
