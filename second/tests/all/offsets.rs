//! The offsets of refusals 23, 24 and 30.

use crate::common::{definition, message, refused, refused_at, start_of_cut, timed};
use crate::common::{encoded, update, Session, HELLO};
use second::answer::Answer;
use second::integer::{decode, encode, Decoded};
use second::listing::listing;
use second::record::Phase;

/// A field: its bytes and the number that refuses others in its place, or 0.
type Field = (Vec<u8>, u8, Vec<u8>);

/// A field whose bytes can't be out of range.
fn raw(bytes: &[u8]) -> Field {
    (bytes.to_vec(), 0, Vec::new())
}

/// An encoded integer and one that is out of range.
fn integer(value: u64, bad: u64) -> Field {
    (encode(value), 24, encode(bad))
}

/// The bytes of some fields.
fn joined(fields: &[Field]) -> Vec<u8> {
    fields.iter().flat_map(|field| field.0.clone()).collect()
}

/// Cuts a body after every byte and spoils every field; `whole` are the
/// lengths with which it's accepted.
fn check(session: &Session, kind: u8, fields: &[Field], whole: &[usize]) {
    let lengths: Vec<usize> = fields.iter().map(|field| field.0.len()).collect();
    let body = joined(fields);
    for length in 0..body.len() {
        let answer = session.would(kind, &body[..length]);
        match whole.contains(&length) {
            true => assert!(!matches!(answer, Answer::Refused(_))),
            false => {
                let start = start_of_cut(&lengths, length);
                assert_eq!(answer, refused_at(23, start), "{kind} {length}");
            }
        }
    }
    for (place, (_, number, bad)) in fields.iter().enumerate() {
        if *number == 0 {
            continue;
        }
        let start = joined(&fields[..place]);
        let expected = refused_at(*number, start.len());
        let behind: [&[u8]; 4] = [&[], &joined(&fields[place + 1..]), &[0xFF; 40], &[0; 40]];
        for rest in behind {
            let body = [&start[..], bad, rest].concat();
            assert_eq!(session.would(kind, &body), expected, "{kind} {place}");
        }
    }
}

/// An integer of 32 bits and one that is out of range.
fn integer_32(value: u64) -> Field {
    integer(value, 1 << 32)
}

#[test]
fn definitions() {
    for id in [1, 300, 4294967295] {
        for name in [&b"n"[..], b"name", &[b'n'; 32]] {
            let mut bad = name.to_vec();
            bad[0] = b' ';
            let fields = [
                integer_32(id),
                integer(name.len() as u64, 0),
                (name.to_vec(), 30, bad),
                integer(6, 3),
                integer(10, 65),
                integer(1 << 3 | 1 << 18, 1 << 19),
                integer_32(60000),
                integer(3, 5),
                integer_32(1000),
                integer(18, 3),
                integer_32(4294967295),
            ];
            let without_times = joined(&fields[..6]).len();
            check(&Session::open(), 130, &fields, &[without_times]);
        }
    }
}

#[test]
fn switches_and_acknowledgements() {
    let table = definition(300, b"t", [2, 4, 0]);
    let session = Session::with_tables(&[&table]);
    check(&session, 131, &[integer_32(300)], &[]);
    for id in [1, 300, 4294967295] {
        check(&session, 132, &[integer_32(id), raw(&[0; 4])], &[]);
    }
}

#[test]
fn updates() {
    let rate = || [integer_32(240), integer_32(0), integer_32(4294967295)];
    let values: Vec<Field> = [integer(u64::MAX, 1 << 31), integer_32(2288)]
        .into_iter()
        .chain(rate())
        .chain(rate())
        .collect();
    let types = 1 | 1 << 2 | 1 << 3 | 1 << 18;
    for (key_type, length) in [(2, 4), (4, 4), (5, 16), (7, 1), (7, 64)] {
        let table = definition(1, b"t", [key_type, length, types]);
        let mut session = Session::with_tables(&[&table]);
        let mut fields = vec![raw(&[0, 0, 0, 7]), raw(&vec![1; length as usize])];
        fields.extend(values.clone());
        check(&session, 128, &fields, &[]);
        session.one(128, &joined(&fields));
        check(&session, 129, &fields[1..], &[]);
    }
}

#[test]
fn string_keys() {
    let table = definition(1, b"t", [6, 64, 1 << 13]);
    let mut session = Session::with_tables(&[&table]);
    for length in [0, 1, 63, 64] {
        let key = vec![b'k'; length];
        let overflow = vec![0xFF; 10];
        let fields = [
            raw(&[0, 0, 0, 7]),
            integer(length as u64, 65),
            raw(&key),
            (encode(u64::MAX), 24, overflow),
        ];
        check(&session, 128, &fields, &[]);
        session.one(128, &joined(&fields));
        check(&session, 129, &fields[1..], &[]);
    }
}

#[test]
fn a_cut_integer_ends_where_the_body_does() {
    let table = definition(1, b"t", [2, 4, 1 << 13]);
    let session = Session::with_tables(&[&table]);
    for count in 0..=9 {
        let body = [&update(1, b"kkkk", &[])[..], &vec![0xFF; count]].concat();
        assert_eq!(session.would(128, &body), refused_at(23, 8));
        let looked = count;
        assert_eq!(decode(&body[8..]), Decoded::Cut { looked });
        assert_eq!(8 + looked, body.len());
    }
}

#[test]
fn offsets_are_counted_from_the_body() {
    // A body of 240 bytes and more has a length of two bytes.
    let table = definition(1, b"t", [7, 64, (1 << 19) - 1]);
    let session = Session::with_tables(&[&table]);
    let mut values = vec![4294967295; 35];
    values[0] = u64::MAX;
    let body = update(1, &[7; 64], &values);
    assert_eq!(body.len(), 4 + 64 + 10 + 34 * 5);
    let last = body.len() - 5;
    assert!(last >= 240);
    assert_eq!(session.would(128, &body[..last]), refused_at(23, last));
    assert_eq!(session.would(128, &body[..last + 4]), refused_at(23, last));
    let over = [&body[..last], &encode(1 << 32)].concat();
    assert_eq!(session.would(128, &over), refused_at(24, last));
    let mut bytewise = session.clone();
    let answers: Vec<Answer> = message(128, &over)
        .iter()
        .flat_map(|byte| bytewise.send(&[*byte]))
        .map(|(_, response)| response.answer)
        .collect();
    assert_eq!(answers, [refused_at(24, last)]);
}

#[test]
fn other_refusals_have_no_offset() {
    let mut session = Session::with_tables(&[&definition(1, b"t", [2, 4, 0])]);
    assert_eq!(session.would(129, &[]), refused(28));
    assert_eq!(session.would(131, &[9]), refused(27));
    assert_eq!(Session::open().would(128, &[]), refused(27));
    let other = definition(1, b"t", [4, 4, 0]);
    assert_eq!(session.would(130, &other), refused(25));
    assert_eq!(session.respond(&[0, 5]).answer, refused(20));
}

#[test]
fn a_closed_record_has_the_number_alone() {
    let mut session = Session::open();
    let start = encoded(&[1, 33]);
    assert_eq!(session.one(130, &start), refused_at(24, 1));
    assert_eq!(session.record.phase, Phase::Closed(24));
}

#[test]
fn the_listing_prints_the_offset() {
    let cases = [
        (timed(1, b"t", [2, 4, 8], &[5, 3]), "23 8"),
        (definition(300, b"t1", [3, 4, 0]), "24 5"),
        (definition(1, b"t\n", [2, 4, 0]), "30 2"),
        (vec![], "23 0"),
    ];
    for (body, number) in cases {
        let input = [HELLO, &message(130, &body)].concat();
        let text = String::from_utf8(listing(&input)).unwrap();
        let end = &number[..2];
        let expected = format!("\nrefused {number}\nreply 0100\nend closed {end}\n");
        assert!(text.ends_with(&expected), "{text}");
    }
}
