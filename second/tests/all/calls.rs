//! The reading call.

use crate::common::{definition, message, refused, update, Session, EXAMPLE, HELLO};
use second::answer::{Answer, Commit, Outcome};
use second::call::read;
use second::model::feed;
use second::record::{Phase, Record, Role};
use second::refusal;
use second::store::Store;

/// One call with a room filled with AA; the room past the reply must stay.
fn call(session: &mut Session, piece: &[u8], room: usize) -> (Outcome, Vec<u8>) {
    let mut buffer = vec![0xAA; room];
    let outcome = read(&mut session.record, &mut session.store, piece, &mut buffer);
    assert!(buffer[outcome.reply..].iter().all(|&b| b == 0xAA));
    buffer.truncate(outcome.reply);
    (outcome, buffer)
}

/// Calls on pieces until all is taken or the session is closed.
fn calls(session: &mut Session, pieces: &[&[u8]]) -> Vec<(Answer, Vec<u8>)> {
    let mut answers = Vec::new();
    for piece in pieces {
        let mut rest = *piece;
        while !rest.is_empty() && !session.record.is_closed() {
            let (outcome, reply) = call(session, rest, 12);
            rest = &rest[outcome.taken..];
            if outcome.answer != Answer::More {
                answers.push((outcome.answer, reply));
            }
        }
    }
    answers
}

#[test]
fn a_call_takes_one_message() {
    let mut session = Session::new(Role::Answerer);
    let (outcome, reply) = call(&mut session, EXAMPLE, 40);
    let (process, relative) = (7, 0);
    assert_eq!(outcome.taken, HELLO.len());
    assert_eq!(outcome.answer, Answer::Hello { process, relative });
    assert_eq!(reply, b"200\n");
    let rest = &EXAMPLE[outcome.taken..];
    let (outcome, reply) = call(&mut session, rest, 12);
    assert_eq!((outcome.taken, outcome.reply), (13, 0));
    assert_eq!(outcome.answer, Answer::Table { place: 0 });
    assert_eq!(reply, []);
    let rest = &rest[outcome.taken..];
    let (outcome, reply) = call(&mut session, rest, 13);
    let expected = Answer::Update {
        table: 0,
        id: u32::MAX,
        entry: 0,
        commit: Commit::New,
    };
    assert_eq!((outcome.taken, outcome.answer), (14, expected));
    assert_eq!(reply, [10, 132, 5, 1, 255, 255, 255, 255]);
}

#[test]
fn room_of_11_and_12() {
    let mut session = Session::open();
    for room in 0..12 {
        let before = session.clone();
        let (outcome, _) = call(&mut session, &[0, 1], room);
        let expected = Outcome {
            taken: 0,
            reply: 0,
            answer: refused(1),
        };
        assert_eq!(outcome, expected);
        assert_eq!(session, before);
    }
    let (outcome, reply) = call(&mut session, &[0, 1], 12);
    assert_eq!(outcome.answer, Answer::Finished);
    assert_eq!(reply, [0, 3]);
}

#[test]
fn the_longest_reply_fits_the_room() {
    let mut session = Session::with_tables(&[&definition(4294967295, b"t", [2, 4, 0])]);
    let bytes = message(128, &update(1, b"kkkk", &[]));
    let (outcome, reply) = call(&mut session, &bytes, 12);
    assert_eq!(outcome.reply, 12);
    let expected = [10, 132, 9, 0xFF, 0xF0, 0xFE, 0xFE, 0x7E, 0, 0, 0, 1];
    assert_eq!(reply, expected);
}

#[test]
fn an_empty_piece() {
    let mut during = Session::open();
    during.send(&[10, 130, 5, 1]);
    for start in [Session::new(Role::Answerer), Session::open(), during] {
        let mut session = start.clone();
        let (outcome, _) = call(&mut session, &[], 12);
        let expected = Outcome {
            taken: 0,
            reply: 0,
            answer: Answer::More,
        };
        assert_eq!(outcome, expected);
        assert_eq!(session, start);
    }
}

#[test]
fn more_wanted_takes_the_whole_piece() {
    let mut session = Session::open();
    let (outcome, _) = call(&mut session, &[10, 130, 5, 1], 12);
    let expected = Outcome {
        taken: 4,
        reply: 0,
        answer: Answer::More,
    };
    assert_eq!(outcome, expected);
    assert_eq!(session.record.unfinished, [10, 130, 5, 1]);
}

#[test]
fn a_refusal_takes_up_to_its_byte() {
    let mut session = Session::open();
    let (outcome, reply) = call(&mut session, &[0, 5, 0, 1], 12);
    assert_eq!((outcome.taken, outcome.answer), (2, refused(20)));
    assert_eq!(reply, [1, 0]);
    let before = session.clone();
    let (outcome, _) = call(&mut session, &[0, 1], 12);
    let expected = Outcome {
        taken: 0,
        reply: 0,
        answer: refused(2),
    };
    assert_eq!(outcome, expected);
    assert_eq!(session, before);
}

#[test]
fn order_of_1_4_and_2() {
    let mut closed = Session::open();
    closed.send(&[1, 0]);
    let mut unsound = closed.clone();
    unsound.record.unfinished = vec![0];
    let answer = |session: &Session, room| {
        let mut copy = session.clone();
        let (outcome, _) = call(&mut copy, &[0, 1], room);
        assert_eq!(&copy, session);
        assert_eq!((outcome.taken, outcome.reply), (0, 0));
        outcome.answer
    };
    assert_eq!(answer(&unsound, 11), refused(1));
    assert_eq!(answer(&unsound, 12), refused(4));
    assert_eq!(answer(&closed, 11), refused(1));
    assert_eq!(answer(&closed, 12), refused(2));
    let mut open = Session::open();
    open.record.current = Some(3);
    assert_eq!(answer(&open, 11), refused(1));
    assert_eq!(answer(&open, 12), refused(4));
}

#[test]
fn calls_on_a_refused_opening() {
    for number in [1, 3] {
        let mut session = Session::open();
        session.record = Record::refused(number);
        let before = session.clone();
        assert_eq!(call(&mut session, &[0, 1], 11).0.answer, refused(1));
        assert_eq!(call(&mut session, &[0, 1], 12).0.answer, refused(2));
        assert_eq!(session, before);
    }
}

#[test]
fn every_division_in_two_gives_the_same() {
    let mut whole = Session::new(Role::Answerer);
    let expected = calls(&mut whole, &[EXAMPLE]);
    assert_eq!(expected.len(), 5);
    for cut in 0..=EXAMPLE.len() {
        let (one, two) = EXAMPLE.split_at(cut);
        let mut session = Session::new(Role::Answerer);
        assert_eq!(calls(&mut session, &[one, &[], two]), expected, "{cut}");
        assert_eq!(session, whole, "{cut}");
    }
}

#[test]
fn every_division_of_a_refused_stream_gives_the_same() {
    let endings: [&[u8]; 4] = [
        &[0, 5, 0, 1],
        &[10, 130, 2, 1, 33, 0, 1],
        &[10, 128, 0xF1, 0x31, 0, 1],
        &[10, 131, 1, 9, 0, 1],
    ];
    for ending in endings {
        let stream = [EXAMPLE, ending].concat();
        let mut whole = Session::new(Role::Answerer);
        let expected = calls(&mut whole, &[&stream]);
        assert!(whole.record.is_closed());
        for cut in 0..=stream.len() {
            let (one, two) = stream.split_at(cut);
            let mut session = Session::new(Role::Answerer);
            assert_eq!(calls(&mut session, &[one, two]), expected, "{cut}");
            assert_eq!(session, whole, "{cut}");
        }
    }
}

#[test]
fn calls_agree_with_the_byte_model() {
    let mut model = Session::new(Role::Answerer);
    let mut answers = Vec::new();
    for &byte in EXAMPLE {
        if let Some(response) = feed(&mut model.record, &mut model.store, byte) {
            answers.push((response.answer, response.reply));
        }
    }
    let pieces: Vec<&[u8]> = EXAMPLE.chunks(1).collect();
    for size in [1, 2, 3, 7, 100] {
        let pieces: Vec<&[u8]> = EXAMPLE.chunks(size).collect();
        let mut session = Session::new(Role::Answerer);
        assert_eq!(calls(&mut session, &pieces), answers);
        assert_eq!(session, model);
    }
    assert_eq!(pieces.len(), EXAMPLE.len());
}

#[test]
fn replies_of_all_refusals() {
    let none: &[u8] = &[];
    let expected: [(&[u8], &[u8]); 7] = [
        (&[1, 2, 3, 4, 14, 15], none),
        (&[10], b"501\n"),
        (&[11], b"502\n"),
        (&[12], b"503\n"),
        (&[13], b"504\n"),
        (&[20, 21, 23, 24, 25, 27, 28, 30], &[1, 0]),
        (&[22, 26, 29], &[1, 1]),
    ];
    for (numbers, reply) in expected {
        for &number in numbers {
            assert_eq!(refusal::reply(number), reply, "{number}");
        }
    }
}

#[test]
fn the_store_outlives_the_session() {
    let mut session = Session::new(Role::Answerer);
    calls(&mut session, &[EXAMPLE]);
    let store: Store = session.store.clone();
    session.record = crate::common::record(Role::Caller);
    let answers = calls(&mut session, &[b"200\n", &[10, 128, 0]]);
    assert_eq!(answers[0].0, Answer::Status);
    assert_eq!(answers[1].0, refused(27));
    assert_eq!(session.record.phase, Phase::Closed(27));
    assert_eq!(session.store, store);
}
