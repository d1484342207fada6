//! Header, length, and the messages that don't touch the store.

use crate::common::{message, refused, refused_at, Session};
use second::answer::Answer;
use second::integer::encode;
use second::record::Phase;

#[test]
fn all_headers() {
    let start = Session::open();
    for class in 0..=255u8 {
        for kind in 0..=255u8 {
            let mut session = start.clone();
            assert_eq!(session.send(&[class]), []);
            let responses = session.send(&[kind]);
            let answer = responses.first().map(|(_, response)| response.answer);
            let expected = match (class, kind) {
                (0, 0) => Some(Answer::Request),
                (0, 1) => Some(Answer::Finished),
                (0, 2) => Some(Answer::Partial),
                (0, 3) => Some(Answer::Confirm),
                (0, 4) => Some(Answer::Heartbeat),
                (1, 0 | 1) => Some(Answer::Error { kind }),
                (10, 128..) => None,
                _ => Some(refused(20)),
            };
            assert_eq!(answer, expected, "{class} {kind}");
        }
    }
}

#[test]
fn control_replies() {
    let replies: [&[u8]; 5] = [&[], &[0, 3], &[0, 3], &[], &[]];
    for (kind, reply) in replies.iter().enumerate() {
        let mut session = Session::open();
        let before = session.clone();
        assert_eq!(&session.respond(&[0, kind as u8]).reply, reply);
        assert_eq!(session, before);
    }
}

#[test]
fn an_error_message_closes_with_0() {
    for kind in [0, 1] {
        let mut session = Session::open();
        let mut expected = session.clone();
        let response = session.respond(&[1, kind]);
        assert_eq!(response.answer, Answer::Error { kind });
        assert_eq!(response.reply, []);
        expected.record.phase = Phase::Closed(0);
        assert_eq!(session, expected);
    }
}

#[test]
fn unknown_headers_are_refused_with_a_reply() {
    for header in [[0, 5], [1, 2], [10, 127], [10, 0], [255, 255]] {
        let mut session = Session::open();
        let response = session.respond(&header);
        assert_eq!(response.answer, refused(20));
        assert_eq!(response.reply, [1, 0]);
        assert_eq!(session.record.phase, Phase::Closed(20));
    }
}

#[test]
fn body_lengths() {
    for kind in 128..=255 {
        let mut session = Session::open();
        assert_eq!(session.send(&[10, kind, 0xF0, 0x31]), []);
        assert_eq!(session.record.unfinished, [10, kind, 0xF0, 0x31]);
        let mut session = Session::open();
        let response = session.respond(&[10, kind, 0xF1, 0x31]);
        assert_eq!(response.answer, refused(22));
        assert_eq!(response.reply, [1, 1]);
        assert_eq!(session.record.phase, Phase::Closed(22));
    }
}

#[test]
fn large_body_lengths() {
    for length in [1025, 2287, 2288, 1 << 32, u64::MAX] {
        let mut session = Session::open();
        let bytes = [&[10, 200], &encode(length)[..]].concat();
        assert_eq!(session.respond(&bytes).answer, refused(22));
    }
}

#[test]
fn a_length_overflow_is_refused_at_its_tenth_byte() {
    let lengths: [[u8; 10]; 3] = [
        [0xF0, 0xF1, 0xFE, 0xFE, 0xFE, 0xFE, 0xFE, 0xFE, 0xFE, 0x0E],
        [0xF0, 0x80, 0x80, 0x80, 0x80, 0x80, 0x80, 0x80, 0x80, 0x80],
        [0xFF; 10],
    ];
    for length in lengths {
        let mut session = Session::open();
        let response = session.respond(&[&[10, 255], &length[..]].concat());
        assert_eq!(response.answer, refused(21));
        assert_eq!(response.reply, [1, 0]);
        assert_eq!(session.record.phase, Phase::Closed(21));
    }
}

#[test]
fn other_types_are_skipped_by_length() {
    let kinds = (128..=255).filter(|kind| !matches!(kind, 128..=134));
    for kind in kinds {
        for length in [0, 1, 239, 240, 1024] {
            let mut session = Session::open();
            let before = session.clone();
            let response = session.respond(&message(kind, &vec![0xFF; length]));
            assert_eq!(response.answer, Answer::Skipped { kind });
            assert_eq!(response.reply, []);
            assert_eq!(session, before);
        }
    }
}

#[test]
fn at_most_1027_bytes_of_a_message_are_unfinished() {
    let bytes = message(255, &[7; 1024]);
    assert_eq!(bytes.len(), 1028);
    let mut session = Session::open();
    assert_eq!(session.send(&bytes[..1027]), []);
    assert_eq!(session.record.unfinished, bytes[..1027]);
    let response = session.respond(&bytes[1027..]);
    assert_eq!(response.answer, Answer::Skipped { kind: 255 });
    assert_eq!(session.record.unfinished, []);
}

#[test]
fn acknowledgements() {
    let cases = [
        (0, 0),
        (1, 4294967295),
        (239, 1),
        (240, 0x01020304),
        (4294967295, 0x80000000),
    ];
    for (id, update) in cases {
        let mut session = Session::open();
        let before = session.clone();
        let body = [&encode(u64::from(id))[..], &update_bytes(update)].concat();
        let response = session.respond(&message(132, &body));
        assert_eq!(response.answer, Answer::Acknowledged { id, update });
        assert_eq!(response.reply, []);
        assert_eq!(session, before);
        let longer = [&body[..], &[9; 20]].concat();
        let answer = session.one(132, &longer);
        assert_eq!(answer, Answer::Acknowledged { id, update });
    }
}

fn update_bytes(update: u32) -> [u8; 4] {
    update.to_be_bytes()
}

#[test]
fn faulty_acknowledgements() {
    let session = Session::open();
    assert_eq!(session.would(132, &[]), refused_at(23, 0));
    assert_eq!(session.would(132, &[0xF0]), refused_at(23, 0));
    assert_eq!(session.would(132, &[1]), refused_at(23, 1));
    assert_eq!(session.would(132, &[1, 0, 0, 0]), refused_at(23, 1));
    let over = [&encode(1 << 32)[..], &[0, 0, 0, 0]].concat();
    assert_eq!(session.would(132, &over), refused_at(24, 0));
    assert_eq!(session.would(132, &encode(1 << 32)), refused_at(24, 0));
    assert_eq!(session.would(132, &[0xFF; 10]), refused_at(24, 0));
    assert_eq!(session.would(132, &[0xFF; 9]), refused_at(23, 0));
}

#[test]
fn ignored_bytes_are_no_header() {
    let mut session = Session::open();
    let mut bytes = message(132, &[1, 0, 0, 0, 2, 0x00, 0x01]);
    bytes.extend([0, 4]);
    let responses = session.send(&bytes);
    let answers: Vec<Answer> = responses.iter().map(|(_, r)| r.answer).collect();
    let (id, update) = (1, 2);
    let expected = [Answer::Acknowledged { id, update }, Answer::Heartbeat];
    assert_eq!(answers, expected);
}

#[test]
fn a_closed_session_changes_nothing() {
    let mut session = Session::open();
    session.respond(&[0, 5]);
    let before = session.clone();
    assert_eq!(session.send(crate::common::EXAMPLE), []);
    assert_eq!(session, before);
}
