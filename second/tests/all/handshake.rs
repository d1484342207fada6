//! Opening, hello and status.

use crate::common::{record, refused, Session};
use second::answer::{Answer, Response};
use second::call::{open, Opening};
use second::handshake::{hello, is_name};
use second::record::{Phase, Record, Role};

/// A hello of three lines.
fn lines(one: &[u8], two: &[u8], three: &[u8]) -> Vec<u8> {
    [one, b"\n", two, b"\n", three, b"\n"].concat()
}

/// The response to a hello, which must come at its last byte.
fn judged(one: &[u8], two: &[u8], three: &[u8]) -> Response {
    Session::new(Role::Answerer).respond(&lines(one, two, three))
}

fn number(response: &Response) -> u8 {
    match response.answer {
        Answer::Refused(refusal) => refusal.number,
        _ => panic!("{response:?}"),
    }
}

fn third(line: &[u8]) -> Answer {
    judged(b"HAProxyS 2.1", b"east", line).answer
}

#[test]
fn names() {
    assert!(!is_name(b""));
    assert!(is_name(b"a"));
    assert!(is_name(&[b'a'; 32]));
    assert!(!is_name(&[b'a'; 33]));
    for byte in 0..=255 {
        let good = (33..=126).contains(&byte);
        assert_eq!(is_name(&[byte]), good, "{byte}");
        assert_eq!(is_name(&[b'a', byte, b'b']), good, "{byte}");
    }
}

#[test]
fn our_hello() {
    let bytes = hello(b"east", b"west", 7, 0);
    assert_eq!(bytes, b"HAProxyS 2.1\nwest\neast 7 0\n");
    let longest = hello(&[b'a'; 32], &[b'b'; 32], u32::MAX, u32::MAX);
    assert_eq!(longest.len(), 101);
}

#[test]
fn our_hello_is_read_by_its_peer() {
    let mut session = Session::new(Role::Answerer);
    let response = session.respond(&hello(b"west", b"east", u32::MAX, 12));
    let process = u32::MAX;
    assert_eq!(
        response.answer,
        Answer::Hello {
            process,
            relative: 12
        }
    );
    assert_eq!(response.reply, b"200\n");
    assert_eq!(session.record.phase, Phase::Open);
    assert_eq!(session.record.unfinished, b"");
}

/// Opens with these names and this room; gives the record, the answer and
/// the written room.
fn opened(role: Role, names: [&[u8]; 2], room: usize) -> (Record, Answer, usize, Vec<u8>) {
    let opening = Opening {
        role,
        our_name: names[0],
        peer_name: names[1],
        process: 4294967295,
        relative: 1,
    };
    let mut buffer = vec![0xAA; room];
    let (record, outcome) = open(&opening, &mut buffer);
    assert_eq!(outcome.taken, 0);
    (record, outcome.answer, outcome.reply, buffer)
}

#[test]
fn opening() {
    for role in [Role::Answerer, Role::Caller] {
        for room in [101, 102, 300] {
            let (record, answer, reply, buffer) = opened(role, [b"east", b"west"], room);
            let expected: &[u8] = match role {
                Role::Answerer => b"",
                Role::Caller => b"HAProxyS 2.1\nwest\neast 4294967295 1\n",
            };
            assert_eq!(answer, Answer::More);
            assert_eq!(&buffer[..reply], expected);
            assert!(buffer[reply..].iter().all(|&b| b == 0xAA));
            assert_eq!(record, Record::opened(role, b"east", b"west"));
            assert_eq!(record.phase, Phase::Handshake);
        }
    }
}

#[test]
fn refused_openings() {
    let long = [b'a'; 33];
    let cases: [([&[u8]; 2], usize, u8); 9] = [
        ([b"east", b"west"], 0, 1),
        ([b"east", b"west"], 12, 1),
        ([b"east", b"west"], 100, 1),
        ([b"", b"west"], 100, 1),
        ([b"", b"west"], 101, 3),
        ([b"east", b""], 101, 3),
        ([&long, b"west"], 101, 3),
        ([b"east", b"we st"], 101, 3),
        ([b"east", b"west\x7F"], 101, 3),
    ];
    for role in [Role::Answerer, Role::Caller] {
        for (names, room, number) in cases {
            let (record, answer, reply, buffer) = opened(role, names, room);
            assert_eq!(answer, refused(number));
            assert_eq!(reply, 0);
            assert!(buffer.iter().all(|&b| b == 0xAA));
            assert_eq!(record, Record::refused(number));
            assert_eq!(record.role, Role::Answerer);
        }
    }
}

#[test]
fn both_versions_are_accepted() {
    for version in [b"HAProxyS 2.0", b"HAProxyS 2.1"] {
        let response = judged(version, b"east", b"west 1 2");
        let (process, relative) = (1, 2);
        assert_eq!(response.answer, Answer::Hello { process, relative });
        assert_eq!(response.reply, b"200\n");
    }
}

#[test]
fn malformed_first_lines() {
    let cases: [&[u8]; 9] = [
        b"",
        b"HAProxyS",
        b"HAProxyS ",
        b"HaproxyS 2.1",
        b"HAProxyS2.1",
        b"HAProxyS\t2.1",
        b" HAProxyS 2.1",
        b"haproxys 2.1",
        b"2.1",
    ];
    for case in cases {
        let response = judged(case, b"east", b"west 7 0");
        assert_eq!(
            (number(&response), &response.reply[..]),
            (10, &b"501\n"[..])
        );
    }
}

#[test]
fn other_versions() {
    let cases: [&[u8]; 8] = [
        b"2.2", b"2", b"2.1 ", b" 2.1", b"2.1\r", b"2.10", b"\0", b" ",
    ];
    for case in cases {
        let line = [b"HAProxyS ", case].concat();
        let response = judged(&line, b"east", b"west 7 0");
        assert_eq!(
            (number(&response), &response.reply[..]),
            (11, &b"502\n"[..])
        );
    }
}

#[test]
fn second_lines() {
    let empty = judged(b"HAProxyS 2.1", b"", b"west 7 0");
    assert_eq!(number(&empty), 10);
    let cases: [&[u8]; 6] = [b" ", b"west", b"eas", b"east ", b"East", b"east\r"];
    for case in cases {
        let response = judged(b"HAProxyS 2.1", case, b"west 7 0");
        assert_eq!(
            (number(&response), &response.reply[..]),
            (12, &b"503\n"[..])
        );
    }
}

#[test]
fn other_senders() {
    let cases: [&[u8]; 5] = [
        b"east 7 0",
        b"wes 7 0",
        b"West 7 0",
        b"west\t 7 0",
        b"\xFF 7 0",
    ];
    for case in cases {
        let response = judged(b"HAProxyS 2.1", b"east", case);
        assert_eq!(
            (number(&response), &response.reply[..]),
            (13, &b"504\n"[..])
        );
    }
}

#[test]
fn malformed_third_lines() {
    let cases: [&[u8]; 19] = [
        b"",
        b" ",
        b"west",
        b"west ",
        b"west 7",
        b"west 7 ",
        b"west  7",
        b" 7 0",
        b" west 7 0",
        b"west  7 0",
        b"west 7  0",
        b"west 7 0 ",
        b"west 7 0 1",
        b"west -7 0",
        b"west 7 +0",
        b"west 7x 0",
        b"west 7 0\r",
        b"west / 0",
        b"west : 0",
    ];
    for case in cases {
        assert_eq!(third(case), refused(10), "{case:?}");
    }
}

#[test]
fn numbers_of_the_third_line() {
    let good: [(&[u8], u32); 5] = [
        (b"0", 0),
        (b"0000000000", 0),
        (b"0000000012", 12),
        (b"4294967295", 4294967295),
        (b"9", 9),
    ];
    for (digits, value) in good {
        let one = third(&[b"west ", digits, b" 5"].concat());
        let other = third(&[b"west 5 ", digits].concat());
        let hello = |process, relative| Answer::Hello { process, relative };
        assert_eq!(one, hello(value, 5));
        assert_eq!(other, hello(5, value));
    }
    let bad: [&[u8]; 5] = [
        b"00000000000",
        b"4294967296",
        b"9999999999",
        b"42949672950",
        b"10000000000",
    ];
    for digits in bad {
        assert_eq!(third(&[b"west ", digits, b" 5"].concat()), refused(10));
        assert_eq!(third(&[b"west 5 ", digits].concat()), refused(10));
    }
}

#[test]
fn order_of_hello_refusals() {
    let first: [&[u8]; 3] = [b"HAProxyS 2.1", b"HAProxyS 2.2", b"HAProxyS"];
    let second: [&[u8]; 3] = [b"east", b"else", b""];
    let third: [&[u8]; 3] = [b"west 7 0", b"else 7 0", b"west 7"];
    for (a, one) in first.iter().enumerate() {
        for (b, two) in second.iter().enumerate() {
            for (c, three) in third.iter().enumerate() {
                let answer = judged(one, two, three).answer;
                let expected = match (a, b, c) {
                    (2, _, _) | (_, 2, _) | (_, _, 2) => refused(10),
                    (1, _, _) => refused(11),
                    (_, 1, _) => refused(12),
                    (_, _, 1) => refused(13),
                    _ => Answer::Hello {
                        process: 7,
                        relative: 0,
                    },
                };
                assert_eq!(answer, expected, "{a} {b} {c}");
            }
        }
    }
}

/// A line of this many bytes that keeps the rest of the hello well formed.
fn line_of(number: usize, length: usize) -> Vec<u8> {
    let (mut line, end): (Vec<u8>, &[u8]) = match number {
        0 => (b"HAProxyS ".to_vec(), b""),
        1 => (Vec::new(), b""),
        _ => (Vec::new(), b" 7 0"),
    };
    line.resize(length - end.len(), b'x');
    line.extend_from_slice(end);
    line
}

#[test]
fn lines_of_64_bytes_are_judged_at_the_third_lf() {
    for (long, expected) in [(0, 11), (1, 12), (2, 13)] {
        let mut three = [
            b"HAProxyS 2.1".to_vec(),
            b"east".to_vec(),
            b"west 7 0".to_vec(),
        ];
        three[long] = line_of(long, 64);
        let response = judged(&three[0], &three[1], &three[2]);
        assert_eq!(number(&response), expected);
    }
}

#[test]
fn a_65th_byte_is_refused_at_once() {
    for long in 0..3 {
        let three = [b"HAProxyS 2.1".to_vec(), b"east".to_vec(), vec![]];
        let mut bytes: Vec<u8> = three[..long]
            .iter()
            .flat_map(|l| [l, &b"\n"[..]].concat())
            .collect();
        bytes.extend(line_of(long, 65));
        let mut session = Session::new(Role::Answerer);
        let response = session.respond(&bytes);
        assert_eq!(
            (number(&response), &response.reply[..]),
            (10, &b"501\n"[..])
        );
        assert_eq!(session.record.phase, Phase::Closed(10));
        assert_eq!(session.record.unfinished, b"");
    }
}

#[test]
fn at_most_194_bytes_of_a_hello_are_unfinished() {
    let mut session = Session::new(Role::Answerer);
    let bytes = lines(&line_of(0, 64), &line_of(1, 64), &line_of(2, 64));
    assert_eq!(bytes.len(), 195);
    assert_eq!(session.send(&bytes[..194]), []);
    assert_eq!(session.record.unfinished.len(), 194);
    for byte in 0..=255 {
        let mut copy = session.clone();
        let response = copy.respond(&[byte]);
        let expected = if byte == b'\n' { 11 } else { 10 };
        assert_eq!(number(&response), expected);
    }
}

#[test]
fn a_faulty_hello_is_judged_at_its_end_only() {
    let mut session = Session::new(Role::Answerer);
    assert_eq!(session.send(b"nothing of this is a hello\n\n\xFF\0"), []);
    assert_eq!(session.respond(b"\n").answer, refused(10));
}

#[test]
fn statuses() {
    let known: [&[u8]; 6] = [b"200", b"300", b"501", b"502", b"503", b"504"];
    for code in 0..=999 {
        let code = format!("{code:03}");
        let mut session = Session::new(Role::Caller);
        let response = session.respond(format!("{code}\n").as_bytes());
        let expected = match code.as_str() {
            "200" => Answer::Status,
            code if known.contains(&code.as_bytes()) => refused(14),
            _ => refused(15),
        };
        assert_eq!(response.answer, expected, "{code}");
        assert_eq!(response.reply, b"");
    }
}

#[test]
fn malformed_statuses() {
    let cases: [&[u8]; 8] = [
        b"200\r",
        b"2000",
        b"300 ",
        b"\n\n\n\n",
        b" 200",
        b"20\n\n",
        b"HAPr",
        b"\x82\0\0\n",
    ];
    for case in cases {
        let mut session = Session::new(Role::Caller);
        assert_eq!(session.respond(case).answer, refused(15));
        assert_eq!(session.record.phase, Phase::Closed(15));
    }
}

#[test]
fn an_accepted_handshake_changes_the_phase_alone() {
    let greetings: [(Role, &[u8]); 2] = [
        (Role::Answerer, crate::common::HELLO),
        (Role::Caller, b"200\n"),
    ];
    for (role, greeting) in greetings {
        let mut session = Session::new(role);
        session.respond(greeting);
        let mut expected = record(role);
        expected.phase = Phase::Open;
        assert_eq!(session.record, expected);
    }
}
