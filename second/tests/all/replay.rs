//! The replay script.

use crate::common::{definition, message, timed, update, Session, EXAMPLE, HELLO};
use second::record::Role;
use second::replay::{command, dump, replay, Command, Item, Sending};

fn text(script: &[u8]) -> String {
    String::from_utf8(replay(script)).unwrap()
}

/// A reading call.
fn call(room: u8, piece: &[u8]) -> Vec<u8> {
    let mut script = Vec::new();
    Command::Call { room, piece }.write(&mut script);
    script
}

/// A sending call with the smallest room that is large enough.
fn send(item: Item, place: u8, id: u32) -> Vec<u8> {
    send_to(1036, item, place, id)
}

/// A sending call with this room.
fn send_to(room: u16, item: Item, place: u8, id: u32) -> Vec<u8> {
    let mut script = Vec::new();
    let sending = Sending {
        item,
        place,
        id,
        room,
    };
    Command::Send(sending).write(&mut script);
    script
}

/// A script of an open session.
fn open() -> Vec<u8> {
    [&b"O\0"[..], &call(12, HELLO)].concat()
}

const OPENED: &str = "open\ntook 27\nhello west 7 0\nreply 3230300A\n";

#[test]
fn commands_as_bytes() {
    assert_eq!(call(200, b"abc"), b"C\xC8\0\x03abc");
    let long = vec![9; 300];
    assert_eq!(call(0, &long)[..4], *b"C\0\x01\x2C");
    let definition = send(Item::Definition, 7, 0x01020304);
    assert_eq!(definition, b"P\x07\x01\x02\x03\x04\x04\x0C");
    let entry = send_to(65535, Item::Entry, 127, 1);
    assert_eq!(entry, b"E\x7F\0\0\0\x01\xFF\xFF");
    let commands = [
        Command::Open(Role::Caller),
        Command::Reconnect(Role::Answerer),
        Command::Call {
            room: 12,
            piece: &long,
        },
        Command::Pass(0x01020304),
        Command::Send(Sending {
            item: Item::Definition,
            place: 255,
            id: 0x01020304,
            room: 0xFFFE,
        }),
        Command::Send(Sending {
            item: Item::Entry,
            place: 128,
            id: 0xFFFEFDFC,
            room: 0x0102,
        }),
        Command::Dump,
    ];
    for original in commands {
        let mut script = Vec::new();
        original.write(&mut script);
        let (found, rest) = command(&script).unwrap();
        assert_eq!((found, rest), (original, &[][..]));
        for length in 0..script.len() {
            assert_eq!(command(&script[..length]), None);
        }
    }
}

#[test]
fn opening() {
    assert_eq!(text(b"O\0"), "open\nend\n");
    let hello = "48415072" // HAPr
        .to_owned()
        + "6F78795320322E310A776573740A656173742037"
        + "20300A";
    assert_eq!(text(b"O\x01"), format!("open\nreply {hello}\nend\n"));
    assert_eq!(
        text(b"O\0N\x01"),
        format!("open\nopen\nreply {hello}\nend\n")
    );
}

#[test]
fn scripts_that_end() {
    for script in [
        &b""[..],
        b"O",
        b"X",
        b"N\0",
        b"D",
        b"T\0\0\0\0",
        b"C\x0C\0\0",
        b"P\0\0\0\0\x01\x04\x0C",
        b"E\0\0\0\0\x01\x04\x0C",
        b"\0",
        b"o\0",
    ] {
        assert_eq!(text(script), "end\n");
    }
    let cut: [&[u8]; 15] = [
        b"",
        b"C",
        b"C\x0C",
        b"C\x0C\0",
        b"C\x0C\0\x02A",
        b"N",
        b"O",
        b"d",
        b"T",
        b"T\0\0\0",
        b"t\0\0\0\0",
        b"P",
        b"P\0\0\0\0\x01\x04",
        b"E\0\0\0\0\x01\x04",
        b"e\0\0\0\0\x01\x04\x0C",
    ];
    for end in cut {
        let script = [b"O\0", end].concat();
        assert_eq!(text(&script), "open\nend\n");
    }
    assert_eq!(text(b"O\0XO\0"), "open\nend\n");
    assert_eq!(text(b"O\x02D"), "end\n");
    assert_eq!(text(b"O\0N\xFFD"), "open\nend\n");
}

#[test]
fn calls() {
    let script = [
        &open()[..],
        &call(12, &[]),
        &call(11, &[0, 1]),
        &call(0, &[]),
        &call(40, &[0]),
        &call(12, &[1, 0, 4]),
        &call(255, &[0, 5]),
        &call(12, &[0, 5]),
        &call(5, &[0, 5]),
    ];
    let expected = "took 0\nmore\n\
        took 0\nrefused 1\n\
        took 0\nrefused 1\n\
        took 1\nmore\n\
        took 1\nfinished\nreply 0003\n\
        took 2\nrefused 20\nreply 0100\n\
        took 0\nrefused 2\n\
        took 0\nrefused 1\n\
        end\n";
    assert_eq!(text(&script.concat()), format!("{OPENED}{expected}"));
}

#[test]
fn dumps_of_empty_sessions() {
    assert_eq!(
        text(b"O\0D"),
        "open\nsession handshake\nunfinished -\ncurrent -\ndefined -\nsent -\ncounts 0 0 0 0 0 0 0 0\nend\n"
    );
    let script = [&open()[..], b"D"].concat();
    let expected =
        "session open\nunfinished -\ncurrent -\ndefined -\nsent -\ncounts 0 0 0 0 0 0 0 0\nend\n";
    assert_eq!(text(&script), format!("{OPENED}{expected}"));
    let script = [&open()[..], &call(12, &[1, 0]), b"D"].concat();
    let expected =
        "took 2\nerror 0\nsession closed 0\nunfinished -\ncurrent -\ndefined -\nsent -\ncounts 0 0 0 0 0 0 0 0\nend\n";
    assert_eq!(text(&script), format!("{OPENED}{expected}"));
}

/// The output of the last dump of a script.
fn last_dump(script: &[u8]) -> String {
    let output = text(script);
    let start = output.rfind("session ").unwrap();
    output[start..].to_owned()
}

#[test]
fn a_dump_with_all_lines() {
    let rates = 1 << 3 | 1 << 5;
    let messages = [
        message(130, &timed(300, b"a", [2, 4, 1 | 1 << 13], &[60000])),
        message(128, &update(5, &[0, 0, 0, 42], &[u64::MAX, u64::MAX])),
        message(130, &timed(1, b"b", [6, 8, rates], &[7, 3, 8, 5, 9])),
        message(128, &[0, 0, 0, 9, 0, 1, 2, 3, 4, 5, 6]),
        message(134, &[0, 0, 0, 0, 2, b'A', b'B', 1, 2, 3, 4, 5, 6]),
        message(130, &definition(4, b"c", [7, 2, 0])),
        message(128, &[0, 0, 0, 8, 1, 2]),
        vec![10, 128, 5, 0xAB],
    ];
    let mut script = open();
    for message in &messages {
        script.extend(call(12, message));
    }
    script.extend(send(Item::Definition, 1, 7));
    script.extend(send(Item::Entry, 2, 4294967295));
    script.push(b'D');
    let expected = "session open
unfinished 0A8005AB
current 2
defined 1
sent 4294967295
bound 0 300
previous 0 5
bound 1 1
previous 1 10
bound 2 4
previous 2 8
table 0 61 2 4 8193 60000
table 1 62 6 8 40 7 8 9
table 2 63 7 2 0 -
counts 1 2 1 0 0 0 0 0
entry 0 0 0000002A T60000 -1 18446744073709551615
entry 1 1 - T7 1 2 3 4 5 6
entry 2 1 4142 T0 1 2 3 4 5 6
entry 3 2 0102 -
end
";
    assert_eq!(last_dump(&script), expected);
}

#[test]
fn a_closed_session_keeps_its_tables_and_ids() {
    let mut script = open();
    for piece in [&EXAMPLE[27..40], &EXAMPLE[40..54], &[0, 5]] {
        script.extend(call(12, piece));
    }
    script.push(b'D');
    let expected = "session closed 20
unfinished -
current 0
defined -
sent -
bound 0 1
previous 0 4294967295
table 0 7431 2 4 4 60000
counts 1 0 0 0 0 0 0 0
entry 0 0 0000002A T60000 4660
end
";
    assert_eq!(last_dump(&script), expected);
}

#[test]
fn a_reconnection_keeps_the_store() {
    let mut script = open();
    for piece in [&EXAMPLE[27..40], &EXAMPLE[40..54]] {
        script.extend(call(12, piece));
    }
    script.extend(b"N\x01D");
    let expected = "session handshake
unfinished -
current -
defined -
sent -
table 0 7431 2 4 4 60000
counts 1 0 0 0 0 0 0 0
entry 0 0 0000002A T60000 4660
end
";
    assert_eq!(last_dump(&script), expected);
    script.extend(b"O\0D");
    let expected = "session handshake\nunfinished -\ncurrent -\ndefined -\nsent -\ncounts 0 0 0 0 0 0 0 0\nend\n";
    assert_eq!(last_dump(&script), expected);
}

#[test]
fn passing_time() {
    let mut script = open();
    for piece in [&EXAMPLE[27..40], &EXAMPLE[40..54]] {
        script.extend(call(12, piece));
    }
    let dump = |time: u32| {
        let pass = [&b"T"[..], &time.to_be_bytes(), b"D"].concat();
        let output = text(&[&script[..], &pass].concat());
        let passed = output.rfind("passed ").unwrap();
        output[passed..].to_owned()
    };
    let rest = "session open\nunfinished -\ncurrent 0\ndefined -\nsent -\nbound 0 1\nprevious 0 4294967295\n\
        table 0 7431 2 4 4 60000\n";
    let entry = "counts 1 0 0 0 0 0 0 0\nentry 0 0 0000002A T1 4660";
    let expected = format!("passed 0\n{rest}{entry}\nend\n");
    assert_eq!(dump(59_999), expected);
    for time in [60_000, 60_001, u32::MAX] {
        let expected = format!("passed 0\n{rest}counts 0 0 0 0 0 0 0 0\nend\n");
        assert_eq!(dump(time), expected);
    }
}

#[test]
fn time_passes_in_every_phase() {
    let expected = "open\npassed 0\nend\n";
    assert_eq!(text(b"O\0T\0\0\0\x01"), expected);
    let mut script = open();
    for piece in [&EXAMPLE[27..40], &EXAMPLE[40..54], &[0, 5]] {
        script.extend(call(12, piece));
    }
    script.extend(b"T\0\0\0\x03D");
    assert!(last_dump(&script).contains("\nentry 0 0 0000002A T59997 4660\n"));
    script.extend(b"N\0T\0\0\0\x03D");
    assert!(last_dump(&script).contains("\nentry 0 0 0000002A T59994 4660\n"));
}

#[test]
fn sending_calls() {
    let mut script = open();
    for piece in [&EXAMPLE[27..40], &EXAMPLE[40..54]] {
        script.extend(call(12, piece));
    }
    let start = text(&script).len() - "end\n".len();
    script.extend(send(Item::Entry, 0, 9));
    script.extend(send(Item::Definition, 0, 300));
    script.extend(send_to(1035, Item::Entry, 0, 9));
    script.extend(send_to(65535, Item::Entry, 0, 4294967295));
    script.extend(send(Item::Entry, 0, 0));
    script.extend(send(Item::Entry, 1, 1));
    script.extend(send(Item::Definition, 1, 300));
    script.extend(send(Item::Entry, 0, 0));
    script.extend(b"T\0\0\xEA\x60");
    script.extend(send(Item::Entry, 0, 1));
    script.extend(b"D");
    script.extend(call(12, &[1, 0]));
    script.extend(send(Item::Definition, 0, 300));
    script.extend(b"DN\0");
    script.extend(send(Item::Definition, 0, 300));
    script.extend(b"D");
    let dump = |phase: &str, current: &str, sent: &str, ids: &str| {
        format!(
            "session {phase}\nunfinished -\ncurrent {current}\n{sent}\n{ids}\
            table 0 7431 2 4 4 60000\ncounts 0 0 0 0 0 0 0 0\n"
        )
    };
    let ids = "bound 0 1\nprevious 0 4294967295\n";
    let expected = "refused 32\n\
        sent 0A820BFC03027431020404F0971C\n\
        refused 31\n\
        sent 0A850FFFFFFFFF0000EA600000002AF49401\n\
        sent 0A860B0000EA600000002AF49401\n\
        refused 32\n\
        refused 32\n\
        sent 0A850F000000000000EA600000002AF49401\n\
        passed 0\n\
        refused 32\n"
        .to_owned()
        + &dump("open", "0", "defined 0\nsent 0", ids)
        + "took 2\nerror 0\nrefused 2\n"
        + &dump("closed 0", "0", "defined 0\nsent 0", ids)
        + "open\nrefused 34\n"
        + &dump("handshake", "-", "defined -\nsent -", "")
        + "end\n";
    assert_eq!(text(&script)[start..], expected);
}

#[test]
fn a_last_id_without_a_table_is_dumped() {
    let mut session = Session::open();
    session.record.sent = Some(9);
    let mut output = Vec::new();
    dump(&session.record, &session.store, &mut output);
    let output = String::from_utf8(output).unwrap();
    assert!(output.contains("\ncurrent -\ndefined -\nsent 9\ncounts "));
}
