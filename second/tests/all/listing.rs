//! The listing.

use crate::common::{
    definition, message, timed, timed_update, update, EXAMPLE, EXAMPLE_LISTING, HELLO,
};
use second::listing::{hex, list, listing, Listing};
use std::io::Read;

fn text(input: &[u8]) -> String {
    String::from_utf8(listing(input)).unwrap()
}

#[test]
fn the_example() {
    assert_eq!(text(EXAMPLE), EXAMPLE_LISTING);
}

#[test]
fn the_example_in_every_division() {
    for cut in 0..=EXAMPLE.len() {
        let (one, two) = EXAMPLE.split_at(cut);
        let mut output = Vec::new();
        let mut session = Listing::new();
        session.piece(one, &mut output);
        session.piece(two, &mut output);
        session.end(&mut output);
        assert_eq!(output, EXAMPLE_LISTING.as_bytes());
    }
}

/// Gives one byte at each reading.
struct Slow<'a>(&'a [u8]);

impl Read for Slow<'_> {
    fn read(&mut self, buffer: &mut [u8]) -> std::io::Result<usize> {
        let count = self.0.len().min(1);
        self.0.read(&mut buffer[..count])
    }
}

#[test]
fn the_program() {
    for input in [EXAMPLE, b"", b"\n\n\n", b"abc"] {
        let mut output = Vec::new();
        list(&mut &input[..], &mut output).unwrap();
        assert_eq!(output, listing(input));
        let mut output = Vec::new();
        list(&mut Slow(input), &mut output).unwrap();
        assert_eq!(output, listing(input));
    }
}

#[test]
fn the_program_reads_input_of_any_length() {
    let mut input = HELLO.to_vec();
    for _ in 0..5000 {
        input.extend([0, 4]);
    }
    let mut output = Vec::new();
    list(&mut &input[..], &mut output).unwrap();
    let expected = "heartbeat\n".repeat(5000);
    let expected = format!("hello west 7 0\nreply 3230300A\n{expected}end open 0\n");
    assert_eq!(String::from_utf8(output).unwrap(), expected);
}

#[test]
fn ends() {
    assert_eq!(text(b""), "end open 0\n");
    assert_eq!(text(b"HAP"), "end open 3\n");
    let cut = [HELLO, &[10, 128, 5, 0]].concat();
    assert!(text(&cut).ends_with("\nend open 4\n"));
    let error = [HELLO, &[1, 1, 0, 1]].concat();
    assert!(text(&error).ends_with("0A\nerror 1\nend closed 0\n"));
}

#[test]
fn other_lines() {
    let mut input = HELLO.to_vec();
    input.extend([0, 0, 0, 2, 0, 3, 0, 4]);
    input.extend(message(130, &definition(300, b"z:", [2, 4, 0])));
    input.extend(message(130, &timed(2, b"b", [2, 4, 0], &[1])));
    input.extend(message(131, &[0xFC, 3]));
    input.extend(message(132, &[9, 0xFF, 0xFF, 0xFF, 0xFE]));
    input.extend(message(135, &[]));
    input.extend(message(128, &update(77, b"kkkk", &[])));
    input.extend(message(133, &timed_update(79, 5, b"kkkk", &[])));
    input.extend(message(134, b"\0\0\0\0llll"));
    input.extend(message(131, &[9]));
    let expected = "hello west 7 0
reply 3230300A
request
partial
reply 0003
confirm
heartbeat
table 0 7A3A
table 1 62
switch 0
ack 9 4294967294
skipped 135
update 0 77 0 new
reply 0A8406FC030000004D
update 0 79 0 replaced
reply 0A8406FC030000004F
update 0 80 1 new
reply 0A8406FC0300000050
refused 27
reply 0100
end closed 27
";
    assert_eq!(text(&input), expected);
}

#[test]
fn refused_hellos() {
    let cases: [(&[u8], &str); 4] = [
        (b"x\n\n\n", "refused 10\nreply 3530310A\nend closed 10\n"),
        (
            b"HAProxyS 3\neast\nwest 7 0\n",
            "refused 11\nreply 3530320A\nend closed 11\n",
        ),
        (
            b"HAProxyS 2.1\nwest\nwest 7 0\n",
            "refused 12\nreply 3530330A\nend closed 12\n",
        ),
        (
            b"HAProxyS 2.1\neast\neast 7 0\n",
            "refused 13\nreply 3530340A\nend closed 13\n",
        ),
    ];
    for (input, expected) in cases {
        assert_eq!(text(input), expected);
    }
}

#[test]
fn process_numbers_are_printed_as_numbers() {
    let input = b"HAProxyS 2.0\neast\nwest 0000000007 4294967295\n";
    let expected = "hello west 7 4294967295\nreply 3230300A\nend open 0\n";
    assert_eq!(text(input), expected);
}

#[test]
fn hex_digits_are_capitals() {
    assert_eq!(hex(&[0, 0x0F, 0xAB, 0xFF]), "000FABFF");
}
