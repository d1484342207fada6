//! Hellos and statuses, accepted and refused ones.

use super::random::Random;
use super::values::number;
use crate::datatype::MAX_32;
use crate::listing::{OUR_NAME, PEER_NAME};
use crate::record::Role;

/// The handshake bytes that a role reads.
pub fn greeting(random: &mut Random, role: Role, faulty: bool) -> Vec<u8> {
    if faulty && random.chance(50) {
        return of_other_role(random, role);
    }
    match (role, faulty) {
        (Role::Answerer, false) => Hello::accepted(random).bytes(),
        (Role::Answerer, true) => faulty_hello(random),
        (Role::Caller, false) => b"200\n".to_vec(),
        (Role::Caller, true) => faulty_status(random),
    }
}

/// The handshake bytes that the other role reads.
fn of_other_role(random: &mut Random, role: Role) -> Vec<u8> {
    match role {
        Role::Answerer => b"200\n".to_vec(),
        Role::Caller => Hello::accepted(random).bytes(),
    }
}

/// The parts of a hello.
struct Hello {
    first: Vec<u8>,
    addressed: Vec<u8>,
    sender: Vec<u8>,
    process: Vec<u8>,
    relative: Vec<u8>,
}

impl Hello {
    /// A hello that is accepted.
    fn accepted(random: &mut Random) -> Hello {
        Hello {
            first: random.pick(&[b"HAProxyS 2.1", b"HAProxyS 2.0"]).to_vec(),
            addressed: OUR_NAME.to_vec(),
            sender: PEER_NAME.to_vec(),
            process: digits(random),
            relative: digits(random),
        }
    }

    /// Its bytes.
    fn bytes(&self) -> Vec<u8> {
        let parts = [
            &self.first[..],
            b"\n",
            &self.addressed,
            b"\n",
            &self.sender,
            b" ",
            &self.process,
            b" ",
            &self.relative,
            b"\n",
        ];
        parts.concat()
    }
}

/// A number of 1 to 10 digits.
fn digits(random: &mut Random) -> Vec<u8> {
    let value = number(random, MAX_32);
    let width = random.pick(&[0, 0, 0, 0, 2, 5, 10]);
    format!("{value:0width$}").into_bytes()
}

/// A hello with one or two faults, or a damaged one.
fn faulty_hello(random: &mut Random) -> Vec<u8> {
    let mut hello = Hello::accepted(random);
    for _ in 0..random.pick(&[1, 1, 1, 2, 3]) {
        spoil(random, &mut hello);
    }
    hello.bytes()
}

/// Spoils one part of a hello.
fn spoil(random: &mut Random, hello: &mut Hello) {
    match random.below(10) {
        0 => hello.first = bad_first(random),
        1 | 2 => hello.first = bad_version(random),
        3 | 4 => hello.addressed = bad_addressed(random),
        5..=7 => hello.sender = bad_sender(random),
        8 => hello.process = bad_digits(random),
        _ => hello.relative = bad_digits(random),
    }
}

/// A malformed first line.
fn bad_first(random: &mut Random) -> Vec<u8> {
    let lines: [&[u8]; 10] = [
        b"",
        b"HAProxyS",
        b"HAProxyS ",
        b"HAProxyS2.1",
        b"HaproxyS 2.1",
        b"HAProxys 2.1",
        b" HAProxyS 2.1",
        b"HAProxyS\t2.1",
        b"HAProxySS 2.1",
        b"2.1",
    ];
    random.pick(&lines).to_vec()
}

/// A first line with another version; some are next to the line limit.
fn bad_version(random: &mut Random) -> Vec<u8> {
    let versions: [&[u8]; 10] = [
        b"2.2", b"2.", b"2", b"2.10", b"02.1", b"2.1 ", b" 2.1", b"2.1\r", b"3.0", b"\0",
    ];
    let mut line = b"HAProxyS ".to_vec();
    line.extend_from_slice(random.pick(&versions));
    lengthened(random, line)
}

/// A second line that is empty or another name.
fn bad_addressed(random: &mut Random) -> Vec<u8> {
    let lines: [&[u8]; 9] = [
        b"", b"", b"west", b"eas", b"east ", b" east", b"East", b"east\r", b"eastt",
    ];
    let line = random.pick(&lines).to_vec();
    lengthened(random, line)
}

/// A sender's name that is another or malformed.
fn bad_sender(random: &mut Random) -> Vec<u8> {
    let names: [&[u8]; 10] = [
        b"", b"east", b"wes", b"west ", b" west", b"West", b"we st", b"westt", b"west\t", b"\xFF",
    ];
    let name = random.pick(&names).to_vec();
    lengthened(random, name)
}

/// A malformed number or one over the limit.
fn bad_digits(random: &mut Random) -> Vec<u8> {
    let numbers: [&[u8]; 14] = [
        b"",
        b"4294967296",
        b"9999999999",
        b"00000000000",
        b"00000000007",
        b"42949672950",
        b"-1",
        b"+1",
        b"7 ",
        b" 7",
        b"7x",
        b"0x7",
        b"7\r",
        b"/",
    ];
    random.pick(&numbers).to_vec()
}

/// Sometimes the line with as many bytes as bring it to or over the limit.
fn lengthened(random: &mut Random, mut line: Vec<u8>) -> Vec<u8> {
    if random.chance(250) {
        let length = random.pick(&[58, 60, 62, 63, 64, 65, 66, 100]);
        line.resize(length.max(line.len()), b'x');
    }
    line
}

/// A status that is refused.
fn faulty_status(random: &mut Random) -> Vec<u8> {
    let statuses: [&[u8]; 20] = [
        b"300\n",
        b"501\n",
        b"502\n",
        b"503\n",
        b"504\n",
        b"201\n",
        b"500\n",
        b"505\n",
        b"400\n",
        b"000\n",
        b"200\r",
        b"200 ",
        b"2000",
        b"300\0",
        b"20\n\n",
        b"\n\n\n\n",
        b"-20\n",
        b" 200",
        b"504\r",
        b"301\n",
    ];
    match random.chance(900) {
        true => random.pick(&statuses).to_vec(),
        false => random.bytes(4),
    }
}
