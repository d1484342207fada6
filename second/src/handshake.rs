//! Hello and status, both ways.

use crate::answer::{Answer, Response};
use crate::refusal;

/// The largest number of bytes of a hello line before its LF.
pub const LINE_LIMIT: usize = 64;

/// The largest length of a peer name.
pub const NAME_LIMIT: usize = 32;

/// The length of a status.
pub const STATUS_LENGTH: usize = 4;

/// The status of an accepted hello.
pub const ACCEPTED: &[u8] = b"200\n";

/// Whether a name is within the rule for opening.
pub fn is_name(name: &[u8]) -> bool {
    (1..=NAME_LIMIT).contains(&name.len()) && name.iter().all(|b| (33..=126).contains(b))
}

/// The caller's hello.
pub fn hello(our_name: &[u8], peer_name: &[u8], process: u32, relative: u32) -> Vec<u8> {
    let mut bytes = b"HAProxyS 2.1\n".to_vec();
    bytes.extend_from_slice(peer_name);
    bytes.push(b'\n');
    bytes.extend_from_slice(our_name);
    bytes.extend_from_slice(format!(" {process} {relative}\n").as_bytes());
    bytes
}

/// What the bytes of a hello are so far.
enum Lines<'a> {
    /// The third LF isn't there yet.
    Unfinished,
    /// A line has a 65th byte.
    TooLong,
    /// Three lines without their LF.
    Three([&'a [u8]; 3]),
}

/// Splits the bytes of a hello into its lines.
fn lines(bytes: &[u8]) -> Lines<'_> {
    let mut found = Vec::new();
    let mut start = 0;
    for (at, &byte) in bytes.iter().enumerate() {
        if byte == b'\n' {
            found.push(&bytes[start..at]);
            start = at + 1;
        } else if at - start == LINE_LIMIT {
            return Lines::TooLong;
        }
        if let [one, two, three] = found[..] {
            return Lines::Three([one, two, three]);
        }
    }
    Lines::Unfinished
}

/// Reads a hello; `None` while it's unfinished.
pub fn read_hello(bytes: &[u8], our_name: &[u8], peer_name: &[u8]) -> Option<Response> {
    match lines(bytes) {
        Lines::Unfinished => None,
        Lines::TooLong => Some(Response::refused(refusal::HELLO)),
        Lines::Three(lines) => Some(match judge(lines, our_name, peer_name) {
            Ok(answer) => Response::with(answer, ACCEPTED),
            Err(number) => Response::refused(number),
        }),
    }
}

/// Judges three whole lines.
fn judge(lines: [&[u8]; 3], our_name: &[u8], peer_name: &[u8]) -> Result<Answer, u8> {
    let version = version(lines[0]).ok_or(refusal::HELLO)?;
    let addressed = Some(lines[1]).filter(|name| !name.is_empty());
    let addressed = addressed.ok_or(refusal::HELLO)?;
    let (sender, process, relative) = sender(lines[2]).ok_or(refusal::HELLO)?;
    if version != b"2.0" && version != b"2.1" {
        return Err(refusal::VERSION);
    }
    if addressed != our_name {
        return Err(refusal::ADDRESSED);
    }
    if sender != peer_name {
        return Err(refusal::SENDER);
    }
    Ok(Answer::Hello { process, relative })
}

/// The version in line 1.
fn version(line: &[u8]) -> Option<&[u8]> {
    let rest = line.strip_prefix(b"HAProxyS ")?;
    Some(rest).filter(|rest| !rest.is_empty())
}

/// The name and the two numbers in line 3.
fn sender(line: &[u8]) -> Option<(&[u8], u32, u32)> {
    let mut parts = line.split(|&b| b == b' ');
    let name = parts.next().filter(|name| !name.is_empty())?;
    let process = number(parts.next()?)?;
    let relative = number(parts.next()?)?;
    match parts.next() {
        None => Some((name, process, relative)),
        Some(_) => None,
    }
}

/// A number of 1 to 10 digits, at most 4294967295.
fn number(digits: &[u8]) -> Option<u32> {
    if !(1..=10).contains(&digits.len()) || !digits.iter().all(u8::is_ascii_digit) {
        return None;
    }
    let value = digits
        .iter()
        .fold(0, |sum, &d| sum * 10 + u64::from(d - b'0'));
    u32::try_from(value).ok()
}

/// Reads a status; `None` while it's unfinished.
pub fn read_status(bytes: &[u8]) -> Option<Response> {
    let status = bytes.get(..STATUS_LENGTH)?;
    Some(match status {
        b"200\n" => Response::silent(Answer::Status),
        b"300\n" | b"501\n" | b"502\n" | b"503\n" | b"504\n" => Response::refused(refusal::STATUS),
        _ => Response::refused(refusal::STATUS_FORM),
    })
}
