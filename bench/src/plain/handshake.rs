//! Hello and status.

use super::{Judged, Settled};
use crate::layout::Connection;

/// The most bytes of a line before its LF.
const LINE_MAX: usize = 64;

/// The three lines of a hello, without their LF, and the bytes that they take.
struct Lines<'a> {
    lines: [&'a [u8]; 3],
    used: usize,
}

/// What the bytes of a hello come to before they are judged.
enum Split<'a> {
    Waiting,
    TooLong { used: usize },
    Whole(Lines<'a>),
}

fn split(bytes: &[u8]) -> Split<'_> {
    let mut lines: [&[u8]; 3] = [&[]; 3];
    let mut start = 0;
    for line in &mut lines {
        let rest = &bytes[start..];
        let shown = &rest[..rest.len().min(LINE_MAX + 1)];
        match shown.iter().position(|&b| b == b'\n') {
            Some(len) => {
                *line = &rest[..len];
                start += len + 1;
            }
            None if shown.len() > LINE_MAX => {
                return Split::TooLong {
                    used: start + shown.len(),
                }
            }
            None => return Split::Waiting,
        }
    }
    Split::Whole(Lines { lines, used: start })
}

pub fn hello(connection: &mut Connection, bytes: &[u8]) -> Judged {
    match split(bytes) {
        Split::Waiting => Judged::Waiting,
        Split::TooLong { used } => Judged::Settled {
            used,
            settled: Settled::refused(connection, 10),
        },
        Split::Whole(hello) => Judged::Settled {
            used: hello.used,
            settled: match judge_lines(connection, hello.lines) {
                Ok((process, relative)) => {
                    connection.phase = 2;
                    Settled::new(257, &[process.into(), relative.into()], b"200\n")
                }
                Err(number) => Settled::refused(connection, number),
            },
        },
    }
}

/// The two process numbers, or the refusal.
fn judge_lines(connection: &Connection, lines: [&[u8]; 3]) -> Result<(u32, u32), u8> {
    let version = lines[0].strip_prefix(b"HAProxyS ").ok_or(10)?;
    if version.is_empty() || lines[1].is_empty() {
        return Err(10);
    }
    let mut parts = lines[2].splitn(3, |&b| b == b' ');
    let name = parts.next().filter(|name| !name.is_empty()).ok_or(10)?;
    let process = parts.next().and_then(decimal).ok_or(10)?;
    let relative = parts.next().and_then(decimal).ok_or(10)?;
    if version != b"2.0" && version != b"2.1" {
        return Err(11);
    }
    if lines[1] != &connection.local[..connection.local_len] {
        return Err(12);
    }
    if name != &connection.remote[..connection.remote_len] {
        return Err(13);
    }
    Ok((process, relative))
}

/// A number of 1 to 10 digits and 32 bits.
fn decimal(digits: &[u8]) -> Option<u32> {
    if digits.is_empty() || digits.len() > 10 || !digits.iter().all(u8::is_ascii_digit) {
        return None;
    }
    let value = digits
        .iter()
        .fold(0u64, |n, &d| n * 10 + u64::from(d - b'0'));
    u32::try_from(value).ok()
}

pub fn status(connection: &mut Connection, bytes: &[u8]) -> Judged {
    let Some(line) = bytes.get(..4) else {
        return Judged::Waiting;
    };
    let settled = match line {
        b"200\n" => {
            connection.phase = 2;
            Settled::new(258, &[], &[])
        }
        b"300\n" | b"501\n" | b"502\n" | b"503\n" | b"504\n" => Settled::refused(connection, 14),
        _ => Settled::refused(connection, 15),
    };
    Judged::Settled { used: 4, settled }
}

/// Whether the unfinished bytes of a hello end nothing and show no refusal.
pub fn hello_waits(bytes: &[u8]) -> bool {
    matches!(split(bytes), Split::Waiting)
}

/// Whether a name is one that opening takes.
pub fn is_name(name: &[u8]) -> bool {
    (1..=32).contains(&name.len()) && name.iter().all(|b| (33..=126).contains(b))
}
