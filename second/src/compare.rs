//! Compares two outputs line by line.

use std::fmt;

/// The first line in which two outputs differ.
#[derive(Clone, Debug, PartialEq, Eq)]
pub struct Difference {
    /// The line's number, from 1.
    pub line: usize,
    /// The line of this program; `None` past its end.
    pub ours: Option<String>,
    /// The line of the other output; `None` past its end.
    pub other: Option<String>,
}

impl fmt::Display for Difference {
    fn fmt(&self, f: &mut fmt::Formatter) -> fmt::Result {
        let show = |line: &Option<String>| match line {
            Some(line) => format!("`{line}`"),
            None => "nothing".into(),
        };
        let (ours, other) = (show(&self.ours), show(&self.other));
        write!(
            f,
            "line {}: second says {ours}, the other {other}",
            self.line
        )
    }
}

/// The first difference of two outputs, if there is one.
pub fn first_difference(ours: &[u8], other: &[u8]) -> Option<Difference> {
    if ours == other {
        return None;
    }
    let mut ours = ours.split_inclusive(|&b| b == b'\n');
    let mut other = other.split_inclusive(|&b| b == b'\n');
    let mut line = 1;
    loop {
        let pair = (ours.next(), other.next());
        if pair.0 != pair.1 {
            return Some(Difference {
                line,
                ours: pair.0.map(shown),
                other: pair.1.map(shown),
            });
        }
        line += 1;
    }
}

/// A line as text; its LF is shown only if the line has none.
fn shown(line: &[u8]) -> String {
    match line.strip_suffix(b"\n") {
        Some(line) => line.escape_ascii().to_string(),
        None => format!("{} (no LF)", line.escape_ascii()),
    }
}
