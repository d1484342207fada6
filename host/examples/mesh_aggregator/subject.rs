//! Which table a message is about.

use peers::Table;

/// A definition. It has its table's name in its body.
const DEFINITION: u8 = 130;
/// The update messages. They are about the current table.
const UPDATES: [u8; 4] = [128, 129, 133, 134];
/// So much of a name is shown. No table that is held has a longer one.
const SHOWN: usize = 64;

/// What a message is about: a table, or an entry of it.
#[derive(Clone, Debug, PartialEq, Eq)]
pub struct Subject {
    pub definition: bool,
    /// The table's name, as text.
    pub table: String,
}

impl Subject {
    /// Of a message, where it is known.
    pub fn of(message: &[u8], current: Option<Table<'_>>) -> Option<Subject> {
        let (definition, name) = match message {
            [10, DEFINITION, rest @ ..] => (true, defined(rest)?),
            [10, kind, ..] if UPDATES.contains(kind) => (false, current?.name()),
            _ => return None,
        };
        let shown = &name[..name.len().min(SHOWN)];
        let table = shown.escape_ascii().to_string();
        Some(Subject { definition, table })
    }

    /// The table's name, where it is known, as the end of a line.
    pub fn end(subject: Option<&Subject>) -> String {
        subject.map_or(String::new(), |subject| {
            format!(", table {}", subject.table)
        })
    }
}

/// The name in a definition: behind the body's length, the table's ID and the name's length.
fn defined(rest: &[u8]) -> Option<&[u8]> {
    let (_body, rest) = integer(rest)?;
    let (_id, rest) = integer(rest)?;
    let (len, rest) = integer(rest)?;
    rest.get(..usize::try_from(len).ok()?)
}

/// An encoded integer and what follows it, if it is whole and fits.
fn integer(bytes: &[u8]) -> Option<(u64, &[u8])> {
    let (&first, mut rest) = bytes.split_first()?;
    let mut value = u64::from(first);
    let mut weight = 16u64;
    let mut more = first >= 240;
    while more {
        let (&byte, behind) = rest.split_first()?;
        value = value.checked_add(weight.checked_mul(byte.into())?)?;
        more = byte >= 128;
        weight = weight.saturating_mul(128);
        rest = behind;
    }
    Some((value, rest))
}

#[cfg(test)]
mod tests {
    use super::*;

    #[test]
    fn a_long_name_is_cut() {
        let message = |name: &[u8]| [&[10, DEFINITION, 200, 1, name.len() as u8], name].concat();
        let named = |name: &[u8]| Subject::of(&message(name), None).map(|subject| subject.table);
        assert_eq!(named(b"a \n"), Some("a \\n".to_owned()));
        assert_eq!(named(&[b'a'; SHOWN]), Some("a".repeat(SHOWN)));
        assert_eq!(named(&[b'a'; 2 * SHOWN]), Some("a".repeat(SHOWN)));
    }
}
