//! Which table a message is about.

use peers::Table;

/// A definition. It has its table's name in its body.
const DEFINITION: u8 = 130;
/// The update messages. They are about the current table.
const UPDATES: [u8; 4] = [128, 129, 133, 134];

/// The table's name, where it is known, as the end of a line.
pub fn about(message: &[u8], current: Option<Table<'_>>) -> String {
    let name = match message {
        [10, DEFINITION, rest @ ..] => defined(rest),
        [10, kind, ..] if UPDATES.contains(kind) => current.map(|table| table.name()),
        _ => None,
    };
    name.map_or(String::new(), |name| {
        format!(", table {}", name.escape_ascii())
    })
}

/// The name in a definition: behind the body's length, the table's ID and the name's length.
fn defined(rest: &[u8]) -> Option<&[u8]> {
    let (_body, rest) = integer(rest)?;
    let (_id, rest) = integer(rest)?;
    let (len, rest) = integer(rest)?;
    rest.get(..usize::try_from(len).ok()?)
}

/// An encoded integer and what follows it, if it is whole and fits.
fn integer(bytes: &[u8]) -> Option<(u64, &[u8])> {
    let (&first, mut rest) = bytes.split_first()?;
    let mut value = u64::from(first);
    let mut weight = 16u64;
    let mut more = first >= 240;
    while more {
        let (&byte, behind) = rest.split_first()?;
        value = value.checked_add(weight.checked_mul(byte.into())?)?;
        more = byte >= 128;
        weight = weight.saturating_mul(128);
        rest = behind;
    }
    Some((value, rest))
}
