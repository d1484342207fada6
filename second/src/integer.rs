//! The encoded integer, both ways.

/// First bytes from this one on are followed by more bytes.
const LONG: u64 = 240;

/// Later bytes from this one on are followed by more bytes.
const NEXT: u64 = 128;

/// The largest number of bytes of an encoded integer.
pub const LONGEST: usize = 10;

/// What the front of some bytes holds, read as an encoded integer.
#[derive(Clone, Copy, Debug, PartialEq, Eq)]
pub enum Decoded {
    /// The bytes end before the integer does.
    Cut {
        /// How many bytes were looked at: all there are.
        looked: usize,
    },
    /// The integer overflows.
    Overflow {
        /// How many bytes were looked at.
        looked: usize,
    },
    /// A whole integer.
    Value {
        /// The integer.
        value: u64,
        /// How many bytes it takes.
        length: usize,
    },
}

/// The encoding of `value`.
pub fn encode(value: u64) -> Vec<u8> {
    if value < LONG {
        return vec![value as u8];
    }
    let mut bytes = vec![(LONG + value % 16) as u8];
    let mut rest = (value - LONG) / 16;
    while rest >= NEXT {
        bytes.push((NEXT + rest % NEXT) as u8);
        rest = (rest - NEXT) / NEXT;
    }
    bytes.push(rest as u8);
    bytes
}

/// Reads an encoded integer at the front of `bytes`.
pub fn decode(bytes: &[u8]) -> Decoded {
    let Some((&first, later)) = bytes.split_first() else {
        return Decoded::Cut { looked: 0 };
    };
    if u64::from(first) < LONG {
        return whole(u128::from(first), 1);
    }
    let later = &later[..later.len().min(LONGEST - 1)];
    let Some(last) = later.iter().position(|&byte| u64::from(byte) < NEXT) else {
        return match later.len() == LONGEST - 1 {
            true => Decoded::Overflow { looked: LONGEST },
            false => Decoded::Cut {
                looked: bytes.len(),
            },
        };
    };
    // from the last byte on, so that byte k is multiplied by 128 k times
    let backwards = later[..=last].iter().rev();
    let sum = backwards.fold(0, |sum, &byte| 128 * sum + u128::from(byte));
    whole(u128::from(first) + 16 * sum, last + 2)
}

/// A whole integer of `length` bytes, or an overflow.
fn whole(value: u128, length: usize) -> Decoded {
    match u64::try_from(value) {
        Ok(value) => Decoded::Value { value, length },
        Err(_) => Decoded::Overflow { looked: length },
    }
}
