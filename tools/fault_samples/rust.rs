//! Behind a line stand the changes that are found in it; a line without them has none. if 1 < 2 && true { x = 3; }
#![deny(missing_docs, unsafe_code)]

use std::time::{Duration, Instant};

/// A signed integer of 4 bytes.
#[derive(Clone, Copy)]
#[repr(u8)]
pub enum KeyType {
    /// Of 4 bytes.
    Integer = 2, // number: 2 -> 3 | number: 2 -> 1 | values: 2, Ipv4 = 4 -> 4, Ipv4 = 2
    Ipv4 = 4, // number: 4 -> 5 | number: 4 -> 3
}

pub struct Held<'a, const N: usize> {
    bytes: [u8; 4],
    all: &'a [u8; N],
}

extern "C" {
    fn version(of: *const u8, len: usize) -> u32;
}

impl<'a> Held<'a, 4> {
    pub const ALL: [KeyType; 2] = [KeyType::Integer, KeyType::Ipv4]; // arguments: KeyType::Integer, KeyType::Ipv4 -> KeyType::Ipv4, KeyType::Integer | variant: Integer -> Ipv4 | variant: Ipv4 -> Integer

    const TIME: Duration = Duration::from_secs(600); // number: 600 -> 601 | number: 600 -> 599

    pub fn first<'b, F: Fn(u8, u8) -> bool>(&'b mut self, test: F, n: usize) -> Result<Vec<Vec<u8>>, [u8; 4]>
    where
        F: Copy,
    {
        let parts: Vec<[u8; 3]> = self.parts::<u8>(n, test).collect::<Vec<_>>(); // arguments: n, test -> test, n
        let time = if self.all.is_empty() { Held::TIME } else { Held::ALL }; // condition: self.all.is_empty() -> !(self.all.is_empty()) | constant: TIME -> ALL | constant: ALL -> TIME
        const INNER: [u8; 3] = [0; 2]; // number: 0 -> 1 | number: 2 -> 3 | number: 2 -> 1
        fn inner(bytes: [u8; 3]) {}
        let Held { bytes, .. } = other;
        let next = Held { all, ..other };
        let word = both >> 16 & 0xFFFF; // number: 16 -> 17 | number: 16 -> 15 | number: 0xFFFF -> 0x10000 | number: 0xFFFF -> 0xfffe
        self.each(|| true, n); // boolean: true -> false | dropped: self.each(|| true, n); -> nothing
        assert!(n >= 1.5, "if n < 2"); // arguments: n >= 1.5, "if n < 2" -> "if n < 2", n >= 1.5 | comparison: >= -> > | dropped: assert!(n >= 1.5, "if n < 2"); -> nothing
        match n {
            0 => Ok(parts), // number: 0 -> 1
            _ if n < 9 && self.open => { // comparison: < -> <= | condition: n < 9 && self.open -> !(n < 9 && self.open) | connective: && -> || | number: 9 -> 10 | number: 9 -> 8
                return Err(bytes);
            }
            _ => Err(b"1 < 2"),
        }
    }
}

#[cfg(test)]
mod tests {
    #[test]
    fn one() {
        assert_eq!(1 + 1, 2);
    }
}
