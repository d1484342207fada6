//! Key types by the numbers that peers send.

use crate::layout::{Table, KEY_MAX};

#[derive(Clone, Copy, PartialEq, Eq)]
pub enum KeyType {
    Integer = 2,
    Ipv4 = 4,
    Ipv6 = 5,
    String = 6,
    Binary = 7,
}

impl KeyType {
    pub fn of(number: u64) -> Option<KeyType> {
        match number {
            2 => Some(KeyType::Integer),
            4 => Some(KeyType::Ipv4),
            5 => Some(KeyType::Ipv6),
            6 => Some(KeyType::String),
            7 => Some(KeyType::Binary),
            _ => None,
        }
    }

    pub fn number(self) -> u32 {
        self as u32
    }

    pub fn of_table(table: &Table) -> Option<KeyType> {
        KeyType::of(table.key_type.into())
    }

    /// Whether a table with such keys may have this key length.
    pub fn takes(self, len: u64) -> bool {
        match self {
            KeyType::Integer | KeyType::Ipv4 => len == 4,
            KeyType::Ipv6 => len == 16,
            KeyType::String | KeyType::Binary => (1..=KEY_MAX as u64).contains(&len),
        }
    }
}
