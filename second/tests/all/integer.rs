//! The encoded integer.

use crate::common::powers;
use second::integer::{decode, encode, Decoded};

fn bytes(hex: &str) -> Vec<u8> {
    let digits = hex.split_whitespace();
    digits.map(|b| u8::from_str_radix(b, 16).unwrap()).collect()
}

fn whole(value: u64, length: usize) -> Decoded {
    Decoded::Value { value, length }
}

fn both_ways(value: u64, hex: &str) {
    let bytes = bytes(hex);
    assert_eq!(encode(value), bytes, "{value}");
    assert_eq!(decode(&bytes), whole(value, bytes.len()), "{value}");
}

#[test]
fn cases_of_the_document() {
    both_ways(239, "EF");
    both_ways(240, "F0 00");
    both_ways(2287, "FF 7F");
    both_ways(2288, "F0 80 00");
    both_ways(4660, "F4 94 01");
    both_ways(60000, "F0 97 1C");
    both_ways(1024, "F0 31");
    both_ways(1025, "F1 31");
    both_ways(u64::MAX, "FF F0 FE FE FE FE FE FE FE 0E");
}

#[test]
fn smallest_value_of_each_length() {
    let smallest = [
        0,
        240,
        2288,
        264432,
        33818864,
        4328786160,
        554084600048,
        70922828777712,
        9078122083518704,
        1161999626690365680,
    ];
    for (n, &value) in smallest.iter().enumerate() {
        assert_eq!(encode(value).len(), n + 1);
        if value > 0 {
            assert_eq!(encode(value - 1).len(), n);
        }
    }
}

#[test]
fn overflows() {
    let cases = [
        "F0 F1 FE FE FE FE FE FE FE 0E",
        "F0 80 80 80 80 80 80 80 80 80",
        "F0 80 80 80 80 80 80 80 80 0F",
        "FF FF FF FF FF FF FF FF FF FF",
        "FF FF FF FF FF FF FF FF FF 0E",
        "F0 80 80 80 80 80 80 80 80 7F",
    ];
    for case in cases {
        let bytes = bytes(case);
        assert_eq!(decode(&bytes), Decoded::Overflow { looked: 10 }, "{case}");
        assert_eq!(decode(&bytes[..9]), cut(9), "{case}");
    }
}

#[test]
fn largest_values_below_an_overflow() {
    let last = bytes("FF F0 FE FE FE FE FE FE FE 0E");
    assert_eq!(decode(&last), whole(u64::MAX, 10));
    let low = bytes("F0 80 80 80 80 80 80 80 80 0E");
    assert!(matches!(decode(&low), Decoded::Value { length: 10, .. }));
}

/// An integer that ends behind this many bytes.
fn cut(looked: usize) -> Decoded {
    Decoded::Cut { looked }
}

#[test]
fn bytes_looked_at() {
    for count in 0..30 {
        let expected = match count {
            0..=9 => cut(count),
            _ => Decoded::Overflow { looked: 10 },
        };
        assert_eq!(decode(&vec![0xFF; count]), expected);
    }
    let long = [
        0xF0, 0xF1, 0xFE, 0xFE, 0xFE, 0xFE, 0xFE, 0xFE, 0xFE, 0x0E, 0, 0,
    ];
    assert_eq!(decode(&long), Decoded::Overflow { looked: 10 });
}

#[test]
fn first_bytes_below_240_stand_alone() {
    for first in 0..240 {
        assert_eq!(decode(&[first, 0xFF, 0xFF]), whole(u64::from(first), 1));
    }
    for first in 240..=255 {
        assert_eq!(decode(&[first]), cut(1));
        assert_eq!(decode(&[first, 0, 9]), whole(u64::from(first), 2));
        assert_eq!(decode(&[first, 1]), whole(u64::from(first) + 16, 2));
    }
    assert_eq!(decode(&[]), cut(0));
}

/// 16 times 128^k, for the later bytes from k = 0.
const WEIGHTS: [u64; 9] = [
    1 << 4,
    1 << 11,
    1 << 18,
    1 << 25,
    1 << 32,
    1 << 39,
    1 << 46,
    1 << 53,
    1 << 60,
];

#[test]
fn later_bytes_have_their_weights() {
    let mut bytes = vec![0xF0];
    let mut value = 240;
    for weights in WEIGHTS.windows(2) {
        bytes.push(0x80);
        value += 0x80 * weights[0];
        let mut ended = bytes.clone();
        ended.push(1);
        let sum = value + weights[1];
        assert_eq!(decode(&ended), whole(sum, ended.len()));
        assert_eq!(encode(sum), ended);
    }
}

#[test]
fn both_ways_over_many_values() {
    let mut values: Vec<u64> = (0..300_000).collect();
    for power in powers() {
        values.extend([power - 1, power, power + 1, power | 0x5A5A]);
        values.extend([u64::MAX - power, u64::MAX / power]);
    }
    for value in values {
        let bytes = encode(value);
        assert_eq!(decode(&bytes), whole(value, bytes.len()));
        for length in 0..bytes.len() {
            assert_eq!(decode(&bytes[..length]), cut(length));
        }
        let longer = [&bytes[..], &[0xFF]].concat();
        assert_eq!(decode(&longer), whole(value, bytes.len()));
    }
}
