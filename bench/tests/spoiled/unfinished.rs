//! Unfinished bytes that end nothing, and such that can't be unfinished.

use crate::Both;
use bench::receivers::Role;
use bench::streams::{message, HELLO};

/// Tries unfinished bytes, of which only the first wait for more.
fn try_bytes(base: &Both, waiting: &[u8], ended: &[u8]) {
    for (bytes, unsound) in [(waiting, false), (ended, true)] {
        let mut both = base.clone();
        both.change(|record, _| {
            record.len = bytes.len();
            record.buffer[..bytes.len()].copy_from_slice(bytes);
        });
        assert_eq!(both.is_unsound(), unsound, "{bytes:?}");
    }
}

#[test]
fn hello_and_status() {
    let answerer = Both::after(Role::Answerer, b"");
    let line = [&[b'x'; 64][..], b"\n"].concat();
    let two_lines = [&line[..], &line].concat();
    try_bytes(&answerer, &[b'x'; 64], &[b'x'; 65]);
    try_bytes(&answerer, b"\n\n", b"\n\n\n");
    try_bytes(&answerer, &two_lines, &[&two_lines[..], &line].concat());
    let caller = Both::after(Role::Caller, b"");
    try_bytes(&caller, b"200", b"200\n");
    try_bytes(&caller, b"xyz", b"xyz\n");
}

#[test]
fn messages() {
    let open = Both::after(Role::Answerer, HELLO);
    let overflow = [&[10, 128, 0xFF][..], &[0xFF; 9]].concat();
    let longest = message(200, &[1; 1024]);
    try_bytes(&open, &[0], &[0, 4]);
    try_bytes(&open, &[77], &[77, 0]);
    try_bytes(&open, &[10, 128], &[10, 127]);
    try_bytes(&open, &[10, 128, 0xF0, 0x31], &[10, 128, 0xF1, 0x31]);
    try_bytes(&open, &[10, 128, 2, 1], &[10, 128, 2, 1, 1]);
    try_bytes(&open, &overflow[..11], &overflow);
    try_bytes(&open, &longest[..1027], &[0, 4, 10]);
}

#[test]
fn of_a_closed_record() {
    let closed = Both::after(Role::Answerer, &[HELLO, &[1, 0]].concat());
    try_bytes(&closed, b"", &[10]);
}
