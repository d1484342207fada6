//! Opening in either role.

use crate::common::{refused, State, FILL};
use peers::{Answer, Refusal, Session};

#[test]
fn the_callers_hello() {
    let mut room = [FILL; 103];
    let (session, hello) = Session::caller(b"east", b"west", 7, 0, &mut room).unwrap();
    assert_eq!(hello, b"HAProxyS 2.1\nwest\neast 7 0\n");
    let len = hello.len();
    assert!(!session.is_established());
    assert!(room[len..].iter().all(|&byte| byte == FILL));
}

#[test]
fn the_longest_hello() {
    let (local, remote) = ([b'l'; 32], [b'r'; 32]);
    let mut room = [FILL; 101];
    let (_, hello) = Session::caller(&local, &remote, u32::MAX, u32::MAX, &mut room).unwrap();
    assert_eq!(hello.len(), 101);
}

#[test]
fn a_hundred_bytes_of_room() {
    let mut room = [FILL; 100];
    let refused = Session::caller(b"east", b"west", 7, 0, &mut room);
    assert_eq!(refused.err(), Some(Refusal::Room));
    assert_eq!(room, [FILL; 100]);
}

#[test]
fn names() {
    let good: [&[u8]; 4] = [b"!", b"~", b"east", &[b'a'; 32]];
    let bad: [&[u8]; 5] = [b"", &[b'a'; 33], b" ", b"\x7f", b"a\xff"];
    for name in good {
        assert!(Session::answerer(name, b"west").is_ok());
        assert!(Session::answerer(b"east", name).is_ok());
    }
    for name in bad {
        assert_eq!(Session::answerer(name, b"west").err(), Some(Refusal::Name));
        assert_eq!(Session::answerer(b"east", name).err(), Some(Refusal::Name));
    }
}

#[test]
fn a_caller_reads_a_status() {
    let mut state = State::caller();
    assert_eq!(state.offer(b"200\n"), [(Answer::Status, vec![])]);
    assert!(state.session.is_established());
    let mut other = State::caller();
    assert_eq!(other.offer(b"300\n"), [(refused(Refusal::Status), vec![])]);
    assert_eq!(other.session.closed_with(), Some(14));
}
