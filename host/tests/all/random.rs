//! Random bytes as record and store, and sound ones with some bytes changed: no call crashes, writes outside of what is lent, or
//! changes anything where it refuses with 1, 2 or 4.

use crate::common::{define, listing, message, refused, update, walked, Random, State, FILL};
use peers::{KeyType, Part, Refusal, SEND_ROOM};
use std::mem::size_of;

/// Writes a byte anywhere into a struct of integers, for which every content is allowed.
fn put_byte<T: Copy>(place: &mut T, at: usize, byte: u8) {
    assert!(at < size_of::<T>());
    // SAFETY: the byte lies within the struct, and every content is one of its type.
    unsafe { (place as *mut T).cast::<u8>().add(at).write(byte) }
}

/// Changes some bytes of the record, the store or both.
fn spoil(random: &mut Random, state: &mut State, count: usize) {
    let record = state.session.layout_mut();
    for _ in 0..count {
        let at = random.below(size_of::<peers::layout::Connection>() + 20);
        put_byte(record, at, random.next() as u8);
    }
    if random.below(4) == 0 {
        let at = random.below(size_of::<peers::layout::Sending>());
        put_byte(&mut record.sending, at, random.below(4) as u8);
    }
    let store = state.store.layout_mut();
    for _ in 0..random.below(2 * count) {
        let at = random.below(4096);
        put_byte(store, at, random.next() as u8);
    }
}

fn fill<T: Copy>(random: &mut Random, place: &mut T) {
    for at in 0..size_of::<T>() {
        put_byte(place, at, random.next() as u8);
    }
}

/// A piece: nothing, random bytes, or messages.
fn piece(random: &mut Random) -> Vec<u8> {
    let len = random.below(60);
    match random.below(4) {
        0 => Vec::new(),
        1 => random.bytes(len),
        2 => listing()[random.below(40)..].to_vec(),
        _ => [message(200, b"x"), update(7, b"keys", &[5])].concat(),
    }
}

/// Two sending calls, with places and rooms on either side of their limits.
fn sends(random: &mut Random, state: &mut State) {
    for part in [Part::Table, Part::Entry] {
        let place = match random.below(2) {
            0 => random.below(3),
            _ => random.next() as usize,
        };
        let (id, room) = (random.next() as u32, SEND_ROOM - random.below(2));
        // the helper looks at what is left
        let sent = state.send_with(part(place), id, room);
        let small = room < SEND_ROOM;
        assert!(!small || sent.is_err(), "{sent:?}");
    }
}

/// One reading call, two that send and one that passes time. The piece and room stand between bytes that must stay.
fn call(random: &mut Random, state: &mut State) {
    const EDGE: usize = 64;
    let before = state.clone();
    let piece = piece(random);
    let lent = [&[FILL; EDGE][..], &piece, &[FILL; EDGE]].concat();
    let room_len = random.below(40);
    let mut room = vec![FILL; EDGE + room_len + EDGE];
    let (store, lent_room) = (&mut state.store, &mut room[EDGE..EDGE + room_len]);
    let step = state
        .session
        .read(store, &lent[EDGE..EDGE + piece.len()], lent_room);
    let (taken, reply_len, answer) = (step.taken, step.reply.len(), step.answer);
    assert!(taken <= piece.len() && reply_len <= 12.min(room_len));
    assert!(room[..EDGE].iter().all(|&b| b == FILL));
    assert!(room[EDGE + reply_len..].iter().all(|&b| b == FILL));
    assert_eq!(&lent[EDGE..EDGE + piece.len()], &piece[..]);
    let unchanged = [Refusal::Room, Refusal::Closed, Refusal::Unsound].map(refused);
    if unchanged.contains(&answer) {
        assert_eq!((taken, reply_len), (0, 0));
        assert!(*state == before, "a refused call changed something");
    } else {
        let store = state.store.layout();
        assert_eq!(store.counts, walked(store), "{answer:?}");
    }
    sends(random, state);
    // this helper too looks at what is left
    let passed = state.pass(random.next() as u32);
    assert!(matches!(passed, Ok(()) | Err(Refusal::Unsound)));
}

#[test]
fn random_bytes_as_record_and_store() {
    let mut random = Random(0x1234_5678_9ABC_DEF1);
    let mut state = State::answerer();
    for _ in 0..2000 {
        fill(&mut random, state.session.layout_mut());
        fill(&mut random, state.store.layout_mut());
        call(&mut random, &mut state);
        // a random record with a sound store, and a sound record with a random store
        let mut halves = [State::established(), State::established()];
        fill(&mut random, halves[0].session.layout_mut());
        fill(&mut random, halves[1].store.layout_mut());
        halves.iter_mut().for_each(|half| call(&mut random, half));
    }
}

#[test]
fn some_bytes_changed() {
    let mut random = Random(0xFEDC_BA98_7654_3211);
    let mut base = State::established();
    base.accept(&[
        define(1, b"t", KeyType::Integer, 4, 4, &[60_000]),
        update(1, b"keys", &[5]),
        define(2, b"u", KeyType::String, 20, 0x7_FFFF, &[]),
        update(9, b"\x03abc", &(0..35).collect::<Vec<_>>()),
        update(9, b"\x03abd", &(0..35).collect::<Vec<_>>()),
    ]);
    for _ in 0..20_000 {
        let mut state = base.clone();
        let count = 1 + random.below(3);
        spoil(&mut random, &mut state, count);
        for _ in 0..3 {
            call(&mut random, &mut state);
        }
    }
}
