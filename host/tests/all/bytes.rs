//! What a call leaves has the same bytes, whatever lay before on the stack.

use crate::common::{listing, State};
use peers::SEND_ROOM;
use std::hint::black_box;
use std::mem::size_of;
use std::time::Duration;

/// Fills the stack below its caller's frame, where the next function's frames come to lie.
#[inline(never)]
fn fill_stack(fill: u8) {
    black_box(&mut [fill; 512 << 10]);
}

/// The bytes of a struct of integers.
fn bytes<T: Copy>(of: &T) -> &[u8] {
    // SAFETY: none of the structs has padding, as the test of the layout says, so each byte is a field's.
    unsafe { std::slice::from_raw_parts((of as *const T).cast(), size_of::<T>()) }
}

/// The bytes of record and store.
fn held(state: &State) -> Vec<u8> {
    [bytes(state.session.layout()), bytes(state.store.layout())].concat()
}

/// What both sending calls give and write, at the first places.
fn sent(state: &mut State, fill: u8) -> Vec<u8> {
    let mut rooms = [[0xAA; SEND_ROOM]; 2];
    let [first, second] = &mut rooms;
    let (session, store) = (&mut state.session, &state.store);
    fill_stack(fill);
    let definition = session.send_definition(store, 0, 7, first).is_ok();
    fill_stack(fill);
    let entry = session.send_entry(store, 0, 7, second).is_ok();
    [rooms.concat(), vec![definition.into(), entry.into()]].concat()
}

/// The same after opening, after each call, after sending and after passing time, over a stack with this content.
fn left(open: fn() -> State, pieces: &[&[u8]], fill: u8) -> Vec<Vec<u8>> {
    fill_stack(fill);
    let mut state = open();
    let mut left = vec![held(&state)];
    for piece in pieces {
        fill_stack(fill);
        state.call(piece);
        left.push(held(&state));
        left.push(sent(&mut state, fill));
        left.push(held(&state));
    }
    for time in [Duration::ZERO, Duration::from_secs(60)] {
        fill_stack(fill);
        state.store.pass_time(time).expect("the store is sound");
        left.push(held(&state));
    }
    left
}

fn same(open: fn() -> State, pieces: &[&[u8]]) {
    let [zeros, ones] = [0x00, 0xFF].map(|fill| left(open, pieces, fill));
    for (call, (a, b)) in zeros.iter().zip(&ones).enumerate() {
        assert!(a == b, "after call {call}");
    }
}

#[test]
fn of_an_answerer() {
    let stream = listing();
    // the hello in two pieces, a definition, two updates, a finish and a refusal
    let ends = [20, 27, 40, 54, 62, 64];
    let starts = [0].into_iter().chain(ends);
    let mut pieces: Vec<_> = starts.zip(ends).map(|(a, b)| &stream[a..b]).collect();
    pieces.extend([&[0, 5][..], &[0, 4]]);
    same(State::answerer, &pieces);
}

#[test]
fn of_a_caller() {
    same(State::caller, &[b"20", b"0\n", &[0, 4], &[1, 0]]);
    same(State::caller, &[b"300\n"]);
}
