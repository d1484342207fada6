//! The calls as the static library has them, on the structs of [`crate::layout`]. [`Session`](crate::Session) and [`Store`](crate::Store)
//! make them with rooms that are large enough; here a room may have any length, and one that is too short is refused.
//!
//! All unsafe code of this crate is here. The library is defined on every content of what is lent, reads and writes nothing else, and keeps nothing. So a call is
//! sound where its pointers come from references, and a slice's length goes with its pointer. That the archive has these structs is
//! asked of it before the first call.

use crate::layout::{Opened, Outcome, Sent, Session, Store};
use std::alloc::{alloc_zeroed, handle_alloc_error, Layout};
use std::sync::Once;

extern "C" {
    fn peers_empty_store() -> Store;
    fn peers_open_answerer(
        local: *const u8,
        local_len: usize,
        remote: *const u8,
        remote_len: usize,
        room: *mut u8,
        room_len: usize,
    ) -> Opened;
    fn peers_open_caller(
        local: *const u8,
        local_len: usize,
        remote: *const u8,
        remote_len: usize,
        process: u32,
        relative: u32,
        room: *mut u8,
        room_len: usize,
    ) -> Opened;
    fn peers_read(
        session: *mut Session,
        store: *mut Store,
        piece: *const u8,
        piece_len: usize,
        room: *mut u8,
        room_len: usize,
    ) -> Outcome;
    fn peers_pass_time(store: *mut Store, milliseconds: u32) -> u32;
    fn peers_send_definition(
        session: *mut Session,
        store: *const Store,
        place: usize,
        id: u32,
        room: *mut u8,
        room_len: usize,
    ) -> Sent;
    fn peers_send_entry(
        session: *mut Session,
        store: *const Store,
        place: usize,
        id: u32,
        room: *mut u8,
        room_len: usize,
    ) -> Sent;
    fn peers_version() -> u32;
}

/// The version of the calls and that of the structs' layout, as in `include/peers.h`.
pub(crate) const VERSION: u32 = 7;
pub(crate) const LAYOUT: u32 = 5;

/// The archive's version and layout.
pub(crate) fn archive() -> (u32, u32) {
    // SAFETY: it takes nothing.
    let both = unsafe { peers_version() };
    (both >> 16, both & 0xFFFF)
}

/// Panics where the archive is of another version than this wrapper. Asked at the first call; with another archive no other call is sound.
fn check() {
    static CHECKED: Once = Once::new();
    CHECKED.call_once(|| {
        let (version, layout) = archive();
        assert!(
            (version, layout) == (VERSION, LAYOUT),
            "libpeers.a has version {version} and layout {layout}, this wrapper {VERSION} and {LAYOUT}: build the archive of this wrapper",
        );
    });
}

/// `peers_empty_store`: an empty store, which takes 48 KB of stack.
pub fn empty_store() -> Store {
    check();
    // SAFETY: it takes nothing.
    unsafe { peers_empty_store() }
}

/// An empty store in a box, allocated as zeros, so that it never lies on the stack.
pub(crate) fn boxed_store() -> Box<crate::Store> {
    check();
    let layout = Layout::new::<crate::Store>();
    // SAFETY: the layout is a store's, and has a size. Zeros are a store, since all its fields are integers. The box frees it by that layout.
    unsafe {
        let store = alloc_zeroed(layout).cast::<crate::Store>();
        if store.is_null() {
            handle_alloc_error(layout);
        }
        Box::from_raw(store)
    }
}

/// `peers_open_answerer`. The room has [`OPENING_ROOM`](crate::OPENING_ROOM) bytes or more, else it is refused with 1.
pub fn open_answerer(local: &[u8], remote: &[u8], room: &mut [u8]) -> Opened {
    check();
    // SAFETY: each pointer and length is a slice's.
    unsafe {
        peers_open_answerer(
            local.as_ptr(),
            local.len(),
            remote.as_ptr(),
            remote.len(),
            room.as_mut_ptr(),
            room.len(),
        )
    }
}

/// `peers_open_caller`. The room is as in [`open_answerer`].
pub fn open_caller(
    local: &[u8],
    remote: &[u8],
    process: u32,
    relative: u32,
    room: &mut [u8],
) -> Opened {
    check();
    // SAFETY: each pointer and length is a slice's.
    unsafe {
        peers_open_caller(
            local.as_ptr(),
            local.len(),
            remote.as_ptr(),
            remote.len(),
            process,
            relative,
            room.as_mut_ptr(),
            room.len(),
        )
    }
}

/// `peers_read`. The room has [`READING_ROOM`](crate::READING_ROOM) bytes or more, else it is refused with 1.
pub fn read(session: &mut Session, store: &mut Store, piece: &[u8], room: &mut [u8]) -> Outcome {
    check();
    // SAFETY: each pointer is a reference's, each pointer and length a slice's; `&mut` ones overlap nothing.
    unsafe {
        peers_read(
            session,
            store,
            piece.as_ptr(),
            piece.len(),
            room.as_mut_ptr(),
            room.len(),
        )
    }
}

/// `peers_pass_time`: 0, or 4 where the store holds what the rules don't allow.
pub fn pass_time(store: &mut Store, milliseconds: u32) -> u32 {
    check();
    // SAFETY: the pointer is a reference's.
    unsafe { peers_pass_time(store, milliseconds) }
}

/// `peers_send_definition`. The room has [`SEND_ROOM`](crate::SEND_ROOM) bytes or more, else it is refused with 31.
pub fn send_definition(
    session: &mut Session,
    store: &Store,
    place: usize,
    id: u32,
    room: &mut [u8],
) -> Sent {
    check();
    // SAFETY: each pointer is a reference's, the last with its slice's length; `&mut` ones overlap nothing, and the store is only read.
    unsafe { peers_send_definition(session, store, place, id, room.as_mut_ptr(), room.len()) }
}

/// `peers_send_entry`. The room is as in [`send_definition`].
pub fn send_entry(
    session: &mut Session,
    store: &Store,
    place: usize,
    id: u32,
    room: &mut [u8],
) -> Sent {
    check();
    // SAFETY: as above.
    unsafe { peers_send_entry(session, store, place, id, room.as_mut_ptr(), room.len()) }
}
