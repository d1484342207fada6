//! Time that passes.

use super::sound::store_is_sound;
use crate::layout::{Entry, Store, KEY_MAX, VALUES};

/// A place of an empty store.
const FREE: Entry = Entry {
    held: 0,
    server_id: 0,
    timed: 0,
    remaining: 0,
    table: 0,
    key_len: 0,
    key: [0; KEY_MAX],
    values: [0; VALUES],
};

/// One passing call: 0, or 4 on a store that isn't sound. It stays a call of its own, as the library's is.
#[inline(never)]
pub fn pass_time(store: &mut Store, milliseconds: u32) -> u32 {
    if !store_is_sound(store) {
        return 4;
    }
    let timed = |entry: &&mut Entry| entry.held == 1 && entry.timed == 1;
    for entry in store.entries.iter_mut().filter(timed) {
        if entry.remaining <= milliseconds {
            store.counts[entry.table] -= 1;
            *entry = FREE;
        } else {
            entry.remaining -= milliseconds;
        }
    }
    0
}
