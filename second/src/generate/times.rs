//! Remaining times and times to pass, often next to those that are held.

use super::random::Random;
use crate::store::Store;

/// A remaining time for an update.
pub fn remaining(random: &mut Random, store: &Store) -> u32 {
    match held(random, store) {
        Some(time) if random.chance(400) => next_to(random, time),
        _ => any(random),
    }
}

/// A time to pass; the smaller of two, so that not all entries are removed.
pub fn passing(random: &mut Random, store: &Store) -> u32 {
    let times = (held(random, store), held(random, store));
    match times {
        (Some(one), Some(other)) if random.chance(750) => next_to(random, one.min(other)),
        _ => any(random),
    }
}

/// Any time; small and large ones are frequent.
fn any(random: &mut Random) -> u32 {
    match random.below(8) {
        0 => 0,
        1 => 1,
        2 | 3 => random.below(20) as u32,
        4 => random.below(1000) as u32,
        5 => random.pick(&[59_999, 60_000, 60_001]),
        6 => random.pick(&[u32::MAX, u32::MAX - 1, 1 << 31, (1 << 31) - 1]),
        _ => random.bits() as u32,
    }
}

/// A time or one next to it.
fn next_to(random: &mut Random, time: u32) -> u32 {
    random.pick(&[time.saturating_sub(1), time, time.saturating_add(1)])
}

/// The remaining time of an entry, if one has any.
fn held(random: &mut Random, store: &Store) -> Option<u32> {
    let entries = store.entries.iter().flatten();
    let times: Vec<u64> = entries.filter_map(|entry| entry.remaining).collect();
    random.pick_any(&times).map(|time| time as u32)
}
