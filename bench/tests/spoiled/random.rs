//! Sound states with some bytes changed.

use crate::{count, states, update, Both, UNSOUND};
use bench::layout::{Session, Store};
use bench::receivers::{Part, SEND_ROOM};
use bench::streams::message;

/// A small generator (xorshift).
struct Random(u64);

impl Random {
    fn below(&mut self, limit: usize) -> usize {
        self.0 ^= self.0 << 13;
        self.0 ^= self.0 >> 7;
        self.0 ^= self.0 << 17;
        (self.0 % limit as u64) as usize
    }

    /// A byte, often one beside a boundary.
    fn byte(&mut self) -> u8 {
        const NEAR: [u8; 18] = [
            0, 1, 2, 3, 4, 5, 6, 7, 8, 9, 10, 15, 16, 32, 33, 64, 65, 255,
        ];
        match self.below(3) {
            0 => self.below(256) as u8,
            _ => NEAR[self.below(NEAR.len())],
        }
    }

    /// A power of 2.
    fn power(&mut self) -> u64 {
        (0..self.below(64)).fold(1, |power, _| 2 * power)
    }

    /// Changes one byte, as often as not the first.
    fn spoil(&mut self, bytes: &mut [u8]) {
        let at = self.below(2) * self.below(bytes.len());
        bytes[at] = self.byte();
    }

    fn spoil_size(&mut self, number: &mut usize) {
        let mut bytes = number.to_le_bytes();
        self.spoil(&mut bytes);
        *number = usize::from_le_bytes(bytes);
    }

    fn spoil_word(&mut self, number: &mut u32) {
        let mut bytes = number.to_le_bytes();
        self.spoil(&mut bytes);
        *number = u32::from_le_bytes(bytes);
    }
}

fn spoil_record(random: &mut Random, record: &mut Session) {
    let c = &mut record.connection;
    let binding = &mut c.bindings[random.below(8)];
    match random.below(17) {
        0 => random.spoil_word(&mut c.phase),
        1 => random.spoil_word(&mut c.closed),
        2 => random.spoil_word(&mut c.number),
        3 => random.spoil_word(&mut c.current),
        4 => random.spoil_size(&mut c.local_len),
        5 => random.spoil_size(&mut c.remote_len),
        6 => random.spoil(&mut c.local),
        7 => random.spoil(&mut c.remote),
        8 => random.spoil_word(&mut binding.bound),
        9 => random.spoil_word(&mut binding.updated),
        10 => random.spoil_word(&mut binding.id),
        11 => random.spoil_word(&mut binding.previous),
        12 => random.spoil_size(&mut record.len),
        13 => random.spoil_size(&mut record.sending.defined),
        14 => random.spoil_word(&mut record.sending.sent),
        15 => random.spoil_word(&mut record.sending.last),
        _ => random.spoil(&mut record.buffer[..40]),
    }
}

fn spoil_table(random: &mut Random, store: &mut Store) {
    let table = &mut store.tables[random.below(8)];
    match random.below(9) {
        0 => random.spoil_word(&mut table.held),
        1 => random.spoil_word(&mut table.key_type),
        2 => random.spoil_word(&mut table.timed),
        3 => random.spoil_word(&mut table.data_types),
        4 => random.spoil_size(&mut table.name_len),
        5 => random.spoil_word(&mut table.key_len),
        6 => random.spoil_word(&mut table.expiry),
        7 => random.spoil_word(&mut table.periods[0]),
        _ => random.spoil(&mut table.name),
    }
}

/// Changes an entry that is often held, or makes it another one's copy.
fn spoil_entry(random: &mut Random, store: &mut Store) {
    let [place, other] = [(); 2].map(|()| match random.below(4) {
        0 => random.below(128),
        _ => random.below(6),
    });
    let copy = store.entries[other];
    let entry = &mut store.entries[place];
    match random.below(10) {
        0 => random.spoil_word(&mut entry.held),
        1 => entry.server_id = random.below(256) as i32 - 128,
        2 => random.spoil_size(&mut entry.table),
        3 => random.spoil_size(&mut entry.key_len),
        4 => random.spoil(&mut entry.key),
        5 => entry.values[random.below(34)] = random.power(),
        6 => entry.key = copy.key,
        7 => random.spoil_word(&mut entry.timed),
        8 => random.spoil_word(&mut entry.remaining),
        _ => *entry = copy,
    }
}

/// Sets the counts right, so that the other changes decide alone, and spoils one of them now and then.
fn spoil_counts(random: &mut Random, store: &mut Store) {
    count(store);
    if random.below(4) == 0 {
        let place = random.below(8);
        random.spoil_word(&mut store.counts[place]);
    }
}

/// Makes two sending calls, with places that are often held.
fn sends_agree(random: &mut Random, both: &mut Both) {
    for part in [Part::Table, Part::Entry] {
        let place = match random.below(4) {
            0 => [127, 128, 1 << 32, usize::MAX][random.below(4)],
            _ => random.below(9),
        };
        // as often as not the ID follows the last
        let last = both.plain.session.sending.last;
        let id = last.wrapping_add(random.below(2) as u32);
        _ = both.send(part(place), id, SEND_ROOM - random.below(8) / 7);
    }
}

/// Makes calls on a spoiled state: whether it was unsound.
fn calls_agree(random: &mut Random, both: &mut Both) -> bool {
    let pieces = [
        b"".to_vec(),
        vec![0, 4],
        message(200, b"x"),
        update(b"\x02ab", 35),
        update(b"int0", 1),
        b"0\n".to_vec(),
    ];
    let unsound = both.call(b"", 12) == UNSOUND;
    for _ in 0..2 {
        let room = [11, 12, 15][random.below(3)];
        both.call(&pieces[random.below(pieces.len())], room);
        sends_agree(random, both);
        both.pass([0, 7, u32::MAX][random.below(3)]);
    }
    unsound
}

#[test]
fn after_random_changes() {
    let mut random = Random(0x1234_5678_9ABC_DEF1);
    let states = states();
    let mut unsound = 0;
    for round in 0..10_500 {
        let mut both = states[round % states.len()].clone();
        for _ in 0..1 + random.below(3) {
            both.change(|record, store| match random.below(3) {
                0 => spoil_record(&mut random, record),
                1 => spoil_table(&mut random, store),
                _ => spoil_entry(&mut random, store),
            });
        }
        // as often as not the counts stay, which changes of entries may have put off
        if random.below(2) == 0 {
            both.change(|_, store| spoil_counts(&mut random, store));
        }
        unsound += usize::from(calls_agree(&mut random, &mut both));
    }
    // both kinds are met often
    assert!((3_000..8_000).contains(&unsound), "{unsound} unsound");
}
