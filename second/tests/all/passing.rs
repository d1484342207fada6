//! What the timed updates and the passing calls of some streams reach.

use second::record::{Phase, Record};
use second::store::{Store, TABLES};
use std::collections::{BTreeMap, BTreeSet};

/// The remaining time of each held entry, by place.
pub type Times = Vec<Option<Option<u64>>>;

/// The remaining times of a store.
pub fn times(store: &Store) -> Times {
    let places = store.entries.iter();
    places
        .map(|place| Some(place.as_ref()?.remaining))
        .collect()
}

/// What was reached, with its count.
#[derive(Default)]
pub struct Passing {
    pub reached: BTreeMap<String, u32>,
    pub amounts: BTreeSet<u32>,
    pub remaining: BTreeSet<u64>,
    freed: BTreeSet<usize>,
}

impl Passing {
    /// Counts something.
    fn reach(&mut self, what: &str) {
        *self.reached.entry(what.to_owned()).or_default() += 1;
    }

    /// Looks at the opening of a new store.
    pub fn open(&mut self) {
        self.freed.clear();
    }

    /// Looks at a passing call before it's made.
    pub fn pass(&mut self, record: &Record, store: &Store, amount: u32) {
        self.amounts.insert(amount);
        self.reach(match record.phase {
            Phase::Handshake => "passing in the handshake",
            Phase::Open if record.unfinished.is_empty() => "passing between messages",
            Phase::Open => "passing inside a message",
            Phase::Closed(_) => "passing on a closed session",
        });
        let amount = u64::from(amount);
        for (place, time) in times(store).into_iter().enumerate() {
            match time {
                None => {}
                Some(None) => self.reach("no time"),
                Some(Some(time)) => self.entry(place, time, amount),
            }
        }
    }

    /// Looks at a timed entry before some time passes.
    fn entry(&mut self, place: usize, time: u64, amount: u64) {
        self.remaining.insert(time);
        match time <= amount {
            true => drop(self.freed.insert(place)),
            false => self.reach("lowered"),
        }
        if time <= amount {
            self.reach("removed");
        }
        match time as i64 - amount as i64 {
            -1 => self.reach("one less than passes"),
            0 => self.reach("as much as passes"),
            1 => self.reach("one more than passes"),
            _ => {}
        }
        if time == 0 && amount == 0 {
            self.reach("0 removed by 0");
        }
    }

    /// Looks at the counts before and after some time.
    pub fn counts(&mut self, before: [u64; TABLES], after: [u64; TABLES]) {
        let pairs = || before.into_iter().zip(after);
        let lowered = pairs().filter(|(before, after)| after < before).count();
        if lowered > 0 {
            self.reach("count lowered");
        }
        if lowered > 1 {
            self.reach("counts of several tables lowered");
        }
        if pairs().any(|(before, after)| before > 1 && after == 0) {
            self.reach("count lowered to 0");
        }
        if pairs().any(|(before, after)| before > after && after > 0) {
            self.reach("count lowered in part");
        }
    }

    /// Looks at a dump after an answer or a command.
    pub fn dump(&mut self, last: &str, store: &Store) {
        self.reach(&format!("dump after {last}"));
        if store.counts.iter().filter(|&&count| count > 0).count() > 1 {
            self.reach("dump with entries of several tables");
        }
    }

    /// Looks at an accepted update of a type, by the times before and after.
    pub fn update(&mut self, kind: u8, before: &Times, entry: usize, now: Option<u64>) {
        let old = before[entry];
        let timed = matches!(kind, 133 | 134);
        if self.freed.remove(&entry) {
            self.reach("place used again");
        }
        let from = match old {
            None => "new",
            Some(None) => "untimed",
            Some(Some(_)) => "timed",
        };
        let to = match (timed, now) {
            (true, _) => "its time",
            (false, Some(_)) => "the expiry",
            (false, None) => "no time",
        };
        self.reach(&format!("{kind}: {from} to {to}"));
        if timed {
            self.remaining.extend(now);
        }
    }

    /// Asserts that all is reached that a stream can reach.
    pub fn reaches_all(&self) {
        for what in ALL.map(String::from).into_iter().chain(forms()) {
            let count = self.reached.get(&what).copied().unwrap_or_default();
            assert!(count >= 5, "{what}: {count}");
        }
        assert!([0, 1, u32::MAX].iter().all(|n| self.amounts.contains(n)));
        let most = u64::from(u32::MAX);
        assert!([0, 1, most].iter().all(|n| self.remaining.contains(n)));
    }
}

/// What streams reach besides the forms of updates.
const ALL: [&str; 24] = [
    "passing in the handshake",
    "passing between messages",
    "passing inside a message",
    "passing on a closed session",
    "no time",
    "lowered",
    "removed",
    "one less than passes",
    "as much as passes",
    "one more than passes",
    "0 removed by 0",
    "place used again",
    "count lowered",
    "count lowered in part",
    "count lowered to 0",
    "counts of several tables lowered",
    "dump with entries of several tables",
    "dump after new",
    "dump after replaced",
    "dump after refused",
    "dump after table",
    "dump after passing",
    "dump after sending",
    "dump after opening",
];

/// Each form of an update with what was at its place and what it leaves.
fn forms() -> Vec<String> {
    let ends = [
        (128, "the expiry"),
        (128, "no time"),
        (129, "the expiry"),
        (129, "no time"),
        (133, "its time"),
        (134, "its time"),
    ];
    let from = |start: &'static str| ends.map(|(kind, end)| format!("{kind}: {start} to {end}"));
    ["new", "untimed", "timed"].map(from).concat()
}
