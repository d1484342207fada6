//! What a stream is mostly made of.

use super::random::Random;
use std::ops::RangeInclusive;

/// A kind of message to build.
#[derive(Clone, Copy, Debug, PartialEq, Eq)]
pub enum Operation {
    /// A definition of a new name.
    Define,
    /// A definition of a held name.
    Redefine,
    /// A definition of a held name with a bound ID.
    Rebind,
    /// A switch.
    Switch,
    /// An update.
    Update,
    /// An incremental update.
    Increment,
    /// A control message.
    Control,
    /// An acknowledgement.
    Acknowledge,
    /// A message of an unknown type.
    Skip,
    /// An error message.
    Error,
}

/// All operations, in the order of a profile's weights.
const OPERATIONS: [Operation; 10] = [
    Operation::Define,
    Operation::Redefine,
    Operation::Rebind,
    Operation::Switch,
    Operation::Update,
    Operation::Increment,
    Operation::Control,
    Operation::Acknowledge,
    Operation::Skip,
    Operation::Error,
];

/// What the sessions of a stream are made of; chances are out of 1,000.
#[derive(Clone, Debug)]
pub struct Profile {
    /// The weight of each operation.
    pub weights: [usize; 10],
    /// The number of messages.
    pub steps: RangeInclusive<usize>,
    /// The chance that a message is damaged.
    pub damage: usize,
    /// The chance that the handshake is refused.
    pub bad_greetings: usize,
    /// Whether tables have many data types.
    pub wide: bool,
    /// The chance that an update has a new key.
    pub new_keys: usize,
    /// The chance that a session is followed by another on its store.
    pub reconnections: usize,
    /// The chance of a dump before a call.
    pub dumps: usize,
    /// The chance that an update is timed.
    pub timed: usize,
    /// The chance that time passes before a message.
    pub passes: usize,
    /// The chance of sending calls before a reading call.
    pub sends: usize,
    /// The chance that the store is taught to another one in the end.
    pub taught: usize,
}

impl Profile {
    /// One of the profiles.
    pub fn choose(random: &mut Random) -> Profile {
        match random.weighted(&[310, 200, 190, 195, 90, 15]) {
            0 => Profile::handshakes(),
            1 => Profile::tables(),
            2 => Profile::values(),
            3 => Profile::mixed(),
            4 => Profile::times(),
            _ => Profile::full(),
        }
    }

    /// An operation chosen by weight.
    pub fn operation(&self, random: &mut Random) -> Operation {
        OPERATIONS[random.weighted(&self.weights)]
    }

    /// Handshakes and few messages.
    fn handshakes() -> Profile {
        Profile {
            weights: [4, 1, 1, 1, 2, 1, 4, 1, 1, 1],
            steps: 0..=3,
            damage: 60,
            bad_greetings: 500,
            wide: false,
            new_keys: 500,
            reconnections: 200,
            dumps: 15,
            timed: 400,
            passes: 60,
            sends: 25,
            taught: 15,
        }
    }

    /// Many definitions and switches.
    fn tables() -> Profile {
        Profile {
            weights: [60, 16, 10, 16, 12, 10, 2, 1, 1, 0],
            steps: 2..=15,
            damage: 10,
            bad_greetings: 15,
            wide: false,
            new_keys: 500,
            reconnections: 250,
            dumps: 8,
            timed: 400,
            passes: 50,
            sends: 20,
            taught: 60,
        }
    }

    /// Updates with many values.
    fn values() -> Profile {
        Profile {
            weights: [10, 2, 1, 2, 20, 20, 1, 1, 1, 0],
            steps: 2..=7,
            damage: 10,
            bad_greetings: 15,
            wide: true,
            new_keys: 500,
            reconnections: 200,
            dumps: 8,
            timed: 400,
            passes: 60,
            sends: 20,
            taught: 60,
        }
    }

    /// Everything.
    fn mixed() -> Profile {
        Profile {
            weights: [20, 8, 5, 10, 24, 24, 8, 6, 6, 1],
            steps: 3..=16,
            damage: 25,
            bad_greetings: 30,
            wide: false,
            new_keys: 400,
            reconnections: 250,
            dumps: 8,
            timed: 500,
            passes: 100,
            sends: 20,
            taught: 60,
        }
    }

    /// Many updates and much time.
    fn times() -> Profile {
        Profile {
            weights: [12, 6, 1, 8, 40, 40, 1, 1, 1, 0],
            steps: 4..=24,
            damage: 5,
            bad_greetings: 15,
            wide: false,
            new_keys: 650,
            reconnections: 250,
            dumps: 8,
            timed: 600,
            passes: 250,
            sends: 20,
            taught: 60,
        }
    }

    /// A full store.
    fn full() -> Profile {
        Profile {
            weights: [30, 4, 4, 30, 500, 500, 4, 2, 2, 0],
            steps: 140..=200,
            damage: 0,
            bad_greetings: 0,
            wide: false,
            new_keys: 930,
            reconnections: 300,
            dumps: 0,
            timed: 450,
            passes: 4,
            sends: 8,
            taught: 250,
        }
    }
}
