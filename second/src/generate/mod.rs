//! The seeded generator of scripts and captures.

pub mod builder;
pub mod calls;
pub mod faults;
pub mod greetings;
pub mod profile;
pub mod random;
pub mod sends;
pub mod times;
pub mod values;
pub mod wire;

use crate::record::{Phase, Role};
use crate::replay::session;
use crate::store::Store;
use builder::Built;
use calls::Script;
use greetings::greeting;
use profile::Profile;
use random::Random;

/// The largest number of sessions of a stream.
const SESSIONS: usize = 4;

/// A script of `count` streams; stream n is the one of seed `seed + n` alone.
pub fn script(seed: u64, count: u64) -> Vec<u8> {
    let seeds = (0..count).map(|n| seed.wrapping_add(n));
    seeds.flat_map(stream).collect()
}

/// The stream of one seed: one or more sessions on one store, sometimes a
/// session on another store that is taught all of it, and a dump.
pub fn stream(seed: u64) -> Vec<u8> {
    let mut random = Random::new(seed);
    let profile = Profile::choose(&mut random);
    let mut script = Script::new(role(&mut random));
    one_session(&mut random, &profile, &mut script);
    for _ in 1..SESSIONS {
        if !random.chance(profile.reconnections) {
            break;
        }
        reconnect(&mut random, &mut script);
        one_session(&mut random, &profile, &mut script);
    }
    if random.chance(profile.taught) {
        teach(&mut random, &profile, &mut script);
    }
    script.dump();
    script.bytes
}

/// Adds one session to a script.
fn one_session(random: &mut Random, profile: &Profile, script: &mut Script) {
    let built = builder::session(random, profile, &script.record, &script.store);
    script.send(random, profile, &built);
}

/// Adds a reconnection, sometimes after a dump or some time.
fn reconnect(random: &mut Random, script: &mut Script) {
    if random.chance(200) && !script.is_full() {
        script.dump();
    }
    if random.chance(150) {
        script.pass_any(random);
    }
    script.reconnect(role(random));
}

/// Teaches a whole store: sends all that it holds, then reads it in a session
/// on an empty store. Time doesn't pass meanwhile.
fn teach(random: &mut Random, profile: &Profile, script: &mut Script) {
    let calm = Profile {
        passes: 0,
        ..profile.clone()
    };
    if script.record.phase != Phase::Open {
        script.reconnect(role(random));
        greet(random, &calm, script);
    }
    let messages = script.transmit_all(random);
    if random.chance(300) {
        script.dump();
    }
    script.open(role(random));
    greet(random, &calm, script);
    script.send(random, &calm, &Built::plain(messages));
}

/// Adds an accepted handshake.
fn greet(random: &mut Random, profile: &Profile, script: &mut Script) {
    let bytes = greeting(random, script.record.role, false);
    script.send(random, profile, &Built::plain(bytes));
}

/// A role; most sessions are an answerer's.
fn role(random: &mut Random) -> Role {
    match random.chance(650) {
        true => Role::Answerer,
        false => Role::Caller,
    }
}

/// The bytes of one answerer's session, for the listing.
pub fn capture(seed: u64) -> Vec<u8> {
    let mut random = Random::new(seed ^ 0x5555_5555_5555_5555);
    let mut profile = Profile::choose(&mut random);
    // Time can't pass in the listing.
    profile.passes = 0;
    let (record, _) = session(Role::Answerer);
    builder::session(&mut random, &profile, &record, &Store::new()).bytes
}
