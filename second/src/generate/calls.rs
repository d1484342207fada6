//! Divides the bytes of a session into the calls of a script.

use super::builder::Built;
use super::profile::Profile;
use super::random::Random;
use super::times;
use crate::answer::{Answer, Outcome};
use crate::call::read;
use crate::record::{Record, Role};
use crate::replay::{session, Command};
use crate::store::{Store, ENTRIES};

/// The largest room of a call.
const LARGEST_ROOM: usize = 40;

/// How the bytes of a session are divided.
#[derive(Clone, Copy, Debug, PartialEq, Eq)]
pub enum Style {
    /// One byte in each piece.
    Single,
    /// Few bytes in each piece.
    Small,
    /// Up to some dozens of bytes in each piece.
    Large,
    /// All bytes that are left, in each piece.
    Rest,
    /// One message in each piece, sometimes with bytes of the next.
    Messages,
}

impl Style {
    /// A style for this many bytes.
    pub fn choose(random: &mut Random, count: usize) -> Style {
        let style = match random.below(20) {
            0 | 1 => Style::Single,
            2..=4 => Style::Small,
            5..=8 => Style::Large,
            9 | 10 => Style::Rest,
            _ => Style::Messages,
        };
        let limit = match style {
            Style::Single => random.pick(&[120, 120, 120, 1000]),
            Style::Small => 400,
            Style::Rest => random.pick(&[350, 350, 350, 900]),
            Style::Large | Style::Messages => usize::MAX,
        };
        match count <= limit {
            true => style,
            false => Style::Messages,
        }
    }

    /// How many of the bytes that are left are offered.
    fn offered(self, random: &mut Random, left: usize) -> usize {
        let count = match self {
            Style::Single => 1,
            Style::Small => random.below(9),
            Style::Large => random.within(1..=60),
            Style::Rest | Style::Messages => left,
        };
        count.min(left)
    }
}

/// A script under way and the state after its commands.
pub struct Script {
    /// The commands.
    pub bytes: Vec<u8>,
    /// The session record.
    pub record: Record,
    /// The store.
    pub store: Store,
}

impl Script {
    /// A script that opens its first session.
    pub fn new(role: Role) -> Script {
        let mut script = Script {
            bytes: Vec::new(),
            record: Record::default(),
            store: Store::new(),
        };
        script.open(role);
        script
    }

    /// Opens a new session on an empty store.
    pub fn open(&mut self, role: Role) {
        Command::Open(role).write(&mut self.bytes);
        self.record = session(role).0;
        self.store = Store::new();
    }

    /// Opens a new session on the store.
    pub fn reconnect(&mut self, role: Role) {
        Command::Reconnect(role).write(&mut self.bytes);
        self.record = session(role).0;
    }

    /// Adds a dump.
    pub fn dump(&mut self) {
        Command::Dump.write(&mut self.bytes);
    }

    /// Adds the calls that bring the bytes of a session and pass its times.
    pub fn send(&mut self, random: &mut Random, profile: &Profile, built: &Built) {
        let style = Style::choose(random, built.bytes.len());
        let mut rest = &built.bytes[..];
        let mut passes = &built.passes[..];
        let mut refused = false;
        while !rest.is_empty() && !refused && !self.record.is_closed() {
            passes = self.pass_due(random, passes, built.bytes.len() - rest.len());
            self.interrupt(random, profile, rest);
            let outcome = self.offer(random, style, rest);
            refused = matches!(outcome.answer, Answer::Refused(_));
            rest = &rest[outcome.taken..];
        }
        self.pass_due(random, passes, built.bytes.len() - rest.len());
        self.afterwards(random, rest);
    }

    /// Passes the times that are due after some bytes and gives the others.
    fn pass_due<'a>(
        &mut self,
        random: &mut Random,
        passes: &'a [(usize, u32)],
        taken: usize,
    ) -> &'a [(usize, u32)] {
        let due = passes.partition_point(|pass| pass.0 <= taken);
        for pass in &passes[..due] {
            self.pass(random, pass.1);
        }
        &passes[due..]
    }

    /// Adds a passing call, often with a dump.
    fn pass(&mut self, random: &mut Random, milliseconds: u32) {
        Command::Pass(milliseconds).write(&mut self.bytes);
        self.store.pass(milliseconds);
        let held = self.store.entries.iter().flatten().count();
        if random.chance(250) && held < 20 {
            self.dump();
        }
    }

    /// Adds a passing call with any time.
    pub fn pass_any(&mut self, random: &mut Random) {
        let time = times::passing(random, &self.store);
        self.pass(random, time);
    }

    /// Offers a piece.
    fn offer(&mut self, random: &mut Random, style: Style, rest: &[u8]) -> Outcome {
        let room = good_room(random);
        let offered = style.offered(random, rest.len());
        let outcome = self.read(room, &rest[..offered]);
        let written = match style {
            Style::Messages => outcome.taken + lookahead(random),
            _ => offered,
        };
        let piece = &rest[..written.min(offered)];
        Command::Call { room, piece }.write(&mut self.bytes);
        outcome
    }

    /// Makes a call on the state.
    fn read(&mut self, room: u8, piece: &[u8]) -> Outcome {
        let mut buffer = vec![0; usize::from(room)];
        read(&mut self.record, &mut self.store, piece, &mut buffer)
    }

    /// Adds a call that changes nothing.
    fn idle(&mut self, room: u8, piece: &[u8]) {
        Command::Call { room, piece }.write(&mut self.bytes);
    }

    /// Sometimes adds a refused call, an empty piece, a passing call, sending
    /// calls or a dump.
    fn interrupt(&mut self, random: &mut Random, profile: &Profile, rest: &[u8]) {
        if random.chance(25) {
            let count = random.below(12).min(rest.len());
            self.idle(random.below(12) as u8, &rest[..count]);
        }
        if random.chance(20) {
            let room = good_room(random);
            self.idle(room, &[]);
        }
        if random.chance(profile.passes / 10) {
            self.pass_any(random);
        }
        if random.chance(profile.sends) {
            self.transmit_some(random);
        }
        if random.chance(profile.dumps) {
            self.dump();
        }
    }

    /// Sometimes adds calls after the session, passing and sending ones too.
    fn afterwards(&mut self, random: &mut Random, rest: &[u8]) {
        if !self.record.is_closed() || random.chance(500) {
            return;
        }
        for _ in 0..random.within(1..=2) {
            let room = random.below(LARGEST_ROOM + 1) as u8;
            let count = random.below(rest.len().min(10) + 1);
            self.idle(room, &rest[..count]);
        }
        if random.chance(300) {
            self.pass_any(random);
        }
        if random.chance(150) {
            self.transmit_some(random);
        }
    }

    /// Whether the store is full.
    pub fn is_full(&self) -> bool {
        self.store.entries.iter().flatten().count() == ENTRIES
    }
}

/// A room that is large enough.
fn good_room(random: &mut Random) -> u8 {
    match random.below(4) {
        0 => 12,
        _ => random.within(12..=LARGEST_ROOM) as u8,
    }
}

/// How many bytes of the next message a piece has.
fn lookahead(random: &mut Random) -> usize {
    match random.below(6) {
        0 => random.below(20),
        _ => 0,
    }
}
