//! Which lines are told of what fails: of each kind the first, how it goes on after ten minutes, and that it works again.

use crate::clock::utc;
use crate::subject::Subject;
use peers::{Answer, Commit, Refusal};
use std::sync::{Mutex, MutexGuard, PoisonError};
use std::time::{Duration, Instant, SystemTime};

/// Of a kind that goes on failing a line is told after so long, and at most so many lines in that time.
const TIME: Duration = Duration::from_secs(600);
const MOST: u32 = 4;
/// Connections that took no other's place for so long stay; keys for which nothing was purged for so long have places.
const QUIET: Duration = Duration::from_secs(60);

/// What fails. Lines are limited by it, not by their text, which the other side can vary.
#[derive(Clone, Copy, Debug, PartialEq, Eq)]
pub enum Kind {
    /// A message, a hello or a status is refused.
    Refused(Refusal),
    /// The peer sends its error message.
    Error,
    /// A dial.
    Dial,
    /// The peer doesn't read what we send.
    Unread,
    /// Connections of one name take each other's place.
    Contested,
    /// Entries are purged for new keys.
    Purged,
    /// Something can't be accepted.
    Accept(&'static str),
    /// No place for a connection.
    Full,
    /// No thread for a connection.
    Thread,
}

impl Kind {
    /// What is told when it works again.
    fn works(self) -> String {
        match self {
            Kind::Refused(refusal) => {
                format!("what was refused with {} is taken again", refusal.number())
            }
            Kind::Error => "what we send is taken again".to_owned(),
            Kind::Dial => "connected".to_owned(),
            Kind::Unread => "it reads again".to_owned(),
            Kind::Contested => "a connection stays again".to_owned(),
            Kind::Purged => "no entry was purged for a minute".to_owned(),
            Kind::Accept(what) => format!("{what} is accepted again"),
            Kind::Full => "there is a place for a connection again".to_owned(),
            Kind::Thread => "there is a thread for a connection again".to_owned(),
        }
    }

    /// Whether it is over when the handshake is done.
    pub fn is_of_handshake(self) -> bool {
        match self {
            Kind::Dial => true,
            Kind::Refused(refusal) => refusal.number() < Refusal::Header.number(),
            _ => false,
        }
    }

    /// Whether it is over by this answer to a message about `taken`, where `refused` is what failed.
    ///
    /// A peer that was asked for all of its entries sends others first, so an update of the same table says nothing of it yet. But when it
    /// has finished, all was taken: a refusal would have closed the connection.
    pub fn is_over(
        self,
        answer: Answer,
        refused: Option<&Subject>,
        taken: Option<&Subject>,
        asked: bool,
    ) -> bool {
        match (self, answer) {
            (Kind::Refused(_), Answer::Finished) => true,
            (Kind::Refused(_), Answer::Table { .. }) => refused.is_some() && refused == taken,
            (Kind::Refused(Refusal::Entries), Answer::Update { commit, .. })
                if commit != Commit::New =>
            {
                false
            }
            (Kind::Refused(_), Answer::Update { .. }) => {
                !asked && (refused.is_none() || refused == taken)
            }
            (Kind::Error | Kind::Unread, Answer::Acknowledgement { .. } | Answer::Confirmed) => {
                true
            }
            _ => false,
        }
    }
}

/// A line, and whether it is told without `-v`.
#[derive(Debug, PartialEq, Eq)]
pub struct Line {
    pub text: String,
    pub told: bool,
}

/// What failed, of a peer or of the host.
pub struct Faults {
    /// What its lines begin with.
    whose: String,
    kept: Mutex<Vec<Fault>>,
}

/// What is known of one kind.
struct Fault {
    kind: Kind,
    /// What failed last, and what it was about.
    what: String,
    subject: Option<Subject>,
    last: Instant,
    /// Whether it failed last, and if so since when and how often.
    failing: bool,
    since: SystemTime,
    count: u64,
    /// Whether the last line that was told says that it fails, and how often it failed since.
    told: bool,
    untold: u64,
    /// The lines that were told in the time that began then.
    lines: u32,
    begun: Instant,
}

impl Faults {
    pub fn new(whose: String) -> Faults {
        Faults {
            whose,
            kept: Mutex::default(),
        }
    }

    fn kept(&self) -> MutexGuard<'_, Vec<Fault>> {
        self.kept.lock().unwrap_or_else(PoisonError::into_inner)
    }

    /// Whether anything failed and doesn't work yet.
    pub fn any(&self) -> bool {
        self.kept().iter().any(|fault| fault.failing)
    }

    /// The line for what fails.
    pub fn fails(&self, now: Instant, kind: Kind, subject: Option<Subject>, what: String) -> Line {
        let mut kept = self.kept();
        let place = kept.iter().position(|fault| fault.kind == kind);
        let place = place.unwrap_or_else(|| {
            kept.push(Fault::new(now, kind));
            kept.len() - 1
        });
        let line = kept[place].fails(now, subject, what);
        self.line(line)
    }

    /// The lines for what fails no longer.
    pub fn works(
        &self,
        now: Instant,
        is_over: impl Fn(Kind, Option<&Subject>) -> bool,
    ) -> Vec<Line> {
        let mut kept = self.kept();
        let over = kept
            .iter_mut()
            .filter(|fault| fault.failing && is_over(fault.kind, fault.subject.as_ref()));
        over.map(|fault| self.line(fault.works(now))).collect()
    }

    /// The lines that time brings: of what changed while no more lines of it were told.
    pub fn due(&self, now: Instant) -> Vec<Line> {
        let mut kept = self.kept();
        let due = kept.iter_mut().filter_map(|fault| fault.due(now));
        due.map(|line| self.line(line)).collect()
    }

    fn line(&self, line: Line) -> Line {
        Line {
            text: format!("{}{}", self.whose, line.text),
            ..line
        }
    }
}

impl Fault {
    fn new(now: Instant, kind: Kind) -> Fault {
        Fault {
            kind,
            what: String::new(),
            subject: None,
            last: now,
            failing: false,
            since: SystemTime::now(),
            count: 0,
            told: false,
            untold: 0,
            lines: 0,
            begun: now,
        }
    }

    fn fails(&mut self, now: Instant, subject: Option<Subject>, what: String) -> Line {
        if !self.failing {
            self.failing = true;
            self.since = SystemTime::now();
            self.count = 0;
        }
        (self.what, self.subject, self.last) = (what, subject, now);
        self.count += 1;
        self.untold += 1;
        let anew = self.begins_anew(now);
        self.tell(anew || !self.told)
    }

    fn works(&mut self, now: Instant) -> Line {
        self.failing = false;
        self.begins_anew(now);
        self.tell(self.told)
    }

    fn due(&mut self, now: Instant) -> Option<Line> {
        let by_time = [Kind::Contested, Kind::Purged].contains(&self.kind);
        if self.failing && by_time && now - self.last >= QUIET {
            return Some(self.works(now));
        }
        let due = self.failing != self.told && self.begins_anew(now);
        due.then(|| self.tell(true))
    }

    /// Begins the time in which lines are limited anew, if it is over.
    fn begins_anew(&mut self, now: Instant) -> bool {
        let over = now - self.begun >= TIME;
        if over {
            (self.begun, self.lines) = (now, 0);
        }
        over
    }

    /// The line for how it is now. It is told if it is wanted and not too many were.
    fn tell(&mut self, wanted: bool) -> Line {
        let told = wanted && self.lines < MOST;
        let text = match self.failing {
            true if told && self.untold > 1 => {
                format!("{} (since the last line: {})", self.what, self.untold)
            }
            true => self.what.clone(),
            false => self.over(),
        };
        if told {
            (self.told, self.untold) = (self.failing, 0);
            self.lines += 1;
        }
        Line { text, told }
    }

    /// That it works again.
    fn over(&self) -> String {
        let about = Subject::end(self.subject.as_ref());
        format!(
            "{}{about} (failures since {}: {})",
            self.kind.works(),
            utc(self.since),
            self.count
        )
    }
}

#[cfg(test)]
mod tests {
    use super::*;

    const RANGE: Kind = Kind::Refused(Refusal::Range);

    fn fails(faults: &Faults, now: Instant, what: &str) -> Option<String> {
        let line = faults.fails(now, RANGE, None, what.to_owned());
        line.told.then_some(line.text)
    }

    /// Whether it is told that it works again.
    fn works(faults: &Faults, now: Instant) -> bool {
        let lines = faults.works(now, |kind, _| kind == RANGE);
        lines.iter().any(|line| line.told)
    }

    fn said(text: &str) -> Option<String> {
        Some(format!("west: {text}"))
    }

    #[test]
    fn a_kind_is_told_once_in_ten_minutes() {
        let (faults, now) = (Faults::new("west: ".to_owned()), Instant::now());
        assert_eq!(fails(&faults, now, "a"), said("a"));
        for second in 0..599 {
            let what = second.to_string();
            assert_eq!(
                fails(&faults, now + Duration::from_secs(second), &what),
                None
            );
        }
        let other = faults.fails(now, Kind::Dial, None, "b".to_owned());
        assert_eq!((Some(other.text), other.told), (said("b"), true));
        assert_eq!(faults.due(now + 2 * TIME), []);
        let told = fails(&faults, now + TIME, "c");
        assert_eq!(told, said("c (since the last line: 600)"));
        assert_eq!(fails(&faults, now + TIME, "d"), None);
    }

    #[test]
    fn that_it_works_again_is_told_once() {
        let (faults, now) = (Faults::new("west: ".to_owned()), Instant::now());
        assert!(!works(&faults, now));
        assert_eq!(fails(&faults, now, "a"), said("a"));
        assert_eq!(fails(&faults, now, "b"), None);
        assert!(faults.any());
        let lines = faults.works(now, |_, _| true);
        assert_eq!(lines.len(), 1);
        let begins = "west: what was refused with 24 is taken again (failures since 20";
        assert!(lines[0].text.starts_with(begins), "{lines:?}");
        assert!(
            lines[0].text.ends_with("Z: 2)") && lines[0].told,
            "{lines:?}"
        );
        assert!(!faults.any());
        assert!(!works(&faults, now));
    }

    /// What fails and works in turns gets four lines in ten minutes. How it is then is told after them.
    #[test]
    fn lines_are_limited_and_the_last_state_is_told() {
        for failing in [false, true] {
            let (faults, now) = (Faults::new("west: ".to_owned()), Instant::now());
            let mut told = 0;
            for second in 0..100 {
                let now = now + Duration::from_secs(second);
                told += u32::from(fails(&faults, now, "a").is_some());
                told += u32::from(works(&faults, now));
            }
            assert_eq!(told, MOST);
            if failing {
                assert_eq!(fails(&faults, now, "last"), None);
            }
            assert_eq!(faults.due(now + TIME - Duration::from_secs(1)), []);
            let due = faults.due(now + TIME);
            let texts: Vec<_> = due.into_iter().map(|line| line.text).collect();
            let last = "west: last (since the last line: 99)".to_owned();
            assert_eq!(texts, if failing { vec![last] } else { vec![] });
            assert_eq!(faults.due(now + 3 * TIME), []);
        }
    }

    #[test]
    fn what_time_ends() {
        for kind in [Kind::Contested, Kind::Purged] {
            let (faults, now) = (Faults::new("west: ".to_owned()), Instant::now());
            let line = faults.fails(now, kind, None, "a".to_owned());
            assert!(line.told);
            assert_eq!(faults.due(now + QUIET - Duration::from_secs(1)), []);
            assert_eq!(faults.due(now + QUIET).len(), 1);
            assert_eq!(faults.due(now + QUIET), []);
        }
    }

    #[test]
    fn what_an_answer_ends() {
        let subject = |definition, table: &str| Subject {
            definition,
            table: table.to_owned(),
        };
        let (t, u) = (subject(true, "t"), subject(true, "u"));
        let defined = Answer::Table { place: 0 };
        assert!(RANGE.is_over(defined, Some(&t), Some(&t), true));
        assert!(!RANGE.is_over(defined, Some(&t), Some(&u), true));
        assert!(!RANGE.is_over(defined, Some(&subject(false, "t")), Some(&t), true));
        assert!(!RANGE.is_over(defined, None, Some(&t), true));
        let updated = |commit| Answer::Update {
            table: 0,
            id: 1,
            entry: 0,
            commit,
        };
        let entry = subject(false, "t");
        let (new, replaced) = (updated(Commit::New), updated(Commit::Replaced));
        assert!(RANGE.is_over(replaced, Some(&entry), Some(&entry), false));
        assert!(!RANGE.is_over(replaced, Some(&entry), Some(&entry), true));
        assert!(!RANGE.is_over(replaced, Some(&t), Some(&entry), false));
        assert!(RANGE.is_over(replaced, None, Some(&entry), false));
        let full = Kind::Refused(Refusal::Entries);
        assert!(full.is_over(new, Some(&entry), Some(&entry), false));
        assert!(!full.is_over(replaced, Some(&entry), Some(&entry), false));
        assert!(full.is_over(Answer::Finished, Some(&entry), None, true));
        assert!(Kind::Unread.is_over(Answer::Confirmed, None, None, true));
        assert!(!Kind::Unread.is_over(Answer::Finished, None, None, true));
        assert!(!Kind::Dial.is_over(Answer::Finished, None, None, true));
    }
}
