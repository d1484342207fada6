//! How far peers have taught us, by which another's request is answered with finished or finished in part.

use crate::peer::Peer;
use peers::Answer;
use std::time::Duration;

/// A peer that answered a request in part is asked again so long after it.
pub const AGAIN_TIME: Duration = Duration::from_secs(10);

/// How far a peer's teaching is on one connection.
#[derive(Clone, Copy, Debug, Default, PartialEq, Eq)]
pub struct Teaching {
    /// How many entries had been purged when the first request without an answer was sent.
    asked: Option<u64>,
    /// The last answer.
    answered: Option<End>,
}

#[derive(Clone, Copy, Debug, PartialEq, Eq)]
enum End {
    /// Finished, with how many entries had been purged when it was asked for.
    Finished(u64),
    Partial,
}

impl Teaching {
    /// A request is sent, and so many entries have been purged.
    pub fn ask(&mut self, purged: u64) {
        self.asked.get_or_insert(purged);
    }

    /// Notes what was read. An end that wasn't asked for says nothing of a whole teaching, and after a refusal something is missing.
    pub fn note(&mut self, answer: Answer) {
        match answer {
            Answer::Finished => self.end(End::Finished),
            Answer::Partial => self.end(|_| End::Partial),
            Answer::Refused { .. } => *self = Teaching::default(),
            _ => {}
        }
    }

    fn end(&mut self, end: impl FnOnce(u64) -> End) {
        if let Some(purged) = self.asked.take() {
            self.answered = Some(end(purged));
        }
    }

    /// Whether all that the peer held is here, and what it sent since, where so many entries have been purged.
    pub fn is_finished(&self, purged: u64) -> bool {
        self.answered == Some(End::Finished(purged))
    }

    /// Whether the peer has answered the last request, in part.
    pub fn is_partial(&self) -> bool {
        self.answered == Some(End::Partial) && self.asked.is_none()
    }
}

/// Whether a request may be answered with finished: there are other peers with an address, and all of them are connected and have taught us
/// whole, where so many entries have been purged. The peer that asks then asks no other.
pub fn is_whole(peers: &[Peer], asking: &Peer, purged: u64) -> bool {
    let with_address = peers.iter().filter(|peer| peer.address.is_some());
    let mut others = with_address
        .filter(|peer| peer.name != asking.name)
        .peekable();
    let is_finished = |peer: &Peer| {
        peer.teaching()
            .is_some_and(|teaching| teaching.is_finished(purged))
    };
    others.peek().is_some() && others.all(is_finished)
}

#[cfg(test)]
mod tests {
    use super::*;
    use peers::Refusal;

    /// What is left of these answers, with a request before each.
    fn after(answers: &[Answer]) -> Teaching {
        let mut teaching = Teaching::default();
        for &answer in answers {
            teaching.ask(0);
            teaching.note(answer);
        }
        teaching
    }

    #[test]
    fn the_last_answer_counts() {
        assert!(after(&[Answer::Finished]).is_finished(0));
        assert!(after(&[Answer::Partial, Answer::Finished]).is_finished(0));
        assert!(!after(&[Answer::Finished, Answer::Partial]).is_finished(0));
        assert!(after(&[Answer::Finished, Answer::Partial]).is_partial());
        assert!(!after(&[Answer::Partial, Answer::Finished]).is_partial());
    }

    #[test]
    fn an_unanswered_request_leaves_the_last_answer() {
        let mut finished = after(&[Answer::Finished]);
        finished.ask(0);
        assert!(finished.is_finished(0));
        let mut partial = after(&[Answer::Partial]);
        partial.ask(0);
        assert!(!partial.is_partial() && !partial.is_finished(0));
    }

    #[test]
    fn an_end_that_was_not_asked_for_counts_nothing() {
        let mut teaching = Teaching::default();
        teaching.note(Answer::Finished);
        assert_eq!(teaching, Teaching::default());
        let mut partial = after(&[Answer::Partial]);
        partial.note(Answer::Finished);
        assert!(partial.is_partial());
    }

    #[test]
    fn what_is_purged_is_missing() {
        let mut teaching = Teaching::default();
        teaching.ask(4);
        teaching.ask(8);
        teaching.note(Answer::Finished);
        assert!(teaching.is_finished(4) && !teaching.is_finished(8));
        teaching.ask(8);
        teaching.note(Answer::Finished);
        assert!(teaching.is_finished(8) && !teaching.is_finished(12));
    }

    #[test]
    fn after_a_refusal_something_is_missing() {
        let refused = Answer::Refused {
            refusal: Refusal::Entries,
            offset: None,
        };
        let mut teaching = after(&[Answer::Finished]);
        teaching.note(refused);
        assert_eq!(teaching, Teaching::default());
        teaching.ask(0);
        teaching.note(refused);
        teaching.note(Answer::Finished);
        assert!(!teaching.is_finished(0));
    }
}
