//! A hello judged for several accepted peers.

use crate::common::{refused, State, HELLO};
use peers::{Answer, Answerer, Refusal, Session, Store, READING_ROOM};

/// One is a front part of another, and `west` isn't the first.
const NAMES: [&str; 4] = ["north", "west", "west2", "wes"];

fn answerer() -> Answerer {
    Answerer::new(b"east", NAMES).unwrap()
}

/// Bytes taken, answer, reply, and of an accepted hello the place of its name and the session.
type Verdict = (usize, Answer, Vec<u8>, Option<(usize, Session)>);

fn judged(came: &[u8]) -> Verdict {
    let mut room = [0; READING_ROOM];
    let judged = answerer().judge(came, &mut room);
    let step = judged.step;
    let session = judged.peer.map(|peer| (peer, judged.session));
    (step.taken, step.answer, step.reply.to_vec(), session)
}

/// The same by a session for each name, until one doesn't say that the hello is from another.
fn by_each(came: &[u8]) -> Verdict {
    let mut verdict = None;
    for (peer, name) in NAMES.iter().enumerate() {
        let mut session = Session::answerer(b"east", name.as_bytes()).unwrap();
        let mut room = [0; READING_ROOM];
        let step = session.read(&mut Store::boxed(), came, &mut room);
        let accepted = matches!(step.answer, Answer::Hello { .. });
        let session = accepted.then_some((peer, session));
        verdict = Some((step.taken, step.answer, step.reply.to_vec(), session));
        if step.answer != refused(Refusal::Sender) {
            break;
        }
    }
    verdict.expect("there is a name")
}

#[test]
fn of_each_accepted_peer() {
    for (peer, name) in NAMES.iter().enumerate() {
        let hello = format!("HAProxyS 2.1\neast\n{name} 7 0\n\0\x04");
        let (taken, answer, reply, session) = judged(hello.as_bytes());
        assert_eq!((taken, &reply[..]), (hello.len() - 2, &b"200\n"[..]));
        assert!(matches!(answer, Answer::Hello { process: 7, .. }));
        let (place, session) = session.expect("it is accepted");
        assert!(place == peer && session.is_established());
        // it goes on with any store
        let mut state = State::established();
        state.session = session;
        assert_eq!(state.offer(&[0, 4]), [(Answer::Heartbeat, vec![])]);
    }
}

/// Faults of each line, alone and together, whole and cut short anywhere.
#[test]
fn as_by_a_session_for_each() {
    let ones = ["HAProxyS 2.1", "HAProxyS 2.2", "HAProxyS", ""];
    let twos = ["east", "west", ""];
    let threes = [
        "west 7 0",
        "west2 7 0",
        "wes 1 2",
        "other 7 0",
        " 7 0",
        "west",
        "west 7 x",
    ];
    let hellos = ones.iter().flat_map(|one| {
        let lines = twos.iter().flat_map(|two| threes.map(|three| (two, three)));
        lines.map(move |(two, three)| format!("{one}\n{two}\n{three}\n\0"))
    });
    for hello in hellos.chain([format!("HAProxyS 2.1\neast\n{}", "x".repeat(65))]) {
        for cut in 0..=hello.len() {
            let came = &hello.as_bytes()[..cut];
            assert_eq!(judged(came), by_each(came), "{:?}", &hello[..cut]);
        }
    }
}

#[test]
fn names() {
    let refused = |local: &[u8], names: &[&str]| Answerer::new(local, names).err();
    assert_eq!(refused(b"east", &["west"]), None);
    assert_eq!(
        refused(b"east", &["west", "two words"]),
        Some(Refusal::Name)
    );
    assert_eq!(refused(b"", &["west"]), Some(Refusal::Name));
    assert_eq!(refused(b"east", &[]), Some(Refusal::Name));
    // a name that is there twice is found at its first place
    let twice = Answerer::new(b"east", ["north", "west", "west"]).unwrap();
    assert_eq!(twice.judge(HELLO, &mut [0; READING_ROOM]).peer, Some(1));
}
