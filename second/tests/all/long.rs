//! The long run, on this program itself.

use second::long::{LongRun, Program};

const SECOND: &str = env!("CARGO_BIN_EXE_second");

/// A run of few streams on these programs.
fn run(replay: &str, peerlist: &str) -> LongRun {
    LongRun {
        first: 77,
        count: 130,
        replay: Program(replay.into()),
        peerlist: Program(peerlist.into()),
    }
}

#[test]
fn no_difference_from_itself() {
    let run = run(&format!("{SECOND} replay"), &format!("{SECOND} list"));
    let (figures, finding) = run.run();
    assert_eq!(finding, None);
    assert_eq!((figures.streams, figures.captures), (130, 130));
    assert!(figures.sessions >= 130 && figures.calls > 1000);
}

#[test]
fn a_difference_is_given_with_its_seed() {
    let run = run(&format!("{SECOND} list"), &format!("{SECOND} list"));
    let (_, finding) = run.run();
    let finding = finding.unwrap();
    assert_eq!(finding.seed, 77);
    assert!(finding
        .text
        .starts_with("replay, `second generate 77 1`: line 1: "));
}

#[test]
fn a_program_that_fails_is_given() {
    let (_, finding) = run(&format!("{SECOND} replay"), "./no-such-program").run();
    assert!(finding.unwrap().text.contains("no-such-program"));
    let replay = format!("{SECOND} replay");
    let (_, finding) = run(&replay, &replay).run();
    let text = finding.unwrap().text;
    assert!(text.starts_with("peerlist, `second capture 77`: line 1: second says"));
    let program = Program(format!("{SECOND} list"));
    assert_eq!(program.run(b"").unwrap(), b"end open 0\n");
}
