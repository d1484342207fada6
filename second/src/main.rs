//! The command line of the second receiver.

#![forbid(unsafe_code)]

use second::long::{LongRun, Program};
use second::{check, data, generate, listing, replay};
use std::io::{self, Read, Write};
use std::path::Path;
use std::process::ExitCode;

/// How the program is used.
const USAGE: &str = "usage:
  second list                     listing of standard input
  second replay                   output of the script on standard input
  second generate SEED COUNT      script of COUNT streams
  second capture SEED             bytes of one session for the listing
  second data FOLDER              writes the stored data
  second check FILE.script FILE.expected
  second check FILE.capture FILE.listing
  second check FOLDER             all such files of a folder
  second long COUNT REPLAY PEERLIST [FIRST_SEED]
                                  COUNT streams through two other programs";

fn main() -> ExitCode {
    let arguments: Vec<String> = std::env::args().skip(1).collect();
    let words: Vec<&str> = arguments.iter().map(String::as_str).collect();
    match run(&words) {
        Ok(()) => ExitCode::SUCCESS,
        Err(message) => {
            eprintln!("{message}");
            ExitCode::FAILURE
        }
    }
}

/// Carries out one subcommand.
fn run(words: &[&str]) -> Result<(), String> {
    match words {
        ["list"] => list(),
        ["replay"] => replay_script(),
        ["generate", seed, count] => write(&generate::script(number(seed)?, number(count)?)),
        ["capture", seed] => write(&generate::capture(number(seed)?)),
        ["data", folder] => data::write(Path::new(folder)),
        ["check", folder] => check_folder(folder),
        ["check", input, stored] => check::check_file(Path::new(input), Path::new(stored)),
        ["long", count, replay, peerlist] => long(count, replay, peerlist, "1"),
        ["long", count, replay, peerlist, first] => long(count, replay, peerlist, first),
        _ => Err(USAGE.into()),
    }
}

/// A number of the command line.
fn number(word: &str) -> Result<u64, String> {
    word.parse().map_err(|_| format!("{word}: no number"))
}

/// Writes to standard output.
fn write(bytes: &[u8]) -> Result<(), String> {
    let result = io::stdout().lock().write_all(bytes);
    result.map_err(|e| e.to_string())
}

/// The listing of standard input.
fn list() -> Result<(), String> {
    let result = listing::list(&mut io::stdin().lock(), &mut io::stdout().lock());
    result.map_err(|e| e.to_string())
}

/// The output of the script on standard input.
fn replay_script() -> Result<(), String> {
    let mut script = Vec::new();
    let result = io::stdin().lock().read_to_end(&mut script);
    result.map_err(|e| e.to_string())?;
    write(&replay::replay(&script))
}

/// Checks the files of a folder.
fn check_folder(folder: &str) -> Result<(), String> {
    let count = check::check_folder(Path::new(folder))?;
    println!("{count} files as stored");
    Ok(())
}

/// The long run.
fn long(count: &str, replay: &str, peerlist: &str, first: &str) -> Result<(), String> {
    let run = LongRun {
        first: number(first)?,
        count: number(count)?,
        replay: Program(replay.into()),
        peerlist: Program(peerlist.into()),
    };
    let (figures, finding) = run.run();
    print!("{figures}");
    match finding {
        None => {
            println!("no difference");
            Ok(())
        }
        Some(finding) => Err(format!("difference: {}", finding.text)),
    }
}
