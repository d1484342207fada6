//! The long run: many generated streams through two other programs.

use crate::compare::first_difference;
use crate::generate::{capture, script, stream};
use crate::listing::listing;
use crate::replay::replay;
use std::collections::BTreeMap;
use std::fmt;
use std::io::{self, Read, Write};
use std::process::{Child, Command, Stdio};
use std::sync::atomic::{AtomicBool, AtomicU64, Ordering};
use std::sync::mpsc::channel;
use std::sync::Mutex;
use std::thread;
use std::time::Duration;

/// The number of streams in one script.
const BATCH: u64 = 100;

/// How long a program may take for one input.
const PATIENCE: Duration = Duration::from_secs(300);

/// A program with its arguments, separated by spaces.
#[derive(Clone, Debug)]
pub struct Program(pub String);

impl Program {
    /// Starts the program with pipes.
    fn start(&self) -> io::Result<Child> {
        let mut words = self.0.split(' ');
        let name = words.next().unwrap_or_default();
        let mut command = Command::new(name);
        command.args(words);
        command.stdin(Stdio::piped()).stdout(Stdio::piped()).spawn()
    }

    /// Runs the program on an input and gives its output.
    pub fn run(&self, input: &[u8]) -> Result<Vec<u8>, String> {
        let mut child = self.start().map_err(|e| format!("{}: {e}", self.0))?;
        let output = exchange(&mut child, input);
        if output.is_none() {
            child.kill().map_err(|e| e.to_string())?;
        }
        let status = child.wait().map_err(|e| e.to_string())?;
        match (output, status.code()) {
            (None, _) => Err(format!("{}: no end within {PATIENCE:?}", self.0)),
            (Some(_), None) => Err(format!("{}: {status}", self.0)),
            (Some(output), Some(_)) => Ok(output),
        }
    }
}

/// Writes the input and reads the output; `None` if that takes too long.
fn exchange(child: &mut Child, input: &[u8]) -> Option<Vec<u8>> {
    let mut stdin = child.stdin.take()?;
    let mut stdout = child.stdout.take()?;
    let input = input.to_vec();
    // A program that ends early closes its input, which is no fault.
    thread::spawn(move || stdin.write_all(&input));
    let (sender, receiver) = channel();
    thread::spawn(move || {
        let mut output = Vec::new();
        let result = stdout.read_to_end(&mut output);
        sender.send(result.map(|_| output))
    });
    receiver.recv_timeout(PATIENCE).ok()?.ok()
}

/// What a long run went through.
#[derive(Clone, Debug, Default)]
pub struct Figures {
    /// The number of streams.
    pub streams: u64,
    /// The bytes of the scripts.
    pub script_bytes: u64,
    /// The bytes of replay's output.
    pub output_bytes: u64,
    /// The number of captures.
    pub captures: u64,
    /// The bytes of the captures.
    pub capture_bytes: u64,
    /// The number of sessions.
    pub sessions: u64,
    /// The number of calls.
    pub calls: u64,
    /// The number of passing calls.
    pub passes: u64,
    /// The number of sending calls, by type of the message or by refusal.
    pub sends: BTreeMap<String, u64>,
    /// The number of dumps.
    pub dumps: u64,
    /// The number of each answer, refusals by number.
    pub answers: BTreeMap<String, u64>,
}

impl Figures {
    /// Counts what replay's output shows.
    pub fn count(&mut self, output: &[u8]) {
        let text = String::from_utf8_lossy(output);
        let mut lines = text.lines();
        while let Some(line) = lines.next() {
            match line.split(' ').next() {
                Some("open") => self.sessions += 1,
                Some("session") => self.dumps += 1,
                Some("passed") => self.passes += 1,
                Some("took") => self.answer(lines.next().unwrap_or_default()),
                // The line that follows it in a dump begins like that of a call.
                Some("defined") => drop(lines.next()),
                Some("sent" | "refused") => self.send(line),
                _ => {}
            }
        }
        self.output_bytes += output.len() as u64;
    }

    /// Counts the answer of a call.
    fn answer(&mut self, line: &str) {
        self.calls += 1;
        let words: Vec<&str> = line.split(' ').collect();
        let name = match words[..] {
            ["refused", number, ..] => format!("refused {number}"),
            ["update", .., commit] => format!("update {commit}"),
            [word, ..] => word.to_owned(),
            [] => String::new(),
        };
        *self.answers.entry(name).or_default() += 1;
    }

    /// Counts a sending call: the type is the second byte of its message.
    fn send(&mut self, line: &str) {
        let digits = line.strip_prefix("sent ").and_then(|hex| hex.get(2..4));
        let kind = digits.and_then(|digits| u8::from_str_radix(digits, 16).ok());
        let name = kind.map_or(line.to_owned(), |kind| kind.to_string());
        *self.sends.entry(name).or_default() += 1;
    }

    /// Adds other figures.
    fn add(&mut self, other: Figures) {
        self.streams += other.streams;
        self.script_bytes += other.script_bytes;
        self.output_bytes += other.output_bytes;
        self.captures += other.captures;
        self.capture_bytes += other.capture_bytes;
        self.sessions += other.sessions;
        self.calls += other.calls;
        self.passes += other.passes;
        self.dumps += other.dumps;
        add_all(&mut self.sends, other.sends);
        add_all(&mut self.answers, other.answers);
    }
}

/// Adds counts to others by name.
fn add_all(counts: &mut BTreeMap<String, u64>, others: BTreeMap<String, u64>) {
    for (name, count) in others {
        *counts.entry(name).or_default() += count;
    }
}

impl fmt::Display for Figures {
    fn fmt(&self, f: &mut fmt::Formatter) -> fmt::Result {
        writeln!(f, "streams {}", self.streams)?;
        writeln!(f, "script bytes {}", self.script_bytes)?;
        writeln!(f, "output bytes {}", self.output_bytes)?;
        writeln!(f, "captures {}", self.captures)?;
        writeln!(f, "capture bytes {}", self.capture_bytes)?;
        writeln!(f, "sessions {}", self.sessions)?;
        writeln!(f, "calls {}", self.calls)?;
        writeln!(f, "passing calls {}", self.passes)?;
        writeln!(f, "dumps {}", self.dumps)?;
        for (name, count) in &self.sends {
            writeln!(f, "sending calls {name}: {count}")?;
        }
        for (name, count) in &self.answers {
            writeln!(f, "answers {name}: {count}")?;
        }
        Ok(())
    }
}

/// A difference or a failure of a program, with the seed of its stream.
#[derive(Clone, Debug, PartialEq, Eq, PartialOrd, Ord)]
pub struct Finding {
    /// The seed.
    pub seed: u64,
    /// What was found and how to get it again.
    pub text: String,
}

/// A long run.
pub struct LongRun {
    /// The seed of the first stream.
    pub first: u64,
    /// The number of streams.
    pub count: u64,
    /// The program that replays scripts.
    pub replay: Program,
    /// The program that lists captures.
    pub peerlist: Program,
}

impl LongRun {
    /// Runs all streams, up to the first finding of each worker.
    pub fn run(&self) -> (Figures, Option<Finding>) {
        let next = AtomicU64::new(0);
        let stop = AtomicBool::new(false);
        let total = Mutex::new((Figures::default(), Vec::new()));
        let workers = thread::available_parallelism().map_or(1, |n| n.get());
        thread::scope(|scope| {
            for _ in 0..workers {
                scope.spawn(|| self.work(&next, &stop, &total));
            }
        });
        let (figures, mut findings) = total.into_inner().unwrap_or_default();
        findings.sort();
        (figures, findings.into_iter().next())
    }

    /// Takes batch after batch.
    fn work(&self, next: &AtomicU64, stop: &AtomicBool, total: &Mutex<(Figures, Vec<Finding>)>) {
        while !stop.load(Ordering::Relaxed) {
            let start = next.fetch_add(BATCH, Ordering::Relaxed);
            if start >= self.count {
                break;
            }
            let result = self.batch(self.first + start, BATCH.min(self.count - start));
            let Ok(mut total) = total.lock() else {
                break;
            };
            match result {
                Ok(figures) => total.0.add(figures),
                Err(finding) => {
                    stop.store(true, Ordering::Relaxed);
                    total.1.push(finding);
                }
            }
        }
    }

    /// Runs the streams of some seeds.
    fn batch(&self, seed: u64, count: u64) -> Result<Figures, Finding> {
        let mut figures = Figures {
            streams: count,
            captures: count,
            ..Figures::default()
        };
        self.scripts(seed, count, &mut figures)?;
        for seed in seed..seed + count {
            self.capture(seed, &mut figures)?;
        }
        Ok(figures)
    }

    /// Replays the script of some seeds.
    fn scripts(&self, seed: u64, count: u64, figures: &mut Figures) -> Result<(), Finding> {
        let script = script(seed, count);
        let ours = replay(&script);
        figures.script_bytes += script.len() as u64;
        figures.count(&ours);
        match self.replay.run(&script) {
            Ok(output) if output == ours => Ok(()),
            result => Err(self.locate(seed, count, result.err())),
        }
    }

    /// Finds the first stream of a batch that differs alone.
    fn locate(&self, seed: u64, count: u64, failure: Option<String>) -> Finding {
        for seed in seed..seed + count {
            let script = stream(seed);
            let text = compared(&replay(&script), self.replay.run(&script));
            if let Some(text) = text {
                let text = format!("replay, `second generate {seed} 1`: {text}");
                return Finding { seed, text };
            }
        }
        let what = failure.unwrap_or("only the whole script differs".into());
        let text = format!("replay, `second generate {seed} {count}`: {what}");
        Finding { seed, text }
    }

    /// Lists the capture of one seed.
    fn capture(&self, seed: u64, figures: &mut Figures) -> Result<(), Finding> {
        let input = capture(seed);
        figures.capture_bytes += input.len() as u64;
        match compared(&listing(&input), self.peerlist.run(&input)) {
            None => Ok(()),
            Some(text) => Err(Finding {
                seed,
                text: format!("peerlist, `second capture {seed}`: {text}"),
            }),
        }
    }
}

/// What is wrong with another program's output, if anything.
fn compared(ours: &[u8], other: Result<Vec<u8>, String>) -> Option<String> {
    match other {
        Ok(other) => first_difference(ours, &other).map(|d| d.to_string()),
        Err(failure) => Some(failure),
    }
}
