//! The lines on standard error, each with its time: a bounded queue, and one thread that writes. Nobody who has a line waits until it is
//! written.

use crate::clock::utc;
use std::collections::VecDeque;
use std::io::{self, Write};
use std::sync::atomic::{AtomicU64, Ordering};
use std::sync::{Arc, Condvar, Mutex, MutexGuard, PoisonError};
use std::thread;
use std::time::{Duration, SystemTime};

/// How many lines may wait to be written.
const MOST: usize = 1_024;

/// Where lines are left to be written.
pub struct Log(Arc<Shared>);

#[derive(Default)]
struct Shared {
    queue: Mutex<Queue>,
    changed: Condvar,
    /// Lines that weren't written.
    lost: AtomicU64,
}

#[derive(Default)]
struct Queue {
    items: VecDeque<Item>,
    /// Whether one is being written.
    writing: bool,
}

/// A line, or how many didn't fit behind the one before, with the time of the last.
enum Item {
    Line(SystemTime, String),
    Lost(SystemTime, u64),
}

impl Log {
    /// Starts the thread that writes.
    pub fn start(out: impl Write + Send + 'static) -> io::Result<Log> {
        let shared = Arc::new(Shared::default());
        let writer = Arc::clone(&shared);
        thread::Builder::new().spawn(move || writer.write_all(out))?;
        Ok(Log(shared))
    }

    /// Leaves a line to be written. Where no place is left it is counted.
    pub fn push(&self, line: String) {
        let mut queue = self.0.queue();
        let now = SystemTime::now();
        if queue.items.len() < MOST {
            queue.items.push_back(Item::Line(now, line));
        } else {
            self.0.lost.fetch_add(1, Ordering::Relaxed);
            match queue.items.back_mut() {
                Some(Item::Lost(last, count)) => (*last, *count) = (now, *count + 1),
                _ => queue.items.push_back(Item::Lost(now, 1)),
            }
        }
        self.0.changed.notify_all();
    }

    /// How many lines weren't written.
    pub fn lost(&self) -> u64 {
        self.0.lost.load(Ordering::Relaxed)
    }

    /// Waits until all lines are written, at most so long.
    pub fn finish(&self, longest: Duration) {
        let queue = self.0.queue();
        let unwritten = |queue: &mut Queue| queue.writing || !queue.items.is_empty();
        drop(
            self.0
                .changed
                .wait_timeout_while(queue, longest, unwritten)
                .unwrap_or_else(PoisonError::into_inner),
        );
    }
}

impl Shared {
    fn queue(&self) -> MutexGuard<'_, Queue> {
        self.queue.lock().unwrap_or_else(PoisonError::into_inner)
    }

    /// The next line, once there is one.
    fn next(&self) -> Item {
        let mut queue = self.queue();
        queue.writing = false;
        loop {
            if let Some(item) = queue.items.pop_front() {
                queue.writing = true;
                return item;
            }
            self.changed.notify_all();
            queue = self
                .changed
                .wait(queue)
                .unwrap_or_else(PoisonError::into_inner);
        }
    }

    /// Writes each line as one write. Nobody may be there to read it.
    fn write_all(&self, mut out: impl Write) {
        loop {
            let line = match self.next() {
                Item::Line(time, line) => format!("{} {line}\n", utc(time)),
                Item::Lost(time, count) => {
                    let time = utc(time);
                    format!("{time} {count} lines weren't written: too many waited\n")
                }
            };
            if out.write_all(line.as_bytes()).is_err() {
                self.lost.fetch_add(1, Ordering::Relaxed);
            }
        }
    }
}

#[cfg(test)]
mod tests {
    use super::*;
    use std::sync::mpsc::{channel, Receiver, Sender};

    /// Where each write waits for a permit.
    struct Slow {
        permits: Receiver<()>,
        written: Sender<String>,
    }

    impl Write for Slow {
        fn write(&mut self, bytes: &[u8]) -> io::Result<usize> {
            self.permits.recv().map_err(io::Error::other)?;
            let text = String::from_utf8_lossy(bytes).into_owned();
            self.written.send(text).map_err(io::Error::other)?;
            Ok(bytes.len())
        }

        fn flush(&mut self) -> io::Result<()> {
            Ok(())
        }
    }

    /// The next line that was written, without its time.
    fn next(lines: &Receiver<String>) -> String {
        let line = lines.recv_timeout(Duration::from_secs(30)).unwrap();
        let (time, text) = line.split_once(' ').unwrap();
        assert!(time.len() == 24 && time.ends_with('Z'), "{line}");
        text.trim_end().to_owned()
    }

    fn slow() -> (Log, Sender<()>, Receiver<String>) {
        let (permit, permits) = channel();
        let (written, lines) = channel();
        (
            Log::start(Slow { permits, written }).unwrap(),
            permit,
            lines,
        )
    }

    #[test]
    fn lines_that_do_not_fit_are_counted_and_told() {
        let (log, permit, lines) = slow();
        log.push("first".to_owned());
        while !log.0.queue().writing {
            thread::yield_now();
        }
        for number in 0..MOST + 5 {
            log.push(number.to_string());
        }
        assert_eq!(log.lost(), 5);
        for _ in 0..MOST + 2 {
            permit.send(()).unwrap();
        }
        assert_eq!(next(&lines), "first");
        for number in 0..MOST {
            assert_eq!(next(&lines), number.to_string());
        }
        let told = "5 lines weren't written: too many waited";
        assert_eq!(next(&lines), told);
        log.push("last".to_owned());
        permit.send(()).unwrap();
        assert_eq!(next(&lines), "last");
    }

    #[test]
    fn the_end_waits_for_what_is_written_and_no_longer() {
        let (log, permit, lines) = slow();
        log.push("late".to_owned());
        log.finish(Duration::from_millis(50));
        assert!(lines.try_recv().is_err());
        permit.send(()).unwrap();
        log.finish(Duration::from_secs(60));
        assert!(lines.try_recv().unwrap().ends_with(" late\n"));
    }

    #[test]
    fn a_line_that_is_not_taken_is_counted() {
        let (log, permit, lines) = slow();
        drop(lines);
        permit.send(()).unwrap();
        log.push("unread".to_owned());
        log.finish(Duration::from_secs(60));
        assert_eq!(log.lost(), 1);
    }
}
