//! On which machine is measured: figures of one don't hold on another.

use std::process::Command;
use std::{fs, thread};

/// The processor's name in /proc/cpuinfo.
fn processor() -> Option<String> {
    let all = fs::read_to_string("/proc/cpuinfo").ok()?;
    let line = all.lines().find(|line| line.starts_with("model name"))?;
    Some(line.split_once(':')?.1.trim().to_string())
}

/// The version of the compiler on the path.
fn compiler() -> Option<String> {
    let said = Command::new("rustc").arg("--version").output().ok()?.stdout;
    let words = String::from_utf8(said).ok()?;
    let mut words = words.split_whitespace();
    Some(format!("{} {}", words.next()?, words.next()?))
}

/// How many processes wanted a core in the last minute.
fn load() -> Option<String> {
    let all = fs::read_to_string("/proc/loadavg").ok()?;
    Some(all.split_whitespace().next()?.to_string())
}

/// Processor, cores and compiler.
pub fn name() -> String {
    let cores = thread::available_parallelism().map_or(0, usize::from);
    let unknown = || "unknown".to_string();
    let processor = processor().unwrap_or_else(unknown);
    let compiler = compiler().unwrap_or_else(|| "rustc unknown".into());
    format!("{processor}, {cores} cores, {compiler}")
}

/// The name, and what else ran.
pub fn text() -> String {
    let load = load().unwrap_or_else(|| "unknown".into());
    format!("{}; load {load} at the start", name())
}
