//! Which static library is measured.

use std::path::{Path, PathBuf};
use std::time::{Duration, SystemTime, UNIX_EPOCH};
use std::{env, fs};

fn modified(path: &Path) -> std::io::Result<SystemTime> {
    fs::metadata(path)?.modified()
}

/// The archive's path, and when it was changed.
pub fn text() -> String {
    let path = PathBuf::from(peers::ARCHIVE);
    let path = path.canonicalize().unwrap_or(path);
    let Ok(changed) = modified(&path) else {
        return format!("{}, which is gone", path.display());
    };
    let program = env::current_exe().and_then(|program| modified(&program));
    let stale = match program {
        Ok(linked) if linked >= changed => "",
        _ => ", after this program was built: build it again",
    };
    let since = changed.duration_since(UNIX_EPOCH).unwrap_or_default();
    format!("{}, changed {}{stale}", path.display(), date(since))
}

fn days_in(year: u64) -> u64 {
    match (year % 4, year % 100, year % 400) {
        (_, _, 0) => 366,
        (_, 0, _) => 365,
        (0, _, _) => 366,
        _ => 365,
    }
}

/// A time since 1970 as a date and a time of day.
pub fn date(since: Duration) -> String {
    let (mut days, seconds) = (since.as_secs() / 86_400, since.as_secs() % 86_400);
    let mut year = 1970;
    while days >= days_in(year) {
        days -= days_in(year);
        year += 1;
    }
    let february = days_in(year) - 337;
    let mut month = 1;
    for length in [31, february, 31, 30, 31, 30, 31, 31, 30, 31, 30] {
        if days < length {
            break;
        }
        days -= length;
        month += 1;
    }
    let (hour, minute, second) = (seconds / 3600, seconds / 60 % 60, seconds % 60);
    format!(
        "{year}-{month:02}-{:02} {hour:02}:{minute:02}:{second:02} UTC",
        days + 1
    )
}
