//! Checks that stored outputs are what this program says now.
//!
//! `NAME.script` goes with `NAME.expected`, the output of replay;
//! `NAME.capture` goes with `NAME.listing`, the output of the listing.

use crate::compare::first_difference;
use crate::listing::listing;
use crate::replay::replay;
use std::ffi::OsStr;
use std::fs;
use std::path::{Path, PathBuf};

/// What an input file is.
#[derive(Clone, Copy, Debug, PartialEq, Eq, PartialOrd, Ord)]
enum Kind {
    Script,
    Capture,
}

impl Kind {
    /// The kind of a file, by the ending of its name.
    fn of(path: &Path) -> Option<Kind> {
        match path.extension().and_then(OsStr::to_str) {
            Some("script") => Some(Kind::Script),
            Some("capture") => Some(Kind::Capture),
            _ => None,
        }
    }

    /// The output of this program.
    fn output(self, input: &[u8]) -> Vec<u8> {
        match self {
            Kind::Script => replay(input),
            Kind::Capture => listing(input),
        }
    }

    /// The file with the stored output.
    fn stored(self, input: &Path) -> PathBuf {
        input.with_extension(match self {
            Kind::Script => "expected",
            Kind::Capture => "listing",
        })
    }
}

/// Checks one input file and its stored output.
pub fn check_file(input: &Path, stored: &Path) -> Result<(), String> {
    let kind = Kind::of(input).ok_or(format!(
        "{}: neither a .script nor a .capture",
        input.display()
    ))?;
    let ours = kind.output(&read(input)?);
    match first_difference(&ours, &read(stored)?) {
        None => Ok(()),
        Some(difference) => Err(format!("{}: {difference}", stored.display())),
    }
}

/// Checks all input files of a folder and gives their number.
pub fn check_folder(folder: &Path) -> Result<usize, String> {
    let mut inputs = inputs(folder)?;
    inputs.sort();
    for (path, kind) in &inputs {
        check_file(path, &kind.stored(path))?;
    }
    match inputs.len() {
        0 => Err(format!("{}: no .script and no .capture", folder.display())),
        count => Ok(count),
    }
}

/// The input files of a folder.
fn inputs(folder: &Path) -> Result<Vec<(PathBuf, Kind)>, String> {
    let entries = fs::read_dir(folder).map_err(|e| format!("{}: {e}", folder.display()))?;
    let mut found = Vec::new();
    for entry in entries {
        let path = entry.map_err(|e| e.to_string())?.path();
        found.extend(Kind::of(&path).map(|kind| (path, kind)));
    }
    Ok(found)
}

/// Reads a file.
fn read(path: &Path) -> Result<Vec<u8>, String> {
    fs::read(path).map_err(|e| format!("{}: {e}", path.display()))
}
