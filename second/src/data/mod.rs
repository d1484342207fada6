//! The data that other programs are compared with.

mod counts;
mod definitions;
mod scripts;
mod sending;
mod times;
mod whole_stores;

use crate::generate::{capture, script};
use crate::listing::listing;
use crate::replay::replay;
use scripts::{EXAMPLE, HELLO};
use std::path::Path;

/// The first seed of the generated script.
pub const SEED: u64 = 1;

/// The number of streams of the generated script.
pub const COUNT: u64 = 1200;

/// Captures made by the generator: the number that closes them and the seed.
pub const CLOSED: [(u8, u64); 16] = [
    (0, 646),
    (10, 2092),
    (11, 534),
    (12, 2082),
    (13, 2114),
    (20, 2264),
    (21, 2849),
    (22, 1173),
    (23, 1443),
    (24, 1124),
    (25, 1872),
    (26, 1522),
    (27, 1576),
    (28, 811),
    (29, 80),
    (30, 2406),
];

/// The seed of a long capture that stays open.
const LONG: u64 = 732;

/// A file with its name.
pub struct File {
    /// The name.
    pub name: String,
    /// The content.
    pub content: Vec<u8>,
}

/// All files: each script and capture with the output of this program.
pub fn files() -> Vec<File> {
    let scripts = scripts().into_iter().flat_map(|(name, script)| {
        let output = replay(&script);
        pair(name, ("script", script), ("expected", output))
    });
    let captures = captures().into_iter().flat_map(|(name, capture)| {
        let output = listing(&capture);
        pair(name, ("capture", capture), ("listing", output))
    });
    scripts.chain(captures).collect()
}

/// Two files with one name before their endings.
fn pair(name: String, one: (&str, Vec<u8>), two: (&str, Vec<u8>)) -> [File; 2] {
    [one, two].map(|(ending, content)| File {
        name: format!("{name}.{ending}"),
        content,
    })
}

/// Writes all files to a folder.
pub fn write(folder: &Path) -> Result<(), String> {
    for file in files() {
        let path = folder.join(&file.name);
        let result = std::fs::write(&path, file.content);
        result.map_err(|e| format!("{}: {e}", path.display()))?;
    }
    Ok(())
}

/// The captures with their names.
fn captures() -> Vec<(String, Vec<u8>)> {
    let example = [HELLO, EXAMPLE].concat();
    let mut captures = vec![
        ("empty".into(), Vec::new()),
        ("unfinished".into(), example[..50].to_vec()),
        ("long".into(), capture(LONG)),
        ("example".into(), example),
    ];
    for (number, seed) in CLOSED {
        captures.push((format!("closed-{number}"), capture(seed)));
    }
    captures
}

/// The scripts with their names.
fn scripts() -> Vec<(String, Vec<u8>)> {
    let mut list = vec![("generated".into(), script(SEED, COUNT))];
    for (name, script) in scripts::all() {
        list.push((name.into(), script));
    }
    list
}
