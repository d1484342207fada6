//! The stored data and its check.

use crate::common::{EXAMPLE, EXAMPLE_LISTING};
use second::check::{check_file, check_folder};
use second::compare::first_difference;
use second::data::{files, CLOSED};
use std::collections::BTreeSet;
use std::fs;
use std::path::{Path, PathBuf};

/// The folder of the stored data.
fn folder() -> PathBuf {
    Path::new(env!("CARGO_MANIFEST_DIR")).join("data")
}

/// The content of a stored file.
fn stored(name: &str) -> Vec<u8> {
    fs::read(folder().join(name)).unwrap()
}

#[test]
fn the_stored_outputs_are_what_the_program_says() {
    let count = check_folder(&folder()).unwrap();
    assert!(count > 20);
}

#[test]
fn the_stored_files_are_those_of_the_program() {
    let mut names = BTreeSet::new();
    for file in files() {
        assert!(stored(&file.name) == file.content, "{}", file.name);
        names.insert(file.name);
    }
    let entries = fs::read_dir(folder()).unwrap();
    let found = entries.map(|entry| entry.unwrap().file_name().into_string().unwrap());
    assert_eq!(found.collect::<BTreeSet<_>>(), names);
}

#[test]
fn the_stored_data_is_of_moderate_size() {
    let size: usize = files().iter().map(|file| file.content.len()).sum();
    assert!(size < 3_800_000, "{size}");
}

#[test]
fn the_example_is_stored() {
    assert_eq!(stored("example.capture"), EXAMPLE);
    assert_eq!(stored("example.listing"), EXAMPLE_LISTING.as_bytes());
}

#[test]
fn captures_close_as_their_names_say() {
    for (number, _) in CLOSED {
        let listing = stored(&format!("closed-{number}.listing"));
        let end = format!("\nend closed {number}\n");
        assert!(listing.ends_with(end.as_bytes()), "{number}");
    }
}

#[test]
fn a_difference_is_found() {
    let data = folder();
    let script = data.join("end-empty.script");
    let other = data.join("end-cut-open.expected");
    let message = check_file(&script, &other).unwrap_err();
    assert!(message.ends_with("line 1: second says `end`, the other `open`"));
    let unknown = check_file(&other, &other).unwrap_err();
    assert!(unknown.ends_with("neither a .script nor a .capture"));
    let missing = check_file(&data.join("none.script"), &other);
    assert!(missing.is_err());
}

#[test]
fn first_differences() {
    let text = |ours: &[u8], other: &[u8]| {
        let difference = first_difference(ours, other);
        difference.map_or(String::new(), |d| d.to_string())
    };
    assert_eq!(text(b"a\nb\n", b"a\nb\n"), "");
    assert_eq!(
        text(b"a\nb\n", b"a\nc\n"),
        "line 2: second says `b`, the other `c`"
    );
    assert_eq!(
        text(b"a\n", b"a\nb\n"),
        "line 2: second says nothing, the other `b`"
    );
    assert_eq!(
        text(b"a\nb\n", b"a\n"),
        "line 2: second says `b`, the other nothing"
    );
    let without = text(b"a\n", b"a");
    assert_eq!(without, "line 1: second says `a`, the other `a (no LF)`");
}
