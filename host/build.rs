//! Links the static library: from the folder that `PEERS_LIB_DIR` names, else from where `tools/build peers` leaves it.
//! A relative `PEERS_LIB_DIR` is one of the folder in which cargo was called: a build script runs in its own, so `PWD` says which.

use std::env;
use std::path::{Path, PathBuf};

fn main() {
    let own = PathBuf::from(env::var_os("CARGO_MANIFEST_DIR").expect("cargo names this folder"));
    let built = own.join("../target/staticlib");
    let caller = env::var_os("PWD").map_or(own, PathBuf::from);
    let folder = env::var_os("PEERS_LIB_DIR").map_or(built, |named| caller.join(named));
    let archive = folder.join("libpeers.a");
    assert!(
        Path::new(&archive).is_file(),
        "no {}: run `tools/build peers` at the top of the repository, or set PEERS_LIB_DIR",
        archive.display()
    );
    println!("cargo:rerun-if-env-changed=PEERS_LIB_DIR");
    if env::var_os("PEERS_LIB_DIR").is_some_and(|named| Path::new(&named).is_relative()) {
        println!("cargo:rerun-if-env-changed=PWD");
    }
    println!("cargo:rustc-env=PEERS_ARCHIVE={}", archive.display());
    println!("cargo:rerun-if-changed={}", archive.display());
    println!("cargo:rustc-link-search=native={}", folder.display());
    println!("cargo:rustc-link-lib=static=peers");
}
