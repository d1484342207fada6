//! More tests of the library through its Rust wrapper: what tests/all does not have.

mod answerer;
mod boxed;
#[allow(dead_code)]
#[path = "../all/common.rs"]
mod common;
mod freeing;
mod layout;
mod opening;
mod reading;
mod texts;
