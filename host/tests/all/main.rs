//! Tests of the library through its Rust wrapper.

mod bytes;
mod common;
mod counts;
mod definition;
mod freeing;
mod layout;
mod listing;
mod offsets;
mod opening;
mod random;
mod reading;
mod sending;
mod teaching;
mod texts;
mod times;
mod unsound;
