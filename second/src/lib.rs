//! A receiver of one peer session (peers 2.1) for comparison with another one.
//!
//! The byte model in [`model`] is the centre: it is fed one byte at a time.
//! The reading call in [`call`] is built on it.

#![forbid(unsafe_code)]
#![deny(missing_docs)]

pub mod answer;
pub mod body;
pub mod call;
pub mod check;
pub mod compare;
pub mod data;
pub mod datatype;
pub mod fields;
pub mod frame;
pub mod generate;
pub mod handshake;
pub mod integer;
pub mod listing;
pub mod long;
pub mod message;
pub mod model;
pub mod record;
pub mod refusal;
pub mod replay;
pub mod send;
pub mod sound;
pub mod store;
