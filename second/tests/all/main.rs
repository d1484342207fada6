//! The tests, in one program.

mod broken;
mod calls;
mod common;
mod counts;
mod data;
mod generator;
mod handshake;
mod ill_named;
mod integer;
mod listing;
mod long;
mod messages;
mod offsets;
mod passing;
mod replay;
mod sending;
mod sends;
mod sound;
mod tables;
mod teaching;
mod times;
mod updates;
mod walk;
