//! Sizes and offsets are those of `layout.txt`, which the C test reads too. No struct has padding: its size is the sum of its fields'.

use peers::layout::{Binding, Connection, Entry, Opened, Outcome, Session, Store, Table};
use peers::layout::{Sending, Sent};
use std::fmt::Write;
use std::mem::{align_of, offset_of, size_of};

/// The size of the field that a function gives.
fn size_of_field<S, F>(_: fn(&S) -> &F) -> usize {
    size_of::<F>()
}

macro_rules! describe {
    ($text:ident, $name:literal, $type:ty: $($field:ident)*) => {
        writeln!($text, "{} {} {}", $name, size_of::<$type>(), align_of::<$type>()).unwrap();
        $(writeln!($text, "{}.{} {}", $name, stringify!($field), offset_of!($type, $field)).unwrap();)*
        let fields = [$(size_of_field(|s: &$type| &s.$field)),*];
        assert_eq!(fields.iter().sum::<usize>(), size_of::<$type>(), "padding in {}", $name);
    };
}

#[test]
fn sizes_and_offsets() {
    let mut text = String::new();
    describe!(text, "table", Table: held key_type timed data_types name_len key_len expiry periods name);
    describe!(text, "entry", Entry: held server_id timed remaining table key_len key values);
    describe!(text, "store", Store: tables counts entries);
    describe!(text, "binding", Binding: bound updated id previous);
    describe!(text, "connection", Connection: phase closed number current local_len remote_len local remote bindings);
    describe!(text, "sending", Sending: defined sent last);
    describe!(text, "session", Session: connection len buffer sending);
    describe!(text, "outcome", Outcome: taken reply_len number count values);
    describe!(text, "opened", Opened: session outcome);
    describe!(text, "sent", Sent: number len);
    assert_eq!(text, include_str!("../../layout.txt"));
}
