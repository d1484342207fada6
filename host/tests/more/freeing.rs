//! Freeing entries and tables between calls.

use crate::common::{define, refused, update, State};
use peers::{KeyType, Refusal};

/// An established record with table `t` at place 0, and one entry.
fn one_entry() -> State {
    let mut state = State::established();
    state.accept(&[
        define(1, b"t", KeyType::Integer, 4, 4, &[]),
        update(1, b"keyt", &[5]),
    ]);
    state
}

/// A record that updated the table, whose ID is another's since.
#[test]
fn a_table_that_a_record_updated() {
    let mut state = one_entry();
    state.accept(&[define(1, b"u", KeyType::Integer, 4, 4, &[])]);
    let session = &state.session;
    assert_eq!(
        (session.bound_id(0), session.last_update(0)),
        (None, Some(1))
    );
    assert_eq!(
        (session.bound_id(1), session.last_update(1)),
        (Some(1), None)
    );
    assert!(session.uses(0) && session.uses(1) && !session.uses(2));
    assert!(state.store.free_table(0));
    assert_eq!(state.call(&[0, 4]).1 .0, refused(Refusal::Unsound));
}
