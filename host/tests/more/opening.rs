//! Opening in either role.

use crate::common::FILL;
use peers::{ffi, OPENING_ROOM};

/// Room that is too short, and more than is needed.
#[test]
fn other_rooms() {
    for len in [0, 100, 103] {
        let mut room = vec![FILL; len];
        let number = if len < OPENING_ROOM { 1 } else { 256 };
        let answerer = ffi::open_answerer(b"east", b"west", &mut room);
        assert_eq!(answerer.outcome.number, number);
        assert!(room.iter().all(|&byte| byte == FILL));
        let caller = ffi::open_caller(b"east", b"west", 7, 0, &mut room);
        let hello = caller.outcome.reply_len;
        assert_eq!((caller.outcome.number, hello > 0), (number, number == 256));
        assert!(room[hello..].iter().all(|&byte| byte == FILL));
    }
}
