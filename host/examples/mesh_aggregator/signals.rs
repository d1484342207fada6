//! SIGTERM, SIGINT and SIGHUP, by the C library's `signal`.

use std::sync::atomic::{AtomicBool, Ordering};

static ENDED: AtomicBool = AtomicBool::new(false);

const SIGHUP: i32 = 1;
const SIGINT: i32 = 2;
const SIGTERM: i32 = 15;
const SIG_DFL: usize = 0;

extern "C" {
    fn signal(number: i32, handler: usize) -> usize;
}

extern "C" fn end(_number: i32) {
    ENDED.store(true, Ordering::SeqCst);
}

/// From now on the three signals are noted, and end nothing by themselves.
pub fn catch() {
    handle(end as extern "C" fn(i32) as usize);
}

/// From now on they end the program at once, as by default.
pub fn release() {
    handle(SIG_DFL);
}

fn handle(handler: usize) {
    // SAFETY: the handler is the default one, or `end`, which only sets a flag: that is allowed at any moment.
    unsafe {
        signal(SIGHUP, handler);
        signal(SIGINT, handler);
        signal(SIGTERM, handler);
    }
}

/// Whether one of them came.
pub fn ended() -> bool {
    ENDED.load(Ordering::SeqCst)
}
