//! Whether a signal has asked this process to stop.
use std::ffi::c_int;
use std::sync::atomic::{AtomicBool, Ordering::SeqCst};

const ASKS: [c_int; 2] = [2, 15]; // SIGINT, as of Ctrl-C, and SIGTERM, on each Unix
const DEFAULT: usize = 0; // SIG_DFL
const IGNORED: usize = 1; // SIG_IGN

static ASKED: AtomicBool = AtomicBool::new(false);
static LISTENS: [AtomicBool; 2] = [AtomicBool::new(false), AtomicBool::new(false)]; // to each of them

extern "C" {
    /// Of the C library. It takes and returns the address of a handler, or one of the numbers above.
    fn signal(number: c_int, handler: usize) -> usize;
}

/// Stores a flag, and calls `signal`: a handler may do both.
extern "C" fn asked(_number: c_int) {
    ASKED.store(true, SeqCst);
    leave();
}

/// From now on these signals ask to stop, once. One that is ignored stays so.
pub(crate) fn listen() {
    for (number, listens) in ASKS.into_iter().zip(&LISTENS) {
        listens.store(true, SeqCst); // the handler may run before the next line
                                     // SAFETY: the handler is a function of this form, and does only what a handler may do.
        let before = unsafe { signal(number, asked as extern "C" fn(c_int) as usize) };
        if before == IGNORED {
            listens.store(false, SeqCst);
            // SAFETY: this number says that the signal is ignored.
            unsafe { signal(number, IGNORED) };
        }
    }
}

/// The next of these signals ends the process.
pub(crate) fn leave() {
    for (number, listens) in ASKS.into_iter().zip(&LISTENS) {
        if listens.swap(false, SeqCst) {
            // SAFETY: this number says that the signal has its effect.
            unsafe { signal(number, DEFAULT) };
        }
    }
}

pub(crate) fn is_asked() -> bool {
    ASKED.load(SeqCst)
}
