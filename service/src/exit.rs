//! How the program ends.
use crate::log;
use std::fmt::Display;
use std::process::ExitCode;

/// The exit status after which a start may succeed: systemd starts the service again.
pub const START_AGAIN: u8 = 75;
/// The exit status if somebody has to look first, because another start would end in the same way.
pub const NOT_TO_START: u8 = 78;

/// Ends the process at once, with this status.
///
/// The functions that C libraries run at an exit are not called. Another thread may be connecting to PostgreSQL just then. That loads
/// Kerberos, which aborts the process if it is finalized while a thread uses it.
pub fn now(status: u8) -> ! {
    // SAFETY: the call takes any status, reads no memory of ours and does not return.
    unsafe { libc::_exit(i32::from(status)) }
}

/// Tells what a command did, or why it did not, and how it ends.
pub fn told(done: Result<String, impl Display>) -> ExitCode {
    match done {
        Ok(text) => {
            log::info(&text);
            ExitCode::SUCCESS
        }
        Err(why) => {
            log::error(&why.to_string());
            ExitCode::FAILURE
        }
    }
}
