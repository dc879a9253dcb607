//! Asks systemd for patience while a start opens the database: to make the indexes of an upgrade may take minutes, and before that the
//! service is not ready.
use crate::process;
use sd_notify::NotifyState;
use std::sync::mpsc::{channel, RecvTimeoutError, Sender};
use std::time::Duration;

/// How much longer the start may take from each report on, in microseconds.
const LONGER: u32 = 30_000_000;
const REPORT_EACH: Duration = Duration::from_secs(5);

/// As long as it lives, systemd does not end the start for want of time.
pub struct Starting {
    _held: Sender<()>,
}

impl Starting {
    pub fn begin() -> Starting {
        let (held, over) = channel::<()>();
        process::thread("starting", move || loop {
            // without systemd there is nothing to report to
            let _ = sd_notify::notify(false, &[NotifyState::ExtendTimeoutUsec(LONGER)]);
            if over.recv_timeout(REPORT_EACH) != Err(RecvTimeoutError::Timeout) {
                return;
            }
        });
        Starting { _held: held }
    }
}
