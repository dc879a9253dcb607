//! Why `relkvanu serve` ends, and whether it helps to start it again.
use crate::auth::NoTokens;
use crate::config::BadConfig;
use crate::exit::{NOT_TO_START, START_AGAIN};
use crate::http::NoTls;
use crate::model::FarAhead;
use crate::store::{DbError, Failure, Unusable};
use crate::writer::StartError;
use std::io;
use std::net::SocketAddr;
use thiserror::Error;

#[derive(Debug, Error)]
pub enum Stop {
    #[error(transparent)]
    Config(#[from] BadConfig),
    #[error(transparent)]
    Tokens(#[from] NoTokens),
    #[error(transparent)]
    Tls(#[from] NoTls),
    #[error(transparent)]
    Clock(#[from] FarAhead),
    #[error(transparent)]
    Metrics(#[from] prometheus::Error),
    /// Another process may listen there now, and not later.
    #[error("listen {address}: {why}")]
    Listen { address: SocketAddr, why: io::Error },
    /// The system has no thread or no socket left.
    #[error(transparent)]
    System(#[from] io::Error),
    #[error(transparent)]
    Unusable(#[from] Unusable),
    #[error(transparent)]
    Database(#[from] DbError),
    #[error(transparent)]
    Start(#[from] StartError),
    /// The lease could not be renewed.
    #[error(transparent)]
    Lease(#[from] Failure),
}

impl Stop {
    /// The exit status.
    pub fn status(&self) -> u8 {
        if self.may_pass() {
            START_AGAIN
        } else {
            NOT_TO_START
        }
    }

    /// Whether another start may succeed, without anybody's doing.
    fn may_pass(&self) -> bool {
        match self {
            Stop::Config(_) | Stop::Tokens(_) | Stop::Tls(_) | Stop::Clock(_) | Stop::Metrics(_) => false,
            Stop::Listen { .. } | Stop::System(_) | Stop::Lease(_) => true,
            Stop::Unusable(error) => error.may_pass(),
            Stop::Database(error) => !error.is_damage(),
            Stop::Start(error) => error.may_pass(),
        }
    }
}

#[cfg(test)]
mod tests {
    use super::*;

    #[test]
    fn damage_stays_and_want_passes() {
        let bad_row = || DbError::BadRow { job: None, table: "job", column: 3, cell: "nothing".to_string() };
        let no_room = || {
            DbError::from(rusqlite::Error::SqliteFailure(rusqlite::ffi::Error::new(rusqlite::ffi::SQLITE_FULL), None))
        };
        let no_memory = || StartError::NoMemory { job: "orders".to_string(), seq: 7 };
        let damaged = || StartError::Damaged { job: "orders".to_string(), seq: 7, why: "it is no call".to_string() };
        let cases: [(Stop, u8); 9] = [
            (bad_row().into(), NOT_TO_START),
            (StartError::from(bad_row()).into(), NOT_TO_START),
            (Unusable::from(bad_row()).into(), NOT_TO_START),
            (Unusable::Newer(99).into(), NOT_TO_START),
            (damaged().into(), NOT_TO_START),
            (no_room().into(), START_AGAIN),
            (StartError::from(no_room()).into(), START_AGAIN),
            (no_memory().into(), START_AGAIN),
            (Failure::Lost(DbError::NotLeading).into(), START_AGAIN),
        ];
        for (stop, status) in cases {
            assert_eq!(stop.status(), status, "{stop}");
        }
    }
}
