//! Why the history can't be made or read.
use crate::store::{is_damage, DbError};
use std::path::PathBuf;
use thiserror::Error;

#[derive(Debug, Error)]
pub enum Error {
    /// What SQLite says of the history's file.
    #[error("{0}")]
    Tables(#[from] rusqlite::Error),
    /// The file can't be opened to be read.
    #[error("{}: {why}", .path.display())]
    Unopened { path: PathBuf, why: rusqlite::Error },
    /// The tables are those of no version of this program that can be read.
    #[error("its tables are not those of a history: {0}")]
    Foreign(String),
    /// The file is the database of this service or of another one.
    #[error("it is the database of a service, and no history")]
    Database,
    /// A newer program has made the tables.
    #[error("its tables have version {0}: a newer program has made them")]
    Newer(i64),
    /// The database, from which the history is made, can't be read.
    #[error("the log can't be read: {0}")]
    Unread(#[from] DbError),
    /// What the database keeps of a history is not as it was written.
    #[error("the log can't be read: {0}")]
    BadLog(String),
}

impl Error {
    /// Whether the file is of no use any more, so that the history has to be made anew. A full disk, a lock or a missing right
    /// is no damage.
    pub fn is_damage(&self) -> bool {
        match self {
            Error::Tables(error) => is_damage(error),
            Error::Foreign(_) => true,
            Error::Database | Error::Unopened { .. } | Error::Newer(_) | Error::Unread(_) | Error::BadLog(_) => false,
        }
    }
}
