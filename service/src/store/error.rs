//! Why a database did not do what it was asked, and whether it may do it later.
use super::pq::Failed;
use super::rows::VERSION;
use crate::disk::FileError;
use rusqlite::ErrorCode;
use std::path::{Path, PathBuf};
use thiserror::Error;

/// What kept a database from being opened, read or written.
#[derive(Debug, Error)]
pub enum DbError {
    /// What SQLite says.
    #[error("{0}")]
    Sqlite(#[from] rusqlite::Error),
    /// What SQLite says of the file that it opens.
    #[error("{}: {why}", .path.display())]
    Unopened { path: PathBuf, why: rusqlite::Error },
    /// What the system says of a file of the database.
    #[error(transparent)]
    File(#[from] FileError),
    /// Another program has replaced or locked a file, or the folder can't have a write-ahead log.
    #[error("{}: {why}", .path.display())]
    Unfit { path: PathBuf, why: String },
    /// What PostgreSQL or libpq says.
    #[error("{0}")]
    Pg(#[from] Failed),
    /// The database can lose what it committed.
    #[error("fsync is off in this database, so that it can lose what it committed")]
    NoSync,
    #[error("these are no tables of a service")]
    Foreign,
    /// The database answered something else than the statement asks for.
    #[error("{0}")]
    Odd(&'static str),
    #[error("another process leads, the lease of this one has ended")]
    NotLeading,
    /// A row is not as this program writes it.
    #[error("a row of {table} has {cell} in column {column}")]
    BadRow {
        /// The job whose row it is, if the row names it.
        job: Option<i64>,
        table: &'static str,
        column: usize,
        cell: String,
    },
}

impl DbError {
    /// Whether what the database has is damaged, so that a later read fails in the same way.
    pub fn is_damage(&self) -> bool {
        match self {
            DbError::BadRow { .. } | DbError::Foreign => true,
            DbError::Sqlite(why) | DbError::Unopened { why, .. } => is_damage(why),
            // data_corrupted and index_corrupted
            DbError::Pg(failed) => matches!(failed.state.as_deref(), Some("XX001" | "XX002")),
            DbError::File(_) | DbError::Unfit { .. } | DbError::NoSync => false,
            DbError::Odd(_) | DbError::NotLeading => false,
        }
    }

    /// The job whose row is bad: the rows of other jobs can be read.
    pub fn bad_job(&self) -> Option<i64> {
        match self {
            DbError::BadRow { job, .. } => *job,
            _ => None,
        }
    }

    /// The same of a read of this job alone.
    pub fn of_job(self, number: i64) -> DbError {
        match self {
            DbError::BadRow { table, column, cell, .. } => DbError::BadRow { job: Some(number), table, column, cell },
            other => other,
        }
    }

    pub fn unopened(path: &Path) -> impl Fn(rusqlite::Error) -> DbError + '_ {
        |why| DbError::Unopened { path: path.to_path_buf(), why }
    }
}

/// Whether SQLite's error is one of the file's content. A full disk, a lock or a missing right is no damage.
pub fn is_damage(error: &rusqlite::Error) -> bool {
    match error {
        rusqlite::Error::FromSqlConversionFailure(..) | rusqlite::Error::InvalidColumnType(..) => true,
        _ => matches!(error.sqlite_error_code(), Some(ErrorCode::DatabaseCorrupt | ErrorCode::NotADatabase)),
    }
}

/// Why a start can't use a database.
#[derive(Debug, Error)]
pub enum Unusable {
    /// A newer program made its tables, so no start of this program can read them.
    #[error(
        "the tables of the database have version {0}, and this program knows those up to {VERSION}: run the program that made them, or a newer one"
    )]
    Newer(i64),
    /// A later start may succeed, unless it is damaged.
    #[error("database: {0}")]
    Failed(DbError),
}

impl<E: Into<DbError>> From<E> for Unusable {
    fn from(error: E) -> Unusable {
        Unusable::Failed(error.into())
    }
}

impl Unusable {
    /// Whether a later start may succeed, without anybody's doing.
    pub fn may_pass(&self) -> bool {
        match self {
            Unusable::Newer(_) => false,
            Unusable::Failed(error) => !error.is_damage(),
        }
    }

    /// Refuses tables of a newer version.
    pub fn check(found: i64) -> Result<(), Unusable> {
        match found {
            _ if found > VERSION as i64 => Err(Unusable::Newer(found)),
            _ => Ok(()),
        }
    }
}

/// Why a group was not committed.
#[derive(Debug, Error)]
pub enum Failure {
    /// Certainly rolled back: the same group may be written again.
    #[error("{0}")]
    Again(DbError),
    /// Certainly rolled back, and it is too large ever to be written.
    #[error("{0}")]
    TooLarge(DbError),
    /// It may or may not have been committed, or this process no longer leads. The process ends, and its next start reads
    /// what was committed.
    #[error("{0}")]
    Lost(DbError),
}
