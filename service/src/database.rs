//! Where the database is: an SQLite file, or a URL of PostgreSQL.
use crate::disk::beside;
use crate::store::{DbError, PgReader, Reader, SqliteReader};
use std::net::SocketAddr;
use std::path::PathBuf;
use thiserror::Error;

/// Where the log is.
#[derive(Clone, Debug, PartialEq, Eq)]
pub enum Database {
    Sqlite(PathBuf),
    Postgres(String),
}

/// Why a text names no database. It shows nothing of what may be a password.
#[derive(Debug, PartialEq, Eq, Error)]
#[error("database: {0}; it is an SQLite file, or a URL as postgres://user@host/name")]
pub struct NoDatabase(Because);

#[derive(Debug, PartialEq, Eq, Error)]
pub enum Because {
    #[error("has a scheme that is neither postgres nor postgresql")]
    Scheme,
    #[error("begins as libpq's list of keywords does")]
    Keywords,
    #[error("is empty")]
    Empty,
}

impl Database {
    /// A connection that reads it.
    pub fn reader(&self) -> Result<Box<dyn Reader>, DbError> {
        Ok(match self {
            Database::Sqlite(path) => Box::new(SqliteReader::open(path)?),
            Database::Postgres(url) => Box::new(PgReader::open(url)?),
        })
    }

    /// A URL of PostgreSQL, or the path of an SQLite file.
    pub fn of(text: &str) -> Result<Database, NoDatabase> {
        if let Some((scheme, rest)) = text.split_once("://") {
            // libpq takes the names of its schemes in lower case alone
            return match scheme.to_ascii_lowercase().as_str() {
                scheme @ ("postgres" | "postgresql") => Ok(Database::Postgres(format!("{scheme}://{rest}"))),
                _ => Err(NoDatabase(Because::Scheme)),
            };
        }
        let is_word =
            |text: &str| !text.is_empty() && text.bytes().all(|byte| byte.is_ascii_lowercase() || byte == b'_');
        match text.split_once('=') {
            Some((word, _)) if is_word(word.trim()) => Err(NoDatabase(Because::Keywords)),
            _ if text.is_empty() => Err(NoDatabase(Because::Empty)),
            _ => Ok(Database::Sqlite(PathBuf::from(text))),
        }
    }

    /// The default place of the history: beside the database, or in the folder of the service.
    pub fn history(&self, listen: &SocketAddr) -> PathBuf {
        match self {
            Database::Sqlite(path) => beside(path, ".history"),
            Database::Postgres(_) => PathBuf::from(format!("relkvanu-{}.history", listen.port())),
        }
    }
}

#[cfg(test)]
mod tests {
    use super::*;

    #[test]
    fn a_database_is_a_file_or_a_url() {
        let file = |path: &str| Ok(Database::Sqlite(PathBuf::from(path)));
        let url = |url: &str| Ok(Database::Postgres(url.to_string()));
        assert_eq!(Database::of("relkvanu.db"), file("relkvanu.db"));
        assert_eq!(Database::of("/srv/a=b/x.db"), file("/srv/a=b/x.db"));
        assert_eq!(Database::of("./host=db"), file("./host=db"));
        assert_eq!(Database::of("postgres://u@db/x?sslmode=require"), url("postgres://u@db/x?sslmode=require"));
        assert_eq!(Database::of("PostgreSQL://U@DB/X"), url("postgresql://U@DB/X"));
        for (text, why) in [
            ("host=db dbname=x", Because::Keywords),
            ("dbname = x password=secret", Because::Keywords),
            ("mysql://u:secret@db/x", Because::Scheme),
            ("file://x.db", Because::Scheme),
            ("", Because::Empty),
        ] {
            let refused = NoDatabase(why);
            let told = refused.to_string();
            assert!(told.starts_with("database: ") && !told.contains("secret"), "{told}");
            assert_eq!(Database::of(text), Err(refused), "{text}");
        }
    }
}
