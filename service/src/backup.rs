//! `relkvanu backup`: copies a database while a service commits to it.
use crate::cli::{self, Ended};
use crate::config::{database_of, BadConfig};
use crate::database::{Database, NoDatabase};
use crate::disk::{beside, of, private, sync_folder, FileError};
use crate::exit;
use crate::nightly;
use crate::store::read_only;
use rusqlite::Connection;
use std::fs::{self, File};
use std::path::{Path, PathBuf};
use std::process::{Command, ExitCode, Stdio};
use std::time::{Duration, Instant};
use thiserror::Error;

const BUSY: Duration = Duration::from_secs(10);

/// Why there is no copy.
#[derive(Debug, Error)]
pub enum NoBackup {
    #[error(transparent)]
    Database(#[from] NoDatabase),
    #[error(transparent)]
    Config(#[from] BadConfig),
    #[error(transparent)]
    Service(#[from] Ended),
    #[error("pg_dump: {0}")]
    Dump(String),
    #[error("{0} is made, and not all that goes with it: {1}")]
    NotAll(String, String),
    #[error("{} is there already", .0.display())]
    Exists(PathBuf),
    #[error("{}: another backup writes it", .0.display())]
    Busy(PathBuf),
    #[error("{}: the name is no UTF-8", .0.display())]
    Name(PathBuf),
    #[error("{} is no database of a service", .0.display())]
    Foreign(PathBuf),
    #[error(transparent)]
    File(#[from] FileError),
    /// What SQLite says of the database.
    #[error("{}: {why}", .path.display())]
    Source { path: PathBuf, why: rusqlite::Error },
    #[error("the copy can't be read: {0}")]
    Unread(rusqlite::Error),
    #[error("the copy has tables of version {version}, and its check says {check:?}")]
    Differs { version: i64, check: String },
}

pub fn run(given: &cli::Backup) -> ExitCode {
    let started = Instant::now();
    exit::told(match made(given) {
        Ok(bytes) => {
            Ok(format!("backup {} bytes={bytes} took_ms={}", given.to.display(), started.elapsed().as_millis()))
        }
        Err(why @ NoBackup::NotAll(..)) => Err(why.to_string()),
        Err(why) => Err(format!("there is no backup: {why}")),
    })
}

fn made(given: &cli::Backup) -> Result<u64, NoBackup> {
    let database = given.config.as_deref().map_or_else(|| Ok(Database::of(&given.database)?), database_of)?;
    given.keep.map_or_else(|| copy(&database, &given.to), |keep| nightly::run(given, &database, keep))
}

/// Makes the copy under another name, and renames it once it is whole and on the disk. Returns its length.
pub fn copy(database: &Database, to: &Path) -> Result<u64, NoBackup> {
    if to.exists() {
        return Err(NoBackup::Exists(to.to_path_buf()));
    }
    let unfinished = Unfinished::new(to)?;
    let filled = match database {
        Database::Sqlite(path) => unfinished.fill(path),
        Database::Postgres(url) => unfinished.dump(url),
    };
    filled.and_then(|()| unfinished.finish(to)).inspect_err(|_| {
        // what it was is in the error that is returned
        let _ = fs::remove_file(&unfinished.path);
    })
}

fn version(connection: &Connection) -> rusqlite::Result<i64> {
    connection.pragma_query_value(None, "user_version", |row| row.get(0))
}

/// A copy that is not whole yet. One process at a time writes it. One that was left by a process that was killed is begun anew.
struct Unfinished {
    path: PathBuf,
    file: File,
}

impl Unfinished {
    fn new(copy: &Path) -> Result<Unfinished, NoBackup> {
        let path = beside(copy, ".part");
        let file = private().open(&path).map_err(of(&path))?;
        file.try_lock().map_err(|_| NoBackup::Busy(path.clone()))?;
        file.set_len(0).map_err(of(&path))?;
        Ok(Unfinished { path, file })
    }

    fn name(&self) -> Result<&str, NoBackup> {
        self.path.to_str().ok_or_else(|| NoBackup::Name(self.path.clone()))
    }

    fn fill(&self, database: &Path) -> Result<(), NoBackup> {
        let failed = |why: rusqlite::Error| NoBackup::Source { path: database.to_path_buf(), why };
        let source = read_only(database, BUSY).map_err(failed)?;
        let version = version(&source).map_err(failed)?;
        if version == 0 {
            return Err(NoBackup::Foreign(database.to_path_buf()));
        }
        source.execute("vacuum into ?", [self.name()?]).map_err(failed)?;
        self.check(version)
    }

    fn dump(&self, url: &str) -> Result<(), NoBackup> {
        let words = ["--format=custom", "--no-password", "--file", self.name()?, url];
        let told = Command::new("pg_dump").args(words).stdin(Stdio::null()).output();
        match told {
            Err(why) => Err(NoBackup::Dump(why.to_string())),
            Ok(told) if told.status.success() => Ok(()),
            Ok(told) => Err(NoBackup::Dump(String::from_utf8_lossy(&told.stderr).trim().to_string())),
        }
    }

    /// Reads all of the copy.
    fn check(&self, version_of_source: i64) -> Result<(), NoBackup> {
        let copy = read_only(&self.path, BUSY).map_err(NoBackup::Unread)?;
        let check: String = copy.query_row("pragma quick_check(1)", [], |row| row.get(0)).map_err(NoBackup::Unread)?;
        match version(&copy).map_err(NoBackup::Unread)? {
            version if check == "ok" && version == version_of_source => Ok(()),
            version => Err(NoBackup::Differs { version, check }),
        }
    }

    fn finish(&self, copy: &Path) -> Result<u64, NoBackup> {
        self.file.sync_all().and_then(|()| fs::rename(&self.path, copy)).map_err(of(copy))?;
        sync_folder(copy)?;
        Ok(self.file.metadata().map_err(of(copy))?.len())
    }
}
