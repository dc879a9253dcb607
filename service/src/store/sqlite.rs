//! The log in one SQLite file: a write-ahead log, synced at each commit.
use super::cells::Row;
use super::error::{DbError, Failure, Unusable};
use super::files::{self, Opened};
use super::many::{self, Cell};
use super::parts::{self, Part, Statement, Take};
use super::rows::{
    signed, steps_after, Committed, Erasure, Group, Lead, Store, UnderKey, Written, MOST_STARTS, STORAGES, VERSION,
};
use crate::disk::{beside, of, sync_folder};
use crate::model::lengths_text;
use rusqlite::config::DbConfig;
use rusqlite::{ffi, params, params_from_iter, Connection, ErrorCode, OptionalExtension, Transaction};
use std::fs::File;
use std::path::Path;
use std::time::{Duration, Instant};

/// What makes each version of the tables from the one before.
const STEPS: [&str; VERSION] =
    [concat!(include_str!("../../sql/tables.sql"), include_str!("../../sql/sqlite.sql")), STORAGES];
pub const BUSY: Duration = Duration::from_secs(2);
/// How long a start waits for readers of another program.
const SETTLE_FOR: Duration = Duration::from_secs(10);
/// Deletes the parts of images that were not written whole.
const FORGET_PARTS: &str = "delete from image_part
    where not exists (select 1 from image where image.job = image_part.job and image.seq = image_part.seq)";
/// Pages of the write-ahead log after which a commit brings it into the file, as SQLite has it by itself.
const CHECKPOINT_PAGES: i64 = 1000;
/// No lease has to be renewed: this only bounds how long the writer sleeps.
const BEAT: Duration = Duration::from_secs(5);

/// How many prepared statements are kept.
const STATEMENTS: usize = 96;

/// SQLite counts no memory that it takes: else each request of one thread for some waits for those of the others. To be called before
/// SQLite is used.
pub fn count_no_memory() {
    // SAFETY: SQLite is not used yet, and takes an int for this option.
    unsafe { ffi::sqlite3_config(ffi::SQLITE_CONFIG_MEMSTATUS, 0) };
}

/// Deleted bytes are overwritten where a page is written anyway. Debian's default also writes each page that becomes free.
pub const ERASE: (&str, &str) = ("secure_delete", "fast");

/// The writer's connection, and the lock file that keeps other processes out.
pub struct Sqlite {
    connection: Connection,
    /// Whether the connection may not sync its commits now.
    is_lax: bool,
    opened: Opened,
    _lock: File,
}

impl Sqlite {
    /// Opens the database, and makes or upgrades its tables if its version says so. What is committed is then in the database's own file.
    pub fn open(path: &Path) -> Result<Sqlite, Unusable> {
        let (unread, failed) = (of(path), DbError::unopened(path));
        let real = files::make_file(path).map_err(&unread)?;
        let lock = locked(&real)?;
        files::write_again(&beside(&real, "-wal")).map_err(&unread)?;
        let connection = Connection::open(&real).map_err(&failed)?;
        // after a failure the log stays as it is until the next start
        connection.set_db_config(DbConfig::SQLITE_DBCONFIG_NO_CKPT_ON_CLOSE, true).map_err(&failed)?;
        let found = connection.pragma_query_value(None, "user_version", |row| row.get(0)).map_err(&failed)?;
        Unusable::check(found)?;
        let mode = set_commits(&connection).map_err(&failed)?;
        upgrade(&connection, found, &STEPS).map_err(&failed)?;
        has_log(path, &mode)?;
        // the commit of this start is in the write-ahead log, if there is one: the journal's mode may say so and not be it
        let opened = Opened::now(&real)?;
        settle(&connection).map_err(&failed)?;
        sync_folder(&real)?;
        Ok(Sqlite { connection, is_lax: false, opened, _lock: lock })
    }
}

impl Sqlite {
    /// Deletes in one transaction, and waits for no sync: what comes back after a loss of power is deleted again. The next commit syncs this
    /// one too, and fails if it can't. So nothing else may sync it: a checkpoint of SQLite's own would not tell that it failed.
    fn without_sync<T>(&mut self, work: impl FnOnce(&Connection) -> rusqlite::Result<T>) -> Result<T, DbError> {
        self.is_lax = true;
        self.connection.pragma_update(None, "wal_autocheckpoint", 0)?;
        self.connection.pragma_update(None, "synchronous", "normal")?;
        let worked = self.connection.transaction().and_then(|within| {
            let done = work(&within)?;
            within.commit().map(|()| done)
        });
        // if memory runs out here, the next commit does it
        let _ = self.sync_again();
        Ok(worked?)
    }

    /// From now on each commit is synced.
    fn sync_again(&mut self) -> rusqlite::Result<()> {
        if self.is_lax {
            self.connection.pragma_update(None, "synchronous", "full")?;
            self.connection.pragma_update(None, "wal_autocheckpoint", CHECKPOINT_PAGES)?;
            self.is_lax = false;
        }
        Ok(())
    }
}

/// Sets how the database commits. Returns the journal's mode.
pub(super) fn set_commits(connection: &Connection) -> rusqlite::Result<String> {
    connection.busy_timeout(BUSY)?;
    connection.set_prepared_statement_cache_capacity(STATEMENTS);
    let mode = connection.pragma_update_and_check(None, "journal_mode", "wal", |row| row.get(0))?;
    connection.pragma_update(None, "synchronous", "full")?;
    connection.pragma_update_and_check(None, ERASE.0, ERASE.1, |_| Ok(()))?;
    Ok(mode)
}

/// Writes the version of the tables, of which each has a step. If they have an earlier one, makes or upgrades them.
pub(super) fn upgrade(connection: &Connection, found: i64, steps: &[&str]) -> rusqlite::Result<()> {
    let version = steps.len();
    let steps = steps_after(found, steps).concat();
    connection.execute_batch(&format!("begin immediate; {steps} pragma user_version = {version}; commit"))
}

/// Refuses a journal that is no write-ahead log.
pub(super) fn has_log(path: &Path, mode: &str) -> Result<(), DbError> {
    if mode == "wal" {
        return Ok(());
    }
    let why = format!("its journal mode is {mode}, since there can be no write-ahead log here");
    Err(DbError::Unfit { path: path.to_path_buf(), why })
}

/// Brings the write-ahead log into the database's file, and empties it. Fails if another program reads the database for long.
pub(super) fn settle(connection: &Connection) -> rusqlite::Result<()> {
    let until = Instant::now() + SETTLE_FOR;
    loop {
        let busy: i64 = connection.query_row("pragma wal_checkpoint(truncate)", [], |row| row.get(0))?;
        if busy == 0 {
            return Ok(());
        }
        if Instant::now() > until {
            let why = "another program reads the database, so its write-ahead log can't be emptied".to_string();
            return Err(rusqlite::Error::SqliteFailure(ffi::Error::new(ffi::SQLITE_BUSY), Some(why)));
        }
    }
}

/// Takes the lock file beside the database. The system releases it when the process ends.
pub fn locked(path: &Path) -> Result<File, DbError> {
    let name = beside(path, ".lock");
    let file = File::create(&name).map_err(of(&name))?;
    match file.try_lock() {
        Ok(()) => Ok(file),
        Err(_) => Err(DbError::Unfit { path: name, why: "another process serves this database".to_string() }),
    }
}

impl Store for Sqlite {
    fn lead(&mut self) -> Result<Lead, DbError> {
        Ok(Lead::Here { epoch: 1 })
    }

    fn begin(&mut self, name: &str, lengths: &[(i64, u64)]) -> Result<(), DbError> {
        self.sync_again()?;
        let transaction = self.connection.transaction()?;
        transaction.execute("insert into log_start(name, lengths) values(?, ?)", [name, &lengths_text(lengths)])?;
        let old = "delete from log_start where number <= (select max(number) from log_start) - ?";
        transaction.execute(old, [MOST_STARTS])?;
        transaction.execute(FORGET_PARTS, [])?;
        Ok(transaction.commit()?)
    }

    fn commit(&mut self, group: &Group) -> Written {
        // nobody else can lead, so each commit renews what needs no renewal
        let committed = Committed { renews: true };
        if group.is_empty() {
            return Ok(committed);
        }
        self.sync_again().and_then(|()| write(&mut self.connection, group)).map_err(failure)?;
        self.opened.check().map_err(Failure::Lost)?;
        Ok(committed)
    }

    fn keyed(&mut self, keys: &[(i64, String)]) -> Result<Vec<UnderKey>, DbError> {
        let sql = "select job, key, at, digest, answers from request where job = ? and key = ?";
        let mut query = self.connection.prepare_cached(sql)?;
        let mut found = Vec::new();
        for (job, key) in keys {
            let row = query.query_row(params![job, key], Row::of_sqlite).optional()?;
            found.extend(row.map(Row::read).transpose()?);
        }
        Ok(found)
    }

    fn erase(&mut self, statements: &[Erasure]) -> Result<bool, DbError> {
        self.without_sync(|within| {
            for Erasure { sql, given, most } in statements {
                if within.execute(sql, params_from_iter(given))? as u64 == *most {
                    return Ok(true);
                }
            }
            Ok(false)
        })
    }

    fn note(&mut self, at: u64) -> Result<(), Failure> {
        let sql = "insert into clock values(1, ?) on conflict (one) do update set at = excluded.at";
        self.connection.execute(sql, [signed(at)]).map(|_| ()).map_err(failure)
    }

    fn beat(&self) -> Duration {
        BEAT
    }

    fn lease(&self) -> Option<Duration> {
        None
    }

    fn release(&mut self) {}
}

/// What a failed transaction means. After a sync that failed it is not known what the write-ahead log has: this process neither goes on
/// nor closes the database, which would bring the log into it. A quota that is used up is an error of a write.
fn failure(error: rusqlite::Error) -> Failure {
    let is_write = error.sqlite_error().is_some_and(|it| it.extended_code == ffi::SQLITE_IOERR_WRITE);
    let code = error.sqlite_error_code();
    let error = DbError::from(error);
    match code {
        _ if is_write => Failure::Again(error),
        Some(ErrorCode::DiskFull | ErrorCode::DatabaseBusy | ErrorCode::DatabaseLocked | ErrorCode::OutOfMemory) => {
            Failure::Again(error)
        }
        Some(ErrorCode::TooBig) => Failure::TooLarge(error),
        _ => Failure::Lost(error),
    }
}

/// One transaction. It is rolled back if this returns an error.
fn write(connection: &mut Connection, group: &Group) -> rusqlite::Result<()> {
    let mut within = connection.transaction()?;
    parts::write(group, &mut within)?;
    within.commit()
}

impl Take for Transaction<'_> {
    type Error = rusqlite::Error;

    fn take<'a, T, const N: usize>(
        &mut self,
        part: &'static Part,
        rows: impl ExactSizeIterator<Item = T> + Clone,
        cells: impl Fn(T) -> [Cell<'a>; N],
    ) -> rusqlite::Result<()> {
        if rows.len() == 0 {
            return Ok(());
        }
        part.statements.iter().try_for_each(|statement| match statement {
            Statement::Counted(table) => many::insert(self, &format!("insert into {table}"), "", rows.clone(), &cells),
            Statement::Insert(table, then) => {
                many::insert(self, &format!("insert into {table}"), then, rows.clone(), &cells)
            }
            Statement::Each(text) => many::each(self, &over_one(text), rows.clone(), &cells),
        })
    }
}

/// The statement over one row, whose cells are parameters.
fn over_one(text: &str) -> String {
    let text = ["{u}, ", " using {u}", " from {u}"].iter().fold(text.to_string(), |text, rows| text.replace(rows, ""));
    [("u.a", "?1"), ("u.b", "?2"), ("u.c", "?3")].iter().fold(text, |text, (cell, it)| text.replace(cell, it))
}

#[cfg(test)]
mod tests {
    use super::*;

    /// What need not be synced leaves no commit after it without a sync, also if it failed.
    #[test]
    fn commits_are_synced_again() -> Result<(), Box<dyn std::error::Error>> {
        let folder = std::env::temp_dir().join(format!("relkvanu-sqlite-{}", std::process::id()));
        std::fs::create_dir(&folder)?;
        let mut sqlite = Sqlite::open(&folder.join("it.db")).map_err(|why| why.to_string())?;
        // how commits are synced, and after how many pages one brings the log into the file
        let level = |of: &Connection| -> rusqlite::Result<(i64, i64)> {
            let told = |name| of.pragma_query_value(None, name, |row| row.get(0));
            Ok((told("synchronous")?, told("wal_autocheckpoint")?))
        };
        assert_eq!(level(&sqlite.connection)?, (2, 1000));
        assert_eq!((sqlite.without_sync(level)?, level(&sqlite.connection)?), ((1, 0), (2, 1000)));
        assert!(sqlite.without_sync(|within| within.execute("delete from nothing", [])).is_err());
        assert_eq!((level(&sqlite.connection)?, sqlite.is_lax), ((2, 1000), false));
        // as if memory had run out before it was set again
        sqlite.connection.pragma_update(None, "synchronous", "normal")?;
        sqlite.is_lax = true;
        let gone = vec![super::super::rows::GoneJob { job: 7, name: "a".to_string(), at: 1 }];
        sqlite.commit(&Group { gone, ..Group::default() }).map_err(|why| why.to_string())?;
        assert_eq!((level(&sqlite.connection)?, sqlite.is_lax), ((2, 1000), false));
        drop(sqlite);
        Ok(std::fs::remove_dir_all(&folder)?)
    }

    /// A later version, which is made up, upgrades tables with what they have, and this program then refuses them.
    #[test]
    fn tables_are_upgraded() -> rusqlite::Result<()> {
        let base = Connection::open_in_memory()?;
        let version = || base.pragma_query_value(None, "user_version", |row| row.get::<_, i64>(0));
        upgrade(&base, 0, &STEPS[..1])?;
        assert_eq!(version()?, 1);
        base.execute("insert into call values(7, 1, 30, null, 'tick 30', 2, 0, 0, null, null, 0)", [])?;
        let made_up = "alter table call add column made_up integer not null default 9; create table made_up(x);";
        let later = [STEPS[0], STEPS[1], made_up];
        for (found, wanted) in [(1, 3), (3, 3)] {
            upgrade(&base, found, &later)?;
            let row: (i64, String, i64) =
                base.query_row("select job, line, made_up from call", [], |row| row.try_into())?;
            assert_eq!((row, version()?), ((7, "tick 30".to_string(), 9), wanted));
        }
        assert!(matches!(Unusable::check(3), Err(Unusable::Newer(3))));
        // a step that fails leaves what there was
        let broken = [STEPS[0], "alter table call add column more integer; create table job(x);"];
        base.pragma_update(None, "user_version", 1)?;
        assert!(upgrade(&base, 1, &broken).is_err());
        base.execute_batch("rollback")?;
        let columns: i64 = base.query_row("select count(*) from pragma_table_info('call')", [], |row| row.get(0))?;
        assert_eq!((columns, version()?), (12, 1));
        Ok(())
    }
}
