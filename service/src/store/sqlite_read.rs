//! Reads of the log in an SQLite file.
use super::cells::{FromRow, Row};
use super::error::DbError;
use super::reader::{LogReader, Reader, FIRST, IMAGES, LENGTHS_AFTER, LOG};
use super::rows::{image_columns, signed, LogPage, SavedImage, Space, COLUMNS, IS_EVENT, PAGE_BYTES};
use super::space::space_of;
use super::sqlite::BUSY;
use crate::disk::of;
use crate::model::{Entry, FileBytes, KeptImage};
use rusqlite::{params_from_iter, Connection, OpenFlags, OptionalExtension, Params};
use std::path::Path;
use std::time::Duration;

/// The text of a long image. An aggregate of SQLite gets its rows in the order of the subquery.
const JOINED: &str = "select group_concat(part.text, '') from (
    select text from image_part where image_part.job = image.job and image_part.seq = image.seq order by image_part.part) part";

/// A connection that only reads.
pub struct SqliteReader(Connection);

/// A connection that one thread reads an SQLite file by. It waits so long for another one.
pub fn read_only(path: &Path, busy: Duration) -> rusqlite::Result<Connection> {
    let flags = OpenFlags::SQLITE_OPEN_READ_ONLY | OpenFlags::SQLITE_OPEN_NO_MUTEX;
    let connection = Connection::open_with_flags(path, flags)?;
    connection.busy_timeout(busy)?;
    Ok(connection)
}

impl SqliteReader {
    /// Opens a database that a [`Sqlite`](super::Sqlite) has made.
    pub fn open(path: &Path) -> Result<SqliteReader, DbError> {
        read_only(path, BUSY).map(SqliteReader).map_err(DbError::unopened(path))
    }

    fn one<T: FromRow>(&self, sql: &str, given: impl Params) -> Result<Option<T>, DbError> {
        self.0.query_row(sql, given, Row::of_sqlite).optional()?.map(Row::read).transpose()
    }
}

impl LogReader for SqliteReader {
    fn log(&mut self, job: i64, after: u64, most: u32) -> Result<LogPage, DbError> {
        self.entries(LOG, &[job, signed(after), most.into()])
    }

    fn first(&mut self, job: i64) -> Result<Option<u64>, DbError> {
        Ok(self.one(FIRST, [job])?.flatten())
    }

    fn images(&mut self, job: i64) -> Result<Vec<KeptImage>, DbError> {
        self.rows(IMAGES, &[job])?.into_iter().map(Row::read).collect()
    }

    fn image(&mut self, job: i64, after: u64) -> Result<Option<SavedImage>, DbError> {
        let sql = format!("select {} from image where job = ? and seq > ? order by seq limit 1", image_columns(JOINED));
        self.one(&sql, [job, signed(after)])
    }
}

impl Reader for SqliteReader {
    fn rows(&mut self, sql: &str, given: &[i64]) -> Result<Vec<Row>, DbError> {
        Ok(self.0.prepare_cached(sql)?.query_map(params_from_iter(given), Row::of_sqlite)?.collect::<Result<_, _>>()?)
    }

    fn entries(&mut self, selected: &str, given: &[i64]) -> Result<LogPage, DbError> {
        // of the events alone: SQLite would take the primary key, and look at each call
        let index = if selected.contains(IS_EVENT) { "indexed by call_event" } else { "" };
        let mut query = self.0.prepare_cached(&format!("select {COLUMNS} from call {index} where {selected}"))?;
        let (mut page, mut bytes) = (LogPage::new(), 0);
        for row in query.query_map(params_from_iter(given), Row::of_sqlite)? {
            let entry: Entry = row?.read()?;
            bytes += entry.bytes();
            page.push(entry);
            if bytes >= PAGE_BYTES {
                break;
            }
        }
        Ok(page)
    }

    fn version(&mut self) -> Result<i64, DbError> {
        let found = self.0.pragma_query_value(None, "user_version", |row| row.get(0))?;
        let tables: i64 =
            self.0.query_row("select count(*) from sqlite_master where name = 'call'", [], |row| row.get(0))?;
        match tables {
            0 => Err(DbError::Foreign),
            _ => Ok(found),
        }
    }

    fn hold(&mut self) -> Result<(), DbError> {
        Ok(self.0.execute_batch("begin")?)
    }

    fn bytes_of(&mut self, job: i64, files: &[u64]) -> Result<Vec<FileBytes>, DbError> {
        let one = |file: &u64| self.one("select file, bytes from size where job = ? and file = ?", [job, *file as i64]);
        files.iter().filter_map(|file| one(file).transpose()).collect()
    }

    fn call_bytes(&mut self, job: i64) -> Result<Option<u64>, DbError> {
        let sql = "select cast(avg(length(line) + coalesce(length(files), 0)) as integer) from
            (select line, files from call where job = ? order by seq desc limit 100)";
        Ok(self.one::<Option<u64>>(sql, [job])?.flatten())
    }

    fn space(&mut self) -> Result<Space, DbError> {
        let path = self.0.path().ok_or(DbError::Odd("the database has no file"))?;
        space_of(path).map_err(|why| of(path)(why).into())
    }

    fn lengths(&mut self) -> Result<Vec<(i64, u64)>, DbError> {
        let last = |table| format!("coalesce((select max(seq) from {table} it where it.job = job.job), 0)");
        let sql = format!("select job, max({}, {}, 0) from job", last("call"), last("image"));
        self.rows(&sql, &[])?.into_iter().map(Row::read).collect()
    }

    fn last_moment(&mut self) -> Result<u64, DbError> {
        // a job's last row has its last moment
        let last = |table| format!("(select at from {table} it where it.job = job.job order by seq desc limit 1)");
        let sql = format!("select max(max(coalesce({}, 0), coalesce({}, 0), 0)) from job", last("call"), last("image"));
        Ok(self.one::<Option<u64>>(&sql, [])?.flatten().unwrap_or(0))
    }

    fn lengths_after(&mut self, name: &str) -> Result<Option<String>, DbError> {
        Ok(self.0.query_row(LENGTHS_AFTER, [name], |row| row.get(0)).optional()?)
    }
}
