//! Reads of the history.
use super::error::Error;
use super::tables::bits;
use crate::model::Entry;
use crate::store::{entry_of, read_only, BUSY};
use rusqlite::{params, Connection, OptionalExtension, Params, Row};
use serde::{Deserialize, Serialize};
use std::collections::HashSet;
use std::path::Path;

pub const RECORD: &str =
    "id, kind, shape, started, finished, how, gone, why, first_ack, last_ack, slowest, acks, missing, fresh_bytes, full_bytes,
    median, p99, bytes, millis, reason";
const FILE: &str = "file, born, released, taken, deleted, bytes";

/// The history of a record. Moments are milliseconds of Unix time.
#[derive(Serialize, Deserialize, Debug)]
pub struct RecordRow {
    pub id: i64,
    pub kind: String,
    pub shape: Vec<u64>,
    pub started: i64,
    /// When it stopped being pending, and how.
    pub finished: Option<i64>,
    pub how: String,
    /// When it stopped being live, and why.
    pub gone: Option<i64>,
    pub why: Option<String>,
    pub first_ack: Option<i64>,
    pub last_ack: Option<i64>,
    /// The subtask of the last acknowledgement.
    pub slowest: Option<String>,
    pub acks: i64,
    /// The subtasks that were missing when it ended, at most 32 of them.
    pub missing: Vec<String>,
    /// How many more were missing.
    pub more_missing: u64,
    /// The bytes of its new files, and of all files that its acknowledgements name.
    pub fresh_bytes: Option<i64>,
    pub full_bytes: Option<i64>,
    /// Of its acknowledgements that the log had: the lower median of their milliseconds from the trigger on, and the 99th of 100 by rank.
    #[serde(default)]
    pub median: Option<i64>,
    #[serde(default)]
    pub p99: Option<i64>,
    /// What its tasks told of their snapshots: the sum of the bytes, and the greatest milliseconds.
    #[serde(default)]
    pub bytes: Option<i64>,
    #[serde(default)]
    pub millis: Option<i64>,
    /// Of its decline.
    #[serde(default)]
    pub reason: Option<String>,
}

/// The history of a file, as places in the log.
#[derive(Serialize, Debug)]
pub struct FileRow {
    pub file: String,
    pub born: Option<u64>,
    pub released: Option<u64>,
    pub taken: Option<u64>,
    pub deleted: Option<u64>,
    pub bytes: Option<u64>,
}

#[derive(Serialize, Debug)]
pub struct Sample {
    pub at: i64,
    pub in_use: i64,
    pub waiting: i64,
    pub taken: i64,
    pub pending: i64,
}

/// Which records are looked for: all, or those that ended in one way, or of one kind.
#[derive(Clone, Copy, Default)]
pub struct Search {
    pub how: Option<&'static str>,
    pub kind: Option<&'static str>,
}

impl Search {
    pub const HOWS: [&'static str; 8] =
        ["pending", "completed", "expired", "declined", "subsumed", "failed over", "restored", "cancelled"];
    pub const KINDS: [&'static str; 2] = ["checkpoint", "savepoint"];
}

impl RecordRow {
    /// The missing subtasks as the tables have them.
    pub fn missing_words(&self) -> Option<String> {
        let more = (self.more_missing > 0).then(|| format!("+{}", self.more_missing));
        let words: Vec<String> = self.missing.iter().cloned().chain(more).collect();
        (!words.is_empty()).then(|| words.join(" "))
    }
}

impl FileRow {
    fn unknown(file: u64) -> FileRow {
        FileRow { file: file.to_string(), born: None, released: None, taken: None, deleted: None, bytes: None }
    }

    /// The places of the calls that it names.
    pub fn places(&self) -> Vec<u64> {
        [self.born, self.released, self.taken, self.deleted].into_iter().flatten().collect()
    }
}

pub struct HistoryReader(Connection);

impl HistoryReader {
    pub fn open(path: &Path) -> Result<HistoryReader, Error> {
        read_only(path, BUSY).map(HistoryReader).map_err(|why| Error::Unopened { path: path.to_path_buf(), why })
    }

    fn all<T>(&self, sql: &str, given: impl Params, row: fn(&Row) -> rusqlite::Result<T>) -> Result<Vec<T>, Error> {
        let found: rusqlite::Result<_> = self.0.prepare_cached(sql)?.query_map(given, row)?.collect();
        Ok(found?)
    }

    /// At most this many records below a number, the greatest number first.
    pub fn records(&self, job: i64, before: u64, most: u64, search: Search) -> Result<Vec<RecordRow>, Error> {
        let sql = format!(
            "select {RECORD} from record where job = ?1 and id < ?2 and (?3 is null or how = ?3) and (?4 is null or kind = ?4)
            order by id desc limit ?5"
        );
        let before = i64::try_from(before).unwrap_or(i64::MAX);
        self.all(&sql, params![job, before, search.how, search.kind, bits(most)], record_of)
    }

    /// At most this many records that are complete or have failed, the greatest number first.
    pub fn ended_records(&self, job: i64, most: u64) -> Result<Vec<RecordRow>, Error> {
        let sql =
            format!("select {RECORD} from record where job = ? and finished is not null order by id desc limit ?");
        self.all(&sql, params![job, bits(most)], record_of)
    }

    pub fn record(&self, job: i64, id: u64) -> Result<Option<RecordRow>, Error> {
        let sql = format!("select {RECORD} from record where job = ? and id = ?");
        Ok(self.all(&sql, params![job, bits(id)], record_of)?.pop())
    }

    /// The files that were deleted last before a call.
    pub fn deleted(&self, job: i64, before: u64, most: u64) -> Result<Vec<FileRow>, Error> {
        let sql = format!(
            "select {FILE} from file where job = ? and deleted is not null and deleted < ? order by deleted desc limit ?"
        );
        self.all(&sql, params![job, i64::try_from(before).unwrap_or(i64::MAX), bits(most)], file_of)
    }

    /// The files that were taken and not reported, in the order in which they were taken.
    pub fn taken(&self, job: i64, most: u64) -> Result<Vec<FileRow>, Error> {
        let sql = format!(
            "select {FILE} from file where job = ? and taken is not null and deleted is null order by taken limit ?"
        );
        self.all(&sql, params![job, bits(most)], file_of)
    }

    /// The same of the coordinator's list, which ascends: those of it that the history has as taken, then others.
    pub fn taken_of(&self, job: i64, all: &[u64], most: u64) -> Result<Vec<FileRow>, Error> {
        let known = self.taken(job, most)?;
        let most = usize::try_from(most).unwrap_or(usize::MAX);
        let number = |row: &FileRow| row.file.parse::<u64>().unwrap_or_default();
        let mut rows: Vec<FileRow> = known.into_iter().filter(|row| all.binary_search(&number(row)).is_ok()).collect();
        let listed: HashSet<u64> = rows.iter().map(number).collect();
        let rest = all.iter().filter(|file| !listed.contains(file)).take(most.saturating_sub(rows.len()));
        for file in rest {
            rows.push(self.file(job, *file)?.unwrap_or_else(|| FileRow::unknown(*file)));
        }
        Ok(rows)
    }

    /// The calls at these places, without their lists of files.
    pub fn places(&self, job: i64, places: &[u64]) -> Result<Vec<Entry>, Error> {
        let sql =
            "select job, seq, at, record, line, what, a, b, null, ended, waiting from place where job = ? and seq = ?";
        let at = |seq: &u64| self.all(sql, params![job, bits(*seq)], entry_of);
        Ok(places.iter().map(at).collect::<Result<Vec<_>, Error>>()?.concat())
    }

    pub fn file(&self, job: i64, file: u64) -> Result<Option<FileRow>, Error> {
        let sql = format!("select {FILE} from file where job = ? and file = ?");
        Ok(self.all(&sql, params![job, bits(file)], file_of)?.pop())
    }

    /// The last samples after a moment, in their order.
    pub fn samples(&self, job: i64, after: u64, most: u64) -> Result<Vec<Sample>, Error> {
        let sql = "select at, in_use, waiting, taken, pending from
            (select * from sample where job = ? and at > ? order by at desc limit ?) order by at";
        self.all(sql, params![job, i64::try_from(after).unwrap_or(i64::MAX), bits(most)], sample_of)
    }

    /// How far the history of a job is.
    pub fn upto(&self, job: i64) -> Result<u64, Error> {
        let found = self.0.query_row("select upto from progress where job = ?", [job], |row| row.get::<_, i64>(0));
        Ok(found.optional()?.and_then(|upto| u64::try_from(upto).ok()).unwrap_or(0))
    }
}

pub fn record_of(row: &Row) -> rusqlite::Result<RecordRow> {
    let (shape, missing): (String, Option<String>) = (row.get(2)?, row.get(12)?);
    let (more, missing): (Vec<_>, Vec<_>) =
        missing.iter().flat_map(|text| text.split(' ')).map(str::to_string).partition(|word| word.starts_with('+'));
    Ok(RecordRow {
        id: row.get(0)?,
        kind: row.get(1)?,
        shape: shape.split(' ').filter_map(|word| word.parse().ok()).collect(),
        started: row.get(3)?,
        finished: row.get(4)?,
        how: row.get(5)?,
        gone: row.get(6)?,
        why: row.get(7)?,
        first_ack: row.get(8)?,
        last_ack: row.get(9)?,
        slowest: row.get(10)?,
        acks: row.get(11)?,
        missing,
        more_missing: more.first().and_then(|text| text[1..].parse().ok()).unwrap_or(0),
        fresh_bytes: row.get(13)?,
        full_bytes: row.get(14)?,
        median: row.get(15)?,
        p99: row.get(16)?,
        bytes: row.get(17)?,
        millis: row.get(18)?,
        reason: row.get(19)?,
    })
}

fn file_of(row: &Row) -> rusqlite::Result<FileRow> {
    let place =
        |at: usize| Ok::<_, rusqlite::Error>(row.get::<_, Option<i64>>(at)?.and_then(|seq| u64::try_from(seq).ok()));
    let file: i64 = row.get(0)?;
    Ok(FileRow {
        file: (file as u64).to_string(),
        born: place(1)?,
        released: place(2)?,
        taken: place(3)?,
        deleted: place(4)?,
        bytes: place(5)?,
    })
}

fn sample_of(row: &Row) -> rusqlite::Result<Sample> {
    Ok(Sample { at: row.get(0)?, in_use: row.get(1)?, waiting: row.get(2)?, taken: row.get(3)?, pending: row.get(4)? })
}
