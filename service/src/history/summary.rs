//! Summaries: what a history knows at a place of a job's log. The database keeps them. So a history that has not read the calls
//! that were cut, of a new leader for example, goes on from one.
use super::error::Error;
use super::follow::Follower;
use super::read::{record_of, RecordRow, RECORD};
use super::tables::Tables;
use crate::model::{parts, shape_words, PastRecord, SummaryPart};
use crate::store::signed;
use rusqlite::{params, Row};
use serde::{Deserialize, Serialize};

/// The columns of a file that was not reported as deleted: its number, and the places of `born`, `released` and `taken`.
type File = (i64, Option<i64>, Option<i64>, Option<i64>);
/// The columns of a call that files name: `seq`, `at`, `record`, `line`, `what`, `a`, `b`, `ended` and `waiting`.
type CallRow = (i64, i64, Option<i64>, String, i64, i64, i64, Option<String>, i64);

/// All but the records that ended.
#[derive(Serialize, Deserialize, Debug)]
pub struct Summary {
    pub at: u64,
    pub shape: Vec<u64>,
    records: Vec<RecordRow>,
    /// The pending records, and the subtasks that have acknowledged each.
    acked: Vec<(u64, Vec<String>)>,
    files: Vec<File>,
    /// The calls that released the files that wait, and of how many files each.
    queue: Vec<(i64, i64)>,
    places: Vec<CallRow>,
    /// The files whose bytes are known, and these.
    sizes: Vec<(i64, i64)>,
}

impl Summary {
    /// What the tables say of a job, with what its follower knows beside.
    pub fn of(tables: &Tables, follower: &Follower) -> rusqlite::Result<Summary> {
        let job = follower.job;
        let files = "select file, born, released, taken from file where job = ? and deleted is null";
        let places = "select seq, at, record, line, what, a, b, ended, waiting from place where job = ?1 and seq in (
            select born from file where job = ?1 and deleted is null
            union select released from file where job = ?1 and deleted is null
            union select taken from file where job = ?1 and deleted is null
            union select released from queue where job = ?1)";
        let records = format!("select {RECORD} from record where job = ? and gone is null");
        let sizes = "select file, bytes from file where job = ? and deleted is null and bytes is not null";
        Ok(Summary {
            at: follower.at,
            shape: follower.records.shape.clone(),
            records: tables.all(&records, [job], record_of)?,
            acked: follower.records.acked(),
            files: tables.all(files, [job], |row: &Row| row.try_into())?,
            queue: tables
                .all("select released, files from queue where job = ? order by place", [job], |row| row.try_into())?,
            places: tables.all(places, [job], |row: &Row| row.try_into())?,
            sizes: tables.all(sizes, [job], |row| row.try_into())?,
        })
    }

    /// Reads one of the database.
    pub fn parse(text: &str) -> Result<Summary, Error> {
        serde_json::from_str(text).map_err(|error| Error::BadLog(format!("a summary of the history: {error}")))
    }

    /// Its parts, for the place of the follower that it was made of.
    pub fn parts(&self, follower: &Follower) -> Result<Vec<SummaryPart>, Error> {
        let text = serde_json::to_string(self).map_err(|error| Error::BadLog(error.to_string()))?;
        let texts = parts(&text);
        let (job, seq, last) = (follower.job, follower.upto, texts.len() - 1);
        let whole = |part| if part == last { text.len() as u64 } else { 0 };
        let part = |(part, text): (usize, &str)| SummaryPart {
            job,
            seq,
            part: part as u64,
            whole: whole(part),
            text: text.to_string(),
        };
        Ok(texts.into_iter().enumerate().map(part).collect())
    }

    /// Puts it into the tables, in place of what they say of the job's files and live records.
    pub fn write(&self, tables: &Tables, job: i64) -> rusqlite::Result<()> {
        tables.forget_live(job)?;
        self.records.iter().try_for_each(|record| tables.set_record(job, record, false))?;
        let sql = "insert or replace into file(job, file, born, released, taken) values(?, ?, ?, ?, ?)";
        for (file, born, released, taken) in &self.files {
            tables.run(sql, params![job, file, born, released, taken])?;
        }
        for (file, bytes) in &self.sizes {
            let sql = "update file set bytes = ?3 where job = ?1 and file = ?2";
            tables.run(sql, params![job, file, bytes])?;
        }
        for (place, (released, files)) in (0_i64..).zip(&self.queue) {
            tables.run("insert into queue values(?, ?, ?, ?)", params![job, place, released, files])?;
        }
        let sql = "insert or replace into place values(?, ?, ?, ?, ?, ?, ?, ?, ?, ?)";
        for (seq, at, record, line, what, a, b, ended, waiting) in &self.places {
            tables.run(sql, params![job, seq, at, record, line, what, a, b, ended, waiting])?;
        }
        Ok(())
    }

    /// The subtasks that had acknowledged a record that was pending.
    pub fn acked(&self, id: u64) -> impl Iterator<Item = &str> {
        let of_it = self.acked.iter().filter(move |(record, _)| *record == id);
        of_it.flat_map(|(_, subtasks)| subtasks).map(String::as_str)
    }
}

impl Tables {
    /// The first records that ended and that the database does not have, at most `most`.
    pub fn unsaved(&self, job: i64, most: u32) -> Result<Vec<PastRecord>, Error> {
        let sql = format!("select {RECORD} from record where job = ? and gone is not null and saved = 0 limit ?");
        let rows = self.all(&sql, params![job, most], record_of)?;
        let past = |row: RecordRow| {
            let text = serde_json::to_string(&row).map_err(|error| Error::BadLog(error.to_string()))?;
            Ok(PastRecord { job, id: u64::try_from(row.id).unwrap_or(0), text })
        };
        rows.into_iter().map(past).collect()
    }

    /// The database has these records.
    pub fn set_saved(&self, records: &[PastRecord]) -> rusqlite::Result<()> {
        let sql = "update record set saved = 1 where job = ? and id = ?";
        records.iter().try_for_each(|record| self.run(sql, params![record.job, signed(record.id)]))
    }

    /// Adds records of the database.
    pub fn add_past(&self, records: &[PastRecord]) -> Result<(), Error> {
        for PastRecord { job, id, text } in records {
            let row: RecordRow =
                serde_json::from_str(text).map_err(|error| Error::BadLog(format!("record {id} of past: {error}")))?;
            self.set_record(*job, &row, true)?;
        }
        Ok(())
    }

    fn set_record(&self, job: i64, it: &RecordRow, saved: bool) -> rusqlite::Result<()> {
        let sql = format!(
            "insert or replace into record(job, {RECORD}, saved)
            values(?, ?, ?, ?, ?, ?, ?, ?, ?, ?, ?, ?, ?, ?, ?, ?, ?, ?, ?, ?, ?, ?)"
        );
        let (id, shape, missing) = (it.id, shape_words(&it.shape), it.missing_words());
        let RecordRow { kind, started, finished, how, gone, why, first_ack, last_ack, slowest, acks, .. } = it;
        let (fresh, full) = (it.fresh_bytes, it.full_bytes);
        let given = params![
            job, id, kind, shape, started, finished, how, gone, why, first_ack, last_ack, slowest, acks, missing,
            fresh, full, it.median, it.p99, it.bytes, it.millis, it.reason, saved
        ];
        self.run(&sql, given)
    }
}
