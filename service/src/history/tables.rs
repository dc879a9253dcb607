//! The tables of the history, in an SQLite file of their own.
use super::error::Error;
use super::files::{Born, Run};
use super::records::Pending;
use super::version::{foreign, upgrade, STEPS};
use crate::model::{kind_of, shape_words, Call, Entry, SavedRecord};
use crate::store::{many, signed, ERASE};
use crate::writer::JobState;
use rusqlite::{params, Connection, OptionalExtension, Params, Row};
use std::path::Path;

const PENDING: &str =
    "select id, kind, shape, started, first_ack, last_ack, slowest, fresh_bytes, full_bytes, bytes, millis from record
    where job = ? and how = 'pending'";
const PROGRESS: &str = "select upto, at, shape from progress where job = ?";

/// How far the history of a job is: the last entry that was read, and the job's shape there.
pub struct Progress {
    pub upto: u64,
    pub at: u64,
    pub shape: Vec<u64>,
}

pub struct Tables(Connection);

/// How many rows a piece of a deletion has, beside as many as came since the last one.
pub const PIECE: u64 = 1000;

/// The first words of a line.
fn words(line: &str, count: usize) -> String {
    line.split(' ').take(count).collect::<Vec<_>>().join(" ")
}

impl Tables {
    /// Opens the tables. Makes them if the file is new, and upgrades those of an earlier version.
    pub fn open(path: &Path) -> Result<Tables, Error> {
        let connection = Connection::open(path)?;
        connection.pragma_update(None, "journal_mode", "wal")?;
        connection.pragma_update(None, "synchronous", "normal")?;
        connection.pragma_update_and_check(None, ERASE.0, ERASE.1, |_| Ok(()))?;
        upgrade(&connection, &STEPS)?;
        connection.prepare(PROGRESS).map_err(foreign)?;
        connection.set_prepared_statement_cache_capacity(64);
        Ok(Tables(connection))
    }

    pub fn all<T>(
        &self,
        sql: &str,
        given: impl Params,
        row: impl FnMut(&Row) -> rusqlite::Result<T>,
    ) -> rusqlite::Result<Vec<T>> {
        self.0.prepare_cached(sql)?.query_map(given, row)?.collect()
    }

    pub fn run(&self, sql: &str, given: impl Params) -> rusqlite::Result<()> {
        self.0.prepare_cached(sql)?.execute(given).map(|_| ())
    }

    /// Does some work in a transaction. It is rolled back if the work fails.
    pub fn within<T>(&self, work: impl FnOnce() -> Result<T, Error>) -> Result<T, Error> {
        self.run("begin immediate", [])?;
        let worked = work().and_then(|done| {
            self.run("commit", [])?;
            Ok(done)
        });
        if worked.is_err() && !self.0.is_autocommit() {
            // a failure here comes again in the next `begin`, which reports it
            let _ = self.run("rollback", []);
        }
        worked
    }

    pub fn progress(&self, job: i64) -> rusqlite::Result<Option<Progress>> {
        let read = |row: &Row| {
            let shape: String = row.get(2)?;
            let shape = shape.split(' ').filter_map(|word| word.parse().ok()).collect();
            Ok(Progress { upto: unsigned(row.get(0)?), at: unsigned(row.get(1)?), shape })
        };
        self.0.query_row(PROGRESS, [job], read).optional()
    }

    pub fn set_progress(&self, job: i64, upto: u64, at: u64, shape: &[u64]) -> rusqlite::Result<()> {
        let given = params![job, signed(upto), signed(at), shape_words(shape)];
        self.run("insert or replace into progress values(?, ?, ?, ?)", given)
    }

    /// Forgets a job. Then its history is made anew.
    pub fn forget(&self, job: i64) -> rusqlite::Result<()> {
        self.delete(job, &["progress where", "record where", "file where", "queue where", "place where"])
    }

    /// Deletes these rows of a job.
    fn delete(&self, job: i64, rows: &[&str]) -> rusqlite::Result<()> {
        rows.iter().try_for_each(|rows| self.run(&format!("delete from {rows} job = ?"), [job]))
    }

    /// The jobs that the tables have something of.
    pub fn jobs(&self) -> rusqlite::Result<Vec<i64>> {
        self.all("select job from progress", [], |row| row.get(0))
    }

    /// Deletes a piece of all that the tables have of a job. Returns whether there may be more.
    pub fn forget_piece(&self, job: i64) -> rusqlite::Result<bool> {
        let tables = [
            ("place", "job, seq"),
            ("file", "job, file"),
            ("queue", "job, place"),
            ("record", "job, id"),
            ("sample", "job, at"),
            ("progress", "job"),
        ];
        for (table, columns) in tables {
            let rows = format!("select {columns} from {table} where job = ?1 limit ?2");
            let sql = format!("delete from {table} where ({columns}) in ({rows})");
            if self.0.prepare_cached(&sql)?.execute(params![job, signed(PIECE)])? as u64 == PIECE {
                return Ok(true);
            }
        }
        Ok(false)
    }

    /// Deletes a piece of the records that ended and whose numbers are not among the last so many. Those that the database does not have
    /// stay. Returns whether there may be more.
    pub fn forget_records(&self, job: i64, keep: u64) -> rusqlite::Result<bool> {
        let old = "select job, id from record where job = ?1 and id <= (select max(id) from record where job = ?1) - ?2
            and gone is not null and saved = 1 order by id limit ?3";
        let sql = format!("delete from record where (job, id) in ({old})");
        let gone = self.0.prepare_cached(&sql)?.execute(params![job, signed(keep), signed(PIECE)])?;
        Ok(gone as u64 == PIECE)
    }

    /// Forgets the files and live records of a job.
    pub fn forget_live(&self, job: i64) -> rusqlite::Result<()> {
        self.delete(job, &["file where", "queue where", "place where", "record where gone is null and"])
    }

    /// Forgets what calls that were not read may have changed: files, and the end of records that are not live at the moment `at`.
    pub fn forget_unread(&self, job: i64, at: u64, live: &[SavedRecord]) -> rusqlite::Result<()> {
        self.delete(job, &["file where", "queue where", "place where"])?;
        let live = live.iter().map(|record| record.id.to_string()).collect::<Vec<_>>().join(",");
        let gone = format!("job = ?1 and gone is null and id not in ({live})");
        self.0.execute(&format!("delete from record where how = 'pending' and {gone}"), [job])?;
        let sql = format!("update record set gone = ?2, why = 'not known' where {gone}");
        self.0.execute(&sql, params![job, signed(at)]).map(|_| ())
    }

    /// A live record of an image, which is added if it is missing; what is known of it while it is pending.
    pub fn saved_record(&self, job: i64, saved: &SavedRecord) -> rusqlite::Result<Pending> {
        let mut pending = Pending::new(saved.kind(), saved.shape.clone(), saved.started);
        pending.acked.extend(&saved.acked);
        let sql = "insert or ignore into record(job, id, kind, shape, started, how, acks) values(?, ?, ?, ?, ?, 'pending', 0)";
        let (id, shape) = (signed(saved.id), shape_words(&saved.shape));
        self.run(sql, params![job, id, saved.kind().to_string(), shape, signed(saved.started)])?;
        let how = if saved.is_done() { "completed" } else { "pending" };
        let sql = "update record set how = ?3, acks = ?4, missing = null where job = ?1 and id = ?2";
        self.run(sql, params![job, id, how, i64::try_from(saved.acked.len()).unwrap_or(i64::MAX)])?;
        Ok(pending)
    }

    /// Keeps a call without its lists of files, since the log may be cut before its files are deleted.
    pub fn place(&self, call: &Call, entry: &Entry) -> rusqlite::Result<()> {
        let line = match call {
            Call::Ack { term: 0, .. } => words(&entry.line, 4),
            Call::Ack { .. } => words(&entry.line, 6),
            _ => entry.line.clone(),
        };
        let (record, [what, a, b]) = (entry.record.map(signed), entry.told.numbers());
        let ([seq, at, waiting], ended) = ([entry.seq, entry.at, entry.waiting].map(signed), &entry.ended);
        let given = params![entry.job, seq, at, record, line, what, a, b, ended, waiting];
        self.run("insert or replace into place values(?, ?, ?, ?, ?, ?, ?, ?, ?, ?)", given)
    }

    /// Forgets files that were deleted before the log's first call, and calls before it that no file names.
    pub fn forget_deleted(&self, job: i64, first: u64) -> rusqlite::Result<()> {
        let given = params![job, signed(first)];
        self.run("delete from file where job = ? and deleted < ?", given)?;
        let named = ["born", "released", "taken", "deleted"]
            .map(|place| format!("select {place} from file where job = ?1 and {place} < ?2"))
            .join(" union ");
        // a file that waits does not name the call that released it yet
        let named = format!("{named} union select released from queue where job = ?1 and released < ?2");
        self.run(&format!("delete from place where job = ?1 and seq < ?2 and seq not in ({named})"), given)
    }

    /// The records that were pending, without the subtasks that acknowledged.
    pub fn pending(&self, job: i64) -> rusqlite::Result<Vec<(u64, Pending)>> {
        let mut query = self.0.prepare(PENDING)?;
        let rows = query.query_map([job], |row| {
            let (kind, shape): (String, String) = (row.get(1)?, row.get(2)?);
            let kind = kind_of(&kind);
            let shape = shape.split(' ').filter_map(|word| word.parse().ok()).collect();
            let moment = |at: usize| Ok::<_, rusqlite::Error>(row.get::<_, Option<i64>>(at)?.map(unsigned));
            let mut pending = Pending::new(kind, shape, unsigned(row.get(3)?));
            (pending.first_ack, pending.last_ack) = (moment(4)?, moment(5)?);
            pending.slowest = row.get::<_, Option<String>>(6)?.and_then(|text| text.parse().ok());
            (pending.bytes, pending.told) = (moment(7)?.zip(moment(8)?), (moment(9)?, moment(10)?));
            Ok((unsigned(row.get(0)?), pending))
        })?;
        rows.collect()
    }

    pub fn new_record(&self, job: i64, id: u64, record: &Pending) -> rusqlite::Result<()> {
        let sql = "insert or replace into record(job, id, kind, shape, started, how, acks) values(?, ?, ?, ?, ?, 'pending', 0)";
        let shape = shape_words(&record.shape);
        self.run(sql, params![job, signed(id), record.kind.to_string(), shape, signed(record.started)])
    }

    pub fn acks(&self, job: i64, id: u64, record: &Pending) -> rusqlite::Result<()> {
        let sql = "update record set first_ack = ?3, last_ack = ?4, slowest = ?5, acks = ?6, fresh_bytes = ?7, full_bytes = ?8,
            bytes = ?9, millis = ?10 where job = ?1 and id = ?2";
        let slowest = record.slowest.map(|subtask| subtask.to_string());
        let acks = i64::try_from(record.acked.len()).unwrap_or(i64::MAX);
        let (first, last) = (record.first_ack.map(signed), record.last_ack.map(signed));
        let (fresh, full) = record.bytes.map(|(fresh, full)| (signed(fresh), signed(full))).unzip();
        let (bytes, millis) = (record.told.0.map(signed), record.told.1.map(signed));
        self.run(sql, params![job, signed(id), first, last, slowest, acks, fresh, full, bytes, millis])
    }

    pub fn finish(&self, job: i64, id: u64, at: u64, how: &str, record: &Pending) -> rusqlite::Result<()> {
        let sql =
            "update record set finished = ?3, how = ?4, missing = ?5, median = ?6, p99 = ?7 where job = ?1 and id = ?2";
        let (median, p99) = record.ranks();
        let (median, p99) = (median.map(signed), p99.map(signed));
        self.run(sql, params![job, signed(id), signed(at), how, record.missing(), median, p99])
    }

    /// Why a subtask has declined a record.
    pub fn set_reason(&self, job: i64, id: u64, reason: &str) -> rusqlite::Result<()> {
        self.run("update record set reason = ?3 where job = ?1 and id = ?2", params![job, signed(id), reason])
    }

    pub fn gone(&self, job: i64, id: u64, at: u64, why: &str) -> rusqlite::Result<()> {
        self.run(
            "update record set gone = ?3, why = ?4 where job = ?1 and id = ?2",
            params![job, signed(id), signed(at), why],
        )
    }

    /// Files are registered, whatever had their numbers before. Of those of one number the last counts.
    pub fn born(&self, job: i64, files: &[Born]) -> rusqlite::Result<()> {
        let into = "insert or replace into file(job, file, born, bytes)";
        many::insert(&self.0, into, "", files.iter(), |it| many::cells![job, bits(it.file), it.seq, it.bytes])
    }

    /// A late acknowledgement named a file. It registered the file if the number was free.
    pub fn late(&self, job: i64, file: u64, seq: u64, bytes: Option<u64>) -> rusqlite::Result<()> {
        let sql = "insert into file(job, file, born, bytes) values(?, ?, ?, ?) on conflict do update
            set born = excluded.born, released = null, taken = null, deleted = null, bytes = excluded.bytes where deleted is not null";
        self.run(sql, params![job, bits(file), signed(seq), bytes.map(signed)])
    }

    pub fn taken(&self, job: i64, file: u64, released: Option<u64>, seq: u64) -> rusqlite::Result<()> {
        let sql = "insert into file(job, file, released, taken) values(?, ?, ?, ?) on conflict do update
            set released = excluded.released, taken = excluded.taken, deleted = null";
        self.run(sql, params![job, bits(file), released.map(signed), signed(seq)])
    }

    pub fn deleted(&self, job: i64, file: u64, seq: u64) -> rusqlite::Result<()> {
        let sql =
            "insert into file(job, file, deleted) values(?, ?, ?) on conflict do update set deleted = excluded.deleted";
        self.run(sql, params![job, bits(file), signed(seq)])
    }

    /// A taken file waits again: which call had released it.
    pub fn undeleted(&self, job: i64, file: u64) -> rusqlite::Result<Option<u64>> {
        self.run("update file set taken = null where job = ?1 and file = ?2", params![job, bits(file)])?;
        let sql = "select released from file where job = ? and file = ?";
        let found: Option<Option<i64>> =
            self.0.query_row(sql, params![job, bits(file)], |row| row.get(0)).optional()?;
        Ok(found.flatten().map(unsigned))
    }

    /// When the oldest file that waits for deletion was released, and when the oldest one was taken that is not reported.
    pub fn oldest_files(&self, job: i64) -> rusqlite::Result<(Option<u64>, Option<u64>)> {
        let moment = |oldest: &str| -> rusqlite::Result<Option<u64>> {
            let sql = format!("select at from place where job = ?1 and seq = ({oldest})");
            let found: Option<i64> = self.0.prepare_cached(&sql)?.query_row([job], |row| row.get(0)).optional()?;
            Ok(found.map(unsigned))
        };
        Ok((
            moment("select min(released) from queue where job = ?1 and released > 0")?,
            moment("select min(taken) from file where job = ?1 and taken is not null and deleted is null")?,
        ))
    }

    pub fn runs(&self, job: i64) -> rusqlite::Result<Vec<Run>> {
        let mut query = self.0.prepare("select place, released, files from queue where job = ? order by place")?;
        let rows = query.query_map([job], |row| {
            Ok(Run { place: unsigned(row.get(0)?), released: unsigned(row.get(1)?), files: unsigned(row.get(2)?) })
        })?;
        rows.collect()
    }

    pub fn set_run(&self, job: i64, run: Run) -> rusqlite::Result<()> {
        let sql = "insert or replace into queue values(?, ?, ?, ?)";
        self.run(sql, params![job, signed(run.place), signed(run.released), signed(run.files)])
    }

    pub fn drop_run(&self, job: i64, place: u64) -> rusqlite::Result<()> {
        self.run("delete from queue where job = ? and place = ?", params![job, signed(place)])
    }

    pub fn sample(&self, job: &JobState) -> rusqlite::Result<()> {
        let pending = job.pending_checkpoints + job.pending_savepoints;
        let numbers = [job.now, job.files.in_use, job.files.waiting, job.files.taken, pending as u64].map(signed);
        let [at, in_use, waiting, taken, pending] = numbers;
        let sql = "insert or replace into sample values(?, ?, ?, ?, ?, ?)";
        self.run(sql, params![job.opening.number, at, in_use, waiting, taken, pending])
    }

    /// Deletes samples of all jobs that are older than the moment `before`, at most `most`, and returns how many it deleted.
    pub fn drop_samples(&self, before: u64, most: u64) -> rusqlite::Result<u64> {
        let sql = "delete from sample where (job, at) in (select job, at from sample where at < ? limit ?)";
        self.0.prepare_cached(sql)?.execute([signed(before), signed(most)]).map(|count| count as u64)
    }
}

fn unsigned(number: i64) -> u64 {
    u64::try_from(number).unwrap_or(0)
}

/// A file's number with the same 64 bits.
pub fn bits(file: u64) -> i64 {
    file as i64
}
