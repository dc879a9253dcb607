//! The history of files: which subtask wrote each, which call released it, and when it was taken and deleted. The
//! coordinator hands files out in the order of their release. So the counts of released files determine which call released
//! which file.
use super::follow::LoggedCall;
use super::records::is_late;
use super::tables::Tables;
use crate::model::{AckBytes, Call, Entry, Reply};
use std::collections::VecDeque;

/// The place of the call that released a file, if that call was cut before it was read.
pub const UNKNOWN: u64 = 0;

/// Files that one call released, which wait for deletion.
#[derive(Clone, Copy, Debug, PartialEq, Eq)]
pub struct Run {
    pub place: u64,
    pub released: u64,
    pub files: u64,
}

/// A file that an acknowledgement registered at this place, and its bytes if it said them.
pub struct Born {
    pub file: u64,
    pub seq: u64,
    pub bytes: Option<u64>,
}

/// The outbox of one job.
#[derive(Default)]
pub struct Outbox {
    runs: VecDeque<Run>,
    next: u64,
    /// Files that the tables do not have yet.
    born: Vec<Born>,
}

impl Outbox {
    /// The outbox of these runs, which are in order.
    pub fn of(runs: Vec<Run>) -> Outbox {
        let next = runs.last().map_or(0, |run| run.place + 1);
        Outbox { runs: runs.into(), next, born: Vec::new() }
    }

    /// Adds a call of the log.
    pub fn follow(&mut self, tables: &Tables, made: &LoggedCall) -> rusqlite::Result<()> {
        let LoggedCall { entry, call, reply, said, .. } = made;
        let names_files = match call {
            Call::Ack { fresh, .. } => !fresh.is_empty(),
            Call::Take { .. } | Call::Deleted { .. } => true,
            _ => false,
        };
        if names_files || entry.waiting > 0 {
            tables.place(call, entry)?;
        }
        if !matches!((call, reply), (Call::Ack { .. }, Reply::Answered(answer)) if !is_late(answer)) {
            // it may be about one of them
            self.write(tables, entry.job)?;
        }
        match call {
            Call::Ack { fresh, .. } => self.ack(tables, fresh, reply, entry, *said)?,
            Call::Take { .. } => return self.take(tables, reply, entry),
            Call::Deleted { file } => return tables.deleted(entry.job, *file, entry.seq),
            Call::Undeleted { file } => {
                let released = tables.undeleted(entry.job, *file)?.unwrap_or(entry.seq);
                return self.push(tables, entry.job, released, 1);
            }
            _ => {}
        }
        self.push(tables, entry.job, entry.seq, entry.waiting)
    }

    /// Writes what the tables do not have yet.
    pub fn write(&mut self, tables: &Tables, job: i64) -> rusqlite::Result<()> {
        tables.born(job, &std::mem::take(&mut self.born))
    }

    /// An acknowledgement brings its fresh files. A late one brings only those that were handed out.
    fn ack(
        &mut self,
        tables: &Tables,
        fresh: &[u64],
        reply: &Reply,
        entry: &Entry,
        said: Option<&AckBytes>,
    ) -> rusqlite::Result<()> {
        let bytes = |file: u64| said?.bytes_of(file);
        if !matches!(reply, Reply::Answered(answer) if is_late(answer)) {
            self.born.extend(fresh.iter().map(|file| Born { file: *file, seq: entry.seq, bytes: bytes(*file) }));
            return Ok(());
        }
        if entry.waiting == 0 {
            return Ok(());
        }
        fresh.iter().try_for_each(|file| tables.late(entry.job, *file, entry.seq, bytes(*file)))
    }

    pub fn push(&mut self, tables: &Tables, job: i64, released: u64, files: u64) -> rusqlite::Result<()> {
        if files == 0 {
            return Ok(());
        }
        let run = Run { place: self.next, released, files };
        self.next += 1;
        self.runs.push_back(run);
        tables.set_run(job, run)
    }

    fn take(&mut self, tables: &Tables, reply: &Reply, entry: &Entry) -> rusqlite::Result<()> {
        let Reply::Taken(files) = reply else {
            return Ok(());
        };
        for file in files {
            let released = self.pop(tables, entry.job)?;
            tables.taken(entry.job, *file, released, entry.seq)?;
        }
        match self.runs.front() {
            Some(run) => tables.set_run(entry.job, *run),
            None => Ok(()),
        }
    }

    /// The call that released the file that was waiting longest.
    fn pop(&mut self, tables: &Tables, job: i64) -> rusqlite::Result<Option<u64>> {
        let Some(run) = self.runs.front_mut() else {
            return Ok(None);
        };
        run.files -= 1;
        let Run { place, released, files } = *run;
        if files == 0 {
            self.runs.pop_front();
            tables.drop_run(job, place)?;
        }
        Ok((released != UNKNOWN).then_some(released))
    }
}
