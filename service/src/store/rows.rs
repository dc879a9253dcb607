//! What a database of the service does: commits groups, and reads the log.
use super::error::{DbError, Failure};
use crate::files::JobStorage;
use crate::model::{
    AckBytes, Cut, Entry, Figure, Image, ImagePart, Logged, Opening, PastRecord, Phase, StateChange, SubtaskState,
    SummaryPart,
};
use std::collections::{BTreeMap, BTreeSet};
use std::sync::Arc;
use std::time::Duration;

/// What one transaction commits, in this order.
#[derive(Default)]
pub struct Group {
    pub jobs: Vec<Opening>,
    pub entries: Vec<Entry>,
    pub requests: Vec<Keyed>,
    pub images: Vec<SavedImage>,
    /// Parts of the texts of long images. An image counts once its row is there, which comes with the last part.
    pub image_parts: Vec<ImagePart>,
    /// Images to delete, with their parts: their jobs and places.
    pub dropped: Vec<(i64, u64)>,
    pub cuts: Vec<Cut>,
    pub summaries: Vec<SummaryPart>,
    pub past: Vec<PastRecord>,
    /// Summaries to delete: their jobs and places.
    pub dropped_summaries: Vec<(i64, u64)>,
    /// The bytes of files of jobs as they are after all calls; none of a file that is deleted.
    pub sizes: BTreeMap<(i64, u64), Option<u64>>,
    /// What acknowledgements said of sizes.
    pub said: Vec<AckBytes>,
    /// What subtasks have in records. Rows of the database that are copied come before them, and those that go after them.
    pub states: Vec<SubtaskState>,
    /// Jobs, records whose rows another record gets too, and that one.
    pub copied_states: Vec<(i64, u64, u64)>,
    /// Records whose rows go.
    pub gone_states: BTreeSet<(i64, u64)>,
    /// What calls told for the history.
    pub figures: Vec<Figure>,
    /// The phases of jobs as they are after all calls.
    pub phases: BTreeMap<i64, Phase>,
    /// Where the files of jobs are, of those for which it is said anew.
    pub storages: BTreeMap<i64, Arc<JobStorage>>,
    /// Jobs to delete.
    pub gone: Vec<GoneJob>,
}

/// A job that is deleted.
#[derive(Clone, Debug)]
pub struct GoneJob {
    pub job: i64,
    pub name: String,
    /// The moment of the deletion.
    pub at: u64,
}

/// The tables with rows of jobs, by which columns, and how many rows of it one piece of a deletion has at most: some are large.
const OF_JOBS: [(&str, &str, u64); 12] = [
    ("call", "job, seq", 1000),
    ("ack_size", "job, seq", 1000),
    ("request", "job, key", 1000),
    ("past", "job, id", 1000),
    ("size", "job, file", 1000),
    ("summary", "job, seq, part", 8),
    ("image", "job, seq", 1),
    ("image_part", "job, seq, part", 8),
    ("phase", "job", 1000),
    ("storage", "job", 1000),
    ("subtask_state", "job, record, vertex, place", 1000),
    ("figure", "job, seq", 1000),
];

impl Group {
    /// Adds a call.
    pub fn log(&mut self, logged: Logged) {
        let Logged { entry, sizes, states } = logged;
        if let Some(change) = states {
            self.change_states(entry.job, *change);
        }
        self.sizes.extend(sizes.files.into_iter().map(|(file, bytes)| ((entry.job, file), bytes)));
        self.said.extend(sizes.said);
        self.entries.push(entry);
    }

    /// Takes in what a call changed of the rows of subtasks. The statement that copies rows does not see those of this group.
    fn change_states(&mut self, job: i64, change: StateChange) {
        self.states.extend(change.new);
        self.figures.extend(change.figure);
        if let Some((from, to)) = change.copy {
            let own = self.states.iter().filter(|it| (it.job, it.record) == (job, from));
            let copies: Vec<SubtaskState> = own.map(|it| SubtaskState { record: to, ..it.clone() }).collect();
            self.states.extend(copies);
            self.copied_states.push((job, from, to));
        }
        for record in change.gone {
            self.states.retain(|it| (it.job, it.record) != (job, record));
            self.copied_states.retain(|(of, _, to)| (*of, *to) != (job, record));
            self.gone_states.insert((job, record));
        }
    }

    pub fn is_empty(&self) -> bool {
        let has_calls =
            !(self.gone.is_empty() && self.jobs.is_empty() && self.entries.is_empty() && self.requests.is_empty());
        let has_history = !(self.summaries.is_empty() && self.past.is_empty() && self.dropped_summaries.is_empty());
        let has_images = !(self.images.is_empty() && self.image_parts.is_empty() && self.dropped.is_empty());
        let has_jobs = !(self.phases.is_empty() && self.storages.is_empty());
        !has_calls && !has_history && !has_images && !has_jobs && self.cuts.is_empty()
    }
}

/// A number as a database keeps it. Moments, places and numbers of records are below 2^62.
pub fn signed(number: u64) -> i64 {
    i64::try_from(number).unwrap_or(i64::MAX)
}

/// The answers of a request that has an Idempotency-Key.
#[derive(Clone, Debug)]
pub struct Keyed {
    pub job: i64,
    pub key: String,
    pub at: u64,
    /// SHA-256 of the request's body, in hexadecimal digits.
    pub digest: String,
    /// The body of the answer.
    pub answers: String,
}

/// What was answered under a key of a job, or why that can't be read: the keys of others can be.
#[derive(Debug)]
pub struct UnderKey {
    pub job: i64,
    pub key: String,
    pub found: Result<Keyed, DbError>,
}

/// An image as the database has it, with the digest that it was written with.
#[derive(Clone, Debug, PartialEq, Eq)]
pub struct SavedImage {
    pub image: Image,
    pub digest: String,
}

/// A statement that deletes or changes rows, with its numbers, and how many rows it changes at most, if it says that.
pub struct Erasure {
    pub sql: String,
    pub given: Vec<i64>,
    pub most: u64,
}

impl Erasure {
    /// Deletes the rows of a table which these conditions select, of whose key these are the columns; at most so many.
    fn of(table: &str, key: &str, rows: &str, given: &[i64], most: u64) -> Erasure {
        let limit = given.len() + 1;
        let sql =
            format!("delete from {table} where ({key}) in (select {key} from {table} where {rows} limit ${limit})");
        Erasure { sql, given: [given, &[signed(most)]].concat(), most }
    }
}

/// How many identities the log keeps.
pub const MOST_STARTS: i64 = 64;

/// The version of the tables. Each database has a step of SQL for each: only a start over tables of an earlier version runs it.
pub const VERSION: usize = 2;

/// The tables of the first version that both databases have.
pub const TABLES: &str = include_str!("../../sql/tables.sql");
/// Where the files of jobs are, as JSON.
pub const STORAGES: &str = "create table if not exists storage(job integer primary key, text text not null) strict;";

/// The steps after a version, each of which makes or changes tables. They can be run again.
pub fn steps_after<T>(found: i64, steps: &[T]) -> &[T] {
    let done = usize::try_from(found).unwrap_or(0);
    &steps[done.min(steps.len())..]
}

/// What a commit did beside its rows.
#[derive(Clone, Copy, Debug, PartialEq, Eq)]
pub struct Committed {
    /// Whether it renewed the lease.
    pub renews: bool,
}

pub type Written = Result<Committed, Failure>;

/// Which process leads.
#[derive(Clone, Debug, PartialEq, Eq)]
pub enum Lead {
    /// This one from now on, as the process number `epoch` that leads.
    Here { epoch: u64 },
    /// Another one, and whether it has renewed its lease since this was last asked.
    Elsewhere { committed: bool },
}

/// The writer's connection.
pub trait Store: Send {
    /// Tries to lead. The lease counts from before this was called.
    fn lead(&mut self) -> Result<Lead, DbError>;

    /// Gives the log the identity `name`, now that this process leads and each job has this many calls, and deletes parts of images that
    /// an earlier leader did not write whole. Fails if it no longer leads.
    fn begin(&mut self, name: &str, lengths: &[(i64, u64)]) -> Result<(), DbError>;

    /// Commits a group. Renews the lease if that is due, or the group is empty.
    fn commit(&mut self, group: &Group) -> Written;

    /// The answers that were committed under these keys of jobs.
    fn keyed(&mut self, keys: &[(i64, String)]) -> Result<Vec<UnderKey>, DbError>;

    /// Changes rows in one transaction, and waits for no sync: what comes back after a loss of power is deleted again. Ends behind the first statement
    /// that changes as many rows as it may, and returns whether there was one.
    fn erase(&mut self, statements: &[Erasure]) -> Result<bool, DbError>;

    /// Deletes keys that are older than the moment `before`, at most `most` of them, and returns whether there may be more.
    fn forget_keys(&mut self, before: u64, most: u64) -> Result<bool, DbError> {
        self.erase(&[Erasure::of("request", "job, key", "at < $1 order by at", &[signed(before)], most)])
    }

    /// Deletes records of a job that ended and whose numbers are at most `upto`, at most `most` of them.
    fn forget_past(&mut self, job: i64, upto: u64, most: u64) -> Result<(), DbError> {
        let rows = "job = $1 and id <= $2 order by job, id";
        self.erase(&[Erasure::of("past", "job, id", rows, &[job, signed(upto)], most)]).map(drop)
    }

    /// Forgets jobs that were deleted before a moment, of which nothing is left. The last one stays: its number is given to no other.
    fn forget_gone(&mut self, before: u64) -> Result<(), DbError> {
        let rows = "is_empty = 1 and at < $1 and job <> (select max(job) from gone_job)";
        self.erase(&[Erasure::of("gone_job", "job", rows, &[signed(before)], u64::MAX)]).map(drop)
    }

    /// Deletes a piece of what is left of a job that was deleted. Returns whether there may be more; if not, the job counts as empty.
    fn forget_job(&mut self, job: i64) -> Result<bool, DbError> {
        let piece = |(table, key, most)| Erasure::of(table, key, &format!("job = $1 order by {key}"), &[job], most);
        let mut pieces: Vec<Erasure> = OF_JOBS.into_iter().map(piece).collect();
        let empty = "update gone_job set is_empty = 1 where job = $1".to_string();
        pieces.push(Erasure { sql: empty, given: vec![job], most: u64::MAX });
        self.erase(&pieces)
    }

    /// Writes down that the service runs at this moment.
    fn note(&mut self, at: u64) -> Result<(), Failure>;

    /// How long the writer may wait before it has to commit again, an empty group too.
    fn beat(&self) -> Duration;

    /// For how long after a commit began nobody else leads; `None`: for ever.
    fn lease(&self) -> Option<Duration>;

    /// Lets another process lead at once.
    fn release(&mut self);
}

/// Which rows of `call` are events for engines, as [`Event::of`](crate::model::Event::of) says: the index `call_event` has this condition.
pub const IS_EVENT: &str = "(what in (1, 5, 6, 8, 10, 11, 13, 14, 15, 16, 17) or what in (2, 3, 4) and a > 0)";

/// The columns of an [`Entry`].
pub const COLUMNS: &str = "job, seq, at, record, line, what, a, b, files, ended, waiting";

/// The columns of a [`SavedImage`]. `joined` selects the parts of a long image's text, put together. One statement reads them, so an image
/// that is deleted meanwhile is there whole or not at all.
pub fn image_columns(joined: &str) -> String {
    format!("job, seq, at, digest, shape, completed, event, coalesce(({joined}), text)")
}

/// How many bytes something takes, and what its disk has, if that can be known here.
#[derive(Clone, Copy, Debug, PartialEq, Eq)]
pub struct Space {
    pub bytes: u64,
    pub disk: Option<Disk>,
}

/// How many bytes a disk has in all, and how many of them are left.
#[derive(Clone, Copy, Debug, PartialEq, Eq)]
pub struct Disk {
    pub size: u64,
    pub free: u64,
}

/// The text of these parts of a summary, if they are all of them.
pub fn whole(parts: Vec<(String, u64)>) -> Option<String> {
    let length = parts.last()?.1;
    let text: String = parts.into_iter().map(|(text, _)| text).collect();
    (text.len() as u64 == length).then_some(text)
}

/// A part of a log, in order.
pub type LogPage = Vec<Entry>;

/// A part of a log ends behind the call with which its lines and files have this many bytes, however many calls were asked for.
pub const PAGE_BYTES: usize = 2 << 20;
