//! What a reader of the database does.
use super::cells::{FromRow, Row};
use super::error::DbError;
use super::rows::{signed, whole, LogPage, SavedImage, Space, IS_EVENT, PAGE_BYTES};
use crate::files::JobStorage;
use crate::model::{
    AckBytes, Entry, Figure, FileBytes, KeptImage, KeptSummary, Opening, PastRecord, Phase, SubtaskState,
};

/// A job that the database has, and what it was opened with, if that can be read.
pub struct Listed {
    pub number: i64,
    pub name: String,
    pub opening: Result<Opening, DbError>,
}

/// Rows of jobs, of which each can be read or not.
pub type Tried<T> = Vec<(i64, Result<T, DbError>)>;

/// The first entries of a job after a place.
pub const LOG: &str = "job = $1 and seq > $2 order by seq limit $3";
/// The images of a job, in order.
pub const IMAGES: &str = "select seq, at, bytes from image where job = $1 order by seq";
/// The first call that the log of a job has.
pub const FIRST: &str = "select min(seq) from call where job = $1";

/// The lengths of the logs as the identity $1 ended.
pub const LENGTHS_AFTER: &str =
    "select lengths from log_start where number > (select number from log_start where name = $1) order by number limit 1";

/// The logs of jobs, with their images. A part of a log that it returns has one call at least, if there is one, and [`PAGE_BYTES`] or one call
/// more at most. So it is no sign of the end that there are fewer calls than were asked for.
pub trait LogReader {
    /// The entries after `after`, at most `most`.
    fn log(&mut self, job: i64, after: u64, most: u32) -> Result<LogPage, DbError>;

    /// The first image after a place.
    fn image(&mut self, job: i64, after: u64) -> Result<Option<SavedImage>, DbError>;

    /// The images of a job, in order.
    fn images(&mut self, job: i64) -> Result<Vec<KeptImage>, DbError>;

    /// The first call that the log has.
    fn first(&mut self, job: i64) -> Result<Option<u64>, DbError>;
}

/// What a statement's rows say.
fn all<T: FromRow, R: Reader + ?Sized>(reader: &mut R, sql: &str, given: &[i64]) -> Result<Vec<T>, DbError> {
    reader.rows(sql, given)?.into_iter().map(Row::read).collect()
}

/// A connection that only reads.
pub trait Reader: LogReader + Send {
    /// The rows of a statement with these numbers, which are `$1`, `$2` and so on there and come in this order.
    fn rows(&mut self, sql: &str, given: &[i64]) -> Result<Vec<Row>, DbError>;

    /// The entries that this condition selects, as a part of a log.
    fn entries(&mut self, selected: &str, given: &[i64]) -> Result<LogPage, DbError>;

    /// The version of the tables. Fails if these are no tables of a service.
    fn version(&mut self) -> Result<i64, DbError>;

    /// From now on this connection reads the database as it is now.
    fn hold(&mut self) -> Result<(), DbError>;

    /// All jobs, also one whose row is bad.
    fn listed(&mut self) -> Result<Vec<Listed>, DbError> {
        self.jobs_after(i64::MIN)
    }

    /// The jobs with a number above `number`, in order.
    fn jobs_after(&mut self, number: i64) -> Result<Vec<Listed>, DbError> {
        all(self, "select job, name, config, shape, started, first from job where job > $1 order by job", &[number])
    }

    /// The entries after `after` that are events, at most `most`.
    fn events(&mut self, job: i64, after: u64, most: u32) -> Result<LogPage, DbError> {
        let selected = format!("job = $1 and seq > $2 and {IS_EVENT} order by seq limit $3");
        self.entries(&selected, &[job, signed(after), most.into()])
    }

    /// The entries after `after` that are about a record, at most `most`.
    fn about(&mut self, job: i64, record: u64, after: u64, most: u32) -> Result<LogPage, DbError> {
        let selected = "job = $1 and record = $2 and seq > $3 order by seq limit $4";
        self.entries(selected, &[job, signed(record), signed(after), most.into()])
    }

    /// The entry at a place.
    fn entry(&mut self, job: i64, seq: u64) -> Result<Option<Entry>, DbError> {
        Ok(self.entries("job = $1 and seq = $2", &[job, signed(seq)])?.pop())
    }

    /// The summaries of a job's history, in order.
    fn summaries(&mut self, job: i64) -> Result<Vec<KeptSummary>, DbError> {
        all(self, "select seq, max(whole) from summary where job = $1 group by seq order by seq", &[job])
    }

    /// The text of a summary; `None` if a part is missing.
    fn summary(&mut self, job: i64, seq: u64) -> Result<Option<String>, DbError> {
        let sql = "select text, whole from summary where job = $1 and seq = $2 order by part";
        Ok(whole(all(self, sql, &[job, signed(seq)])?))
    }

    /// The records after a number that ended, at most `most`.
    fn past(&mut self, job: i64, after: u64, most: u32) -> Result<Vec<PastRecord>, DbError> {
        let sql = "select job, id, text from past where job = $1 and id > $2 order by id limit $3";
        all(self, sql, &[job, signed(after), most.into()])
    }

    /// What acknowledgements said of sizes, of the calls after `after` up to `upto`, in order.
    fn ack_bytes(&mut self, job: i64, after: u64, upto: u64) -> Result<Vec<AckBytes>, DbError> {
        let sql = "select job, seq, fresh, bytes from ack_size where job = $1 and seq > $2 and seq <= $3 order by seq";
        all(self, sql, &[job, signed(after), signed(upto)])
    }

    /// The bytes of files of a job, after the number of one, which a database keeps with a sign; at most `most`, in order.
    fn sizes(&mut self, job: i64, after: i64, most: u32) -> Result<Vec<FileBytes>, DbError> {
        let sql = "select file, bytes from size where job = $1 and file > $2 order by file limit $3";
        all(self, sql, &[job, after, most.into()])
    }

    /// The bytes of those of these files of a job of which a task told them.
    fn bytes_of(&mut self, job: i64, files: &[u64]) -> Result<Vec<FileBytes>, DbError>;

    /// What the subtasks of a record have beside their files, in their order.
    fn states(&mut self, job: i64, record: u64) -> Result<Vec<SubtaskState>, DbError> {
        let columns = "job, record, vertex, place, files, payload, bytes, millis";
        let sql = format!("select {columns} from subtask_state where job = $1 and record = $2 order by vertex, place");
        all(self, &sql, &[job, signed(record)])
    }

    /// What calls told for the history, of those after `after` up to `upto`, in order.
    fn figures(&mut self, job: i64, after: u64, upto: u64) -> Result<Vec<Figure>, DbError> {
        let rows = "job = $1 and seq > $2 and seq <= $3 order by seq";
        let sql = format!("select job, seq, bytes, millis, reason from figure where {rows}");
        all(self, &sql, &[job, signed(after), signed(upto)])
    }

    /// The records of a job of which it has such rows.
    fn with_states(&mut self, job: i64) -> Result<Vec<u64>, DbError> {
        all(self, "select distinct record from subtask_state where job = $1", &[job])
    }

    /// The numbers of jobs that were deleted, and 1 if nothing is left of it.
    fn gone(&mut self) -> Result<Vec<(i64, u64)>, DbError> {
        all(self, "select job, is_empty from gone_job", &[])
    }

    /// The phases of the jobs that somebody has stopped.
    fn phases(&mut self) -> Result<Tried<Phase>, DbError> {
        all(self, "select job, phase, record, at, term, failed from phase", &[])
    }

    /// Where the files of jobs are, as far as that was said.
    fn storages(&mut self) -> Result<Tried<JobStorage>, DbError> {
        all(self, "select job, text from storage", &[])
    }

    /// How many bytes the lines and files of the last calls of a job have on average; `None` if it has none.
    fn call_bytes(&mut self, job: i64) -> Result<Option<u64>, DbError>;

    /// How much room the database takes, and has.
    fn space(&mut self) -> Result<Space, DbError>;

    /// How many calls each job has had: the place of the last call or image. It needs no other column of its rows.
    fn lengths(&mut self) -> Result<Vec<(i64, u64)>, DbError>;

    /// How many calls jobs had when the identity `name` of the log ended; `None` if the log does not know that it began, or ended.
    fn lengths_after(&mut self, name: &str) -> Result<Option<String>, DbError>;

    /// The last moment that a leader wrote down by [`Store::note`]; 0: none.
    fn noted(&mut self) -> Result<u64, DbError> {
        Ok(all::<Option<u64>, _>(self, "select max(at) from clock", &[])?.pop().flatten().unwrap_or(0))
    }

    /// The last moment of all logs, from which on [`Reader::changed`] tells what is new.
    fn last_moment(&mut self) -> Result<u64, DbError>;

    /// The jobs that have calls or images of this moment or a later one, each with the last moment of these. A database whose only
    /// process leads need not know: then it is `None`.
    fn changed(&mut self, _since: u64) -> Result<Option<Vec<(i64, u64)>>, DbError> {
        Ok(None)
    }

    /// The entries of jobs, each after a place: those of a job in order and without gaps. There are at most `most` of all, and about
    /// [`PAGE_BYTES`]; none if there are no more.
    fn logs(&mut self, after: &[(i64, u64)], most: u32) -> Result<LogPage, DbError> {
        let (mut page, mut bytes) = (LogPage::new(), 0);
        for (job, seq) in after {
            let room = most.saturating_sub(u32::try_from(page.len()).unwrap_or(most));
            if room == 0 || bytes >= PAGE_BYTES {
                break;
            }
            let entries = self.log(*job, *seq, room).map_err(|why| why.of_job(*job))?;
            bytes += entries.iter().map(Entry::bytes).sum::<usize>();
            page.extend(entries);
        }
        Ok(page)
    }

    /// The images of jobs, in order.
    fn images_of(&mut self, jobs: &[i64]) -> Result<Vec<(i64, KeptImage)>, DbError> {
        let mut found = Vec::new();
        for job in jobs {
            let images = self.images(*job).map_err(|why| why.of_job(*job))?;
            found.extend(images.into_iter().map(|image| (*job, image)));
        }
        Ok(found)
    }

    /// The images at these places. One that is gone is left out.
    fn images_at(&mut self, places: &[(i64, u64)]) -> Result<Vec<SavedImage>, DbError> {
        let mut found = Vec::new();
        for (job, seq) in places {
            let image = self.image(*job, seq.saturating_sub(1)).map_err(|why| why.of_job(*job))?;
            found.extend(image.filter(|saved| saved.image.seq == *seq));
        }
        Ok(found)
    }

    /// The address of the leader, if it is known.
    fn leader(&mut self) -> Option<String> {
        None
    }
}
