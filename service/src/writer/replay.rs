//! One job is brought up to date with its log: by an image, and by the calls after it.
use crate::model::{
    parse_line, AnswerRow, Entry, Fault, FileBytes, Job, Keeping, KeptImage, NoJob, Outcome, Retention,
};
use crate::store::{DbError, Failure, Reader, SavedImage};
use thiserror::Error;

/// How many rows are read at once.
const PAGE: u32 = 10_000;
/// How many calls are made until they are counted.
const COUNT_EACH: usize = 256;

/// Why the jobs could not be replayed from the log.
#[derive(Debug, Error)]
pub enum StartError {
    /// The log can't be read.
    #[error("the log can't be read: {0}")]
    Unread(#[from] DbError),
    /// A call has another answer than in the log. So another library wrote the log, or the log was changed.
    #[error("job {job}, call {seq} ({line:?}): the log says {logged:?}, and this program answers {answered:?}")]
    Differs { job: String, seq: u64, line: String, logged: String, answered: String },
    /// A call of the log is missing, or can't be read as one.
    #[error("job {job}, call {seq}: {why}")]
    Damaged { job: String, seq: u64, why: String },
    /// An image is not as it was written, or the library refuses it.
    #[error("job {job}, the image after call {seq}: {why}; without its row in the table image the start goes from the image before it")]
    BadImage { job: String, seq: u64, why: String },
    /// The row of a job's phase is not what the log says.
    #[error("job {job}: the table phase says {phase:?}, and its log says that {found}")]
    OtherPhase { job: String, phase: &'static str, found: String },
    /// Memory ran out. A later start may have more.
    #[error("job {job}, call {seq}: memory ran out")]
    NoMemory { job: String, seq: u64 },
    /// The program of the laws answers otherwise.
    #[error("job {job}: {why}")]
    NoLaw { job: String, why: String },
    /// A job can't be opened.
    #[error("job {job} can't be opened: {why}")]
    NotOpened { job: String, why: NoJob },
    /// Another process leads now.
    #[error("{0}")]
    NotLeading(Failure),
    /// This process leads now, so each job is brought up to date by itself.
    #[error("this process leads now")]
    Leads,
}

impl StartError {
    /// Whether it is about what the database has of one job, so that others can be replayed, and a later start fails likewise.
    pub fn is_of_one_job(&self) -> bool {
        match self {
            StartError::Unread(error) => error.bad_job().is_some(),
            StartError::NotOpened { why, .. } => !why.is_memory(),
            StartError::Differs { .. }
            | StartError::NoLaw { .. }
            | StartError::Damaged { .. }
            | StartError::BadImage { .. }
            | StartError::OtherPhase { .. } => true,
            StartError::NoMemory { .. } | StartError::NotLeading(_) | StartError::Leads => false,
        }
    }

    /// Whether a later start may succeed, without anybody's doing.
    pub fn may_pass(&self) -> bool {
        match self {
            StartError::Unread(error) => !error.is_damage(),
            StartError::NoMemory { .. } | StartError::NotLeading(_) | StartError::Leads => true,
            StartError::NotOpened { why, .. } => why.is_memory(),
            StartError::Differs { .. }
            | StartError::NoLaw { .. }
            | StartError::Damaged { .. }
            | StartError::BadImage { .. }
            | StartError::OtherPhase { .. } => false,
        }
    }
}

/// Brings a job up to date with its log, which nobody writes now, and reads what the database has beside it. Tells `made` of calls that were made
/// again. After an error that may pass it can be tried again.
pub fn bring_up(
    job: &mut Job,
    reader: &mut dyn Reader,
    keeping: Keeping,
    made: &dyn Fn(usize),
) -> Result<(), StartError> {
    let number = job.opening.number;
    let images = reader.images(number).map_err(|why| why.of_job(number))?;
    if let Some(last) = images.last().filter(|last| last.seq > job.seq) {
        if let Some(saved) = reader.image(number, last.seq - 1).map_err(|why| why.of_job(number))? {
            resume(job, &saved)?;
        }
    }
    loop {
        let page = reader.log(number, job.seq, PAGE).map_err(|why| why.of_job(number))?;
        if page.is_empty() {
            break;
        }
        for piece in page.chunks(COUNT_EACH) {
            piece.iter().try_for_each(|entry| repeat(job, entry))?;
            made(piece.len());
        }
    }
    take_stock(job, images, reader, keeping).map_err(|why| why.of_job(number))?;
    let sizes = sizes(number, reader).map_err(|why| why.of_job(number))?;
    let (name, seq) = (&job.opening.name, job.seq);
    let no_memory = StartError::NoMemory { job: name.clone(), seq };
    job.take_sizes(&sizes).ok_or(no_memory)
}

/// Reads what the database has of a job's log.
fn take_stock(job: &mut Job, images: Vec<KeptImage>, reader: &mut dyn Reader, keeping: Keeping) -> Result<(), DbError> {
    let number = job.opening.number;
    job.retention = Retention::of(images, &reader.summaries(number)?, reader.first(number)?, keeping);
    reader.with_states(number)?.into_iter().for_each(|record| job.states.note(record));
    if keeping.keep_bytes > 0 {
        reader.call_bytes(number)?.into_iter().for_each(|bytes| job.retention.set_mean(bytes));
    }
    Ok(())
}

/// Reads the bytes of a job's files that the database has.
fn sizes(job: i64, reader: &mut dyn Reader) -> Result<Vec<FileBytes>, DbError> {
    let (mut all, mut after) = (Vec::new(), i64::MIN);
    loop {
        let page = reader.sizes(job, after, PAGE)?;
        let Some((file, _)) = page.last() else {
            return Ok(all);
        };
        after = *file as i64;
        all.extend(page);
    }
}

/// Goes on from an image of a job.
pub fn resume(job: &mut Job, saved: &SavedImage) -> Result<(), StartError> {
    let (name, seq) = (job.opening.name.clone(), saved.image.seq);
    undamaged(&name, saved)?;
    job.resume(&saved.image).map_err(|fault| match fault {
        Fault::Memory => StartError::NoMemory { job: name, seq },
        refusal => StartError::BadImage { job: name, seq, why: format!("the library refuses it: {refusal:?}") },
    })
}

/// Refuses an image whose digest is not that of what it says.
pub fn undamaged(job: &str, saved: &SavedImage) -> Result<(), StartError> {
    if saved.image.digest() == saved.digest {
        return Ok(());
    }
    let why = "its digest is not that of what it says, so it is damaged".to_string();
    Err(StartError::BadImage { job: job.to_string(), seq: saved.image.seq, why })
}

/// That there is no call after this one.
pub fn missing(seq: u64) -> String {
    format!("call {} is missing", seq + 1)
}

/// Makes a call of the log again, and compares its answer.
pub fn repeat(job: &mut Job, entry: &Entry) -> Result<(), StartError> {
    let name = |job: &Job| job.opening.name.clone();
    let damaged = |job: &Job, why: String| StartError::Damaged { job: name(job), seq: entry.seq, why };
    if entry.seq != job.seq + 1 {
        return Err(damaged(job, missing(job.seq)));
    }
    let (now, call) = parse_line(&entry.line).ok_or_else(|| damaged(job, format!("{:?} is no call", entry.line)))?;
    let answered = match job.repeat(&call, now) {
        Outcome::Made { reply, .. } if AnswerRow::of(&reply) == entry.told => {
            job.at = entry.at;
            return Ok(());
        }
        Outcome::Made { reply, .. } => reply.text(),
        Outcome::NoMemory => return Err(StartError::NoMemory { job: name(job), seq: entry.seq }),
        other => other.json().to_string(),
    };
    let (line, logged) = (entry.line.clone(), entry.told.text());
    Err(StartError::Differs { job: name(job), seq: entry.seq, line, logged, answered })
}
