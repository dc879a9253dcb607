//! `relkvanu check`: makes the calls of a database's log again, and compares each answer, each image and each phase with what the database has.
mod durable;
mod laws;

use crate::cli;
use crate::database::{Database, NoDatabase};
use crate::exit::{NOT_TO_START, START_AGAIN};
use crate::log;
use crate::model::{Entry, Job, NoJob, Opening, Phase, Trail};
use crate::store::{DbError, Listed, LogReader, Reader, SavedImage, Unusable};
use crate::writer::{replay, StartError};
use durable::Durable;
use serde_json::json;
use std::collections::{BTreeMap, VecDeque};
use std::io::{self, Write};
use std::process::ExitCode;
use thiserror::Error;

const PAGE: u32 = 10_000;
/// The exit status if the log of a job can't be replayed, or has other answers.
const DIFFERS: u8 = 1;
/// The exit status if the program of the laws is not there.
const NOT_INSTALLED: u8 = 2;

/// Why nothing, or not all, was compared.
#[derive(Debug, Error)]
enum Unchecked {
    #[error(transparent)]
    Database(#[from] NoDatabase),
    #[error(transparent)]
    Unusable(#[from] Unusable),
    /// Memory ran out, or the log can't be read now.
    #[error(transparent)]
    Unread(StartError),
    #[error("there is no job {0}")]
    NoJob(String),
    #[error("{0} is not installed: it is the program of the package {0}, and is made of the laws in Coq")]
    NoLaws(&'static str),
    /// The program of the laws ended without an answer.
    #[error("{0}: {1}")]
    Laws(&'static str, String),
    #[error(transparent)]
    Output(#[from] io::Error),
}

impl From<DbError> for Unchecked {
    fn from(error: DbError) -> Unchecked {
        Unusable::from(error).into()
    }
}

impl Unchecked {
    fn status(&self) -> u8 {
        match self {
            Unchecked::Unusable(error) if error.may_pass() => START_AGAIN,
            Unchecked::Unread(_) => START_AGAIN,
            Unchecked::NoLaws(_) => NOT_INSTALLED,
            Unchecked::Database(_) | Unchecked::Unusable(_) | Unchecked::NoJob(_) => NOT_TO_START,
            Unchecked::Laws(..) | Unchecked::Output(_) => NOT_TO_START,
        }
    }
}

/// What was compared of one job.
#[derive(Default)]
struct Compared {
    calls: u64,
    images: u64,
}

/// Whether a service can run over a database. Says why not.
pub fn is_sound(database: &str) -> bool {
    let given = cli::Check { database: database.to_string(), job: None, against: None, json: false };
    checked(&given).unwrap_or_else(|why| {
        log::error(&why.to_string());
        false
    })
}

pub fn run(given: &cli::Check) -> ExitCode {
    match checked(given) {
        Ok(true) => ExitCode::SUCCESS,
        Ok(false) => ExitCode::from(DIFFERS),
        Err(why) => {
            log::error(&why.to_string());
            ExitCode::from(why.status())
        }
    }
}

/// Prints a line for each job. Returns whether all answers, images and phases are as the database has them.
fn checked(given: &cli::Check) -> Result<bool, Unchecked> {
    let laws = given.against.map(|cli::Against::Laws| laws::program()).transpose()?;
    let database = Database::of(&given.database)?;
    if let (Some(program), Database::Sqlite(path)) = (&laws, &database) {
        if let Some(mut durable) = Durable::open(path)? {
            let (name, opening) = (&given.database, durable.opening()?);
            return match &given.job {
                Some(job) => Err(Unchecked::NoJob(job.clone())),
                None => is_alike(given, name, laws::compare(program, &mut durable, (0, name), opening)?),
            };
        }
    }
    let mut reader = opened(&database)?;
    let mut jobs = reader.listed()?;
    if let Some(name) = &given.job {
        jobs.retain(|job| job.name == *name);
        if jobs.is_empty() {
            return Err(Unchecked::NoJob(name.clone()));
        }
    }
    let mut phases: BTreeMap<i64, Result<Phase, DbError>> = reader.phases()?.into_iter().collect();
    let mut all_alike = true;
    for Listed { number, name, opening } in jobs {
        let phase = phases.remove(&number).unwrap_or(Ok(Phase::default()));
        let compared = match (opening, phase, &laws) {
            (Ok(opening), Ok(_), Some(program)) => {
                laws::compare(program, reader.as_mut(), (number, &name), Some(laws::opening(&opening)))?
            }
            (Ok(opening), Ok(phase), None) => repeated(reader.as_mut(), opening, phase),
            (Err(why), ..) | (_, Err(why), _) => Err(why.into()),
        };
        all_alike &= is_alike(given, &name, compared)?;
    }
    Ok(all_alike)
}

/// Prints what was found of a job.
fn is_alike(given: &cli::Check, job: &str, compared: Result<Compared, StartError>) -> Result<bool, Unchecked> {
    match compared {
        Ok(compared) => tell(given, job, &compared)?,
        Err(error) if error.may_pass() => return Err(Unchecked::Unread(error)),
        Err(error) => return Ok(tell_failure(given.json, job, &error).map(|()| false)?),
    }
    Ok(true)
}

/// Opens a database to read it as it is now, whatever a service commits meanwhile.
fn opened(database: &Database) -> Result<Box<dyn Reader>, Unusable> {
    let mut reader = database.reader()?;
    reader.hold()?;
    Unusable::check(reader.version()?)?;
    Ok(reader)
}

/// What makes the calls of a job again.
trait Repeats {
    /// The last call that was made, or the image that it goes on from.
    fn seq(&self) -> u64;

    fn resume(&mut self, saved: &SavedImage) -> Result<(), StartError>;

    /// Makes a call, and compares its answer.
    fn repeat(&mut self, entry: &Entry) -> Result<(), StartError>;

    /// Compares the image of the database after the same call.
    fn alike(&mut self, saved: &SavedImage) -> Result<(), StartError>;
}

/// This program, and what it has followed of a log.
struct Own(Job, Trail);

impl Repeats for Own {
    fn seq(&self) -> u64 {
        self.0.seq
    }

    fn resume(&mut self, saved: &SavedImage) -> Result<(), StartError> {
        replay::resume(&mut self.0, saved)
    }

    fn repeat(&mut self, entry: &Entry) -> Result<(), StartError> {
        replay::repeat(&mut self.0, entry)?;
        self.1.follow(entry);
        Ok(())
    }

    fn alike(&mut self, saved: &SavedImage) -> Result<(), StartError> {
        let (name, seq) = (self.0.opening.name.clone(), self.0.seq);
        replay::undamaged(&name, saved)?;
        let made = self.0.image().ok_or_else(|| StartError::NoMemory { job: name.clone(), seq })?;
        if made == saved.image {
            return Ok(());
        }
        let why = "it is not what the calls before it give".to_string();
        Err(StartError::BadImage { job: name, seq, why })
    }
}

/// Makes all calls of a job again, whose phase has to be one that its log allows.
fn repeated(reader: &mut dyn Reader, opening: Opening, phase: Phase) -> Result<Compared, StartError> {
    let (number, name) = (opening.number, opening.name.clone());
    let opened = Job::open(opening);
    let job = opened.map_err(|why: NoJob| StartError::NotOpened { job: name.clone(), why })?;
    let mut own = Own(job, Trail::default());
    let compared = compare(reader, (number, &name), &mut own)?;
    let Own(mut job, trail) = own;
    match trail.contradicts(phase, &mut job) {
        Some(found) => Err(StartError::OtherPhase { job: name, phase: phase.word(), found }),
        None => Ok(compared),
    }
}

/// Makes all calls again that the log has of a job: from its opening, or from the first image after the calls that were cut.
fn compare<L: LogReader + ?Sized>(log: &mut L, job: (i64, &str), by: &mut dyn Repeats) -> Result<Compared, StartError> {
    let ((job, name), mut compared) = (job, Compared::default());
    let mut images: Vec<u64> = log.images(job)?.into_iter().map(|image| image.seq).collect();
    if let Some(base) = base(&images, log.first(job)?) {
        log.image(job, base - 1)?.map_or(Ok(()), |saved| by.resume(&saved))?;
        compared.images += 1;
    }
    images.retain(|place| *place > by.seq());
    let mut images = VecDeque::from(images);
    loop {
        let page = log.log(job, by.seq(), PAGE)?;
        if page.is_empty() && images.is_empty() {
            return Ok(compared);
        }
        if page.is_empty() {
            // an image of calls that the log does not have any more
            let (job, seq) = (name.to_string(), by.seq());
            return Err(StartError::Damaged { job, seq, why: replay::missing(seq) });
        }
        page.iter().try_for_each(|entry| {
            by.repeat(entry)?;
            compared.calls += 1;
            if images.front() == Some(&by.seq()) {
                images.pop_front();
                log.image(job, by.seq() - 1)?.map_or(Ok(()), |saved| by.alike(&saved))?;
                compared.images += 1;
            }
            Ok::<_, StartError>(())
        })?;
    }
}

/// The image from which the calls that the log has go on, if they do not begin with the first one.
fn base(images: &[u64], first: Option<u64>) -> Option<u64> {
    match first {
        Some(1) => None,
        Some(first) => images.iter().copied().find(|place| place + 1 >= first),
        None => images.last().copied(),
    }
}

fn tell(given: &cli::Check, job: &str, compared: &Compared) -> io::Result<()> {
    let Compared { calls, images } = compared;
    let text = match given.against {
        _ if given.json => json!({"job": job, "alike": true, "calls": calls, "images": images}).to_string(),
        None => format!("job {job}: {calls} calls and {images} images are as this program has them"),
        Some(cli::Against::Laws) => format!("job {job}: {calls} calls and {images} images are as the laws have them"),
    };
    writeln!(io::stdout(), "{text}")
}

fn tell_failure(json: bool, job: &str, error: &StartError) -> io::Result<()> {
    if json {
        return writeln!(io::stdout(), "{}", json!({"job": job, "alike": false, "error": error.to_string()}));
    }
    match error {
        // a row that can't be read does not say whose it is
        StartError::Unread(_) => writeln!(io::stdout(), "job {job}: {error}"),
        _ => writeln!(io::stdout(), "{error}"),
    }
}
