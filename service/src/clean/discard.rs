//! A turn that deletes the files which a job hands out. They have their numbers in their names.
use super::deletions::Deletions;
use super::Shared;
use crate::files::{Gone, JobStorage, Owner, Refusal, Stop};
use crate::log;
use relkvanu_client::{new_key, Answer, Call, Error, Job};
use serde_json::Value;
use std::time::{Duration, Instant};

/// How many files one request takes.
const MOST: u64 = 64;
/// How many requests a turn makes for files before other jobs have theirs.
const TAKES: usize = 16;
/// How long a new marker waits for the history, which tells whether files were deleted before.
const HISTORY_PATIENCE: Duration = Duration::from_secs(10);

/// A turn of a job.
pub struct Discard<'a> {
    pub shared: &'a Shared,
    pub name: &'a str,
    pub job: Job,
    pub storage: &'a JobStorage,
    /// Whether files are looked for that were taken and not reported.
    pub looks: bool,
    /// Files of which none was there before.
    pub absent: Vec<u64>,
}

/// What a turn did.
pub struct Discarded {
    /// Whether more files may wait.
    pub more: bool,
    /// How many files could not be deleted.
    pub failed: usize,
}

/// The end of a turn.
pub struct Ended {
    /// The place, for the next turn.
    pub deletions: Option<Deletions>,
    /// Files of which none was there.
    pub absent: Vec<u64>,
    pub told: Result<Discarded, Stop>,
}

impl Discard<'_> {
    /// Deletes files until none waits, one can't be deleted, or it is the turn of other jobs. The place is opened anew after each failure, so a
    /// disk that is mounted again is found, and a server that answers again.
    pub async fn run(mut self, open: Option<Deletions>) -> Ended {
        let deletions = match open {
            Some(deletions) => Ok(deletions),
            None => self.open().await,
        };
        let (told, deletions) = match deletions {
            Ok(deletions) => (self.work(&deletions).await, Some(deletions)),
            Err(stop) => (Err(stop), None),
        };
        let deletions = deletions.filter(|_| told.is_ok());
        Ended { deletions, absent: self.absent, told }
    }

    /// Opens the place, unless another cleaner works there. Each try reads anew whose files it has: the job may be another one by then.
    async fn open(&self) -> Result<Deletions, Stop> {
        let state = self.job.state().await.map_err(away)?;
        let owner = Owner::of(self.name, &state);
        let mut place = self.storage.open(&owner)?;
        let found = place.hold(&owner.marker())?;
        let is_first = found.is_none() && !self.shared.accepted.init && self.is_first(&state).await?;
        Deletions::begin(place, found, self.shared, &self.storage.names(), &owner, is_first)
    }

    /// Whether no file of the job was taken before. A history that lags can't tell it yet.
    async fn is_first(&self, state: &Value) -> Result<bool, Stop> {
        let until = Instant::now() + HISTORY_PATIENCE;
        let number = |value: &Value, name: &str| value[name].as_u64().unwrap_or(0);
        loop {
            let files = self.job.files(1).await.map_err(away)?;
            let is_empty = |name: &str| files[name].as_array().is_some_and(Vec::is_empty);
            let (upto, seq, is_whole) = (number(&files, "upto"), number(state, "seq"), number(state, "first") == 1);
            if upto >= seq || !is_whole {
                return Ok(is_whole && is_empty("taken") && is_empty("deleted"));
            }
            if Instant::now() >= until {
                let why = format!("the history has read {upto} of {seq} calls of the job {}", self.name);
                return Err(Stop::Away(format!("{why}: it can't tell yet whether files were deleted before")));
            }
            tokio::time::sleep(Duration::from_millis(100)).await;
        }
    }

    async fn work(&mut self, deletions: &Deletions) -> Result<Discarded, Stop> {
        if !self.absent.is_empty() {
            deletions.check_any(&self.absent)?;
            self.absent.clear();
        }
        let mut files = if self.looks { self.left().await? } else { Vec::new() };
        let mut failed = 0;
        for _ in 0..TAKES {
            for some in files.chunks(MOST as usize) {
                failed += self.discard(deletions, some).await?;
            }
            if failed > 0 {
                break;
            }
            files = self.take().await?;
            if files.is_empty() {
                return Ok(Discarded { more: false, failed });
            }
        }
        // what was taken last is the next turn's to delete
        if failed == 0 {
            failed = self.discard(deletions, &files).await?;
        }
        Ok(Discarded { more: true, failed })
    }

    /// The files that were taken and never reported.
    async fn left(&self) -> Result<Vec<u64>, Stop> {
        let files = self.job.files(1000).await.map_err(away)?;
        let taken = files["taken"].as_array().map(Vec::as_slice).unwrap_or_default();
        Ok(taken.iter().filter_map(|row| row["file"].as_str()?.parse().ok()).collect())
    }

    async fn take(&self) -> Result<Vec<u64>, Stop> {
        self.job.take(MOST).await.map_err(away)
    }

    /// Deletes files for good and then reports each. Returns how many could not be deleted.
    async fn discard(&mut self, deletions: &Deletions, files: &[u64]) -> Result<usize, Stop> {
        let deleted = match self.is_job_of(deletions).await {
            Ok(()) => deletions.delete(files),
            Err(stop) => Err(stop),
        };
        match deleted {
            Ok(gone) => self.reported(files, &gone).await,
            Err(stop @ Stop::Never(..)) => {
                // no file was deleted: they wait again
                let reports: Vec<Call> = files.iter().map(|file| Call::Undeleted { file: *file }).collect();
                self.report(&reports).await?;
                if matches!(stop, Stop::Never(Refusal::AllAbsent, _)) {
                    self.absent = files.to_vec();
                }
                Err(stop)
            }
            Err(stop) => Err(stop),
        }
    }

    /// The files were taken of the job whose place this is: nobody has deleted it meanwhile, and opened another one of its name.
    async fn is_job_of(&self, deletions: &Deletions) -> Result<(), Stop> {
        let state = self.job.state().await.map_err(away)?;
        if Owner::of(self.name, &state).text() == deletions.owner().text() {
            return Ok(());
        }
        Err(Stop::Never(Refusal::OtherMarker, format!("the job {} was deleted, and opened anew", self.name)))
    }

    async fn reported(&self, files: &[u64], gone: &[Gone]) -> Result<usize, Stop> {
        let reports: Vec<Call> = files.iter().zip(gone).map(|(file, gone)| report(*file, gone)).collect();
        let refused = self.report(&reports).await?;
        self.shared.metrics.reported(self.name, gone);
        let of = |wanted: fn(&Gone) -> bool| gone.iter().filter(|gone| wanted(gone)).count();
        let (deleted, absent) = (of(|gone| *gone == Gone::Deleted), of(|gone| *gone == Gone::Absent));
        let failed = gone.len() - deleted - absent;
        if !gone.is_empty() {
            log::info(&format!(
                "job {}: deleted={deleted} absent={absent} failed={failed} refused_reports={refused}",
                self.name
            ));
        }
        Ok(failed)
    }

    /// Makes reports, and returns how many were refused.
    async fn report(&self, reports: &[Call]) -> Result<usize, Stop> {
        if reports.is_empty() {
            return Ok(0);
        }
        let answers = self.job.calls_with_key(reports, &new_key()).await.map_err(away)?;
        Ok(answers.iter().filter(|answer| matches!(answer, Answer::Refused { .. })).count())
    }
}

/// A file that was absent counts as deleted for the coordinator.
fn report(file: u64, gone: &Gone) -> Call {
    match gone {
        Gone::Deleted | Gone::Absent => Call::Deleted { file },
        Gone::Failed(_) => Call::Undeleted { file },
    }
}

/// The service gave no answer to go on with.
pub fn away(error: Error) -> Stop {
    Stop::Away(error.to_string())
}
