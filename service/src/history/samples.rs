//! How many files and pending records each job has over time, for a week.
use super::error::Error;
use super::tables::{Tables, PIECE};
use crate::writer::JobState;
use std::collections::{HashMap, HashSet};
use std::time::{Duration, Instant};

const EACH: Duration = Duration::from_secs(2);
/// For how long a sample that equals the one before is left out, in milliseconds.
const SAME_FOR: u64 = 60_000;
/// How long samples are kept, in milliseconds.
const KEEP: u64 = 7 * 24 * 3_600_000;

/// What was sampled last, and how the deletion of old samples goes on.
#[derive(Default)]
pub struct Samples {
    last: Option<Instant>,
    said: HashMap<i64, (u64, [u64; 4])>,
    /// The moment of the last samples.
    now: u64,
    /// How many samples came since the last piece of a deletion.
    came: u64,
    /// Since when there were always more old samples than a piece has.
    behind: Option<Instant>,
}

impl Samples {
    pub fn is_due(&self) -> bool {
        self.last.is_none_or(|last| last.elapsed() >= EACH)
    }

    /// Writes the samples that say something new.
    pub fn add(&mut self, tables: &Tables, jobs: &[JobState]) -> Result<(), Error> {
        self.last = Some(Instant::now());
        self.now = jobs.iter().map(|job| job.now).fold(self.now, u64::max);
        if self.said.len() > jobs.len() {
            let there: HashSet<i64> = jobs.iter().map(|job| job.opening.number).collect();
            self.said.retain(|job, _| there.contains(job));
        }
        tables.within(|| {
            for job in jobs {
                if self.is_new(job) {
                    tables.sample(job)?;
                    self.came += 1;
                }
            }
            Ok(())
        })
    }

    /// Whether a sample says something new, or the last one is old.
    fn is_new(&mut self, job: &JobState) -> bool {
        let pending = job.pending_checkpoints + job.pending_savepoints;
        let says = [job.files.in_use, job.files.waiting, job.files.taken, pending as u64];
        if self.said.get(&job.opening.number).is_some_and(|(at, last)| *last == says && job.now < at + SAME_FOR) {
            return false;
        }
        self.said.insert(job.opening.number, (job.now, says));
        true
    }

    /// Whether a piece of the old samples is to be deleted: after new ones, and while there are more.
    pub fn has_old(&self) -> bool {
        self.came > 0 || self.behind.is_some()
    }

    /// Deletes a piece of the old samples, and returns for how long some were left.
    pub fn forget(&mut self, tables: &Tables) -> Result<Duration, Error> {
        let (asked, most) = (Instant::now(), PIECE + std::mem::take(&mut self.came));
        let gone = tables.within(|| Ok(tables.drop_samples(self.now.saturating_sub(KEEP), most)?))?;
        self.behind = (gone == most).then(|| self.behind.unwrap_or(asked));
        Ok(self.behind.map_or(Duration::ZERO, |since| since.elapsed()))
    }
}
