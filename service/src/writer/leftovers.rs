//! Deletion of what is left of jobs that were deleted, in pieces between two commits.
use crate::log;
use crate::store::Store;
use std::collections::VecDeque;
use std::time::{Duration, Instant};

/// From one piece to the next.
const EACH: Duration = Duration::from_millis(20);
/// From a piece that failed to the next.
const REST: Duration = Duration::from_secs(60);

/// For how long a deleted job is known of which nothing is left, in milliseconds. By then each standby has read that it was deleted.
const KNOWN_FOR: u64 = 24 * 3_600_000;
/// How often such jobs are forgotten.
const FORGET_EACH: Duration = Duration::from_secs(60);

#[derive(Default)]
pub struct Leftovers {
    jobs: VecDeque<i64>,
    next: Option<Instant>,
    /// When deleted jobs were forgotten last.
    forgot: Option<Instant>,
}

impl Leftovers {
    /// Those of jobs that an earlier process left.
    pub fn of(jobs: Vec<i64>) -> Leftovers {
        Leftovers { jobs: jobs.into(), next: None, forgot: None }
    }

    pub fn add(&mut self, job: i64) {
        self.jobs.push_back(job);
    }

    /// How long until the next piece is due; `None` if nothing is left.
    pub fn wait(&self) -> Option<Duration> {
        let wait = self.next.map_or(Duration::ZERO, |next| next.saturating_duration_since(Instant::now()));
        (!self.jobs.is_empty()).then_some(wait)
    }

    /// Deletes a piece if one is due, at this moment.
    pub fn work(&mut self, store: &mut dyn Store, now: u64) {
        let Some(job) = self.jobs.front().copied().filter(|_| self.wait() == Some(Duration::ZERO)) else {
            return;
        };
        let rest = match store.forget_job(job) {
            Ok(true) => EACH,
            Ok(false) => {
                self.jobs.pop_front();
                log::info(&format!("job number={job} nothing is left of it"));
                self.forget_old(store, now);
                EACH
            }
            Err(why) => {
                log::warn(&format!("what is left of a job stays: {why}"));
                REST
            }
        };
        self.next = Some(Instant::now() + rest);
    }

    fn forget_old(&mut self, store: &mut dyn Store, now: u64) {
        if self.forgot.is_some_and(|at| at.elapsed() < FORGET_EACH) {
            return;
        }
        self.forgot = Some(Instant::now());
        if let Err(why) = store.forget_gone(now.saturating_sub(KNOWN_FOR)) {
            log::warn(&format!("jobs that were deleted stay known: {why}"));
        }
    }
}
