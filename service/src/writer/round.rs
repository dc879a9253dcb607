//! What one commit collects, and the requests that wait for it.
use super::delete::Delete;
use super::jobs::Jobs;
use super::keeper::Upkeep;
use super::message::{CallsDone, Created, Deletion, ForKeeping, Key, Read};
use crate::files::JobStorage;
use crate::model::{Call, Held, NoJob, Opening, Settings, MAKING};
use crate::store::{Group, Keyed};
use std::collections::{BTreeSet, HashMap};
use std::sync::Arc;
use tokio::sync::oneshot::Sender;

/// The first name that a new job gives out.
const FIRST_NAME: u64 = 1;

/// A request for calls of a job, which is answered once the round is committed.
pub struct Done {
    pub untold: Untold,
    pub reply: Sender<CallsDone>,
}

pub enum Untold {
    /// What the calls gave of the job at this place. What is kept under a key is told as a whole body.
    Held { place: usize, calls: Vec<Held>, is_keyed: bool },
    /// Nothing was called.
    Known(CallsDone),
}

#[derive(Default)]
pub struct Round {
    pub group: Group,
    /// What the group writes beside calls.
    pub upkeep: Option<Upkeep>,
    pub done: Vec<Done>,
    pub created: Vec<(Created, Sender<Created>)>,
    pub reads: Vec<Read>,
    pub given: Vec<(ForKeeping, Sender<bool>)>,
    pub deletions: Vec<Delete>,
    /// Deletions that are not made, and why.
    pub undeleted: Vec<(Deletion, Sender<Deletion>)>,
    /// The places of jobs that were called.
    pub touched: BTreeSet<usize>,
    /// Jobs whose tick did nothing, and when it is tried again.
    pub postponed: Vec<(usize, u64)>,
    pub stop: bool,
    keys: HashMap<(i64, String), usize>,
}

impl Round {
    /// The answers that this round gives under a key.
    pub fn keyed(&self, job: i64, key: &str) -> Option<Keyed> {
        let place = self.keys.get(&(job, key.to_string()))?;
        self.group.requests.get(*place).cloned()
    }

    /// Keeps a request's answers under its key.
    pub fn keep(&mut self, job: i64, key: Key, at: u64, answers: String) {
        self.keys.insert((job, key.name.clone()), self.group.requests.len());
        self.group.requests.push(Keyed { job, key: key.name, at, digest: key.digest, answers });
    }

    /// Opens a job of this name, unless there is one. It gives out names from its first call on. One that a recovery makes gets them once it has its records.
    pub fn create(
        &mut self,
        jobs: &mut Jobs,
        name: &str,
        settings: Settings,
        shape: Vec<u64>,
        first: u64,
        now: u64,
    ) -> Created {
        if let Some(place) = jobs.place(name) {
            let job = jobs.at(place);
            if job.settings == MAKING && settings != MAKING {
                return Created::Making;
            }
            return Created::Found { settings: job.settings, shape: job.shape.clone(), storage: None };
        }
        if let Some(why) = jobs.kept_out().why(name) {
            return Created::Damaged(why);
        }
        let opening =
            Opening { number: jobs.next_number(), name: name.to_string(), settings, shape, started: now, first };
        let place = match jobs.open(opening.clone()) {
            Ok(place) => place,
            Err(why) => return Created::NotOpened(why),
        };
        if settings != MAKING {
            let (_, logged) = jobs.at(place).call(&Call::Fence { first_name: FIRST_NAME }, now);
            let Some(logged) = logged else {
                jobs.unopen(place);
                return Created::NotOpened(NoJob::no_memory());
            };
            self.group.log(logged);
        }
        self.group.jobs.push(opening);
        self.touched.insert(place);
        Created::New
    }

    /// Says where the files of a job are that was opened or found. One that knows it keeps what it knows, which may be an operator's.
    pub fn created_at(&mut self, jobs: &mut Jobs, name: &str, created: Created, said: Option<JobStorage>) -> Created {
        let is_there = matches!(created, Created::New | Created::Found { .. });
        let Some(place) = jobs.place(name).filter(|_| is_there) else {
            return created;
        };
        if let Some(said) = said.filter(|_| jobs.at(place).storage.is_none()) {
            self.locate(jobs, name, said);
        }
        match created {
            Created::Found { settings, shape, .. } => {
                Created::Found { settings, shape, storage: jobs.at(place).storage.clone() }
            }
            other => other,
        }
    }

    /// Says where the files of a job are, if there is such a job.
    pub fn locate(&mut self, jobs: &mut Jobs, name: &str, storage: JobStorage) {
        if let Some(place) = jobs.place(name) {
            let job = jobs.at(place);
            let storage = Arc::new(storage);
            self.group.storages.insert(job.opening.number, Arc::clone(&storage));
            job.storage = Some(storage);
        }
    }
}
