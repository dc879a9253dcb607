//! A job of the service for the runner of the crate `relkvanu`: the calls of a durable coordinator, made over HTTP.
mod answers;
mod feed;

use crate::{Beside, Call as Asked, Error, Job as Client, Service};
use answers::{call_error, choice, made, past, phase, store_error, whole};
use feed::Feed;
use relkvanu::job::{Job, Opening};
use relkvanu::storage::{Deletion, Folder, FolderOptions, Storage, StorageError};
use relkvanu::store::{Awaited, CallError, JobPhase, Made, More, Next, Past, Phase, StoreError, StoreErrorKind, Whole};
use relkvanu::{Call, Choice, Fault, FileCounts, Garbage, Mode, Settings};
use serde_json::{json, Value};
use std::future::Future;
use std::io::ErrorKind;
use std::num::NonZeroU64;
use std::ops::ControlFlow;
use std::path::{Path, PathBuf};
use std::sync::{Condvar, Mutex, MutexGuard, PoisonError};
use std::time::Duration;
use tokio::runtime::{Builder, Runtime};

/// Calls, and files, of one request.
const MOST_CALLS: usize = 1000;
const MOST_GARBAGE: usize = 10_000;
/// How long a discarder rests if no file waits, or one could not be deleted.
const IDLE: Duration = Duration::from_secs(1);

/// A job of the service as the coordinator of a [`Runner`](relkvanu::runner::Runner), which needs a storage too. Each start is a restore, and reserves a name in the
/// same commit: by that another process which still follows the job sees that this one has tasks, and ends. Threads share it.
pub struct ServiceJob {
    job: Client,
    runtime: Runtime,
    marker: (String, String), // the name, and the text
    identity: String,
    place: Mutex<Option<PathBuf>>, // of the files, if they are in a folder
    feed: Mutex<Option<Feed>>,
    is_over: Mutex<bool>,
    ends: Condvar,
}

fn locked<T>(of: &Mutex<T>) -> MutexGuard<'_, T> {
    of.lock().unwrap_or_else(PoisonError::into_inner)
}

impl ServiceJob {
    /// Opens the job, or finds it as it is: its settings and its shape are the operator's then.
    pub fn open(service: &Service, name: &str, settings: &Settings, shape: &[u64]) -> Result<ServiceJob, Error> {
        let runtime = runtime()?;
        let job = runtime.block_on(service.open(name, settings_json(settings), shape))?;
        ServiceJob::over(job, runtime)
    }

    /// Of a job that exists.
    pub fn new(job: Client) -> Result<ServiceJob, Error> {
        ServiceJob::over(job, runtime()?)
    }

    fn over(job: Client, runtime: Runtime) -> Result<ServiceJob, Error> {
        let state = runtime.block_on(job.state())?;
        let (name, opened) = (state["name"].as_str().unwrap_or_default(), &state["opened"]);
        let text = format!("relkvanu discard deletes files of the job {name}, opened at {opened}, from this folder.\n");
        // the same in the manifests of the job
        let digest = openssl::sha::sha256(text.as_bytes());
        let identity = digest[..16].iter().fold(0, |number: u128, byte| number << 8 | u128::from(*byte));
        Ok(ServiceJob {
            job,
            runtime,
            marker: (format!(".relkvanu-{name}"), text),
            identity: format!("{identity:032x}"),
            place: Mutex::default(),
            feed: Mutex::default(),
            is_over: Mutex::new(false),
            ends: Condvar::new(),
        })
    }

    /// The client of the job.
    #[must_use]
    pub fn client(&self) -> &Client {
        &self.job
    }

    /// The folder of the job's files, whose marker is that of `relkvanu discard`. A new job's folder gets it, and has no files.
    pub fn folder(&self, path: &Path, how: &FolderOptions) -> Result<Folder, StorageError> {
        let state = self.ask(self.job.state()).map_err(|why| StorageError::Failed(std::io::Error::other(why)))?;
        let name = state["name"].as_str().unwrap_or_default();
        let (marker, text) = self.marker.clone();
        let how = FolderOptions { marker: Some((marker.into(), text.into())), ..how.clone() };
        let counts = counts(&state);
        let is_new = counts.in_use + counts.waiting + counts.taken == 0 && state["choice"]["kind"] == "fresh";
        let told = match Folder::open(path, name, &how) {
            Err(StorageError::NotThere) if is_new => Folder::open(path, name, &FolderOptions { is_new, ..how }),
            told => told,
        };
        if told.is_ok() {
            *locked(&self.place) = Some(path.to_owned());
        }
        told
    }

    /// From which job a record was carried by an import or a recovery: its manifest beside the files says so.
    fn origin_of(&self, record: u64) -> Result<Option<[u64; 2]>, StoreError> {
        let Some(place) = locked(&self.place).clone() else { return Ok(None) };
        let path = place.join(format!(".relkvanu.records/{}/record-{record}.manifest", self.identity));
        let failed = |kind, why: String| StoreError { kind, message: format!("{}: {why}", path.display()) };
        let text = match std::fs::read(&path) {
            Err(why) if why.kind() == ErrorKind::NotFound => return Ok(None),
            told => told.map_err(|why| failed(StoreErrorKind::NotDone, why.to_string()))?,
        };
        answers::origin(&text).map_err(|why| failed(StoreErrorKind::Damaged, why))
    }

    fn ask<T>(&self, work: impl Future<Output = T>) -> T {
        self.runtime.block_on(work)
    }

    fn state(&self) -> Result<Value, StoreError> {
        self.ask(self.job.state()).map_err(store_error)
    }

    /// Whether another process has restored the job at this place, or since: such a one reserves names.
    fn has_tasks_since(&self, seq: u64) -> Result<bool, StoreError> {
        let told = self.ask(self.job.log(seq, MOST_CALLS as u64)).map_err(store_error)?;
        let calls = told["calls"].as_array().map(Vec::as_slice).unwrap_or_default();
        Ok(calls.iter().any(|it| it["line"].as_str().is_some_and(|line| line.starts_with("reserve "))))
    }

    /// At most a thousand calls.
    fn request(&self, calls: &[(Call<'_>, More<'_>)]) -> Result<(Vec<Result<Made, Fault>>, Value), StoreError> {
        let asked = calls.iter().map(|(call, more)| asked(call, more)).collect::<Option<Vec<Asked>>>();
        let asked = asked.ok_or_else(|| StoreError {
            kind: StoreErrorKind::BadArgument,
            message: "the service has no such call".to_string(),
        })?;
        let told = self.ask(self.job.tell_calls(&asked)).map_err(store_error)?;
        let answers = told["answers"].as_array().map(Vec::as_slice).unwrap_or_default();
        let made = calls.iter().zip(answers).map(|((call, _), answer)| made(call, answer)).collect();
        Ok((made, told))
    }

    /// Waits, at most so long. Whether the job's work ends.
    fn rests(&self, longest: Duration) -> bool {
        let is_over = locked(&self.is_over);
        let waited = self.ends.wait_timeout_while(is_over, longest, |is_over| !*is_over);
        *waited.unwrap_or_else(PoisonError::into_inner).0
    }

    /// Deletes these files, and reports what became of them. Whether all are gone.
    fn delete(&self, files: &[u64], from: &dyn Storage) -> Result<bool, StoreError> {
        let told = match from.delete(files) {
            Err(StorageError::OtherJob) => return Err(not_done(StorageError::OtherJob, StoreErrorKind::Storage)),
            told => told.unwrap_or_default(),
        };
        let is_gone = |place: usize| matches!(told.get(place), Some(Deletion::Deleted | Deletion::Missing));
        let report = |(place, file): (usize, &u64)| {
            let file = *file;
            (if is_gone(place) { Call::Deleted { file } } else { Call::Undeleted { file } }, More::default())
        };
        let reports: Vec<_> = files.iter().enumerate().map(report).collect();
        self.calls_with(&reports)?; // a report is refused that somebody else has made
        Ok((0..files.len()).all(is_gone))
    }

    /// Files that a process has taken and not reported.
    fn left(&self) -> Result<Vec<u64>, StoreError> {
        let told = self.ask(self.job.files(MOST_CALLS as u64)).map_err(store_error)?;
        let files = told["taken"].as_array().map(Vec::as_slice).unwrap_or_default();
        Ok(files.iter().filter_map(|it| it["file"].as_str()?.parse().ok()).collect())
    }
}

fn runtime() -> Result<Runtime, Error> {
    let built = Builder::new_multi_thread().worker_threads(1).enable_all().build();
    built.map_err(|why| Error::Unreached(why.to_string()))
}

pub(crate) fn settings_json(settings: &Settings) -> Value {
    json!({"interval": settings.interval, "pause": settings.pause, "at_once": settings.at_once, "timeout": settings.timeout,
        "tolerable": settings.tolerable, "retained": settings.retained, "keep_on_cancel": settings.keep_on_cancel})
}

#[cfg(feature = "commands")]
pub(crate) fn choice_json(of: Choice) -> Value {
    match of {
        Choice::Checkpoint(id) => json!({"kind": "checkpoint", "id": id}),
        Choice::Savepoint(id) => json!({"kind": "savepoint", "id": id}),
        _ => json!({"kind": "fresh"}),
    }
}

/// What an operator's call was answered.
fn one(told: Result<Value, Error>, call: Call<'_>) -> Result<Made, CallError> {
    Ok(made(&call, &told.map_err(call_error)?)?)
}

fn counts(state: &Value) -> FileCounts {
    let of = |name: &str| state["files"][name].as_u64().unwrap_or(0);
    FileCounts { in_use: of("in_use"), waiting: of("waiting"), taken: of("taken") }
}

fn not_done(why: StorageError, kind: StoreErrorKind) -> StoreError {
    StoreError { kind, message: why.to_string() }
}

/// The call of the API. `None`: it has none.
fn asked(call: &Call<'_>, more: &More<'_>) -> Option<Asked> {
    Some(match *call {
        Call::AckIn { term, id, subtask, fresh, reused, .. } => {
            let beside = Beside { payload: more.payload.to_vec(), bytes: more.bytes, millis: more.millis };
            Asked::AckWith { id, subtask, fresh: fresh.to_vec(), reused: reused.to_vec(), beside }.in_term(term)
        }
        Call::DeclineIn { term, id, subtask, .. } => {
            Asked::DeclineWith { id, subtask, reason: more.reason.to_string() }.in_term(term)
        }
        Call::Restore { savepoint, shape, .. } => {
            Asked::Restore { savepoint: savepoint.map(NonZeroU64::get), shape: shape.map(<[u64]>::to_vec) }
        }
        Call::Reserve { term, count } => Asked::Reserve { term, count },
        Call::Forfeit { term, names } => Asked::Forfeit { term, names: names.to_vec() },
        Call::Savepoint { .. } => Asked::Savepoint,
        Call::Trigger { .. } => Asked::Trigger,
        Call::Cancel { .. } => Asked::Cancel,
        Call::Dispose { id } => Asked::Dispose { id },
        Call::Deleted { file } => Asked::Deleted { file },
        Call::Undeleted { file } => Asked::Undeleted { file },
        Call::Take { most } => Asked::Take { most },
        _ => return None,
    })
}

impl Job for ServiceJob {
    fn identity(&self) -> String {
        self.identity.clone()
    }

    fn opening(&self) -> Result<Opening, CallError> {
        let state = self.state()?;
        Ok(match (phase(&state).phase, &state["mode"]) {
            (Phase::Stopped, _) => Opening::Stopped,
            (_, mode) if mode == "cancelled" => Opening::Cancelled,
            _ => Opening::Restores,
        })
    }

    fn phase(&self) -> Result<JobPhase, StoreError> {
        Ok(phase(&self.state()?))
    }

    fn mode(&self) -> Result<Mode, StoreError> {
        Ok(match self.state()?["mode"].as_str() {
            Some("running") => Mode::Running,
            Some("cancelled") => Mode::Cancelled,
            _ => Mode::Failed,
        })
    }

    fn choice(&self) -> Result<Choice, StoreError> {
        Ok(choice(&self.state()?["choice"]))
    }

    fn file_counts(&self) -> Result<FileCounts, StoreError> {
        Ok(counts(&self.state()?))
    }

    fn settings_and_shape(&self) -> Result<(Settings, Vec<u64>), StoreError> {
        Ok(answers::settings_and_shape(&self.state()?))
    }

    fn term(&self) -> Result<u64, CallError> {
        let told = self.ask(self.job.term()).map_err(call_error)?;
        Ok(told["term"].as_u64().unwrap_or(0))
    }

    fn calls_with(&self, calls: &[(Call<'_>, More<'_>)]) -> Result<Vec<Result<Made, Fault>>, StoreError> {
        let mut told = Vec::with_capacity(calls.len());
        for some in calls.chunks(MOST_CALLS) {
            told.extend(self.request(some)?.0);
        }
        Ok(told)
    }

    fn trigger(&self) -> Result<Made, CallError> {
        one(self.ask(self.job.checkpoint()), Call::Trigger { now: 0 })
    }

    fn configure(&self, settings: &Settings) -> Result<Made, CallError> {
        one(self.ask(self.job.set(&settings_json(settings))), Call::Configure { now: 0, settings: &[] })
    }

    fn stop_job(&self) -> Result<Made, CallError> {
        one(self.ask(self.job.stop_job()), Call::Savepoint { now: 0 })
    }

    fn begin_job(&self) -> Result<Made, CallError> {
        one(self.ask(self.job.begin_job()), Call::Restore { now: 0, savepoint: None, shape: None })
    }

    /// The loop hears of it, and begins the job again.
    fn go_back(&self, id: u64, accept_published: bool) -> Result<Made, CallError> {
        if !accept_published {
            let message = "what sinks have published is not taken back: this has to be accepted".to_string();
            return Err(StoreError { kind: StoreErrorKind::BadArgument, message }.into());
        }
        let told =
            self.ask(self.job.tell_calls(&[Asked::GoBack { checkpoint: id, shape: None }])).map_err(call_error)?;
        Ok(made(&Call::Restore { now: 0, savepoint: None, shape: None }, &told["answers"][0])?)
    }

    fn load(&self, id: Option<NonZeroU64>) -> Result<Option<Whole>, StoreError> {
        loop {
            let state = self.state()?;
            let (found, is_choice) = match (id, choice(&state["choice"])) {
                (Some(id), _) => (id.get(), false),
                (None, Choice::Checkpoint(id) | Choice::Savepoint(id)) => (id, true),
                (None, _) => return Ok(None),
            };
            let told = match self.ask(self.job.load(found)) {
                Err(Error::Status { status: 404, .. }) if is_choice => continue, // another one is by now
                told => told.map_err(store_error)?,
            };
            let term = self.ask(self.job.term()).map_err(store_error)?;
            let whole = whole(told, term["term"].as_u64().unwrap_or(0))?;
            return Ok(Some(Whole { origin: self.origin_of(found)?, ..whole }));
        }
    }

    fn history(&self, most: usize) -> Result<Vec<Past>, StoreError> {
        let told = self.ask(self.job.history(most as u64)).map_err(store_error)?;
        Ok(told["records"].as_array().map(Vec::as_slice).unwrap_or_default().iter().map(past).collect())
    }

    fn garbage(&self, files: &[u64]) -> Result<Garbage, CallError> {
        let mut told = Garbage { garbage: Vec::new(), unissued: Vec::new() };
        for some in files.chunks(MOST_GARBAGE) {
            let (garbage, unissued) = self.ask(self.job.garbage(some)).map_err(call_error)?;
            told.garbage.extend(garbage);
            told.unissued.extend(unissued);
        }
        Ok(told)
    }

    fn await_next(&self, longest: u64) -> Result<Awaited, CallError> {
        if *locked(&self.is_over) {
            return Ok(Next::Ended.into());
        }
        if let Some(feed) = &mut *locked(&self.feed) {
            return feed.next(longest, || self.state(), |seq| self.has_tasks_since(seq));
        }
        self.rests(Duration::from_millis(longest)); // until the first start
        Ok(Next::Idle.into())
    }

    fn hands_over_savepoints(&self) -> bool {
        true
    }

    fn sweep(&self, files: Option<&dyn Storage>) -> Result<(), CallError> {
        let files = files.ok_or_else(|| not_done(StorageError::NotThere, StoreErrorKind::BadArgument))?;
        let done = |told: Result<(), StorageError>| told.map_err(|why| not_done(why, StoreErrorKind::NotDone));
        done(files.check())?;
        let mut failed = None;
        let told = files.pages(MOST_GARBAGE, &mut |page| {
            let numbers: Vec<u64> = page.iter().map(|it| it.file).collect();
            let swept = self.garbage(&numbers).and_then(|told| match told.garbage.as_slice() {
                [] => Ok(()),
                garbage => Ok(done(files.delete(garbage).map(drop))?),
            });
            failed = swept.err();
            failed.as_ref().map_or(ControlFlow::Continue(()), |_| ControlFlow::Break(()))
        });
        failed.map_or(Ok(()), Err)?;
        Ok(done(told.map(drop))?)
    }

    fn discard(&self, files: Option<&dyn Storage>) -> Result<(), CallError> {
        let from = files.ok_or_else(|| not_done(StorageError::NotThere, StoreErrorKind::BadArgument))?;
        let mut files = self.left()?;
        while !self.rests(Duration::ZERO) {
            let are_gone = files.is_empty() || self.delete(&files, from)?;
            files = self.ask(self.job.take(MOST_CALLS as u64)).map_err(call_error)?;
            if (files.is_empty() || !are_gone) && self.rests(IDLE) {
                break;
            }
        }
        self.delete(&files, from)?; // what was taken since
        Ok(())
    }

    fn stop(&self) {
        *locked(&self.is_over) = true;
        self.ends.notify_all();
        *locked(&self.feed) = None;
    }

    fn restore(&self, savepoint: Option<NonZeroU64>, shape: Option<&[u64]>) -> Result<Made, CallError> {
        let names = Call::Reserve { term: self.term()? + 1, count: 1 };
        let calls = [Call::Restore { now: 0, savepoint, shape }, names].map(|it| (it, More::default()));
        let (made, told) = self.request(&calls)?;
        let mut answers = made.into_iter();
        let made = answers.next().unwrap_or(Err(Fault::Memory))?;
        let log = told["log"].as_str().unwrap_or_default();
        *locked(&self.feed) = Some(Feed::new(&self.runtime, self.job.follower_at(made.place, log)));
        if matches!(answers.next(), Some(Ok(_))) {
            return Ok(made);
        }
        // somebody has restored it since the term was read, and perhaps since then, which the events tell
        match self.reserve(made.term.unwrap_or(0), 1) {
            Err(CallError::Store(why)) => Err(why.into()),
            _ => Ok(made),
        }
    }
}
