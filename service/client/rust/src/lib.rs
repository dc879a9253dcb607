//! A client of the service: jobs, their calls, their events and reads.
//!
//! ```no_run
//! # async fn example() -> Result<(), relkvanu_client::Error> {
//! use relkvanu_client::Service;
//!
//! let service = Service::new(&["http://127.0.0.1:7780"], None)?;
//! let job = service.job("orders");
//! let term = 3; // what the task was started with, as `begin` tells it
//! let task = job.session(term);
//! let name = task.name().await?; // of a new file, which no other file ever has
//! task.ack(1, (0, 0), &[name], &[]).await?;
//! # Ok(())
//! # }
//! ```
//! If a request is not answered, the client makes it again, for a minute if nothing else is said, at the service's next
//! address. Calls have an Idempotency-Key, so the service makes them once. An address may be `https`: the system's
//! certificates are trusted, or those of the file that `SSL_CERT_FILE` names.
mod addresses;
mod call;
#[cfg(feature = "commands")]
pub mod commands;
mod follow;
mod http;
#[cfg(feature = "runner")]
mod runner;
mod session;
mod sockets;
mod start;
#[cfg(any(feature = "sqlite", feature = "postgres"))]
pub mod table;
mod whole;

pub use call::{Answer, Beside, Call};
pub use follow::Follower;
pub use http::{new_key, Error};
#[cfg(feature = "runner")]
pub use runner::ServiceJob;
pub use session::Session;
pub use start::Start;
pub use whole::{Part, Whole};

use call::{numbers, texts};
use follow::events_of;
use http::{ApiAnswer, ApiRequest, Manner, Requests};
use hyper::Method;
use serde_json::{json, Value};
use std::sync::Arc;
use std::time::Duration;

const JOBS: &str = "/v1/jobs";
/// How many seconds a poll waits for the next event.
const LONG_POLL: u64 = 25;

/// A service, at one address or at several of which one leads. Clones share their connections.
#[derive(Clone)]
pub struct Service {
    requests: Arc<Requests>,
    manner: Manner,
}

/// A job of a service.
#[derive(Clone)]
pub struct Job {
    service: Service,
    path: String,
    opened: Option<Arc<Opened>>,
}

/// A job as it was opened or found.
#[derive(Clone, Debug, PartialEq)]
pub struct Opened {
    pub settings: Value,
    pub shape: Vec<u64>,
    /// Whether it has other settings or another shape than were given.
    pub settings_differ: bool,
    /// Where its files are, if it knows that.
    pub storage: Option<Value>,
}

impl Opened {
    fn of(told: &Value) -> Result<Opened, Error> {
        let shape = told["shape"].as_array().and_then(|shape| shape.iter().map(Value::as_u64).collect());
        Ok(Opened {
            settings: told["settings"].clone(),
            shape: shape.ok_or_else(|| Error::Answer("to open a job has no shape".to_string()))?,
            settings_differ: told["settings_differ"] == true,
            storage: Some(told["storage"].clone()).filter(|said| !said.is_null()),
        })
    }
}

impl Service {
    /// A service at these addresses, as `http://127.0.0.1:7780`, or a running job at `unix:PATH` of its socket, with a token if it needs one.
    pub fn new(urls: &[&str], token: Option<&str>) -> Result<Service, Error> {
        Ok(Service { requests: Arc::new(Requests::new(urls, token)?), manner: Manner::default() })
    }

    /// The same service, which makes a request again for this long, or for ever; and for as long as a service that starts replays more of its
    /// jobs within this time.
    #[must_use]
    pub fn within(&self, patience: Option<Duration>) -> Service {
        Service { manner: Manner { patience, ..self.manner.clone() }, ..self.clone() }
    }

    /// The same service, which tells of each try that failed and is made again.
    #[must_use]
    pub fn noticing(&self, notice: impl Fn(&Error) + Send + Sync + 'static) -> Service {
        Service { manner: Manner { notice: Some(Arc::new(notice)), ..self.manner.clone() }, ..self.clone() }
    }

    /// Opens a job, or finds it. A job that is there keeps its settings and its shape, which an operator may have changed:
    /// [`Job::opened`] has them, and an engine goes on with these. Settings are those of the API, as `{"interval": 60000}`.
    pub async fn open(&self, name: &str, settings: Value, shape: &[u64]) -> Result<Job, Error> {
        self.opened(name, json!({"name": name, "settings": settings, "shape": shape})).await
    }

    /// The same of a job that says where its files are, for cleaners, as `{"folder": "/srv/orders", "prefix": "state-"}`. A job that knows it
    /// keeps what it knows.
    pub async fn open_at(&self, name: &str, settings: Value, shape: &[u64], storage: &Value) -> Result<Job, Error> {
        self.opened(name, json!({"name": name, "settings": settings, "shape": shape, "storage": storage})).await
    }

    async fn opened(&self, name: &str, body: Value) -> Result<Job, Error> {
        let told = self.body(ApiRequest::new(Method::POST, JOBS.to_string()).with(&body)).await?;
        Ok(Job { opened: Some(Arc::new(Opened::of(&told)?)), ..self.job(name) })
    }

    /// A job that exists.
    #[must_use]
    pub fn job(&self, name: &str) -> Job {
        Job { service: self.clone(), path: format!("{JOBS}/{name}"), opened: None }
    }

    /// Deletes a job that was cancelled or has failed, with its log and its history. The service refuses it with status 409 if files of
    /// the job are left, unless it is to `abandon` them: nobody deletes them then. Returns whether there was such a job.
    pub async fn delete(&self, name: &str, abandon: bool) -> Result<bool, Error> {
        let path = format!("{JOBS}/{name}?abandon={}", u8::from(abandon));
        match self.body(ApiRequest::new(Method::DELETE, path)).await {
            Err(Error::Status { status: 404, .. }) => Ok(false),
            told => told.map(|_| true),
        }
    }

    /// The state of each job, as `jobs`. As `damaged` the name of each job that the service keeps out since its log can't be replayed, and why: their
    /// requests are refused with status 503 until they are mended and the service has started again.
    pub async fn jobs(&self) -> Result<Value, Error> {
        self.body(ApiRequest::new(Method::GET, JOBS.to_string())).await
    }

    async fn ask(&self, asked: ApiRequest) -> Result<ApiAnswer, Error> {
        self.requests.ask(&self.manner, asked).await
    }

    /// The body of the answer. An answer that is an error is one here.
    async fn body(&self, asked: ApiRequest) -> Result<Value, Error> {
        self.ask(asked).await?.body()
    }
}

impl Job {
    /// What the job had when it was opened or found; `None` of one that was not opened here.
    #[must_use]
    pub fn opened(&self) -> Option<&Opened> {
        self.opened.as_deref()
    }

    /// The same job, which makes a request again for this long, or for ever.
    #[must_use]
    pub fn within(&self, patience: Option<Duration>) -> Job {
        Job { service: self.service.within(patience), ..self.clone() }
    }

    /// Makes calls in order, and returns the answer of each. They are no transaction.
    pub async fn calls(&self, calls: &[Call]) -> Result<Vec<Answer>, Error> {
        self.calls_with_key(calls, &new_key()).await
    }

    /// The same under a key of the caller's, who can give it again if the request was not answered.
    pub async fn calls_with_key(&self, calls: &[Call], key: &str) -> Result<Vec<Answer>, Error> {
        let told = self.send_calls(calls, key).await?;
        let answers = told["answers"].as_array().ok_or(Error::Answer("has no answers".to_string()))?;
        Ok(answers.iter().map(Answer::of).collect())
    }

    /// The body that answers calls.
    async fn send_calls(&self, calls: &[Call], key: &str) -> Result<Value, Error> {
        self.post("calls", &json!({"calls": Call::list(calls)}), Some(key)).await
    }

    /// The same, whose answers have the kind of each call's record and the records that the call has ended.
    #[cfg(feature = "runner")]
    pub(crate) async fn tell_calls(&self, calls: &[Call]) -> Result<Value, Error> {
        self.posted("calls", &json!({"calls": Call::list(calls), "ended": true})).await
    }

    /// Begins the job again, from the latest record or from a savepoint, in a new shape if one is given, once all its tasks
    /// have ended: makes the call `restore`. Pending records end. Fails with [`Error::Refused`] if the job is cancelled.
    pub async fn begin(&self, savepoint: Option<u64>, shape: Option<Vec<u64>>) -> Result<Start, Error> {
        let told = self.send_calls(&[Call::Restore { savepoint, shape }], &new_key()).await?;
        Start::of(self, &told).await
    }

    /// The same from an older checkpoint that is retained, by a savepoint that the service makes of its files. **What sinks published for
    /// records after it is not taken back.** Fails with [`Error::Refused`] if no such checkpoint is retained, it has another shape than
    /// the job, or the job does not run.
    pub async fn go_back(&self, checkpoint: u64, shape: Option<Vec<u64>>) -> Result<Start, Error> {
        let told = self.send_calls(&[Call::GoBack { checkpoint, shape }], &new_key()).await?;
        Start::of(self, &told).await
    }

    /// A task of the start that has this term.
    #[must_use]
    pub fn session(&self, term: u64) -> Session {
        Session::new(self.clone(), term)
    }

    /// The term that runs and the next name, for whoever starts tasks: each learns its term there. A task never asks, since one that should
    /// be dead would learn the new term.
    pub async fn term(&self) -> Result<Value, Error> {
        self.get("/term").await
    }

    /// Triggers a checkpoint now, whatever the interval and the pause. Returns its number. Fails with [`Error::Refused`] if as many are
    /// pending as may be, or the job does not run.
    pub async fn checkpoint(&self) -> Result<Value, Error> {
        self.posted("checkpoints", &json!({})).await
    }

    /// The same of a checkpoint whose barrier names no base, so the tasks write all their state anew.
    pub async fn full_checkpoint(&self) -> Result<Value, Error> {
        self.posted("checkpoints", &json!({"full": true})).await
    }

    /// Changes settings of the job, while it runs: those that are given, as `{"interval": 30000}`. Returns all that it has then, under
    /// `settings`. Fails with [`Error::Refused`] if more checkpoints are pending than may be from then on, or the job is cancelled.
    pub async fn set(&self, settings: &Value) -> Result<Value, Error> {
        self.service.body(self.request(Method::PATCH, "/settings").with(settings)).await
    }

    /// Says where the job's files are, as [`Service::open_at`] does, whatever it knew. Returns the state of the job.
    pub async fn set_storage(&self, storage: &Value) -> Result<Value, Error> {
        self.service.body(self.request(Method::PUT, "/storage").with(storage)).await
    }

    /// Stops the job with a savepoint, whose number is the answer's `id`: the timer rests, and with the last acknowledgement the job has stopped
    /// at it, until [`begin_job`](Self::begin_job). Fails with [`Error::Refused`] if the job stops or has stopped already, or does not run.
    pub async fn stop_job(&self) -> Result<Value, Error> {
        self.posted("stop", &json!({})).await
    }

    /// Begins the job again where it has stopped. Engines that wait for it then make [`begin`](Self::begin). Fails with [`Error::Refused`] if the
    /// job has not stopped.
    pub async fn begin_job(&self) -> Result<Value, Error> {
        self.posted("begin", &json!({})).await
    }

    /// Waits as long as the job has stopped: an engine that starts does so before [`begin`](Self::begin). Returns the state of the job. Fails
    /// with [`Error::OtherLog`] if a backup of the service was restored meanwhile.
    pub async fn until_begun(&self) -> Result<Value, Error> {
        let mut state = self.state().await?;
        if state["phase"] != "stopped" {
            return Ok(state);
        }
        let after = state["seq"].as_u64().ok_or(Error::Answer("has no seq".to_string()))?;
        let mut follower = self.follower_at(after, state["log"].as_str().unwrap_or_default());
        while state["phase"] == "stopped" {
            follower.next(LONG_POLL).await?;
            state = self.state().await?;
        }
        // the state may be that of the backup
        follower.next(0).await?;
        Ok(state)
    }

    /// Lets the job go on from an older copy of the service's log, as a backup: it begins again, as by [`begin`](Self::begin), in a term above
    /// this one, and gives out names from this one on. The first is at least each term that was told, and the second above each name that
    /// was given out. Fails with [`Error::Refused`] if it is cancelled.
    pub async fn advance(&self, term: u64, first_name: u64) -> Result<Value, Error> {
        self.posted("advance", &json!({"term": term, "first_name": first_name.to_string()})).await
    }

    async fn posted(&self, what: &str, body: &Value) -> Result<Value, Error> {
        self.post(what, body, Some(&new_key())).await
    }

    async fn post(&self, what: &str, body: &Value, key: Option<&str>) -> Result<Value, Error> {
        self.service.body(self.request(Method::POST, &format!("/{what}")).with(body).under(key)).await
    }

    /// Of these files, at most 10,000, those that may be deleted, and those whose names were never given out, which nobody deletes. The
    /// first stay garbage for good, so they may be deleted at any time.
    pub async fn garbage(&self, files: &[u64]) -> Result<(Vec<u64>, Vec<u64>), Error> {
        let told = self.post("garbage", &json!({"files": texts(files)}), None).await?;
        let sorted = numbers(&told["garbage"]).zip(numbers(&told["unissued"]));
        sorted.ok_or_else(|| Error::Answer("has no garbage".to_string()))
    }

    /// Fetches at most this many files for deletion.
    pub async fn take(&self, most: u64) -> Result<Vec<u64>, Error> {
        let answers = self.calls(&[Call::Take { most }]).await?;
        match answers.first() {
            Some(answer) => answer.files().ok_or_else(|| Error::Answer(format!("to take is {answer:?}"))),
            None => Err(Error::Answer("to take is missing".to_string())),
        }
    }

    /// The state of the job.
    pub async fn state(&self) -> Result<Value, Error> {
        self.get("").await
    }

    /// A record: its metadata, its missing subtasks, and its history.
    pub async fn record(&self, id: u64) -> Result<Value, Error> {
        self.get(&format!("/records/{id}")).await
    }

    /// A complete record as a whole, which has all that the tasks begin with after a restore. Whether its files are there the caller looks. Fails
    /// with status 404 if no such record is complete, or it has ended.
    pub async fn load(&self, id: u64) -> Result<Whole, Error> {
        Whole::of(&self.get(&format!("/records/{id}/states")).await?)
    }

    /// The last records that are complete or have failed, the greatest number first, under `records`: how each ended, the milliseconds from its
    /// trigger to its acknowledgements, what its tasks told of their snapshots, and the reason of a decline.
    pub async fn history(&self, last: u64) -> Result<Value, Error> {
        self.get(&format!("/history?last={last}")).await
    }

    /// A file: the records that use it, and its history.
    pub async fn file(&self, file: u64) -> Result<Value, Error> {
        self.get(&format!("/files/{file}")).await
    }

    /// Files that were taken and not reported, and those that were deleted last.
    pub async fn files(&self, limit: u64) -> Result<Value, Error> {
        self.get(&format!("/files?limit={limit}")).await
    }

    /// Calls of the log after a place, at most this many: the first one that the log has, and a list. The last part is empty.
    pub async fn log(&self, after: u64, limit: u64) -> Result<Value, Error> {
        self.get(&format!("/log?after={after}&limit={limit}")).await
    }

    /// The same with the terms in their lines, for a write token.
    pub async fn log_with_terms(&self, after: u64, limit: u64) -> Result<Value, Error> {
        self.get(&format!("/log?after={after}&limit={limit}&terms=1")).await
    }

    /// The events after a place, and the place to go on from. Waits at most this many seconds for an event, and at most
    /// 60. Fails with status 410 if the log does not have them; a [`Follower`] goes on from the job's state.
    pub async fn events(&self, after: u64, wait: u64) -> Result<(u64, Vec<Value>), Error> {
        let events = self.request(Method::GET, &format!("/events?after={after}&wait={wait}"));
        let mut told = self.service.body(events.waiting(wait)).await?;
        let upto = told["upto"].as_u64().ok_or(Error::Answer("has no upto".to_string()))?;
        Ok((upto, events_of(&mut told)?))
    }

    /// The events after a place, by default after the last one, in pieces.
    #[must_use]
    pub fn follower(&self, after: Option<u64>) -> Follower {
        Follower::new(self.clone(), after, None)
    }

    /// The events after a place of a log that had this identity.
    #[must_use]
    pub fn follower_at(&self, after: u64, log: &str) -> Follower {
        Follower::new(self.clone(), Some(after), Some(log.to_string()))
    }

    async fn get(&self, rest: &str) -> Result<Value, Error> {
        self.service.body(self.request(Method::GET, rest)).await
    }

    fn request(&self, method: Method, rest: &str) -> ApiRequest {
        ApiRequest::new(method, format!("{}{rest}", self.path))
    }
}
