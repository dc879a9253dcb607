//! The events of a job, which a task of the runtime polls for.
use super::answers::{call_error, choice, phase};
use crate::{Error, Follower};
use relkvanu::store::{Awaited, CallError, Next, Phase, StoreError, StoreErrorKind};
use relkvanu::Kind;
use serde_json::Value;
use std::collections::BTreeSet;
use std::sync::mpsc::{channel, Receiver, RecvTimeoutError};
use std::time::Duration;
use tokio::runtime::Runtime;
use tokio::task::JoinHandle;

/// Seconds that a poll waits.
const LONG_POLL: u64 = 25;

/// What comes after a restore. Its drop ends the polls.
pub(super) struct Feed {
    events: Receiver<Result<Value, Error>>,
    polls: JoinHandle<()>,
    savepoints: BTreeSet<u64>, // that were triggered
}

impl Drop for Feed {
    fn drop(&mut self) {
        self.polls.abort();
    }
}

impl Feed {
    pub(super) fn new(runtime: &Runtime, mut follower: Follower) -> Feed {
        let (sender, events) = channel();
        let polls = runtime.spawn(async move {
            loop {
                let told = follower.next(LONG_POLL).await;
                let fails = told.is_err();
                let events: Vec<_> =
                    told.map_or_else(|why| vec![Err(why)], |events| events.into_iter().map(Ok).collect());
                if events.into_iter().any(|it| sender.send(it).is_err()) || fails {
                    return;
                }
            }
        });
        Feed { events, polls, savepoints: BTreeSet::new() }
    }

    /// What the next event has for the engine.
    pub(super) fn next(
        &mut self,
        longest: u64,
        state: impl Fn() -> Result<Value, StoreError>,
        has_tasks_since: impl Fn(u64) -> Result<bool, StoreError>,
    ) -> Result<Awaited, CallError> {
        let event = match self.events.recv_timeout(Duration::from_millis(longest)) {
            Ok(told) => told.map_err(call_error)?,
            Err(RecvTimeoutError::Timeout) => return Ok(Next::Idle.into()),
            Err(RecvTimeoutError::Disconnected) => return Ok(Next::Ended.into()), // after its last error
        };
        let ended = event["ended"].as_array().map(|all| all.iter().filter_map(Value::as_u64).collect());
        let next = match event["event"].as_str().unwrap_or_default() {
            "triggered" => self.barrier(&event),
            "completed" => match event["id"].as_u64() {
                Some(id) if !self.savepoints.remove(&id) => Next::Completed { id },
                _ => Next::Idle,
            },
            "failed" => Next::Failed,
            "cancelled" => Next::Cancelled,
            // by a stop, or by an operator: then the runner begins the job again, in a term that it alone has
            word @ ("restored" | "missed") => {
                let state = state()?;
                if phase(&state).phase == Phase::Stopped {
                    Next::Stopped
                } else if state["mode"] == "cancelled" {
                    Next::Cancelled
                } else if word == "restored" && has_tasks_since(event["seq"].as_u64().unwrap_or(0))? {
                    let message = "another process has begun the job".to_string();
                    return Err(StoreError { kind: StoreErrorKind::Storage, message }.into());
                } else {
                    Next::Failed
                }
            }
            _ => Next::Idle,
        };
        Ok(Awaited { next, ended: ended.unwrap_or_default() })
    }

    fn barrier(&mut self, event: &Value) -> Next {
        let id = event["id"].as_u64().unwrap_or(0);
        let kind = if event["kind"] == "savepoint" { Kind::Savepoint } else { Kind::Checkpoint };
        if kind == Kind::Savepoint {
            self.savepoints.insert(id);
        }
        Next::Barrier { id, kind, base: choice(&event["base"]) }
    }
}
