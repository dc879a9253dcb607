//! The events of a job, from a place on.
use crate::http::ApiRequest;
use crate::{Error, Job};
use hyper::Method;
use serde_json::{json, Value};

pub(crate) const GONE: u16 = 410;
/// The reason if the log never had the place.
const OTHER_LOG: &str = "other_log";

/// The events of a job from a place on.
///
/// If calls after the place were cut from the log, it goes on from the job's state. Then an event `missed` comes, with
/// its `reason` and the `state`, and after it events that stand for the state: `completed` for the record that a restore
/// would begin from, `triggered` for each pending record, and `failed` or `cancelled` if the job is. The engine may have
/// heard of some before. The state does not say whether somebody restored the job meanwhile, so an engine begins the job
/// again.
///
/// If a backup of the service was restored, it fails with [`Error::OtherLog`], now and each time: the engine ends.
pub struct Follower {
    job: Job,
    after: Option<u64>,
    log: Option<String>,
}

impl Follower {
    pub(crate) fn new(job: Job, after: Option<u64>, log: Option<String>) -> Follower {
        Follower { job, after, log }
    }

    /// The place to go on from, and the log's identity that it belongs to. An engine that keeps them can go on after its
    /// own restart, by [`Job::follower_at`].
    #[must_use]
    pub fn place(&self) -> (Option<u64>, Option<&str>) {
        (self.after, self.log.as_deref())
    }

    /// The next events, once there is one or this many seconds are over, at most 60.
    pub async fn next(&mut self, wait: u64) -> Result<Vec<Value>, Error> {
        let after = match self.after {
            Some(after) => after,
            None => self.go_on(&self.job.state().await?)?,
        };
        let log = self.log.as_ref().map(|log| format!("&log={log}")).unwrap_or_default();
        let path = format!("{}/events?after={after}&wait={wait}{log}", self.job.path);
        let told = self.job.service.ask(ApiRequest::new(Method::GET, path).waiting(wait)).await?;
        if told.status == GONE {
            let gone = told.value()?;
            if gone["reason"] == OTHER_LOG {
                return Err(Error::OtherLog(gone["error"].as_str().unwrap_or_default().to_string()));
            }
            let state = self.job.state().await?;
            self.go_on(&state)?;
            return Ok(instead(&state));
        }
        let mut told = told.body()?;
        self.after = Some(told["upto"].as_u64().ok_or(Error::Answer("has no upto".to_string()))?);
        self.log = told["log"].as_str().map(str::to_string);
        events_of(&mut told)
    }

    /// Goes on after the calls that a state has.
    fn go_on(&mut self, state: &Value) -> Result<u64, Error> {
        let after = state["seq"].as_u64().ok_or(Error::Answer("has no seq".to_string()))?;
        self.after = Some(after);
        self.log = state["log"].as_str().map(str::to_string);
        Ok(after)
    }
}

pub(crate) fn events_of(told: &mut Value) -> Result<Vec<Value>, Error> {
    match told["events"].take() {
        Value::Array(events) => Ok(events),
        _ => Err(Error::Answer("has no events".to_string())),
    }
}

/// The events that a job's state stands for, if calls were cut.
fn instead(state: &Value) -> Vec<Value> {
    let event = |word: &str| json!({"seq": state["last_event"], "at": state["now"], "event": word, "ended": []});
    let with = |word: &str, more: &[(&str, &Value)]| {
        let mut event = event(word);
        for (name, value) in more {
            event[*name] = (*value).clone();
        }
        event
    };
    let mut events = vec![with("missed", &[("reason", &json!("cut")), ("state", state)])];
    let mode = state["mode"].as_str().unwrap_or("failed");
    let is_running = mode == "running";
    let choice = &state["choice"]["id"];
    events.extend((!choice.is_null()).then(|| with("completed", &[("id", choice)])));
    let live = state["live"].as_array().map(Vec::as_slice).unwrap_or_default();
    let pending = live.iter().filter(|record| record["done"] == false);
    events.extend(pending.map(|record| with("triggered", &[("id", &record["id"]), ("kind", &record["kind"])])));
    events.extend((!is_running).then(|| event(mode)));
    events
}

#[cfg(test)]
mod tests {
    use super::*;

    fn words(events: &[Value]) -> Vec<String> {
        events.iter().map(|event| format!("{} {}", event["event"], event["id"]).replace('"', "")).collect()
    }

    #[test]
    fn a_state_stands_for_events() {
        let live =
            json!([{"id": 3, "kind": "checkpoint", "done": true}, {"id": 4, "kind": "savepoint", "done": false}]);
        let mut state = json!({"last_event": 9, "now": 1, "mode": "running", "choice": {"kind": "checkpoint", "id": 3}, "live": live});
        let events = instead(&state);
        assert_eq!(words(&events), ["missed null", "completed 3", "triggered 4"]);
        assert_eq!((&events[2]["kind"], &events[2]["seq"]), (&json!("savepoint"), &json!(9)));
        state = json!({"last_event": 0, "now": 1, "mode": "failed", "choice": {"kind": "fresh"}, "live": []});
        assert_eq!(words(&instead(&state)), ["missed null", "failed null"]);
        state["mode"] = json!("cancelled");
        assert_eq!(words(&instead(&state)), ["missed null", "cancelled null"]);
    }
}
