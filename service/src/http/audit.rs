//! Who called what: lines of the service's log. There is one for each request that a user makes to change something, one for each
//! that is refused for its token or fails, though no more than one a second, and one for each request if the configuration says so.
use super::reply::HttpReply;
use super::route::To;
use crate::files::JobStorage;
use crate::log;
use crate::model::{Call, Change, FIELDS};
use hyper::Method;
use serde_json::{json, Value};
use std::sync::{Mutex, PoisonError};
use std::time::{Duration, Instant};

/// How often a refused or failed request has a line.
const EACH: Duration = Duration::from_secs(1);

/// The calls of a request that a user makes, and no task. Kept beside the answer.
pub struct Did(String);

impl Did {
    /// `None` if tasks, timers and discarders made all of them.
    pub fn of(calls: &[Call]) -> Option<Did> {
        let is_tasks = |call: &Call| {
            use Call::{Ack, Decline, Deleted, Forfeit, Reserve, Take, Tick, Undeleted};
            matches!(
                call,
                Tick | Ack { .. }
                    | Decline { .. }
                    | Take { .. }
                    | Deleted { .. }
                    | Undeleted { .. }
                    | Reserve { .. }
                    | Forfeit { .. }
            )
        };
        let names: Vec<&str> = calls.iter().filter(|call| !is_tasks(call)).map(Call::name).collect();
        (!names.is_empty()).then(|| Did(names.join(" ")))
    }

    /// Other settings, each with its new value.
    pub fn settings(change: &Change) -> Did {
        let numbers = FIELDS.iter().zip(change.numbers).filter_map(|(field, number)| Some((field.name, number?)));
        let mut words: Vec<String> = numbers.map(|(name, number)| format!("{name}={number}")).collect();
        words.extend(change.keep_on_cancel.map(|keep| format!("keep_on_cancel={keep}")));
        Did(format!("configure {}", words.join(" ")))
    }

    /// Where the files of a job are.
    pub fn storage(storage: &JobStorage) -> Did {
        Did(format!("storage {}", storage.text()))
    }
}

/// A request, for its line.
pub struct RequestLine {
    pub method: Method,
    pub path: String,
    pub since: Instant,
}

/// Which lines there are.
pub struct Audit {
    all: bool,
    bad: Mutex<Bad>,
}

/// Refused and failed requests: when one had a line last, and how many had none since.
#[derive(Default)]
struct Bad {
    last: Option<Instant>,
    more: u64,
}

impl Audit {
    pub fn new(all: bool) -> Audit {
        Audit { all, bad: Mutex::default() }
    }

    /// Writes the line of a request that was answered, if it has one. `by` names its token.
    pub fn answered(&self, asked: &RequestLine, to: Option<To>, by: Option<&str>, reply: &mut HttpReply) {
        let (status, did) = (reply.status().as_u16(), reply.extensions_mut().remove::<Did>());
        // a standby answers 503 to each request
        let is_bad = matches!(status, 401 | 403) || status >= 500 && status != 503;
        let changes_jobs = matches!(to, Some(To::NewJob | To::DeleteJob));
        let more = match is_bad && !self.all {
            true => match self.next_bad(Instant::now()) {
                Some(more) => more,
                None => return,
            },
            false if self.all || changes_jobs || did.is_some() => 0,
            false => return,
        };
        let mut fields = vec![
            ("method", json!(asked.method.as_str())),
            ("path", json!(asked.path)),
            ("status", json!(status)),
            ("by", json!(by.unwrap_or("nobody"))),
            ("took_ms", json!(asked.since.elapsed().as_millis() as u64)),
        ];
        fields.extend(did.map(|Did(calls)| ("calls", Value::from(calls))));
        fields.extend((more > 0).then(|| ("more", json!(more))));
        log::event("request", &fields);
    }

    /// Whether a bad request has a line now, and how many had none before it.
    fn next_bad(&self, now: Instant) -> Option<u64> {
        let mut bad = self.bad.lock().unwrap_or_else(PoisonError::into_inner);
        if bad.last.is_some_and(|last| now.saturating_duration_since(last) < EACH) {
            bad.more += 1;
            return None;
        }
        bad.last = Some(now);
        Some(std::mem::take(&mut bad.more))
    }
}

#[cfg(test)]
mod tests {
    use super::*;

    #[test]
    fn bad_requests_have_a_line_each_second() {
        let (audit, start) = (Audit::new(false), Instant::now());
        let told = [0, 1, 999, 1000, 1500, 5000].map(|ms| audit.next_bad(start + Duration::from_millis(ms)));
        assert_eq!(told, [Some(0), None, None, Some(2), None, Some(1)]);
    }

    #[test]
    fn tasks_make_no_line() {
        let did = |calls: &[Call]| Did::of(calls).map(|Did(text)| text);
        assert_eq!(did(&[Call::Tick, Call::Take { most: 1 }, Call::Deleted { file: 1 }]), None);
        assert_eq!(did(&[Call::Savepoint, Call::Tick, Call::Cancel]).as_deref(), Some("savepoint cancel"));
        let change = Change { keep_on_cancel: Some(true), numbers: [Some(30_000), None, None, None, None, Some(3)] };
        assert_eq!(Did::settings(&change).0, "configure interval=30000 retained=3 keep_on_cancel=true");
    }
}
