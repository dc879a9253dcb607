//! The events of a job as one answer that does not end: server-sent events, for pages and other programs that would poll.
use super::log_position::{self, LogPosition};
use super::query::{self, numbers};
use super::render;
use super::reply::{bad_field, with_type, Answered, Refusable};
use super::{no_job, App};
use crate::auth::Caller;
use hyper::body::Sender;
use hyper::header::{HeaderMap, HeaderValue, CACHE_CONTROL};
use hyper::{Body, Request};
use serde_json::json;
use std::fmt::Write;
use std::sync::Arc;
use std::time::{Duration, Instant, SystemTime};
use tokio::sync::watch;

const KIND: &str = "text/event-stream";
/// How many events are read at once.
const PAGE: u32 = 200;
/// How often it is told how many calls there are, if there are more.
const CALLS_EACH: Duration = Duration::from_millis(500);
/// How often something is sent at least, so that no proxy takes the connection as dead.
const ALIVE_EACH: Duration = Duration::from_secs(10);
/// Where a client goes on from after a lost connection: what it got as `id` last.
const LAST_ID: &str = "last-event-id";

/// Answers with the events after a place, and then with each that comes.
pub async fn answer(app: &Arc<App>, job: String, caller: &Caller, request: &Request<Body>) -> Answered {
    let (known, query) = query::text(request.uri().query().unwrap_or(""), "log");
    let [after] = numbers(&query, [log_position::AFTER])?;
    let (after, known) = match last_id(request.headers())? {
        Some((after, log)) => (Some(after), Some(log)),
        None => (log_position::given(after), known.map(str::to_string)),
    };
    let place = LogPosition::of(app, &job, after)?;
    let number = place.number;
    place.check_log(app, known.as_deref()).await?;
    let first = place.check_cut(app)?;
    let last = app.board.events(&job).ok_or_else(|| no_job(&job))?;
    let after = after.unwrap_or(first - 1).max(first - 1);
    let (sender, body) = Body::channel();
    let (calls, upto) = (app.board.length(&job), app.board.history(&job));
    let (keys, until) = (app.keys.generation(), caller.until);
    let said = (calls, upto);
    let stream = Stream { app: Arc::clone(app), job, number, after, said, last, keys, until, sender };
    tokio::spawn(stream.feed());
    let mut reply = with_type(200, KIND, body);
    reply.headers_mut().insert(CACHE_CONTROL, HeaderValue::from_static("no-store"));
    Ok(reply)
}

/// The place and the log's identity of a client that comes back.
fn last_id(headers: &HeaderMap) -> Refusable<Option<(u64, String)>> {
    let Some(value) = headers.get(LAST_ID) else {
        return Ok(None);
    };
    let read = |text: &str| {
        let (seq, log) = text.split_once('@')?;
        Some((seq.parse().ok()?, log.to_string()))
    };
    let told = value.to_str().ok().and_then(read);
    told.map(Some).ok_or_else(|| bad_field("Last-Event-ID", "is none that this service gave").into())
}

struct Stream {
    app: Arc<App>,
    job: String,
    number: i64,
    after: u64,
    /// How many calls there were, and how many of them the history had read, when that was told last.
    said: (u64, u64),
    last: watch::Receiver<u64>,
    /// Which tokens it was admitted by, and when its own ends.
    keys: u64,
    until: Option<SystemTime>,
    sender: Sender,
}

impl Stream {
    /// Sends what comes, until the client goes, the service stops or does not lead any more, or the log does not have the next events.
    async fn feed(mut self) {
        let mut sent = Instant::now();
        loop {
            // a client comes back if the database can't be read now
            let Ok((text, ends)) = self.next().await else {
                return;
            };
            let text = match text {
                text if text.is_empty() && sent.elapsed() >= self.alive_each() => ": alive\n\n".to_string(),
                text => text,
            };
            if !text.is_empty() {
                sent = Instant::now();
                if self.sender.send_data(text.into()).await.is_err() {
                    return;
                }
            }
            if ends || !self.waits().await || !self.is_admitted() {
                return;
            }
        }
    }

    /// The text of what has come, and whether it is the last. Nothing comes of a log that another process may write by now.
    async fn next(&mut self) -> Refusable<(String, bool)> {
        let place = LogPosition { job: &self.job, number: self.number, after: Some(self.after) };
        let is_cut = place.check_cut(&self.app).is_err();
        if !self.app.board.is_ready() {
            return Ok((String::new(), true));
        }
        if is_cut {
            return Ok((message("gone", None, &json!({"reason": "cut"})), true));
        }
        let mut text = String::new();
        if *self.last.borrow() > self.after {
            let (number, after, length) = (self.number, self.after, self.app.board.length(&self.job));
            let page = self.app.read_events(move |reader| reader.events(number, after, PAGE)).await?;
            if !self.app.board.is_ready() {
                return Ok((String::new(), true));
            }
            // as in a poll: a commit is told once it is published
            for entry in page.iter().filter(|entry| entry.seq <= length) {
                self.after = entry.seq;
                if let Some(event) = render::event(entry, |seq| self.app.board.base(&self.job, seq)) {
                    let id = format!("{}@{}", entry.seq, self.app.board.log());
                    text += &message(event["event"].as_str().unwrap_or_default(), Some(&id), &event);
                }
            }
        }
        let now = (self.app.board.length(&self.job), self.app.board.history(&self.job));
        if std::mem::replace(&mut self.said, now) != now {
            text += &message("calls", None, &json!({"seq": now.0, "upto": now.1}));
        }
        Ok((text, false))
    }

    /// A client whose token may have changed comes back, and is looked at again.
    fn is_admitted(&self) -> bool {
        let is_over = self.until.is_some_and(|until| SystemTime::now() >= until);
        !is_over && self.app.keys.generation() == self.keys
    }

    /// An idle connection is closed, so something is sent before.
    fn alive_each(&self) -> Duration {
        ALIVE_EACH.min(Duration::from_secs(self.app.limits.idle_seconds) / 3)
    }

    /// Waits for an event, or for a time. Returns whether the stream goes on.
    async fn waits(&mut self) -> bool {
        if *self.last.borrow_and_update() > self.after {
            return !self.app.board.is_stopping();
        }
        tokio::select! {
            changed = tokio::time::timeout(CALLS_EACH.min(self.alive_each()), self.last.changed()) => {
                !matches!(changed, Ok(Err(_))) && self.app.board.is_ready()
            }
            () = self.app.board.stopping() => false,
        }
    }
}

/// A message of a stream.
fn message(event: &str, id: Option<&str>, data: &serde_json::Value) -> String {
    let mut text = String::new();
    // a write to a text does not fail
    if let Some(id) = id {
        let _ = writeln!(text, "id: {id}");
    }
    let _ = write!(text, "event: {event}\ndata: {data}\n\n");
    text
}

#[cfg(test)]
mod tests {
    use super::*;

    #[test]
    fn messages_are_those_of_the_standard() {
        let told = message("completed", Some("7@ab"), &json!({"seq": 7}));
        assert_eq!(told, "id: 7@ab\nevent: completed\ndata: {\"seq\":7}\n\n");
        assert_eq!(message("calls", None, &json!({"a": "x\ny"})), "event: calls\ndata: {\"a\":\"x\\ny\"}\n\n");
    }

    #[test]
    fn a_client_goes_on_where_it_was() {
        let of = |text: &'static str| {
            let mut headers = HeaderMap::new();
            headers.insert(LAST_ID, HeaderValue::from_static(text));
            last_id(&headers).map_err(|_| ())
        };
        assert_eq!(of("7@ab"), Ok(Some((7, "ab".to_string()))));
        assert_eq!([of("7"), of("x@ab"), of("")], [Err(()), Err(()), Err(())]);
        assert!(matches!(last_id(&HeaderMap::new()), Ok(None)));
    }
}
