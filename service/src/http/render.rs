//! JSON of jobs, records, files, events and the log.
use crate::history::{FileRow, RecordRow};
use crate::model::{kind, settings_json, without_term, Answer, Choice, Entry, Event, LiveRecord, Mode, Reply};
use crate::writer::JobState;
use serde::{Deserialize, Serialize, Serializer};
use serde_json::{json, Value};
use std::borrow::Cow;
use std::collections::HashSet;

pub fn mode(mode: Mode) -> &'static str {
    match mode {
        Mode::Running => "running",
        Mode::Failed => "failed",
        Mode::Cancelled => "cancelled",
        _ => "unknown",
    }
}

pub fn choice(choice: Choice) -> Value {
    match choice {
        Choice::Checkpoint(id) => json!({"kind": "checkpoint", "id": id}),
        Choice::Savepoint(id) => json!({"kind": "savepoint", "id": id}),
        Choice::Fresh => json!({"kind": "fresh"}),
        _ => json!({"kind": "unknown"}),
    }
}

fn live((record, missing): &(LiveRecord, u64)) -> Value {
    json!({"id": record.id, "kind": record.kind.to_string(), "done": record.done, "missing": missing})
}

/// A job's state. `log` is the identity of the log that it is from.
pub fn job(state: &JobState, log: &str) -> Value {
    let (files, bytes) = (&state.files, &state.bytes);
    json!({
        "name": state.opening.name,
        "settings": settings_json(&state.settings),
        "shape": state.shape,
        "opened": state.opening.started,
        "mode": mode(state.mode),
        "phase": state.phase.word(),
        "stop": state.phase.stop_json(),
        "storage": state.storage.as_deref(),
        "log": log,
        "seq": state.seq,
        "now": state.now,
        "due": state.due,
        "oldest_expiry": state.oldest_expiry,
        "choice": choice(state.choice),
        "files": {"in_use": files.in_use, "waiting": files.waiting, "taken": files.taken},
        "bytes": {"in_use": bytes.in_use, "waiting": bytes.waiting, "taken": bytes.taken, "files": bytes.files},
        "last_completed": state.last_completed,
        "last_event": state.last_event,
        "first": state.first,
        "image": state.image.map(|image| json!({"seq": image.seq, "at": image.at, "bytes": image.bytes})),
        "live": state.live.iter().map(live).collect::<Vec<_>>(),
        // not the term: a task of an ended term could learn it here
        "next_name": state.term.map(|now| now.next_name.to_string()),
    })
}

/// A row of the log.
#[derive(Serialize)]
pub struct Row<'a> {
    seq: u64,
    at: u64,
    record: Option<u64>,
    line: Cow<'a, str>,
    answer: String,
    ended: Vec<u64>,
    waiting: u64,
}

impl Row<'_> {
    /// The row with its term, or without it.
    fn of(entry: &Entry, has_term: bool) -> Row<'_> {
        let Entry { seq, at, record, line, told, waiting, .. } = entry;
        let line = if has_term { Cow::Borrowed(line.as_str()) } else { without_term(line) };
        Row {
            seq: *seq,
            at: *at,
            record: *record,
            line,
            answer: told.text(),
            ended: entry.ended_records(),
            waiting: *waiting,
        }
    }
}

/// A part of the log, which begins with the call `first`, with the terms in its lines or without.
pub fn log(first: u64, log: &str, page: &[Entry], has_terms: bool) -> String {
    #[derive(Serialize)]
    struct Log<'a> {
        first: u64,
        log: &'a str,
        calls: Vec<Row<'a>>,
    }
    let calls = page.iter().map(|entry| Row::of(entry, has_terms)).collect();
    serde_json::to_string(&Log { first, log, calls }).unwrap_or_default()
}

/// The event that a row of the log is for an engine, or `None`. A trigger has what its tasks build on, if `base` knows it for the row's
/// place, and no term: a task of an ended term could learn the new one there.
pub fn event(entry: &Entry, base: impl Fn(u64) -> Option<Choice>) -> Option<Value> {
    let reply = entry.reply()?;
    let is = Event::of(&reply)?;
    let word = is.word();
    let mut event = json!({"seq": entry.seq, "at": entry.at, "event": word, "ended": entry.ended_records()});
    if let Some(id) = entry.record {
        event["id"] = json!(id);
    }
    if let Some(kind) = kind(&reply) {
        event["kind"] = json!(kind);
    }
    if let Some(base) = base(entry.seq).filter(|_| is == Event::Triggered) {
        event["base"] = choice(base);
    }
    Some(event)
}

/// The history of a file, with the log's entries at its places.
pub fn file_history(row: &FileRow, entries: &[Entry]) -> Value {
    let at = |seq: Option<u64>| {
        let found = entries.iter().find(|entry| Some(entry.seq) == seq);
        found.map(|entry| Row::of(entry, false))
    };
    json!({
        "born": at(row.born), "released": at(row.released), "taken": at(row.taken), "deleted": at(row.deleted),
        "why": entries.iter().find(|entry| Some(entry.seq) == row.released).and_then(why),
    })
}

/// Why a call released files, in words.
fn why(entry: &Entry) -> Option<String> {
    use Answer as A;
    let Reply::Answered(answer) = entry.reply()? else {
        return None;
    };
    let (dropped, id) = (dropped(&entry.ended_records()), entry.record.unwrap_or_default());
    Some(match answer {
        A::AckLate { .. } => format!("an acknowledgement of record {id} came after the record was done or had ended"),
        A::AckPending { .. } | A::AckCompleted { .. } => format!("record {id} completed, and {dropped}"),
        A::Failed { .. } => format!("the job failed over, and {dropped}"),
        A::Triggered { .. } | A::HeldInterval { .. } | A::HeldAtOnce { .. } | A::HeldPause { .. } => {
            format!("by its timeout {dropped}")
        }
        A::DeclineAborted { .. } | A::DeclineFailed { .. } | A::DeclineLate => {
            format!("record {id} was declined, and {dropped}")
        }
        A::Disposed { .. } => format!("savepoint {id} was disposed of"),
        A::Restored { .. } => format!("the job was restored, and {dropped}"),
        A::Cancelled { .. } => format!("the job was cancelled, and {dropped}"),
        // the others release none
        _ => return None,
    })
}

fn dropped(ids: &[u64]) -> String {
    let list = ids.iter().map(u64::to_string).collect::<Vec<_>>().join(", ");
    match ids {
        [] => "pins ended".to_string(),
        [_] => format!("record {list} was dropped"),
        _ => format!("records {list} were dropped"),
    }
}

/// The metadata of a live record, as the coordinator shows it; file numbers are strings in an answer.
#[derive(Deserialize, Serialize)]
pub struct Metadata {
    /// Of the subtasks that have acknowledged.
    pub acks: Vec<Acked>,
    pub id: u64,
    pub kind: String,
    missing: u64,
    pub shape: Vec<u64>,
    /// The moment of its trigger.
    pub started: u64,
    state: String,
}

#[derive(Deserialize, Serialize)]
pub struct Acked {
    /// They ascend.
    #[serde(serialize_with = "as_strings")]
    pub files: Vec<u64>,
    pub subtask: String,
}

fn as_strings<S: Serializer>(files: &[u64], to: S) -> Result<S::Ok, S::Error> {
    to.collect_seq(files.iter().map(u64::to_string))
}

impl Metadata {
    pub fn of(text: &str) -> Option<Metadata> {
        serde_json::from_str(text).ok()
    }

    pub fn is_done(&self) -> bool {
        self.state == "done"
    }

    /// The subtasks that have not acknowledged.
    pub fn missing(&self) -> Vec<String> {
        let acked: HashSet<&str> = self.acks.iter().map(|ack| ack.subtask.as_str()).collect();
        let all = self
            .shape
            .iter()
            .enumerate()
            .flat_map(|(vertex, parallelism)| (0..*parallelism).map(move |index| format!("{vertex}.{index}")));
        all.filter(|subtask| !acked.contains(subtask.as_str())).collect()
    }

    /// The acknowledgements that name a file.
    pub fn uses(&self, file: u64) -> impl Iterator<Item = Value> + '_ {
        let names = self.acks.iter().filter(move |ack| ack.files.binary_search(&file).is_ok());
        names.map(|ack| json!({"record": self.id, "subtask": ack.subtask}))
    }
}

/// A record that is complete or has failed. Acknowledgements are milliseconds from its trigger on.
pub fn past(row: &RecordRow) -> Value {
    let after = |moment: Option<i64>| moment.map(|moment| moment - row.started);
    json!({
        "id": row.id,
        "kind": row.kind,
        "how": row.how,
        "triggered": row.started,
        "ended": row.finished,
        "acks": row.acks,
        "first": after(row.first_ack),
        "median": row.median,
        "p99": row.p99,
        "slowest": after(row.last_ack),
        "bytes": row.bytes.or(row.fresh_bytes),
        "millis": row.millis,
        "reason": row.reason,
    })
}

/// A record: its metadata and missing subtasks if it is live, and its history.
pub fn record(id: u64, live: Option<Metadata>, history: Option<RecordRow>) -> String {
    #[derive(Serialize)]
    struct Record {
        id: u64,
        live: Option<Metadata>,
        missing: Option<Vec<String>>,
        history: Option<RecordRow>,
    }
    let missing = live.as_ref().map(Metadata::missing);
    serde_json::to_string(&Record { id, live, missing, history }).unwrap_or_default()
}
