//! The answer to a call: its text for people, and the JSON of the API.
use super::event::Event;
use super::settings::settings_json;
use relkvanu::{Answer, Choice, Fault, LineFault, Settings};
use serde_json::{json, Value};
use std::fmt::Write;

/// The answer of a call that was made.
#[derive(Clone, Debug, PartialEq, Eq)]
pub enum Reply {
    Answered(Answer),
    /// The files of a take.
    Taken(Vec<u64>),
}

/// The outcome of a call of a request.
#[derive(Clone, Debug, PartialEq, Eq)]
pub enum Outcome {
    /// The call was made. `seq` is its place in the log; a take that finds no file has none.
    Made { seq: Option<u64>, reply: Reply, beside: Extra },
    /// The same, and what a request asked for beside it: the kind of the record, and which records the call has ended.
    Detailed { made: Box<Outcome>, kind: Option<String>, ended: Vec<u64> },
    /// The coordinator refused the call, or the term or the names did, or the library does not take it: nothing changed.
    Refused(Fault),
    /// The service refuses it, which knows that the coordinator would: nothing changed.
    Unable(Unable),
    /// Memory ran out: nothing changed.
    NoMemory,
    /// A call before it in the same request found no memory.
    NotMade,
}

/// Why the service refuses a call.
#[derive(Clone, Copy, Debug, PartialEq, Eq)]
pub enum Unable {
    /// No checkpoint with this number is retained.
    NoSuchCheckpoint,
    /// It has another shape than the job has now.
    OtherShape,
    /// The job stops: its savepoint is not complete.
    Stopping,
    /// The job has stopped, until it begins again.
    Stopped,
    /// The job has not stopped.
    NotStopped,
}

impl Unable {
    pub fn name(self) -> &'static str {
        match self {
            Unable::NoSuchCheckpoint => "NoSuchCheckpoint",
            Unable::OtherShape => "OtherShape",
            Unable::Stopping => "Stopping",
            Unable::Stopped => "Stopped",
            Unable::NotStopped => "NotStopped",
        }
    }
}

/// What an answer tells beside what the log has of it.
#[derive(Clone, Copy, Debug, Default, PartialEq, Eq)]
pub enum Extra {
    #[default]
    Nothing,
    /// The term that began with the call.
    Term(u64),
    /// How many names were reserved.
    Names(u64),
    /// The settings that the job has now.
    Settings(Settings),
}

impl Reply {
    /// The text of docs/SCRIPT.md and docs/LOGS.md.
    pub fn text(&self) -> String {
        match self {
            Reply::Answered(answer) => answer.to_string(),
            Reply::Taken(files) => taken_text(files),
        }
    }

    fn json(&self) -> Value {
        match self {
            Reply::Answered(answer) => answer_json(*answer),
            Reply::Taken(files) => json!({"files": files.iter().map(u64::to_string).collect::<Vec<_>>()}),
        }
    }

    /// Whether the call left the state as it was. Then the log needs no row for it.
    pub fn changed_nothing(&self) -> bool {
        matches!(self, Reply::Taken(files) if files.is_empty())
    }

    pub fn is_event(&self) -> bool {
        Event::of(self).is_some()
    }
}

fn answer_json(answer: Answer) -> Value {
    match answer {
        Answer::Triggered { expired, id } => json!({"tick": "triggered", "expired": expired, "id": id}),
        Answer::HeldInterval { expired } => json!({"tick": "held", "expired": expired, "why": "interval"}),
        Answer::HeldAtOnce { expired } => json!({"tick": "held", "expired": expired, "why": "at-once"}),
        Answer::HeldPause { expired } => json!({"tick": "held", "expired": expired, "why": "pause"}),
        Answer::Failed { expired } => json!({"tick": "failed", "expired": expired}),
        // bindings/generate makes the answers to calls of one number
        Answer::SavepointTriggered(id) => json!({"savepoint": "triggered", "id": id}),
        Answer::Disposed { released } => json!({"dispose": "disposed", "released": released}),
        Answer::Cancelled { dropped, released } => {
            json!({"cancel": "cancelled", "dropped": dropped, "released": released})
        }
        // bindings/generate: end
        Answer::AckPending { missing } => json!({"ack": "pending", "missing": missing}),
        Answer::AckCompleted { dropped, released } => {
            json!({"ack": "completed", "dropped": dropped, "released": released})
        }
        Answer::AckLate { handed_out } => json!({"ack": "late", "handed_out": handed_out}),
        Answer::DeclineAborted { released } => json!({"decline": "aborted", "released": released}),
        Answer::DeclineFailed { released } => json!({"decline": "failed", "released": released}),
        Answer::DeclineLate => json!({"decline": "late"}),
        Answer::Restored { from, released } => restored_json(from, released),
        Answer::Deleted(file) => json!({"deleted": file.to_string()}),
        Answer::Undeleted(file) => json!({"undeleted": file.to_string()}),
        Answer::Configured { checkpoints, released } => {
            json!({"configure": "configured", "dropped": checkpoints, "released": released})
        }
        Answer::Counted { file, uses } => json!({"counted": file.to_string(), "uses": uses}),
        Answer::Named => json!({"fence": "named"}),
        Answer::Reserved(first) => json!({"reserve": "reserved", "first": first.to_string()}),
        Answer::Forfeited => json!({"forfeit": "forfeited"}),
        other => json!({"unknown": other.to_string()}), // of a library that is newer than this program
    }
}

impl From<Fault> for Outcome {
    fn from(fault: Fault) -> Outcome {
        match fault {
            Fault::Memory => Outcome::NoMemory,
            other => Outcome::Refused(other),
        }
    }
}

impl Outcome {
    /// Whether the call was made and changed something.
    pub fn has_row(&self) -> bool {
        match self {
            Outcome::Made { seq, .. } => seq.is_some(),
            Outcome::Detailed { made, .. } => made.has_row(),
            _ => false,
        }
    }

    pub fn json(&self) -> Value {
        match self {
            Outcome::Made { seq, reply, beside } => {
                let mut told = reply.json();
                if let Some(seq) = seq {
                    told["seq"] = json!(seq);
                }
                match beside {
                    Extra::Nothing => {}
                    Extra::Term(term) => told["term"] = json!(term),
                    Extra::Names(count) => told["count"] = json!(count),
                    Extra::Settings(settings) => told["settings"] = settings_json(settings),
                }
                told
            }
            Outcome::Detailed { made, kind, ended } => {
                let mut told = made.json();
                if let Some(kind) = kind {
                    told["kind"] = json!(kind);
                }
                told["ended"] = json!(ended);
                told
            }
            Outcome::Refused(fault) => {
                let mut told = json!({ self.word(): name_of(*fault) });
                if let Some(file) = file_of(*fault) {
                    told["file"] = json!(file.to_string());
                }
                told
            }
            Outcome::Unable(why) => json!({"refused": why.name()}),
            Outcome::NoMemory => json!({"no_memory": true}),
            Outcome::NotMade => json!({"not_made": true}),
        }
    }

    /// The word under which the metrics count it, and that of a refusal in the API.
    pub fn word(&self) -> &'static str {
        match self {
            Outcome::Made { .. } | Outcome::Detailed { .. } => "made",
            Outcome::Refused(Fault::Fenced(_)) => "fenced",
            Outcome::Refused(_) | Outcome::Unable(_) => "refused",
            Outcome::NoMemory => "no_memory",
            Outcome::NotMade => "not_made",
        }
    }
}

/// The name of a refusal, or of what the term or the names refuse the call for.
fn name_of(fault: Fault) -> String {
    match fault {
        Fault::Refused(refusal) => refusal.name(),
        Fault::Fenced(why) => why.name(),
        Fault::BadLine(LineFault::NoCall) => "NoCall".to_string(),
        // what was given is not of the form, or not within the limits, that the library takes
        other => format!("{other:?}"),
    }
}

/// The file that is to blame, if there is one.
fn file_of(fault: Fault) -> Option<u64> {
    match fault {
        Fault::Refused(refusal) => refusal.file(),
        Fault::Fenced(why) => why.file(),
        _ => None,
    }
}

fn taken_text(files: &[u64]) -> String {
    if files.is_empty() {
        return "take none".to_string();
    }
    let mut text = "take".to_string();
    for file in files {
        let _ = write!(text, " {file}");
    }
    text
}

fn restored_json(from: Choice, released: u64) -> Value {
    match from {
        Choice::Checkpoint(id) => json!({"restore": "checkpoint", "id": id, "released": released}),
        Choice::Savepoint(id) => json!({"restore": "savepoint", "id": id, "released": released}),
        Choice::Fresh => json!({"restore": "fresh", "released": released}),
        other => json!({"restore": other.to_string(), "released": released}),
    }
}
