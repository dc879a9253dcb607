//! Answers of the service as those of a durable coordinator.
use crate::Error;
use relkvanu::store::{
    CallError, Ending, JobPhase, Made, Outcome, Part, Past, Phase, StopFailed, StoreError, StoreErrorKind, Whole,
};
use relkvanu::{Answer, Call, Choice, Fault, Fenced, Kind, Refusal, Settings};
use serde_json::Value;

const NO_MEMORY: u16 = 507;

fn number(of: &Value) -> u64 {
    of.as_u64().unwrap_or(0)
}

/// A file's number is a text.
fn file(of: &Value) -> u64 {
    of.as_str().and_then(|digits| digits.parse().ok()).unwrap_or(0)
}

pub(super) fn choice(of: &Value) -> Choice {
    match (of["kind"].as_str(), of["id"].as_u64()) {
        (Some("checkpoint"), Some(id)) => Choice::Checkpoint(id),
        (Some("savepoint"), Some(id)) => Choice::Savepoint(id),
        _ => Choice::Fresh,
    }
}

fn kind(of: &Value) -> Option<Kind> {
    match of.as_str() {
        Some("checkpoint") => Some(Kind::Checkpoint),
        Some("savepoint") => Some(Kind::Savepoint),
        _ => None,
    }
}

/// Why a call was not made, by the name that the service gives. That a job stops or has stopped counts as that it does not run.
fn refused(name: &str, file: u64) -> Fault {
    let all = [
        Refusal::MomentTooLarge,
        Refusal::TooManyFiles,
        Refusal::RepeatedFile,
        Refusal::UnknownCheckpoint,
        Refusal::UnknownSubtask,
        Refusal::AlreadyAcknowledged,
        Refusal::NameTaken(file),
        Refusal::FileGone(file),
        Refusal::NoSuchSavepoint,
        Refusal::InUse,
        Refusal::TooManySavepoints,
        Refusal::NotTaken,
        Refusal::NoSuchRecord,
        Refusal::IdsUsedUp,
        Refusal::AtOnce,
    ];
    Fault::Refused(all.into_iter().find(|it| it.name() == name).unwrap_or(Refusal::NotRunning))
}

fn fenced(name: &str, file: u64) -> Fault {
    let all = [
        Fenced::Ended,
        Fenced::BadCount,
        Fenced::NamesUsedUp,
        Fenced::TermsUsedUp,
        Fenced::Spent(file),
        Fenced::NeverReserved(file),
        Fenced::NoNames,
        Fenced::HasNames,
        Fenced::NameInUse,
    ];
    Fault::Fenced(all.into_iter().find(|it| it.name() == name).unwrap_or(Fenced::OldTerm))
}

/// What the client has failed with, in a call.
pub(super) fn call_error(why: Error) -> CallError {
    match why {
        Error::Refused(name) if matches!(&name[..], "Stopping" | "Stopped" | "NotStopped") => {
            StoreError { kind: StoreErrorKind::NotNow, message: name }.into()
        }
        Error::Refused(name) => CallError::Fault(refused(&name, 0)),
        Error::Fenced { name, file } => CallError::Fault(fenced(&name, file.unwrap_or(0))),
        Error::OldTerm => CallError::Fault(Fault::Fenced(Fenced::OldTerm)),
        Error::Status { status: NO_MEMORY, .. } => CallError::Fault(Fault::Memory),
        why => store_error(why).into(),
    }
}

pub(super) fn store_error(why: Error) -> StoreError {
    let kind = match &why {
        Error::OtherLog(_) => StoreErrorKind::Storage,
        Error::Status { status: NO_MEMORY, .. } => StoreErrorKind::NoMemory,
        Error::Status { status: 404, .. } => StoreErrorKind::Absent,
        Error::Status { status: 400..=499, .. } | Error::Address(_) => StoreErrorKind::BadArgument,
        _ => StoreErrorKind::NotDone,
    };
    StoreError { kind, message: why.to_string() }
}

pub(super) fn made(call: &Call<'_>, told: &Value) -> Result<Made, Fault> {
    if let Some(name) = told["refused"].as_str() {
        return Err(refused(name, file(&told["file"])));
    }
    if let Some(name) = told["fenced"].as_str() {
        return Err(fenced(name, file(&told["file"])));
    }
    let answer = match answer(call, told) {
        Some(answer) => Outcome::Called(answer),
        None if told["files"].is_array() => {
            Outcome::Taken(told["files"].as_array().into_iter().flatten().map(file).collect())
        }
        None => return Err(Fault::Memory), // this call, or one before it
    };
    let ended = told["ended"].as_array().into_iter().flatten().map(number).collect();
    let kind = kind(&told["kind"]).or_else(|| kind(&told["restore"]));
    Ok(Made { answer, place: number(&told["seq"]), choice: None, term: told["term"].as_u64(), kind, ended })
}

/// What a call was answered, which had to be one of these.
fn answer(call: &Call<'_>, told: &Value) -> Option<Answer> {
    let of = |name: &str| number(&told[name]);
    let (dropped, released, id) = (of("dropped"), of("released"), of("id"));
    let word = |name: &str| told[name].as_str();
    Some(match call {
        Call::AckIn { .. } => match word("ack")? {
            "completed" => Answer::AckCompleted { dropped, released },
            "late" => Answer::AckLate { handed_out: of("handed_out") },
            _ => Answer::AckPending { missing: of("missing") },
        },
        Call::DeclineIn { .. } => match word("decline")? {
            "aborted" => Answer::DeclineAborted { released },
            "failed" => Answer::DeclineFailed { released },
            _ => Answer::DeclineLate,
        },
        Call::Restore { .. } => {
            let from = choice(&serde_json::json!({"kind": word("restore")?, "id": told["id"]}));
            Answer::Restored { from, released }
        }
        Call::Reserve { .. } => Answer::Reserved(word("first")?.parse().ok()?),
        Call::Savepoint { .. } => word("savepoint").map(|_| Answer::SavepointTriggered(id))?,
        Call::Trigger { .. } => word("tick").map(|_| Answer::Triggered { expired: 0, id })?,
        Call::Configure { .. } => word("configure").map(|_| Answer::Configured { checkpoints: dropped, released })?,
        Call::Cancel { .. } => word("cancel").map(|_| Answer::Cancelled { dropped, released })?,
        Call::Dispose { .. } => word("dispose").map(|_| Answer::Disposed { released })?,
        Call::Deleted { file } => told["seq"].as_u64().map(|_| Answer::Deleted(*file))?,
        Call::Undeleted { file } => told["seq"].as_u64().map(|_| Answer::Undeleted(*file))?,
        Call::Forfeit { .. } if !told["no_memory"].is_boolean() && !told["not_made"].is_boolean() => Answer::Forfeited,
        _ => return None,
    })
}

pub(super) fn phase(state: &Value) -> JobPhase {
    let stop = &state["stop"];
    JobPhase {
        phase: match state["phase"].as_str() {
            Some("stopping") => Phase::Stopping,
            Some("stopped") => Phase::Stopped,
            _ => Phase::Running,
        },
        savepoint: stop["savepoint"].as_u64(),
        term: None,
        stop_failed: stop["failed"].as_str().map(|why| match why {
            "expired" => StopFailed::Expired,
            "declined" => StopFailed::Declined,
            "restored" => StopFailed::Restored,
            "cancelled" => StopFailed::Cancelled,
            _ => StopFailed::Failed,
        }),
    }
}

pub(super) fn settings_and_shape(state: &Value) -> (Settings, Vec<u64>) {
    let told = &state["settings"];
    let [interval, pause, at_once, timeout, tolerable, retained] =
        ["interval", "pause", "at_once", "timeout", "tolerable", "retained"].map(|name| number(&told[name]));
    let keep_on_cancel = told["keep_on_cancel"] == true;
    let settings = Settings { interval, pause, at_once, timeout, tolerable, retained, keep_on_cancel };
    (settings, state["shape"].as_array().into_iter().flatten().map(number).collect())
}

pub(super) fn whole(told: crate::Whole, term: u64) -> Result<Whole, StoreError> {
    let damaged = || StoreError { kind: StoreErrorKind::Damaged, message: "is no record".to_string() };
    let subtask = |text: &str| {
        let (vertex, index) = text.split_once('.')?;
        Some((vertex.parse().ok()?, index.parse().ok()?))
    };
    let part = |it: crate::Part| {
        let (files, payload, bytes, millis) = (it.files, it.payload, it.bytes, it.millis);
        Some(Part { subtask: subtask(&it.subtask)?, files, payload, bytes, millis })
    };
    let parts = told.parts.into_iter().map(part).collect::<Option<Vec<Part>>>().ok_or_else(damaged)?;
    let kind = kind(&Value::String(told.kind)).ok_or_else(damaged)?;
    Ok(Whole { id: told.id, kind, term, shape: told.shape, parts, origin: None })
}

/// The origin that a manifest has, if it has one.
pub(super) fn origin(manifest: &[u8]) -> Result<Option<[u64; 2]>, String> {
    let found: Value = serde_json::from_slice(manifest).map_err(|why| why.to_string())?;
    let half = |digits: Option<&str>| u64::from_str_radix(digits?, 16).ok();
    match found["origin"].as_str() {
        None => Ok(None),
        Some(job) => match (half(job.get(..16)), half(job.get(16..32))) {
            (Some(high), Some(low)) if job.len() == 32 => Ok(Some([high, low])),
            _ => Err(format!("{job} is no job")),
        },
    }
}

pub(super) fn past(of: &Value) -> Past {
    let ending = match of["how"].as_str() {
        Some("completed") => Ending::Completed,
        Some("declined") => Ending::Declined,
        Some("expired") => Ending::Expired,
        _ => Ending::Dropped,
    };
    let [id, triggered, ended, acks] = ["id", "triggered", "ended", "acks"].map(|name| number(&of[name]));
    let [first, median, p99, slowest] = ["first", "median", "p99", "slowest"].map(|name| number(&of[name]));
    let [bytes, millis] = ["bytes", "millis"].map(|name| number(&of[name]));
    let (kind, reason) =
        (kind(&of["kind"]).unwrap_or(Kind::Unknown(0)), of["reason"].as_str().unwrap_or_default().to_string());
    Past { id, kind, ending, triggered, ended, acks, first, median, p99, slowest, bytes, millis, reason }
}
