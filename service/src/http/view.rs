//! All that a tab of the page shows, in one answer: the jobs by name and mode, and one job with its pending records, its savepoints,
//! its history and its files.
use super::query::{numbers, Parameter};
use super::reads::files_of;
use super::render;
use super::reply::{self, json_reply, Answered, Refusable};
use super::{reads, App};
use crate::auth::Caller;
use crate::history::{self, HistoryReader, Search};
use crate::model::Kind;
use crate::writer::JobState;
use serde_json::{json, Value};

const RECORDS: Parameter = Parameter { name: "records", most: 1000, default: 60 };
const SAMPLES: Parameter = Parameter { name: "samples", most: 20_000, default: 600 };
const FILES: Parameter = Parameter { name: "files", most: 1000, default: 40 };
/// Pending records, and missing subtasks of one, beyond which only the number is told.
const MOST_PENDING: usize = 20;
const MOST_MISSING: usize = 24;
/// The newest savepoints that are told.
const MOST_SAVEPOINTS: usize = 100;

/// The job of this name is shown, or the first one if there is none.
pub async fn answer(app: &App, name: Option<&String>, caller: &Caller, query: &str) -> Answered {
    let wanted = numbers(query, [RECORDS, SAMPLES, FILES])?;
    let jobs = app.jobs().await?;
    // the names of many jobs take long, and the other requests go on by another thread
    let (names, shown) = tokio::task::block_in_place(|| names_of(jobs, name, caller));
    // in place of one that is kept out no other job is shown
    let shown = shown.filter(|_| name.is_none_or(|name| app.board.damage(name).is_none()));
    let replay = app.board.replay.of_all().map(|_| reply::replay(app.board.replay.progress()));
    let mut told = json!({"epoch": app.board.epoch(), "job": null, "damaged": reads::damaged(app, caller)});
    told["replay"] = json!(replay);
    told["jobs"] = names; // `json!` would copy them
    if let (Some(job), Some(object)) = (shown, told.as_object_mut()) {
        object.insert("job".to_string(), render::job(&job, app.board.log()));
        object.insert("pending".to_string(), Value::Array(pending(app, &job).await?));
        object.append(&mut history(app, &job, wanted).await?);
    }
    // the text of many jobs takes long, too
    Ok(tokio::task::block_in_place(|| json_reply(200, &told)))
}

/// The jobs that the caller may see, by name and mode, and the one that is shown.
fn names_of(jobs: Vec<JobState>, name: Option<&String>, caller: &Caller) -> (Value, Option<JobState>) {
    let mut names = Vec::with_capacity(jobs.len());
    let (mut first, mut shown) = (None, None);
    for job in jobs.into_iter().filter(|job| caller.may_see(&job.opening.name)) {
        let (mode, phase) = (render::mode(job.mode), job.phase.word());
        names.push(json!({"name": job.opening.name, "mode": mode, "phase": phase}));
        if Some(&job.opening.name) == name {
            shown = Some(job);
        } else if first.is_none() {
            first = Some(job);
        }
    }
    (Value::Array(names), shown.or(first))
}

/// The pending records of a job, each with the subtasks that are missing. One that has ended meanwhile is left out.
async fn pending(app: &App, job: &JobState) -> Refusable<Vec<Value>> {
    let mut found = Vec::new();
    for (record, _) in job.live.iter().filter(|(record, _)| !record.done).take(MOST_PENDING) {
        if let Some(live) = app.record(&job.opening.name, record.id).await? {
            let missing = live.missing();
            found.push(json!({
                "id": record.id,
                "kind": record.kind.to_string(),
                "started": live.started,
                "subtasks": live.shape.iter().sum::<u64>(),
                "missing": missing[..missing.len().min(MOST_MISSING)],
                "more_missing": missing.len().saturating_sub(MOST_MISSING),
            }));
        }
    }
    Ok(found)
}

/// What the history has of a job, so many of each, how far it is, and the files that were taken and deleted.
async fn history(app: &App, job: &JobState, wanted: [u64; 3]) -> Refusable<serde_json::Map<String, Value>> {
    let (number, [records, samples, files]) = (job.opening.number, wanted);
    let mut told = files_of(app, job, u64::MAX, files).await?;
    let savepoints: Vec<u64> = savepoints(job).collect();
    app.read_history(move |history| {
        told["records"] = json!(history.records(number, u64::MAX, records, Search::default())?);
        told["samples"] = json!(history.samples(number, 0, samples)?);
        told["savepoints"] = json!(savepoint_times(history, number, &savepoints)?);
        Ok(told.as_object().cloned().unwrap_or_default())
    })
    .await
}

/// The savepoints of a job that are complete, the newest first.
fn savepoints(job: &JobState) -> impl Iterator<Item = u64> + '_ {
    let kept = job.live.iter().rev().filter(|(record, _)| record.done && record.kind == Kind::Savepoint);
    kept.take(MOST_SAVEPOINTS).map(|(record, _)| record.id)
}

/// When each savepoint was triggered and completed, as far as the history knows it.
fn savepoint_times(history: &HistoryReader, job: i64, savepoints: &[u64]) -> Result<Vec<Value>, history::Error> {
    let told = |id: &u64| {
        let row = history.record(job, *id)?;
        let (started, finished) = row.map_or((None, None), |row| (Some(row.started), row.finished));
        Ok(json!({"id": id, "started": started, "finished": finished}))
    };
    savepoints.iter().map(told).collect()
}
