//! Requests that read: jobs, records, files, the log, events and metrics.
use super::log_position::{self, LogPosition};
use super::query::{self, numbers, Parameter};
use super::render;
use super::reply::{bad_field, body, error, json_reply, with_type, Answered, Refusable};
use super::route::{Route, To};
use super::{acks, names, no_job, no_memory, states, App};
use crate::auth::Caller;
use crate::history::{FileRow, HistoryReader, Search};
use crate::model::Job;
use crate::store::Reader;
use crate::writer::JobState;
use serde_json::{json, Value};
use std::time::Duration;

const MOST_ROWS: u64 = 1000;
const MOST_WAIT: u64 = 60;
const MOST_SAMPLES: u64 = 20_000;
/// How long the metrics wait for the writer, which may be stuck.
const ASK_WRITER: Duration = Duration::from_secs(1);
const AFTER: Parameter = Parameter { name: "after", most: u64::MAX, default: 0 };
/// 1: not all jobs have to be replayed.
const AT_ONCE: Parameter = Parameter { name: "at_once", most: 1, default: 0 };

const fn limit(most: u64, default: u64) -> Parameter {
    Parameter { name: "limit", most, default }
}

pub async fn answer(app: &App, route: &Route, caller: &Caller, query: &str) -> Answered {
    let (job, number) = (route.job.as_deref().unwrap_or_default(), route.number);
    match route.to {
        To::Metrics => metrics(app, query).await,
        To::Job => one_job(app, job, query).await,
        To::Records => records(app, job, query).await,
        To::History => history(app, job, query).await,
        To::Record => record(app, job, number, query).await,
        To::Acks => acks::answer(app, job, number, query).await,
        To::States => states::answer(app, job, number, query).await,
        To::Files => files(app, job, query).await,
        To::File => one_file(app, job, number, query).await,
        To::Log => log(app, job, caller, query).await,
        To::Events => events(app, job, query).await,
        To::Samples => samples(app, job, query).await,
        To::Term => names::term(app, job, query).await,
        _ => Err(error(404, "is no read").into()),
    }
}

fn rows(most: u64) -> u32 {
    u32::try_from(most).unwrap_or(u32::MAX)
}

/// If the writer does not answer, the jobs' metrics are those of the last time.
async fn metrics(app: &App, query: &str) -> Answered {
    numbers(query, [])?;
    let asked = async {
        if !app.board.is_ready() {
            return Vec::new();
        }
        app.jobs().await.unwrap_or_default()
    };
    let jobs = tokio::time::timeout(ASK_WRITER, asked).await.unwrap_or_default();
    app.metrics.leader.set(app.board.is_ready().into());
    app.metrics.queue.requests.set(app.inbox.len() as i64);
    app.metrics.process.look();
    app.metrics.bodies.set(app.bodies.taken() as i64);
    if app.board.is_ready() {
        app.metrics.queue.followed();
    }
    app.metrics.commit_takes.set(app.board.commit_takes().as_secs_f64());
    app.metrics.upkeep.damaged(app.board.damaged().iter().map(|(job, _)| job.as_str()));
    app.metrics.upkeep.replay(app.board.replay.progress());
    app.metrics.upkeep.history_up.set(app.history_file.works().into());
    // those of many jobs take long, and the other requests go on by another thread
    let served = |job: &str| app.board.served(job);
    let text = tokio::task::block_in_place(|| app.metrics.text(&jobs, &app.board.names(), served));
    let text = text.map_err(|why| error(500, &why.to_string()))?;
    Ok(with_type(200, "text/plain; version=0.0.4", text))
}

/// The jobs in the order of their numbers, in parts if that is asked for: `next` is the `after` of the next part.
pub async fn jobs(app: &App, caller: &Caller, query: &str) -> Answered {
    let [after, most, at_once] = numbers(query, [AFTER, limit(u64::MAX, u64::MAX), AT_ONCE])?;
    // before the jobs are read, so one that is replayed meanwhile is in both lists and not in none
    let replaying = (at_once == 1).then(|| app.board.replay.names(|name| caller.may_see(name)));
    if replaying.is_none() {
        // whoever does something to each job must not pass one over
        app.all_replayed().await?;
    }
    let mut jobs = app.jobs().await?;
    let number = |job: &JobState| u64::try_from(job.opening.number).unwrap_or(0);
    jobs.retain(|job| number(job) > after && caller.may_see(&job.opening.name));
    let most = usize::try_from(most).unwrap_or(usize::MAX).min(jobs.len());
    let next = (most < jobs.len()).then(|| jobs[..most].last().map_or(after, number));
    let (log, epoch) = (app.board.log(), app.board.epoch());
    // the text of many jobs takes long, and the other requests go on by another thread
    Ok(tokio::task::block_in_place(|| {
        let jobs: Vec<Value> = jobs[..most].iter().map(|job| render::job(job, log)).collect();
        let mut told = json!({"epoch": epoch, "log": log, "next": next, "damaged": damaged(app, caller)});
        told["jobs"] = jobs.into(); // `json!` would copy them
        if let Some(names) = replaying {
            told["replaying"] = names.into();
        }
        json_reply(200, &told)
    }))
}

/// The jobs that are kept out and that the caller may see, and why. They are in no list of jobs.
pub(super) fn damaged(app: &App, caller: &Caller) -> Vec<Value> {
    let mut kept_out = app.board.damaged();
    kept_out.retain(|(name, _)| caller.may_see(name));
    kept_out.into_iter().map(|(name, why)| json!({"name": name, "why": why})).collect()
}

async fn one_job(app: &App, job: &str, query: &str) -> Answered {
    numbers(query, [])?;
    Ok(json_reply(200, &render::job(&*app.state(job).await?, app.board.log())))
}

async fn records(app: &App, job: &str, query: &str) -> Answered {
    let before = Parameter { name: "before", most: u64::MAX, default: u64::MAX };
    let (how, query) = query::text(query, "how");
    let (kind, query) = query::text(&query, "kind");
    let search = Search { how: word("how", how, &Search::HOWS)?, kind: word("kind", kind, &Search::KINDS)? };
    let [before, most] = numbers(&query, [before, limit(MOST_ROWS, 100)])?;
    let number = app.number(job)?;
    let read =
        move |history: &HistoryReader| Ok((history.records(number, before, most, search)?, history.upto(number)?));
    let (records, upto) = app.read_history(read).await?;
    Ok(json_reply(200, &json!({"upto": upto, "records": records})))
}

/// The last records that are complete or have failed, the greatest number first.
async fn history(app: &App, job: &str, query: &str) -> Answered {
    let [last] = numbers(query, [Parameter { name: "last", most: MOST_ROWS, default: 100 }])?;
    let number = app.number(job)?;
    let read = move |history: &HistoryReader| Ok((history.ended_records(number, last)?, history.upto(number)?));
    let (records, upto) = app.read_history(read).await?;
    let records: Vec<Value> = records.iter().map(render::past).collect();
    Ok(json_reply(200, &json!({"upto": upto, "records": records})))
}

/// One of these words, in which a '+' or '%20' stands for a space.
fn word(name: &str, given: Option<&str>, words: &[&'static str]) -> Refusable<Option<&'static str>> {
    let Some(given) = given else {
        return Ok(None);
    };
    let said = given.replace('+', " ").replace("%20", " ");
    let found = words.iter().find(|word| **word == said);
    found.map(|word| Some(*word)).ok_or_else(|| bad_field(name, &format!("is none of {}", words.join(", "))).into())
}

async fn record(app: &App, job: &str, id: u64, query: &str) -> Answered {
    numbers(query, [])?;
    let number = app.number(job)?;
    let live = app.record(job, id).await?;
    let history = app.read_history(move |history| history.record(number, id)).await?;
    if live.is_none() && history.is_none() {
        return Err(error(404, &format!("job {job} has no record {id}, or the history has not read of it yet")).into());
    }
    Ok(body(200, render::record(id, live, history)))
}

/// The files that were taken and not reported, those taken first before the others, and the files that were deleted last.
async fn files(app: &App, job: &str, query: &str) -> Answered {
    let before = Parameter { name: "before", most: u64::MAX, default: u64::MAX };
    let [before, most] = numbers(query, [before, limit(MOST_ROWS, 100)])?;
    Ok(json_reply(200, &files_of(app, &*app.state(job).await?, before, most).await?))
}

/// How far the history is, and at most this many taken files, and files that were deleted before a call.
pub(super) async fn files_of(app: &App, job: &JobState, before: u64, most: u64) -> Refusable<Value> {
    let number = job.opening.number;
    let (taken, deleted, upto) = app
        .read_history(move |history| {
            Ok((history.taken(number, most)?, history.deleted(number, before, most)?, history.upto(number)?))
        })
        .await?;
    let knows_all = upto >= job.seq && taken.len() as u64 == most.min(job.files.taken);
    let taken = if knows_all { taken } else { taken_by_all(app, &job.opening.name, number, most).await? };
    Ok(json!({"upto": upto, "taken": taken, "deleted": deleted}))
}

/// Taken files by the coordinator's whole list, for a history that does not know all of them.
async fn taken_by_all(app: &App, job: &str, number: i64, most: u64) -> Refusable<Vec<FileRow>> {
    let all = app.look(job, |job| job.engine().taken()).await?.ok_or_else(|| no_job(job))?;
    let all = all.ok_or_else(no_memory)?;
    app.read_history(move |history| history.taken_of(number, &all, most)).await
}

/// How often a file is used, by which records, and its history.
async fn one_file(app: &App, job: &str, file: u64, query: &str) -> Answered {
    numbers(query, [])?;
    let number = app.number(job)?;
    let look = move |job: &mut Job| (job.engine().uses(file), job.sizes.bytes_of(file), job.live().clone());
    let (uses, bytes, live) = app.look(job, look).await?.ok_or_else(|| no_job(job))?;
    let live = live.into_keys().filter(|_| uses != Some(0)).collect();
    let by = used_by(app, job, file, live).await?;
    let pins = uses.map(|uses| uses.saturating_sub(by.len() as u64));
    let (bytes, history) = app
        .read_history(move |history| {
            let row = history.file(number, file)?;
            let bytes = bytes.or(row.as_ref().and_then(|row| row.bytes));
            let told = match &row {
                Some(row) => Some(render::file_history(row, &history.places(number, &row.places())?)),
                None => None,
            };
            Ok((bytes, told))
        })
        .await?;
    let file = file.to_string();
    let told = json!({"file": file, "bytes": bytes, "uses": uses, "pins": pins, "used_by": by, "history": history});
    Ok(json_reply(200, &told))
}

/// The acknowledgements of these live records that name a file. Reads one record at a time, so none keeps the writer
/// for long. A record that has ended meanwhile has none.
async fn used_by(app: &App, job: &str, file: u64, live: Vec<u64>) -> Refusable<Vec<Value>> {
    let mut by = Vec::new();
    for id in live {
        by.extend(app.record(job, id).await?.iter().flat_map(|record| record.uses(file)));
    }
    Ok(by)
}

async fn log(app: &App, job: &str, caller: &Caller, query: &str) -> Answered {
    let terms = Parameter { name: "terms", most: 1, default: 0 };
    let [after, most, terms] = numbers(query, [AFTER, limit(MOST_ROWS, 100), terms])?;
    if terms == 1 && !caller.may_write {
        return Err(error(403, "Authorization: lines with their terms need a write token").into());
    }
    let number = app.number(job)?;
    let first = app.board.first(job);
    let after = after.max(first - 1);
    let log = app.board.log().to_string();
    // a page may be large, so there is one at a time: it becomes text before the next one is read
    let page = move |reader: &mut dyn Reader| {
        let entries = reader.log(number, after, rows(most))?;
        Ok(render::log(first, &log, &entries, terms == 1))
    };
    Ok(body(200, app.read_log(page).await?))
}

/// The events after a place, once there is one, or after a time. Without a place: from the first that the log has.
async fn events(app: &App, job: &str, query: &str) -> Answered {
    let wait = Parameter { name: "wait", most: MOST_WAIT, default: 0 };
    let (known, query) = query::text(query, "log");
    let [after, wait, most] = numbers(&query, [log_position::AFTER, wait, limit(MOST_ROWS, MOST_ROWS)])?;
    let place = LogPosition::of(app, job, log_position::given(after))?;
    let number = place.number;
    place.check_log(app, known).await?;
    let after = place.after.unwrap_or(app.board.first(job) - 1);
    let mut last = app.board.events(job).ok_or_else(|| no_job(job))?;
    let come = async {
        while *last.borrow_and_update() <= after {
            if last.changed().await.is_err() {
                return;
            }
        }
    };
    // if the time is over, or the service stops, there are no events
    tokio::select! {
        _ = tokio::time::timeout(Duration::from_secs(wait), come) => {}
        () = app.board.stopping() => {}
    }
    let first = place.check_cut(app)?;
    let length = app.board.length(job);
    let mut page = app.read_events(move |reader| reader.events(number, after.max(first - 1), rows(most))).await?;
    place.check_leads(app).await?;
    // a commit is told once it is published: before that the next poll would find its place in no log
    page.retain(|entry| entry.seq <= length);
    // if there is none, the calls that were committed before it was read are no events
    let none = if most > 0 { after.max(length) } else { after };
    let upto = page.last().map_or(none, |entry| entry.seq);
    let events: Vec<Value> =
        page.iter().filter_map(|entry| render::event(entry, |seq| app.board.base(job, seq))).collect();
    Ok(json_reply(200, &json!({"first": first, "log": app.board.log(), "upto": upto, "events": events})))
}

async fn samples(app: &App, job: &str, query: &str) -> Answered {
    let [after, most] = numbers(query, [AFTER, limit(MOST_SAMPLES, 1000)])?;
    let number = app.number(job)?;
    let samples = app.read_history(move |history| history.samples(number, after, most)).await?;
    Ok(json_reply(200, &json!({"samples": samples})))
}
