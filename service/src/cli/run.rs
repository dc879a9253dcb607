//! Commands that ask a service: what its jobs are, and a few calls that a user makes.
use super::commands::{self, Ask, At, Awaited};
use super::ended::{made, Ended};
use super::{end, folder, tables};
use crate::log;
use crate::remote;
use relkvanu_client::{Call, Error, Job, Service};
use serde_json::{json, Value};
use std::io::{ErrorKind, Write};
use std::process::ExitCode;
use std::time::{Duration, Instant};

/// How many calls of the log one request reads.
const PAGE: u64 = 1000;
/// How many terms and names a part of a log that was lost may have had at most, if nobody says it.
const LOST_TERMS: u64 = 1 << 32;
const LOST_NAMES: u64 = 1 << 40;
/// Refusals of a stop that somebody has asked for already.
const STANDS: [&str; 2] = ["Stopping", "Stopped"];
/// How long one poll waits, in seconds.
const POLL: u64 = 20;
/// How often a running job is looked at that is asked over its socket, which tells no events.
const LOOK: Duration = Duration::from_millis(200);

/// Does what the command says. Its exit status is that of [`Ended`].
pub fn run(given: Ask) -> ExitCode {
    let runtime = tokio::runtime::Builder::new_current_thread().enable_all().build();
    let asked = runtime.map_err(Ended::from).and_then(|runtime| runtime.block_on(run_command(given)));
    match asked {
        Ok(()) => ExitCode::SUCCESS,
        // whoever read the answer has read enough
        Err(Ended::Output(error)) if error.kind() == ErrorKind::BrokenPipe => ExitCode::SUCCESS,
        Err(ended) => {
            log::error(&ended.to_string());
            ExitCode::from(ended.status())
        }
    }
}

async fn run_command(mut given: Ask) -> Result<(), Ended> {
    let at = given.parts().0.clone();
    let service = remote::service(&at.urls, at.token_file.as_deref())?;
    let service = remote::noticing(&service.within(Some(Duration::from_secs(at.within))));
    if at.is_socket() {
        if let Some(command) = given.of_service() {
            return Err(Ended::OfService(command));
        }
        let name = only_job(&service).await?;
        if let (_, Some(job)) = given.parts() {
            *job = name;
        }
    }
    let job = service.job(given.parts().1.map_or("", |job| job));
    match &given {
        Ask::Jobs(_) => print_answer(at.json, &jobs(&service).await?, tables::jobs),
        Ask::Show(given) => show(&job, given).await,
        Ask::History(given) => print_answer(at.json, &job.history(given.last).await?["records"], tables::history),
        Ask::Log(given) => print_log(&job, given).await,
        Ask::Files(given) => files(&job, given).await,
        Ask::Savepoints(given) => folder::savepoints(&job, given).await,
        Ask::Savepoint(given) => savepoint(&job, given).await,
        Ask::Checkpoint(given) => checkpoint(&job, given).await,
        Ask::Set(given) => set(&job, given).await,
        Ask::Stop(given) => stop(&job, given).await,
        Ask::Begin(_) => print_answer(at.json, &job.begin_job().await?, tables::action),
        Ask::Dispose(given) => call(&job, at.json, Call::Dispose { id: given.id }).await.map(|_| ()),
        Ask::Restore(given) => restore(&job, given).await,
        Ask::Term(_) => print_answer(at.json, &job.term().await?, tables::term),
        Ask::Advance(given) => print_answer(at.json, &above(&job, given.term, given.name).await?, tables::action),
        Ask::Cancel(_) => call(&job, at.json, Call::Cancel).await.map(|_| ()),
        Ask::Delete(given) => delete(&service, given).await,
        Ask::End(given) => end::end(&service, given).await,
    }
}

/// The name of the job that a socket has.
async fn only_job(service: &Service) -> Result<String, Ended> {
    let told = service.jobs().await?;
    let name = told["jobs"][0]["name"].as_str().map(str::to_string);
    name.ok_or_else(|| Error::Answer("has no job".to_string()).into())
}

/// Prints an answer as JSON for programs, or as text for people.
pub fn print_answer(json: bool, value: &Value, text: impl FnOnce(&Value) -> String) -> Result<(), Ended> {
    let text = if json { format!("{value}\n") } else { text(value) };
    let mut out = std::io::stdout().lock();
    out.write_all(text.as_bytes())?;
    Ok(out.flush()?)
}

/// The jobs. One that is kept out is none of them, and is told beside.
async fn jobs(service: &Service) -> Result<Value, Ended> {
    let mut told = service.jobs().await?;
    for job in told["damaged"].as_array().map(Vec::as_slice).unwrap_or_default() {
        let [name, why] = ["name", "why"].map(|member| job[member].as_str().unwrap_or_default());
        log::error(&format!("job {name} is damaged, and is kept out: {why}"));
    }
    Ok(told["jobs"].take())
}

async fn show(job: &Job, given: &commands::Show) -> Result<(), Ended> {
    match given.id {
        None => print_answer(given.of.at.json, &job.state().await?, tables::job),
        Some(id) => print_answer(given.of.at.json, &job.record(id).await?, tables::record),
    }
}

async fn files(job: &Job, given: &commands::Files) -> Result<(), Ended> {
    match given.file {
        None => print_answer(given.of.at.json, &job.files(given.most).await?, tables::files),
        Some(file) => print_answer(given.of.at.json, &job.file(file).await?, tables::file),
    }
}

/// Prints the calls that the log has, in parts: a line for each.
async fn print_log(job: &Job, given: &commands::Log) -> Result<(), Ended> {
    let (mut after, mut left) = (given.after, given.most.unwrap_or(u64::MAX));
    while left > 0 {
        let most = left.min(PAGE);
        let told = if given.terms { job.log_with_terms(after, most).await } else { job.log(after, most).await }?;
        let calls = told["calls"].as_array().map(Vec::as_slice).unwrap_or_default();
        let Some(last) = calls.last() else {
            break;
        };
        after = last["seq"].as_u64().unwrap_or(u64::MAX);
        left -= (calls.len() as u64).min(left);
        calls.iter().try_for_each(|one| print_answer(given.of.at.json, one, tables::call))?;
    }
    Ok(())
}

/// Makes a call, prints its answer, and returns it.
async fn call(job: &Job, json: bool, call: Call) -> Result<Value, Ended> {
    let stays = matches!(call, Call::RestoreStopped { .. });
    let reply = made(job.calls(&[call]).await?)?;
    print_answer(json, &reply, if stays { tables::stays_stopped } else { tables::action })?;
    Ok(reply)
}

async fn restore(job: &Job, given: &commands::Restore) -> Result<(), Ended> {
    let shape = given.shape.clone();
    if let Some(id) = given.checkpoint.or(given.savepoint) {
        folder::look(job, given, id).await?;
    }
    let restore = if let Some(checkpoint) = given.checkpoint {
        Call::GoBack { checkpoint, shape }
    } else {
        let savepoint = if given.from_backup { go_on(job, given).await? } else { given.savepoint };
        if job.state().await?["phase"] == "stopped" {
            Call::RestoreStopped { savepoint, shape }
        } else {
            Call::Restore { savepoint, shape }
        }
    };
    call(job, given.of.at.json, restore).await.map(|_| ())
}

/// Lets a job go on that a backup has brought back. Returns the savepoint to restore it to; `None` is the latest record. Each call may be made again.
async fn go_on(job: &Job, given: &commands::Restore) -> Result<Option<u64>, Ended> {
    let state = job.state().await?;
    let record = folder::last_whole(job, given).await?;
    above(job, None, None).await?;
    Ok(Some(record).filter(|id| state["choice"]["id"] != *id))
}

/// Lets a job go on above what it lost. By default this is further than any job gets: each costs a number and no memory.
async fn above(job: &Job, term: Option<u64>, name: Option<u64>) -> Result<Value, Ended> {
    let now = job.term().await?;
    let next_name = now["next_name"].as_str().and_then(|name| name.parse().ok()).unwrap_or(u64::MAX);
    let term = term.unwrap_or(now["term"].as_u64().unwrap_or_default().saturating_add(LOST_TERMS));
    let first_name = name.unwrap_or(u64::saturating_add(next_name, LOST_NAMES));
    Ok(job.advance(term, first_name).await?)
}

async fn delete(service: &Service, given: &commands::Delete) -> Result<(), Ended> {
    let job = given.of.job.as_str();
    if !service.delete(job, given.abandon).await? {
        return Err(Ended::NoJob(job.to_string()));
    }
    print_answer(given.of.at.json, &json!({"deleted": job}), |_| format!("job {job} is deleted\n"))
}

async fn savepoint(job: &Job, given: &Awaited) -> Result<(), Ended> {
    let began = Instant::now();
    let reply = call(job, given.of.at.json, Call::Savepoint).await?;
    awaited(job, given, "savepoint", &reply, began).await
}

async fn checkpoint(job: &Job, given: &commands::Checkpoint) -> Result<(), Ended> {
    let began = Instant::now();
    let reply = if given.full { job.full_checkpoint().await } else { job.checkpoint().await }?;
    print_answer(given.awaited.of.at.json, &reply, |_| format!("checkpoint {} is triggered\n", reply["id"]))?;
    awaited(job, &given.awaited, "checkpoint", &reply, began).await
}

/// Waits for a record that was triggered, if somebody wants that.
async fn awaited(job: &Job, given: &Awaited, kind: &'static str, told: &Value, began: Instant) -> Result<(), Ended> {
    if given.wait == 0 {
        return Ok(());
    }
    let (id, seq) = (told["id"].as_u64().unwrap_or(0), told["seq"].as_u64().unwrap_or(0));
    complete(job, &given.of.at, kind, id, seq, began + Duration::from_secs(given.wait)).await?;
    print_answer(given.of.at.json, &json!({"completed": id}), |_| format!("{kind} {id} is complete\n"))
}

/// Stops a job. One that stops already, or has stopped, is not stopped again.
async fn stop(job: &Job, given: &commands::Stop) -> Result<(), Ended> {
    let until = Instant::now() + Duration::from_secs(given.wait);
    match job.stop_job().await {
        Ok(reply) => print_answer(given.of.at.json, &reply, tables::stopping)?,
        Err(Error::Refused(name)) if STANDS.contains(&name.as_str()) => {}
        Err(error) => return Err(error.into()),
    }
    if given.wait == 0 {
        return Ok(());
    }
    let id = stopped(job, &given.of.at, until).await?;
    print_answer(given.of.at.json, &json!({"stopped": id}), |_| format!("the job has stopped at savepoint {id}\n"))
}

/// Waits until a job has stopped, and returns the savepoint.
async fn stopped(job: &Job, at: &At, until: Instant) -> Result<u64, Ended> {
    loop {
        let state = job.state().await?;
        let stop = &state["stop"];
        let id = stop["savepoint"].as_u64().unwrap_or_default();
        match state["phase"].as_str() {
            Some("stopped") => return Ok(id),
            Some("stopping") => {}
            _ => return Err(Ended::RunsOn(id, stop["failed"].as_str().unwrap_or("it has begun again").to_string())),
        }
        let left = until.saturating_duration_since(Instant::now());
        if left.is_zero() {
            return Err(Ended::Late("savepoint", id));
        }
        if at.is_socket() {
            tokio::time::sleep(left.min(LOOK)).await;
        } else {
            job.events(state["seq"].as_u64().unwrap_or_default(), left.as_secs().clamp(1, POLL)).await?;
        }
    }
}

async fn set(job: &Job, given: &commands::Set) -> Result<(), Ended> {
    if let Some(storage) = given.place.storage(&given.names).map_err(Ended::Word)? {
        let told = job.set_storage(&json!(storage)).await?;
        return print_answer(given.of.at.json, &told, |told| format!("storage  {}\n", told["storage"]));
    }
    let settings = Value::Object(given.settings.iter().cloned().collect());
    print_answer(given.of.at.json, &job.set(&settings).await?, tables::set)
}

/// Waits until a record is complete, by the events after its trigger.
async fn complete(job: &Job, at: &At, kind: &'static str, id: u64, seq: u64, until: Instant) -> Result<(), Ended> {
    if at.is_socket() {
        return looked_complete(job, kind, id, until).await;
    }
    let mut after = seq;
    loop {
        let left = until.saturating_duration_since(Instant::now());
        let (upto, events) = job.events(after, left.as_secs().min(POLL)).await?;
        if events.iter().any(|event| event["event"] == "completed" && event["id"] == id) {
            return Ok(());
        }
        if events.iter().any(|event| ends(event, id)) {
            return Err(Ended::Incomplete(kind, id));
        }
        if left.is_zero() {
            return Err(Ended::Late(kind, id));
        }
        if events.is_empty() && left < Duration::from_secs(1) {
            tokio::time::sleep(left).await;
        }
        after = upto;
    }
}

/// The same over a socket.
async fn looked_complete(job: &Job, kind: &'static str, id: u64, until: Instant) -> Result<(), Ended> {
    loop {
        match job.record(id).await?["history"]["how"].as_str() {
            Some("completed") => return Ok(()),
            Some("pending") => {}
            _ => return Err(Ended::Incomplete(kind, id)),
        }
        let left = until.saturating_duration_since(Instant::now());
        if left.is_zero() {
            return Err(Ended::Late(kind, id));
        }
        tokio::time::sleep(left.min(LOOK)).await;
    }
}

/// Whether an event ends a record.
fn ends(event: &Value, id: u64) -> bool {
    event["ended"].as_array().is_some_and(|ended| ended.iter().any(|one| *one == id))
}
