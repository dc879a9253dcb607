//! `relkvanu end`: ends a job for good, with all its files. Its steps are commands that a user may give one by one, so a repeat goes on where one
//! ended.
use super::commands::{At, End};
use super::ended::{made, Ended};
use super::run::print_answer;
use crate::disk::if_there;
use crate::files::MARK;
use relkvanu_client::{Call, Error, Job, Service};
use serde_json::{json, Value};
use sha2::{Digest, Sha256};
use std::fs;
use std::io::ErrorKind;
use std::path::Path;
use std::process::Command;
use std::time::{Duration, Instant};

const NO_SUCH_JOB: u16 = 404;
/// How long another cleaner is awaited, and how often it is looked whether it has ended.
const PATIENCE: Duration = Duration::from_secs(150);
const PAUSE: Duration = Duration::from_secs(3);
/// What a cleaner writes beside the marker of a job, in the order in which they go. The marker is the last: as long as it is there, the folder is the job's.
const BESIDE: [&str; 3] = [".begun", ".names", ""];
/// Where the manifests of jobs are, each opening in a folder that is named by the marker, and how much of its checksum it has.
const RECORDS: &str = ".relkvanu.records";
const IDENTITY: usize = 16;

pub async fn end(service: &Service, given: &End) -> Result<(), Ended> {
    let job = service.job(&given.job);
    if let Some(state) = state_of(&job).await? {
        cancel(&job, &state).await?;
        dispose(&job).await?;
        clean(given)?;
        service.delete(&given.job, false).await?;
    }
    remove_marks(&given.folder, &given.job)?;
    print_answer(given.at.json, &json!({"ended": given.job}), |_| {
        format!("job {} has ended, and its files are deleted\n", given.job)
    })
}

async fn state_of(job: &Job) -> Result<Option<Value>, Ended> {
    match job.state().await {
        Ok(state) => Ok(Some(state)),
        Err(Error::Status { status: NO_SUCH_JOB, .. }) => Ok(None),
        Err(error) => Err(error.into()),
    }
}

/// The job's checkpoints go with it. One that was cancelled before with `keep_on_cancel` keeps them for good.
async fn cancel(job: &Job, state: &Value) -> Result<(), Ended> {
    let keeps = state["settings"]["keep_on_cancel"] == true;
    if state["mode"] == "cancelled" {
        return if keeps && state["choice"]["kind"] == "checkpoint" { Err(Ended::Keeps) } else { Ok(()) };
    }
    if keeps {
        job.set(&json!({"keep_on_cancel": false})).await?;
    }
    made(job.calls(&[Call::Cancel]).await?).map(|_| ())
}

/// Drops all savepoints that are complete. Those that were pending have ended with the cancel.
async fn dispose(job: &Job) -> Result<(), Ended> {
    let state = job.state().await?;
    let live = state["live"].as_array().map(Vec::as_slice).unwrap_or_default();
    for id in live.iter().filter(|record| record["kind"] == "savepoint").filter_map(|record| record["id"].as_u64()) {
        made(job.calls(&[Call::Dispose { id }]).await?)?;
    }
    Ok(())
}

/// Deletes the files. A cleaner of all jobs keeps the folder for a minute after its last turn there, so it is tried again.
fn clean(given: &End) -> Result<(), Ended> {
    let until = Instant::now() + PATIENCE;
    loop {
        match run(given, &["clean", "--once", "--job", &given.job]) {
            Err(Ended::Step(_, 1)) if Instant::now() < until => std::thread::sleep(PAUSE),
            told => return told,
        }
    }
}

/// Gives another command of this program, in the folder of the job.
fn run(given: &End, words: &[&str]) -> Result<(), Ended> {
    let mut command = Command::new(std::env::current_exe()?);
    command.args(words).arg("--folder").arg(&given.folder);
    command.args(["--prefix", &given.names.prefix, "--suffix", &given.names.suffix]);
    let At { urls, token_file, .. } = &given.at;
    for url in urls {
        command.args(["--url", url]);
    }
    if let Some(file) = token_file {
        command.arg("--token-file").arg(file);
    }
    let status = command.status()?;
    if status.success() {
        return Ok(());
    }
    Err(Ended::Step(words[0].to_string(), status.code().and_then(|code| u8::try_from(code).ok()).unwrap_or(1)))
}

/// The manifests, and the marker with the files beside it.
fn remove_marks(folder: &Path, job: &str) -> Result<(), Ended> {
    let marker = folder.join(format!("{MARK}{job}"));
    let failed = |why: std::io::Error| Ended::Place(format!("{}: {why}", marker.display()));
    match fs::read(&marker) {
        Ok(text) => remove_records(folder, &text).map_err(failed)?,
        Err(why) if why.kind() == ErrorKind::NotFound => {}
        Err(why) => return Err(failed(why)),
    }
    for end in BESIDE {
        if_there(fs::remove_file(folder.join(format!("{MARK}{job}{end}")))).map_err(failed)?;
    }
    fs::File::open(folder).and_then(|folder| folder.sync_all()).map_err(failed)
}

fn remove_records(folder: &Path, marker: &[u8]) -> std::io::Result<()> {
    let sum = Sha256::digest(marker);
    let identity = sum.iter().take(IDENTITY).fold(String::new(), |text, byte| text + &format!("{byte:02x}"));
    let records = folder.join(RECORDS);
    if_there(fs::remove_dir_all(records.join(identity)))?;
    // another job may have manifests there too
    match fs::remove_dir(&records) {
        Err(why) if why.raw_os_error() == Some(libc::ENOTEMPTY) => Ok(()),
        done => if_there(done),
    }
}
