//! `relkvanu backup --keep`: copies of a database in one folder, and before each a savepoint of each job. Once its copy is gone a savepoint is disposed of: a copy
//! brings a job back only as long as the files of a record are there that the copy knows.
use crate::backup::{self, NoBackup};
use crate::cli::{self, made, Ended};
use crate::database::Database;
use crate::disk::{make_folder, of, private, sync, sync_folder};
use crate::remote;
use relkvanu_client::{new_key, Call, Error, Job, Service};
use rustix::fs::{flock, FlockOperation};
use serde::{Deserialize, Serialize};
use std::collections::BTreeSet;
use std::fs::{self, File};
use std::io::{self, ErrorKind, Write};
use std::path::Path;
use std::time::{Duration, Instant, SystemTime};
use tokio::runtime::{Builder, Runtime};

/// The savepoints that were asked for, beside the copies.
const NOTES: &str = "savepoints.json";
/// How the names of copies end, behind their times, and of what is not whole.
const ENDS: [&str; 2] = ["Z.db", "Z.dump"];
const PART: &str = ".part";
/// For how long a savepoint can be asked for again: the service forgets its key after a day.
const KNOWN: Duration = Duration::from_secs(23 * 3600);
/// How long savepoints may take, how often they are looked at, and for how long a request that is not answered is made again.
const WAIT: Duration = Duration::from_secs(600);
const LOOK: Duration = Duration::from_millis(200);
const WITHIN: Duration = Duration::from_secs(10);
const NOT_FOUND: u16 = 404;
/// The status of an answer that stays the same.
const NO: u8 = 1;

/// A savepoint that was asked for under a key, which is written down before: asked again under it after a kill, the service has made one. When it was
/// triggered tells it from one of this number that another log has, after a backup was put back.
#[derive(Serialize, Deserialize)]
struct Note {
    copy: String,
    job: String,
    key: String,
    made: Option<(u64, u64)>,
}

/// A run, which no other one goes beside.
struct Night<'a> {
    given: &'a cli::Backup,
    copy: String,
    notes: Vec<Note>,
    service: Option<Service>,
    /// What was not done, though the copy may be made.
    wrong: Vec<String>,
    _lock: File,
}

/// Makes the savepoints and the copy, and deletes what is older. Returns the length of the copy.
pub fn run(given: &cli::Backup, database: &Database, keep: u16) -> Result<u64, NoBackup> {
    let mut night = Night::begin(given, database)?;
    let runtime = Builder::new_current_thread().enable_all().build().map_err(of(&given.to))?;
    night.save(&runtime)?;
    let copied = backup::copy(database, &given.to.join(&night.copy));
    let copied = copied.and_then(|bytes| night.prune(usize::from(keep)).map(|()| bytes));
    // those of a copy that was not made go at once
    runtime.block_on(night.dispose())?;
    if night.wrong.is_empty() {
        return copied;
    }
    copied.and(Err(NoBackup::NotAll(night.copy, night.wrong.join("; "))))
}

/// As the names of copies begin.
fn time(when: SystemTime) -> String {
    humantime::format_rfc3339_seconds(when).to_string().replace(['-', ':'], "")
}

/// The names in the folder that end so, in their order.
fn names(folder: &Path, ends: &[&str]) -> io::Result<Vec<String>> {
    let entries = fs::read_dir(folder)?.map(|it| Ok(it?.file_name().to_string_lossy().into_owned()));
    let found = entries.collect::<io::Result<BTreeSet<String>>>()?;
    Ok(found.into_iter().filter(|name| ends.iter().any(|end| name.ends_with(end))).collect())
}

/// Removes a file of a copy that is not whole, unless its maker has it locked. SQLite has files beside it.
fn remove_left(folder: &Path, name: &str) -> io::Result<()> {
    let Some(at) = name.find(PART) else {
        return Ok(());
    };
    match File::open(folder.join(&name[..at + PART.len()])) {
        Ok(file) if file.try_lock().is_err() => Ok(()),
        _ => fs::remove_file(folder.join(name)),
    }
}

impl Night<'_> {
    fn begin<'a>(given: &'a cli::Backup, database: &Database) -> Result<Night<'a>, NoBackup> {
        let folder = given.to.as_path();
        if make_folder(folder).map_err(of(folder))? {
            // a loss of power does not take it with its notes
            sync(&folder.join(".."))?;
        }
        let lock = File::open(folder).map_err(of(folder))?;
        flock(&lock, FlockOperation::NonBlockingLockExclusive).map_err(|_| NoBackup::Busy(folder.to_path_buf()))?;
        // what was left by one that was killed; a copy by hand may be made beside this one
        let left = names(folder, &[""]).map_err(of(folder))?;
        left.iter().try_for_each(|name| remove_left(folder, name)).map_err(of(folder))?;
        let notes = match fs::read(folder.join(NOTES)) {
            Err(why) if why.kind() == ErrorKind::NotFound => Vec::new(),
            text => serde_json::from_slice(&text.map_err(of(folder))?).map_err(|why| of(folder)(why.into()))?,
        };
        let copy = time(SystemTime::now()) + if matches!(database, Database::Sqlite(_)) { ".db" } else { ".dump" };
        let service = remote::service(&given.urls, given.token_file.as_deref());
        let service = if given.savepoints { Some(service.map_err(Ended::from)?.within(Some(WITHIN))) } else { None };
        Ok(Night { given, copy, notes, service, wrong: Vec::new(), _lock: lock })
    }

    /// Writes the notes, whole or not at all.
    fn write(&self) -> Result<(), NoBackup> {
        let (path, new) = (self.given.to.join(NOTES), self.given.to.join(format!("{NOTES}{PART}")));
        let put = || -> io::Result<()> {
            let mut file = private().truncate(true).open(&new)?;
            file.write_all(&serde_json::to_vec(&self.notes)?)?;
            file.sync_all()?;
            fs::rename(&new, &path)
        };
        put().map_err(of(&path))?;
        Ok(sync_folder(&path)?)
    }

    /// The savepoints of this night, and those of which an earlier run was not told. A job that has stopped begins from the savepoint of its stop.
    fn save(&mut self, runtime: &Runtime) -> Result<(), NoBackup> {
        let Some(service) = self.service.clone() else {
            return Ok(());
        };
        let told = match runtime.block_on(service.jobs()) {
            Ok(told) => told,
            Err(why) => {
                self.wrong.push(why.to_string());
                return Ok(());
            }
        };
        let jobs = told["jobs"].as_array().map(Vec::as_slice).unwrap_or_default();
        let running = jobs.iter().filter(|job| job["mode"] != "cancelled" && job["phase"] != "stopped");
        let copy = self.copy.clone();
        self.notes.extend(running.filter_map(|job| job["name"].as_str()).map(|job| Note {
            copy: copy.clone(),
            job: job.to_string(),
            key: new_key(),
            made: None,
        }));
        self.write()?;
        runtime.block_on(self.ask(&service));
        self.write()?;
        runtime.block_on(self.wait(&service));
        Ok(())
    }

    async fn ask(&mut self, service: &Service) {
        let known = time(SystemTime::now() - KNOWN);
        for mut note in std::mem::take(&mut self.notes) {
            if note.made.is_none() && note.copy < known {
                let Note { copy, job, .. } = note;
                self.wrong.push(format!(
                    "{job}: one of `relkvanu savepoints {job}` may be left of the run of {copy}, which was not told its number"
                ));
                continue; // asked again the service would make another one, and the first has no name
            }
            let told = match note.made {
                Some(made) => Ok(made),
                None => savepoint(&service.job(&note.job), &note.key).await,
            };
            let is_refused = told.as_ref().is_err_and(|why| why.status() == NO);
            match told {
                Ok(made) => note.made = Some(made),
                Err(why) => self.wrong.push(format!("{}: {why}", note.job)),
            }
            if !is_refused {
                self.notes.push(note);
            }
        }
    }

    async fn wait(&mut self, service: &Service) {
        let until = Instant::now() + WAIT;
        let tonight = self.notes.iter().filter(|note| note.copy == self.copy);
        for (job, (id, _)) in tonight.filter_map(|note| Some((&note.job, note.made?))) {
            if let Err(why) = complete(&service.job(job), id, until).await {
                self.wrong.push(format!("{job}: {why}"));
            }
        }
    }

    /// Deletes the copies that are older than so many. A name that is later than that of this night comes of a wrong clock: then none is deleted.
    fn prune(&mut self, keep: usize) -> Result<(), NoBackup> {
        let folder = self.given.to.as_path();
        let there = names(folder, &ENDS).map_err(of(folder))?;
        match there.last() {
            Some(last) if *last != self.copy => {
                self.wrong.push(format!("{last} has a later name: the clock is or was wrong, so none is deleted"));
            }
            _ => {
                let old = &there[..there.len().saturating_sub(keep)];
                old.iter().try_for_each(|name| fs::remove_file(folder.join(name))).map_err(of(folder))?;
            }
        }
        Ok(sync(folder)?)
    }

    /// Disposes of the savepoints whose copies are gone.
    async fn dispose(&mut self) -> Result<(), NoBackup> {
        let Some(service) = self.service.clone() else {
            return Ok(());
        };
        let there = names(&self.given.to, &ENDS).map_err(of(&self.given.to))?;
        for note in std::mem::take(&mut self.notes) {
            if there.contains(&note.copy) {
                self.notes.push(note);
                continue;
            }
            match disposed(&service.job(&note.job), &note).await {
                Ok(true) => {}
                Ok(false) => self.notes.push(note),
                Err(why) => {
                    self.wrong.push(format!("{}: {why}", note.job));
                    self.notes.push(note);
                }
            }
        }
        self.write()
    }
}

/// Triggers a savepoint. Returns its number, and when it was triggered.
async fn savepoint(job: &Job, key: &str) -> Result<(u64, u64), Ended> {
    let id = made(job.calls_with_key(&[Call::Savepoint], key).await?)?["id"].as_u64().unwrap_or_default();
    Ok((id, triggered(job, id).await?.unwrap_or_default()))
}

/// When a live record was triggered.
async fn triggered(job: &Job, id: u64) -> Result<Option<u64>, Ended> {
    match job.record(id).await {
        Ok(record) => Ok(record["live"]["started"].as_u64()),
        Err(Error::Status { status: NOT_FOUND, .. }) => Ok(None),
        Err(why) => Err(why.into()),
    }
}

/// Waits until a savepoint is complete.
async fn complete(job: &Job, id: u64, until: Instant) -> Result<(), Ended> {
    loop {
        let state = job.state().await?;
        let live = state["live"].as_array().and_then(|live| live.iter().find(|it| it["id"] == id));
        match live.map(|it| it["done"] == true) {
            Some(true) => return Ok(()),
            None => return Err(Ended::Incomplete("savepoint", id)),
            Some(false) if Instant::now() >= until => return Err(Ended::Late("savepoint", id)),
            Some(false) => tokio::time::sleep(LOOK).await,
        }
    }
}

/// Disposes of a savepoint. Returns whether it is gone: one from which a restart begins, or that is not complete, is not yet.
async fn disposed(job: &Job, note: &Note) -> Result<bool, Ended> {
    let Some((id, when)) = note.made else {
        return Ok(false);
    };
    if triggered(job, id).await? != Some(when) {
        return Ok(true);
    }
    match made(job.calls(&[Call::Dispose { id }]).await?) {
        Err(Ended::Refused(_)) => Ok(false),
        told => told.map(|_| true),
    }
}
