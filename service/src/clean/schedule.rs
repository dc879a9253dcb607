//! Which job has its turn: one list of the service says what all jobs have to delete, and turns run on a bounded number of threads.
use super::discard::{Discard, Discarded, Ended};
use super::jobs::{Known, Listed};
use super::metrics::hangs_after;
use super::slots::{Mounts, Slots, Storage};
use super::sweep::{sweep, Swept};
use super::{status_of, Clean, Kind, Shared, UNISSUED};
use crate::files::{Refusal, Stop};
use crate::log;
use relkvanu_client::{Error, Service};
use serde_json::Value;
use std::collections::{BTreeMap, HashSet};
use std::sync::Arc;
use std::time::{Duration, Instant};
use tokio::runtime::Handle;
use tokio::sync::mpsc::{unbounded_channel, UnboundedReceiver, UnboundedSender};

/// How often jobs are listed. If a list takes long it comes less often: so many times as much later, and at most so late.
const LIST_EACH: Duration = Duration::from_secs(1);
const LIST_SHARE: u32 = 20;
const LIST_AT_LEAST: Duration = Duration::from_secs(5);
const LIST_WITHIN: Duration = Duration::from_secs(5);
/// The longest wait after a list that failed.
const LONGEST_PAUSE: Duration = Duration::from_secs(60);
/// How long it sleeps if nothing ends meanwhile.
const TICK: Duration = Duration::from_millis(100);
/// Both kinds of turns, in their order.
const KINDS: [Kind; 2] = [Kind::Released, Kind::Garbage];
/// Why a job has no turns that does not say where its files are.
const NO_STORAGE: &str = "no_storage";
const HANGS: &str = "hangs";

/// What a thread tells.
enum Event {
    Listed(Result<Vec<Listed>, Error>, Duration),
    Ended(Turn, Told),
}

/// A turn that has begun.
struct Turn {
    job: String,
    number: u64,
    kind: Kind,
    storage: Storage,
    began: Instant,
}

enum Told {
    Released(Box<Ended>),
    Garbage(Result<Swept, Stop>),
}

pub struct Schedule {
    shared: Arc<Shared>,
    one: Option<String>,
    kinds: Vec<Kind>,
    once: bool,
    every: Duration,
    threads: usize,
    jobs: BTreeMap<String, Known>,
    /// How many jobs were found.
    found: u64,
    slots: Slots,
    mounts: Mounts,
    running: usize,
    /// When jobs are listed next; `None` while they are.
    list_due: Option<Instant>,
    list_pause: Duration,
    is_listed: bool,
    /// Why the last list failed.
    unlisted: Option<String>,
    /// The exit status of `--once`.
    status: u8,
    tell: UnboundedSender<Event>,
    told: UnboundedReceiver<Event>,
}

impl Schedule {
    pub fn new(given: &Clean, shared: Arc<Shared>) -> Schedule {
        let (tell, told) = unbounded_channel();
        let only = if given.look { Some(Kind::Garbage) } else { given.only };
        let threads = usize::from(given.threads);
        Schedule {
            shared,
            one: given.job.clone(),
            kinds: KINDS.into_iter().filter(|kind| only.is_none_or(|only| only == *kind)).collect(),
            once: given.once || given.look,
            every: given.every,
            threads,
            jobs: BTreeMap::new(),
            found: 0,
            slots: Slots::new(threads),
            mounts: Mounts::now(),
            running: 0,
            list_due: Some(Instant::now()),
            list_pause: LIST_EACH,
            is_listed: false,
            unlisted: None,
            status: 0,
            tell,
            told,
        }
    }

    /// Works until, with `--once`, nothing is left to do. Returns the exit status.
    pub async fn work(mut self) -> Result<u8, Stop> {
        loop {
            self.list_if_due();
            self.begin_turns();
            self.tell_hangs();
            tokio::select! {
                event = self.told.recv() => if let Some(event) = event { self.take_in(event)? },
                () = tokio::time::sleep(TICK) => {}
            }
            while let Ok(event) = self.told.try_recv() {
                self.take_in(event)?;
            }
            if self.once && self.is_done() {
                return self.status();
            }
        }
    }

    /// Whether each job has had its turns, since jobs were listed.
    fn is_done(&self) -> bool {
        let is_done = |known: &Known| known.listed.storage.is_none() || self.kinds.iter().all(|it| known.is_over(*it));
        self.running == 0 && self.is_listed && self.jobs.values().all(is_done)
    }

    /// The exit status of a run that ends. A job that was asked for alone has a place.
    fn status(&self) -> Result<u8, Stop> {
        if self.one.is_some() && self.jobs.values().any(|known| known.listed.storage.is_none()) {
            let why = "nobody has said where the job's files are: --folder or --bucket";
            return Err(Stop::Never(Refusal::NoPlace, why.to_string()));
        }
        Ok(self.status)
    }

    fn list_if_due(&mut self) {
        if self.list_due.is_none_or(|due| Instant::now() < due) {
            return;
        }
        self.list_due = None;
        let (one, tell) = (self.one.clone(), self.tell.clone());
        // one that runs shows soon that nobody answers
        let service =
            if self.once { self.shared.service.clone() } else { self.shared.service.within(Some(LIST_WITHIN)) };
        tokio::spawn(async move {
            let began = Instant::now();
            let told = listed(&service, one.as_deref()).await;
            let _ = tell.send(Event::Listed(told, began.elapsed()));
        });
    }

    fn take_in(&mut self, event: Event) -> Result<(), Stop> {
        match event {
            Event::Listed(Ok(jobs), took) => {
                self.list_pause = (took * LIST_SHARE).clamp(LIST_EACH, LIST_AT_LEAST);
                (self.unlisted, self.is_listed) = (None, true);
                self.mounts = Mounts::now();
                self.know(jobs);
            }
            Event::Listed(Err(error), _) if self.once => return Err(Stop::Again(error.to_string())),
            Event::Listed(Err(error), _) => {
                let why = Some(error.to_string()).filter(|why| self.unlisted.as_ref() != Some(why));
                if let Some(why) = why {
                    log::warn(&format!("the jobs are not listed: {why}"));
                    self.unlisted = Some(why);
                }
                self.list_pause = (self.list_pause * 2).min(LONGEST_PAUSE);
                self.jobs.values_mut().for_each(|known| show(&self.shared, known, Some("service")));
            }
            Event::Ended(turn, told) => {
                self.running -= 1;
                self.slots.give_back(turn.storage.clone(), turn.kind);
                let stopped = self.end_turn(&turn, told);
                // who cleans one job looks, if somebody has to
                return stopped
                    .filter(|stop| self.one.is_some() && matches!(stop, Stop::Never(..)))
                    .map_or(Ok(()), Err);
            }
        }
        self.list_due = Some(Instant::now() + self.list_pause);
        Ok(())
    }

    /// Takes in what the service lists. A job that was opened anew, or whose files are in another place now, begins anew.
    fn know(&mut self, jobs: Vec<Listed>) {
        let now = Instant::now();
        let names: HashSet<&String> = jobs.iter().map(|job| &job.name).collect();
        let gone: Vec<String> = self.jobs.keys().filter(|name| !names.contains(name)).cloned().collect();
        for name in gone {
            if let Some(known) = self.jobs.remove(&name) {
                self.shared.metrics.forget(&name, known.shown);
            }
        }
        for mut job in jobs {
            job.storage = self.shared.place.clone().or(job.storage);
            let is_same = |known: &Known| (known.listed.opened, &known.listed.storage) == (job.opened, &job.storage);
            match self.jobs.get_mut(&job.name).filter(|known| is_same(known)) {
                Some(known) => known.listed = job,
                None => self.find(job, now),
            }
        }
        for known in self.jobs.values_mut() {
            known.close_unused(now);
            let stopped = known.stopped();
            show(&self.shared, known, stopped);
        }
    }

    fn find(&mut self, job: Listed, now: Instant) {
        self.found += 1;
        self.shared.metrics.found(&job.name, job.storage.is_some());
        if job.storage.is_none() {
            log::info(&format!("job {}: nobody has said where its files are, so they stay", job.name));
        }
        let before = self.jobs.insert(job.name.clone(), Known::new(self.found, job, now));
        if let Some(before) = before {
            self.shared.metrics.show(&before.listed.name, false, before.shown, None);
        }
    }

    /// Begins the turns that are due, as far as there are threads: first those of jobs that have had none, then those that have waited longest.
    fn begin_turns(&mut self) {
        let now = Instant::now();
        let mut wanted = self.wanted(now);
        wanted.sort_by_key(|(has_had, due, turn)| (*has_had, *due, turn.kind));
        for (.., turn) in wanted {
            if self.slots.take(&turn.storage, turn.kind) {
                self.running += 1;
                debug_assert!(self.running <= self.threads);
                self.begin(turn);
            }
        }
        self.shared.metrics.threads.set(self.running as i64);
    }

    /// The turns that are due: whether the job has had one of the kind, and since when.
    fn wanted(&self, now: Instant) -> Vec<(bool, Instant, Turn)> {
        let is_first = |kind: Kind, known: &Known| {
            // the first turn makes sure of the place
            kind == Kind::Released || known.of(Kind::Released).has_ended || !self.kinds.contains(&Kind::Released)
        };
        let mut wanted = Vec::new();
        for (name, known) in &self.jobs {
            let Some(storage) = known.listed.storage.as_ref() else { continue };
            let kinds = self.kinds.iter().copied().filter(|kind| known.wants(*kind, now) && is_first(*kind, known));
            wanted.extend(kinds.filter(|kind| !(self.once && known.is_over(*kind))).map(|kind| {
                let (job, storage) = (name.clone(), self.mounts.storage(storage));
                let turns = known.of(kind);
                (turns.has_ended, turns.due, Turn { job, number: known.number, kind, storage, began: now })
            }));
        }
        wanted
    }

    /// Runs a turn on a thread of its own: what it asks of a storage may take for ever.
    fn begin(&mut self, turn: Turn) {
        let (shared, tell, on) = (Arc::clone(&self.shared), self.tell.clone(), Handle::current());
        let Some(known) = self.jobs.get_mut(&turn.job) else { return };
        let Some(storage) = known.listed.storage.clone() else { return };
        known.turns(turn.kind).begin(turn.began);
        let looks = turn.kind == Kind::Released && known.wants_look(turn.began);
        if looks {
            known.look(Some(turn.began));
        }
        let (deletions, absent) = match turn.kind {
            Kind::Released => (known.deletions.take(), std::mem::take(&mut known.absent)),
            Kind::Garbage => (None, Vec::new()),
        };
        tokio::task::spawn_blocking(move || {
            let told = on.block_on(async {
                let (name, job) = (turn.job.as_str(), shared.service.job(&turn.job));
                match turn.kind {
                    Kind::Released => {
                        let discard = Discard { shared: &shared, name, job, storage: &storage, looks, absent };
                        Told::Released(Box::new(discard.run(deletions).await))
                    }
                    Kind::Garbage => Told::Garbage(sweep(&shared, name, &job, &storage).await),
                }
            });
            let _ = tell.send(Event::Ended(turn, told));
        });
    }

    /// Takes in what a turn did. Returns why it failed.
    fn end_turn(&mut self, turn: &Turn, told: Told) -> Option<Stop> {
        let (now, every) = (Instant::now(), self.every);
        let known = self.jobs.get_mut(&turn.job).filter(|known| known.number == turn.number)?;
        let (status, stop) = match told {
            Told::Released(ended) => {
                let Ended { deletions, absent, told } = *ended;
                known.keep(deletions, now);
                known.absent = absent;
                told.map_or_else(|stop| (status_of(&stop), Some(stop)), |done| (discarded(known, &done, now), None))
            }
            Told::Garbage(Ok(swept)) => {
                known.turns(Kind::Garbage).end(turn.began + every);
                let unissued = if swept.unissued > 0 && self.status == 0 { UNISSUED } else { 0 };
                (if swept.failed > 0 { 1 } else { unissued }, None)
            }
            Told::Garbage(Err(stop)) => (status_of(&stop), Some(stop)),
        };
        // that files can't be deleted weighs more than that nobody knows some
        self.status = if self.status == UNISSUED && status > 0 { status } else { self.status.max(status) };
        if let Some(stop) = &stop {
            failed(known, turn, stop, now);
        }
        let stopped = known.stopped();
        show(&self.shared, known, stopped);
        stop
    }

    /// Tells of turns that take long: a storage does not answer. The others go on.
    fn tell_hangs(&mut self) {
        let now = Instant::now();
        for (name, known) in &mut self.jobs {
            for kind in KINDS {
                let turns = known.turns(kind);
                let hangs = turns.since.is_some_and(|since| now >= since + hangs_after(kind)) && !turns.is_told;
                if hangs {
                    turns.is_told = true;
                    turns.stopped = Some(HANGS);
                    log::warn(&format!("job {name}: its storage does not answer; other jobs go on"));
                    show(&self.shared, known, Some(HANGS));
                }
            }
        }
    }
}

/// Files were deleted, or could not be. Returns the exit status of that.
fn discarded(known: &mut Known, done: &Discarded, now: Instant) -> u8 {
    if done.failed > 0 {
        log::warn(&format!("job {}: {} files can't be deleted, and wait again", known.listed.name, done.failed));
        known.turns(Kind::Released).fail(now, Some("files"), false);
        return 1;
    }
    // the next list says whether more files wait
    known.listed.waiting = if done.more { known.listed.waiting.max(1) } else { 0 };
    known.turns(Kind::Released).end(now);
    0
}

/// A turn has failed. Its reason is told once.
fn failed(known: &mut Known, turn: &Turn, stop: &Stop, now: Instant) {
    if known.turns(turn.kind).stopped != Some(stop.word()) {
        log::warn(&format!("job {}: {stop}", turn.job));
    }
    // what was taken and not reported is looked for again
    known.look(None);
    known.turns(turn.kind).fail(now, Some(stop.word()), matches!(stop, Stop::Never(..)));
}

/// Shows why a job is not cleaned, or that it is.
fn show(shared: &Shared, known: &mut Known, stopped: Option<&'static str>) {
    let stopped = if known.listed.storage.is_none() { Some(NO_STORAGE) } else { stopped };
    let works = stopped.is_none() && known.works();
    shared.metrics.show(&known.listed.name, works, known.shown, stopped);
    known.shown = stopped;
}

/// The jobs of the service, or the one.
async fn listed(service: &Service, one: Option<&str>) -> Result<Vec<Listed>, Error> {
    let strange = || Error::Answer("to list jobs is strange".to_string());
    let rows: Vec<Value> = match one {
        Some(name) => vec![service.job(name).state().await?],
        None => match service.jobs().await?["jobs"].take() {
            Value::Array(rows) => rows,
            _ => return Err(strange()),
        },
    };
    rows.iter().map(|row| Listed::of(row).ok_or_else(strange)).collect()
}
