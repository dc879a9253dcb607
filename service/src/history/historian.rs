//! The thread that makes the history.
use super::error::Error;
use super::follow::Follower;
use super::history_file::HistoryFile;
use super::records::Ended;
use super::samples::Samples;
use super::summary::Summary;
use super::tables::Tables;
use crate::log;
use crate::metrics::Metrics;
use crate::model::{Keeping, KeptSummary};
use crate::process;
use crate::store::{space_of, Reader};
use crate::writer::{Board, ForKeeping, Inbox, JobState, Message, Read, MOST_JOBS};
use std::collections::hash_map::Entry;
use std::collections::{HashMap, HashSet};
use std::sync::mpsc::{channel, Sender};
use std::sync::Arc;
use std::time::{Duration, Instant};
use tokio::sync::oneshot;

const PAGE: u64 = 2000;
/// How many records that ended the writer gets at once.
const PAST: u32 = 500;
/// The history forgets the calls that a log has cut once they are one part in this many of the log.
const PARTS: u64 = 8;
/// How often the thread looks at the board.
const LOOK: Duration = Duration::from_millis(100);
/// How long the thread rests after an error.
const REST: Duration = Duration::from_secs(5);
/// How long a start waits for the tables.
const OPEN_WITHIN: Duration = Duration::from_secs(3);
/// How often the room that files take is measured.
const MEASURE_EACH: Duration = Duration::from_secs(15);

pub struct Historian {
    pub file: Arc<HistoryFile>,
    pub reader: Box<dyn Reader>,
    pub board: Arc<Board>,
    pub metrics: Arc<Metrics>,
    pub inbox: Inbox,
    pub keeping: Keeping,
    /// Records that ended before this moment are not counted: an earlier process has counted them.
    pub since: u64,
    pub measured: Option<Instant>,
    /// Jobs that the tables have and this process does not, when it looked whether they were deleted.
    pub away: HashSet<i64>,
    /// Is told once the file was opened, or could not be.
    pub opened: Option<Sender<()>>,
}

impl Historian {
    /// Starts the thread. Waits until its tables are there, so that the first read finds them, but not for a long upgrade.
    pub fn start(mut self) {
        let (opened, is_opened) = channel();
        self.opened = Some(opened);
        process::thread("historian", move || self.run());
        let _ = is_opened.recv_timeout(OPEN_WITHIN);
    }

    /// Follows the log for as long as the process lives. After an error it begins again from the tables.
    fn run(mut self) {
        loop {
            let opened = self.file.open();
            if let Some(waiting) = self.opened.take() {
                let _ = waiting.send(()); // it may have waited long enough
            }
            if let Ok(tables) = opened {
                if let Err(error) = self.work(&tables) {
                    drop(tables);
                    self.file.failed(&error);
                }
            }
            self.measure();
            std::thread::sleep(REST);
        }
    }

    fn work(&mut self, tables: &Tables) -> Result<(), Error> {
        let mut followers: HashMap<i64, Follower> = HashMap::new();
        let mut samples = Samples::default();
        loop {
            let lengths = self.board.lengths();
            self.forget_deleted(tables, &mut followers)?;
            self.add_followers(tables, &mut followers, &lengths)?;
            for (number, last) in lengths {
                let Some(follower) = followers.get_mut(&number) else {
                    continue;
                };
                if follower.upto < last {
                    self.catch_up(tables, follower)?;
                }
                self.forget(tables, follower)?;
            }
            self.sample(tables, &mut samples)?;
            self.measure();
            std::thread::sleep(LOOK);
        }
    }

    /// Forgets the jobs that were deleted, those of an earlier process too.
    fn forget_deleted(&mut self, tables: &Tables, followers: &mut HashMap<i64, Follower>) -> Result<(), Error> {
        // before all are replayed it does not know the jobs
        if !self.board.is_ready() || self.board.replay.of_all().is_some() {
            return Ok(());
        }
        // a job that the tables have has been on the board, unless it was deleted, or is kept out
        let lengths: HashSet<i64> = self.board.lengths().into_iter().map(|(job, _)| job).collect();
        let away: HashSet<i64> = tables.jobs()?.into_iter().filter(|job| !lengths.contains(job)).collect();
        followers.retain(|number, _| lengths.contains(number));
        if away == self.away {
            return Ok(());
        }
        let there: HashSet<i64> = self.reader.listed()?.into_iter().map(|job| job.number).collect();
        for job in away.iter().copied().filter(|job| !there.contains(job)) {
            while tables.within(|| Ok(tables.forget_piece(job)?))? {}
        }
        self.away = away;
        Ok(())
    }

    /// Adds the jobs that are new.
    fn add_followers(
        &mut self,
        tables: &Tables,
        followers: &mut HashMap<i64, Follower>,
        lengths: &[(i64, u64)],
    ) -> Result<(), Error> {
        if lengths.iter().all(|(number, _)| followers.contains_key(number)) {
            return Ok(());
        }
        let new: HashSet<i64> =
            lengths.iter().map(|(job, _)| *job).filter(|job| !followers.contains_key(job)).collect();
        // one whose row is bad is kept out, and is not on the board
        let openings = self.reader.listed()?.into_iter().filter_map(|listed| listed.opening.ok());
        for opening in openings.filter(|opening| new.contains(&opening.number)) {
            if let Entry::Vacant(place) = followers.entry(opening.number) {
                let follower = Follower::open(tables, self.reader.as_mut(), &opening)?;
                self.tell(&follower);
                place.insert(follower);
            }
        }
        Ok(())
    }

    /// Reads one page, so a long log of one job does not keep other jobs waiting.
    fn catch_up(&mut self, tables: &Tables, follower: &mut Follower) -> Result<(), Error> {
        let next = follower.next_summary(self.keeping);
        // a page ends where a summary is due
        let most = next.map_or(PAGE, |next| next.saturating_sub(follower.upto).clamp(1, PAGE));
        let page = self.reader.log(follower.job, follower.upto, u32::try_from(most).unwrap_or(u32::MAX))?;
        if page.first().is_none_or(|entry| entry.seq != follower.upto + 1) {
            return self.bridge(tables, follower);
        }
        let last = page.last().map_or(follower.upto, |entry| entry.seq);
        let said = self.reader.ack_bytes(follower.job, follower.upto, last)?;
        let figures = self.reader.figures(follower.job, follower.upto, last)?;
        let ended = follower.follow(tables, &page, &said, &figures)?;
        self.tell_ended(follower, &ended);
        self.tell(follower);
        if next.is_some_and(|next| follower.upto >= next) {
            self.keep_summary(tables, follower)?;
        }
        Ok(())
    }

    /// The next calls were cut. So the history goes on from a summary, or from an image if there is none.
    fn bridge(&mut self, tables: &Tables, follower: &mut Follower) -> Result<(), Error> {
        let from = follower.upto;
        if follower.load(tables, self.reader.as_mut())? {
            log::info(&format!("history job={}: goes on from the summary after call {}", follower.name, follower.upto));
        } else {
            let Some(saved) = self.reader.image(follower.job, from)? else {
                return Ok(());
            };
            follower.bridge(tables, &saved.image)?;
            log::warn(&format!(
                "history job={}: calls {} to {} were cut unread",
                follower.name,
                from + 1,
                follower.upto
            ));
        }
        self.tell(follower);
        Ok(())
    }

    /// Gives what the history knows to the database, so that the calls up to here can be cut.
    fn keep_summary(&mut self, tables: &Tables, follower: &mut Follower) -> Result<(), Error> {
        let bytes = follower.summary.bytes;
        // if it can't be written now, it is tried after as many calls again
        follower.summary = KeptSummary { seq: follower.upto, bytes };
        loop {
            let past = tables.unsaved(follower.job, PAST)?;
            if past.is_empty() {
                break;
            }
            if !self.keep(ForKeeping::Past(past.clone())) {
                return Ok(());
            }
            tables.within(|| Ok(tables.set_saved(&past)?))?;
        }
        while tables.within(|| Ok(tables.forget_records(follower.job, self.keeping.keep_records)?))? {}
        let parts = Summary::of(tables, follower)?.parts(follower)?;
        let bytes = parts.last().map_or(0, |part| part.whole);
        for part in parts {
            if !self.keep(ForKeeping::Summary(part)) {
                return Ok(());
            }
        }
        follower.summary.bytes = bytes;
        Ok(())
    }

    /// Returns whether the writer has committed it.
    fn keep(&self, given: ForKeeping) -> bool {
        let (reply, answer) = oneshot::channel();
        self.inbox.try_send(Message::Keep(given, reply)).is_ok() && answer.blocking_recv().unwrap_or(false)
    }

    /// Forgets the calls that the log has cut, once they are an eighth of the log. It visits all files, so it is done seldom.
    fn forget(&self, tables: &Tables, follower: &mut Follower) -> Result<(), Error> {
        let first = self.board.first(&follower.name);
        let has = follower.upto.saturating_sub(first);
        if first <= follower.first.saturating_add(has / PARTS) {
            return Ok(());
        }
        follower.first = first;
        tables.within(|| Ok(tables.forget_deleted(follower.job, first)?))
    }

    fn tell(&self, follower: &Follower) {
        let is_there = || self.is_there(&follower.name, follower.job);
        self.metrics.of_job(&follower.name, is_there, |metrics| metrics.history(&follower.name, follower.upto));
        self.board.set_history(&follower.name, follower.job, follower.upto);
    }

    /// Counts the records that ended since this process serves.
    fn tell_ended(&self, follower: &Follower, ended: &[(u64, Ended)]) {
        let is_there = || self.is_there(&follower.name, follower.job);
        self.metrics.of_job(&follower.name, is_there, |metrics| {
            for (_, one) in ended.iter().filter(|(at, _)| *at >= self.since) {
                let kind = one.kind.to_string();
                metrics.record(&follower.name, &kind, one.how, one.took as f64 / 1000.0);
                if let (Some(bytes), true) = (one.bytes, one.how == "completed") {
                    metrics.sizes.record(&follower.name, &kind, bytes);
                }
            }
        });
    }

    /// Whether the job of this name is still that of this number: it may have been deleted, and another one opened under its name.
    fn is_there(&self, name: &str, number: i64) -> bool {
        self.board.number(name) == Some(number)
    }

    /// Writes how many files and pending records each job has, if it is time, and deletes old samples.
    fn sample(&self, tables: &Tables, samples: &mut Samples) -> Result<(), Error> {
        if samples.is_due() {
            match self.all_jobs() {
                Some(jobs) => {
                    samples.add(tables, &jobs)?;
                    self.tell_oldest_files(tables, &jobs)?;
                }
                None => return Ok(()),
            }
        }
        if samples.has_old() {
            self.metrics.upkeep.samples_behind(samples.forget(tables)?);
        }
        Ok(())
    }

    /// Tells the metrics for how long the oldest files wait for deletion, or have been taken for it.
    fn tell_oldest_files(&self, tables: &Tables, jobs: &[JobState]) -> Result<(), Error> {
        for job in jobs {
            let age =
                |at: Option<u64>| at.map_or(Duration::ZERO, |at| Duration::from_millis(job.now.saturating_sub(at)));
            let none = job.files.waiting + job.files.taken == 0;
            let (waiting, taken) = if none { (None, None) } else { tables.oldest_files(job.opening.number)? };
            let (name, ages) = (&job.opening.name, (age(waiting), age(taken)));
            let is_there = || self.is_there(name, job.opening.number);
            self.metrics.of_job(name, is_there, |metrics| metrics.upkeep.oldest_files(name, ages.0, ages.1));
        }
        Ok(())
    }

    /// The jobs of this process, which the writer reads in pieces; `None` if it does not take the request now.
    fn all_jobs(&self) -> Option<Vec<JobState>> {
        let mut all = Vec::<JobState>::new();
        loop {
            let after = all.last().map_or(i64::MIN, |job| job.opening.number);
            let (reply, answer) = oneshot::channel();
            self.inbox.try_send(Message::Read(Read::Jobs { after, most: MOST_JOBS, reply })).ok()?;
            let mut piece = answer.blocking_recv().ok()?;
            let is_last = piece.len() < MOST_JOBS;
            all.append(&mut piece);
            if is_last {
                return Some(all);
            }
        }
    }

    /// Measures the database and the history, if it is time.
    fn measure(&mut self) {
        if self.measured.is_some_and(|last| last.elapsed() < MEASURE_EACH) {
            return;
        }
        self.measured = Some(Instant::now());
        let database = self.reader.space().map_err(|error| error.to_string());
        let history = space_of(self.file.path()).map_err(|error| error.to_string());
        for (of, told) in [("database", database), ("history", history)] {
            match told {
                Ok(space) => {
                    self.metrics.upkeep.stored(of, space.bytes);
                    space.disk.into_iter().for_each(|disk| self.metrics.upkeep.disk(of, disk));
                }
                Err(why) => log::warn(&format!("the size of the {of}: {why}")),
            }
        }
    }
}
