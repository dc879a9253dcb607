//! The writer: one thread that owns all jobs, makes their calls, commits them in groups, and then answers.
mod batch;
mod board;
mod commit;
mod damaged;
mod delete;
mod imager;
mod images;
mod jobs;
mod keeper;
mod lag;
mod lease;
mod leftovers;
mod lent;
mod message;
mod old_keys;
mod pool;
mod queue;
pub mod replay;
mod round;
mod state;
mod timer;

pub use board::{Board, Served};
pub use delete::Delete;
pub use imager::Imager;
pub use jobs::Jobs;
pub use lease::Lease;
pub use message::{CallsDone, Created, Deletion, ForKeeping, Key, Message, Read, MOST_JOBS};
pub use pool::{OpenReader, Pool, Progress};
pub use queue::{queue, Inbox, Messages, NotSent};
pub use replay::StartError;
pub use state::JobState;

use crate::exit;
use crate::log;
use crate::metrics::Metrics;
use crate::model::{kind, Call, Change, Clock, Entry, Held, Keeping, Moment, Outcome};
use crate::stop::Stop;
use crate::store::{Failure, Store};
use batch::{calls_of, Answered};
use commit::lose;
use keeper::Keeper;
use leftovers::Leftovers;
use lent::Lent;
use old_keys::OldKeys;
use pool::Replayed;
use round::{Done, Round, Untold};
use std::collections::VecDeque;
use std::sync::mpsc::RecvTimeoutError;
use std::sync::Arc;
use std::time::Duration;
use timer::Timer;

/// How many calls share a commit at most.
const MOST_CALLS: usize = 4096;
/// How long a tick that could not be made waits for its next try, in milliseconds.
const TICK_AGAIN: u64 = 1000;
/// How long the writer sleeps at most. Each time it reports that it works, and follows the system's clock.
const SLEEP: Duration = Duration::from_secs(1);
/// How often it writes down that the service runs, though no calls come.
const NOTE_EACH: Duration = Duration::from_secs(3600);

pub struct Writer {
    store: Box<dyn Store>,
    jobs: Jobs,
    clock: Clock,
    timer: Timer,
    board: Arc<Board>,
    metrics: Arc<Metrics>,
    keeper: Keeper,
    /// The next round, with what it writes beside calls.
    next: Round,
    old_keys: OldKeys,
    leftovers: Leftovers,
    /// The job whose coordinator the imager has, and messages that waited for one.
    lent: Option<Lent>,
    waited: VecDeque<Message>,
    followed: Moment,
    noted: Moment,
    lease: Lease,
}

impl Writer {
    /// A writer that has no jobs yet: each comes as it is replayed.
    pub fn new(
        store: Box<dyn Store>,
        jobs: Jobs,
        clock: Clock,
        lease: Lease,
        board: Arc<Board>,
        metrics: Arc<Metrics>,
        keeping: Keeping,
    ) -> Writer {
        let (timer, keeper, next) = (Timer::default(), Keeper::new(keeping), Round::default());
        let (old_keys, leftovers, now) = (OldKeys::new(), Leftovers::of(jobs.leftovers()), Moment::now());
        board.set_lease(&lease);
        board.keep_out(jobs.kept_out());
        Writer {
            store,
            jobs,
            clock,
            timer,
            board,
            metrics,
            keeper,
            next,
            old_keys,
            leftovers,
            lent: None,
            waited: VecDeque::new(),
            followed: now,
            noted: now,
            lease,
        }
    }

    /// Works until a message says to stop. Images are made by the imager.
    pub fn run(mut self, inbox: &Messages, imager: &Imager) {
        loop {
            let first = match inbox.recv_timeout(self.patience()) {
                Ok(message) => Some(message),
                Err(RecvTimeoutError::Timeout) => None,
                Err(RecvTimeoutError::Disconnected) => return,
            };
            let mut round = std::mem::take(&mut self.next);
            let messages = self.gather(first, inbox);
            let answered = Answered::read(&messages, &self.jobs, self.store.as_mut()).unwrap_or_else(|why| lose(&why));
            for message in messages {
                self.take_in(&mut round, &answered, message);
            }
            self.tick_due(&mut round);
            self.consider(&mut round);
            self.commit(&mut round);
            let (stop, added, keys) = (round.stop, round.group.entries.len(), round.group.requests.len());
            self.keeper.called(&round.touched);
            let (given, deletions) = (std::mem::take(&mut round.given), std::mem::take(&mut round.deletions));
            let gone = std::mem::take(&mut round.group.gone);
            self.answer(round);
            self.keep(given);
            self.delete(deletions, &gone);
            if stop {
                self.board.end_lease();
                self.store.release();
                return;
            }
            self.old_keys.work(self.store.as_mut(), &self.metrics, keys, self.clock.now());
            self.leftovers.work(self.store.as_mut(), self.clock.now());
            self.next = self.keeper.work(&mut self.jobs, &self.board, added);
            if let Some(place) = self.keeper.wanted() {
                self.lend(place, imager);
            }
            self.look_at_clock();
        }
    }

    /// The messages that wait, until their calls fill a commit.
    fn gather(&mut self, first: Option<Message>, inbox: &Messages) -> Vec<Message> {
        let (mut batch, mut calls, mut first) = (Vec::new(), 0, first);
        while calls < MOST_CALLS && !matches!(batch.last(), Some(Message::Stop)) {
            let next = self.waited.pop_front().or_else(|| first.take()).or_else(|| inbox.try_recv());
            let Some(message) = next else {
                break;
            };
            if let Some(message) = self.admit(message) {
                calls += calls_of(&message);
                batch.push(message);
            }
        }
        self.waited.extend(first);
        batch
    }

    /// A message that can be worked on. One of a job whose coordinator is lent waits.
    fn admit(&mut self, message: Message) -> Option<Message> {
        match message {
            Message::Returned(returned) => {
                self.metrics.image(returned.took);
                self.jobs.at(returned.place).take_back(returned.engine);
                self.waited.extend(self.lent.take().map_or(Vec::new(), Lent::into_held));
                self.publish(returned.place);
                None
            }
            Message::Imaged(imaged) => {
                self.keeper.image_made(&mut self.jobs, imaged, &self.metrics);
                None
            }
            Message::Replayed(replayed) => {
                self.take_replayed(replayed);
                None
            }
            message => match &mut self.lent {
                Some(lent) => lent.hold(message),
                None => Some(message),
            },
        }
    }

    /// From now on a job is served, or kept out.
    fn take_replayed(&mut self, Replayed { number, name, job }: Replayed) {
        match job {
            Ok(job) => {
                let place = self.jobs.add(*job);
                self.keeper.called(&[place].into());
                self.publish(place);
            }
            Err(why) => {
                self.jobs.keep_out_job(number, name.clone(), why);
                self.board.keep_out(self.jobs.kept_out());
            }
        }
        self.board.replay.done(&name);
        if self.board.replay.of_all().is_none() {
            self.end_without_hope();
        }
    }

    /// Ends the process if not one job can be replayed: then this program, or the database, is the wrong one.
    fn end_without_hope(&mut self) {
        if let Some(why) = self.jobs.take_hopeless() {
            self.board.end_lease();
            self.store.release();
            let stop = Stop::from(why);
            log::error(&stop.to_string());
            exit::now(stop.status())
        }
    }

    /// Gives the imager a job's coordinator. Until it is back the job is neither called nor ticked.
    fn lend(&mut self, place: usize, imager: &Imager) {
        let job = self.jobs.at(place);
        let state = state::state(job, self.clock.now());
        if let Some((engine, image)) = job.lend() {
            self.lent = Some(Lent::new(state));
            self.timer.set(place, None);
            imager.make(place, engine, image);
        }
    }

    /// Follows the system's clock, and writes a moment down now and then.
    fn look_at_clock(&mut self) {
        self.board.beat();
        if self.followed.elapsed() < SLEEP {
            return;
        }
        self.followed = Moment::now();
        self.metrics.clock(self.clock.follow());
        if self.noted.elapsed() >= NOTE_EACH {
            self.noted = Moment::now();
            match self.store.note(self.clock.now()) {
                Ok(()) => {}
                // after a sync that failed nobody knows what the log has
                Err(why @ Failure::Lost(_)) => lose(&why),
                Err(why) => log::warn(&format!("the moment is not written down: {why}")),
            }
        }
    }

    /// How long to wait for a message: until a job has to be ticked, or the lease to be renewed.
    fn patience(&self) -> Duration {
        let beat = self.store.beat().saturating_sub(self.lease.age()).min(SLEEP).min(self.old_keys.wait());
        let beat = self.leftovers.wait().map_or(beat, |wait| beat.min(wait));
        let is_idle = self.next.group.is_empty() && self.waited.is_empty();
        let beat = if is_idle { beat.max(Duration::from_millis(1)) } else { Duration::ZERO };
        match self.timer.next() {
            None => beat,
            Some(moment) => beat.min(Duration::from_millis(moment.saturating_sub(self.clock.now()))),
        }
    }

    fn take_in(&mut self, round: &mut Round, answered: &Answered, message: Message) {
        match message {
            Message::Stop => round.stop = true,
            // taken in as the batch was gathered
            Message::Returned(_) | Message::Imaged(_) | Message::Replayed(_) => {}
            Message::Read(read) => round.reads.push(read),
            Message::Keep(given, reply) => round.given.push((given, reply)),
            Message::Delete(delete) => round.deletions.push(delete),
            Message::Create { name, settings, shape, first, storage, reply } => {
                let created = round.create(&mut self.jobs, &name, settings, shape, first, self.clock.now());
                let created = round.created_at(&mut self.jobs, &name, created, storage);
                round.created.push((created, reply));
            }
            Message::Locate { job, storage, reply } => {
                round.locate(&mut self.jobs, &job, storage);
                round.reads.push(Read::Job(job, reply));
            }
            Message::Configure { job, change, reply } => {
                let untold = self.configure(round, &job, change);
                round.done.push(Done { untold, reply });
            }
            Message::Calls { job, calls, tells, key, reply } => {
                let untold = match self.jobs.place(&job) {
                    None => Untold::Known(CallsDone::NoJob),
                    Some(place) => self.keyed_calls(round, answered, place, (&calls, tells), key),
                };
                round.done.push(Done { untold, reply });
            }
        }
    }

    /// Makes the calls of a request, unless it was answered under its key before.
    fn keyed_calls(
        &mut self,
        round: &mut Round,
        answered: &Answered,
        place: usize,
        (calls, tells): (&[Call], bool),
        key: Option<Key>,
    ) -> Untold {
        let Some(key) = key else {
            return Untold::Held { place, calls: self.calls(round, place, calls, tells), is_keyed: false };
        };
        let job = self.jobs.at(place).opening.number;
        match round.keyed(job, &key.name).map(Ok).or_else(|| answered.get(job, &key.name)) {
            Some(Ok(known)) if known.digest == key.digest => Untold::Known(CallsDone::Known(known.answers)),
            Some(Ok(_)) => Untold::Known(CallsDone::KeyUsed),
            Some(Err(why)) => Untold::Known(CallsDone::BadKey(why)),
            None => {
                let calls = self.calls(round, place, calls, tells);
                // if nothing was made, a repeat makes nothing twice
                if calls.iter().any(|held| held.outcome.has_row()) {
                    let answers = self.board.answers(calls.iter().map(|held| &held.outcome));
                    round.keep(job, key, self.clock.now(), answers);
                }
                Untold::Held { place, calls, is_keyed: true }
            }
        }
    }

    /// Gives a job the settings that it has with this change. A repeat gives it the same.
    fn configure(&mut self, round: &mut Round, job: &str, change: Change) -> Untold {
        let Some(place) = self.jobs.place(job) else {
            return Untold::Known(CallsDone::NoJob);
        };
        let job = self.jobs.at(place);
        let numbers = change.of(&job.settings).numbers();
        let calls = vec![self.call(round, place, &Call::Configure { numbers })];
        Untold::Held { place, calls, is_keyed: false }
    }

    /// Makes calls in order. After one that found no memory, the others are not made.
    fn calls(&mut self, round: &mut Round, place: usize, calls: &[Call], tells: bool) -> Vec<Held> {
        let mut all: Vec<Held> = Vec::with_capacity(calls.len());
        for call in calls {
            let held = match all.last().map(|held| &held.outcome) {
                Some(Outcome::NoMemory | Outcome::NotMade) => Held::without_memory(Outcome::NotMade),
                _ if tells => self.telling_call(round, place, call),
                _ => self.call(round, place, call),
            };
            all.push(held);
        }
        all
    }

    /// Makes a call, and tells the kind of its record and which ones it has ended.
    fn telling_call(&mut self, round: &mut Round, place: usize, call: &Call) -> Held {
        let live = self.jobs.at(place).live();
        let named = call.record().and_then(|id| live.get(&id)).map(|live| live.kind.to_string());
        let first = round.group.entries.len();
        let held = self.call(round, place, call);
        let Outcome::Made { reply, .. } = &held.outcome else {
            return held;
        };
        let kind = kind(reply).filter(|word| *word != "fresh").map(str::to_string).or(named);
        let mut ended: Vec<u64> = round.group.entries[first..].iter().flat_map(Entry::ended_records).collect();
        ended.sort_unstable();
        held.map(|made| Outcome::Detailed { made: Box::new(made), kind, ended })
    }

    fn call(&mut self, round: &mut Round, place: usize, call: &Call) -> Held {
        let job = self.jobs.at(place);
        let (now, phase) = (job.moment(self.clock.now()), job.phase);
        let (held, logged) = job.operate(call, now);
        self.metrics.call(&job.opening.name, call.name(), &held.outcome);
        for logged in logged {
            round.group.log(logged);
        }
        if job.phase != phase {
            round.group.phases.insert(job.opening.number, job.phase);
        }
        round.touched.insert(place);
        held
    }

    /// Ticks each job in which a checkpoint is due or a record expires.
    fn tick_due(&mut self, round: &mut Round) {
        let now = self.clock.now();
        self.set_timer(round);
        for (moment, place) in self.timer.take_due(now) {
            self.metrics.queue.late(now.saturating_sub(moment));
            let outcome = self.call(round, place, &Call::Tick).outcome;
            if !did_its_work(&outcome) {
                log::warn(&format!("tick job={} outcome={}", self.jobs.at(place).opening.name, outcome.json()));
                round.postponed.push((place, now + TICK_AGAIN));
            }
        }
    }

    fn set_timer(&mut self, round: &Round) {
        for place in &round.touched {
            let wake = self.jobs.at(*place).wake();
            self.timer.set(*place, wake);
        }
    }

    /// Wakes the requests that wait for the job's events, and sets its timer.
    fn publish(&mut self, place: usize) {
        let job = self.jobs.at(place);
        let wake = job.wake();
        self.board.publish(job);
        self.timer.set(place, wake);
    }
}

/// Whether a tick did what the timer expected: it ended or triggered a record.
fn did_its_work(ticked: &Outcome) -> bool {
    matches!(ticked, Outcome::Made { reply, .. } if reply.is_event())
}
