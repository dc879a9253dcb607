//! One job: its coordinator, its place in the log, and when the timer has to tick it.
use super::answer_row::AnswerRow;
use super::bases::Bases;
use super::call::Call;
use super::engine::{Engine, HeldCall, Lendable, MadeCall, NoJob};
use super::held::Held;
use super::image::Image;
use super::live::{ended_numbers, Live};
use super::outcome::{Extra, Outcome, Reply};
use super::phase::Phase;
use super::retention::Retention;
use super::settings::pending_limit;
use super::sizes::{FileBytes, SizeChange, Sizes, Use};
use super::states::{StateChange, States};
use crate::files::JobStorage;
use relkvanu::{Answer, Choice, Fault, Kind, Live as LiveRecord, Mode, Settings};
use std::collections::HashSet;
use std::ops::Range;
use std::sync::Arc;

/// What a job was opened with, which never changes. A job may have other settings and another shape since.
#[derive(Clone, Debug, PartialEq, Eq)]
pub struct Opening {
    /// The job's number in the database.
    pub number: i64,
    pub name: String,
    pub settings: Settings,
    pub shape: Vec<u64>,
    /// The moment of the opening.
    pub started: u64,
    /// The number of its first record.
    pub first: u64,
}

/// A row of the log: a call that was made, and its answer.
#[derive(Clone, Debug, PartialEq, Eq)]
pub struct Entry {
    pub job: i64,
    pub seq: u64,
    /// The moment of the call.
    pub at: u64,
    /// The record that the call is about.
    pub record: Option<u64>,
    pub line: String,
    pub told: AnswerRow,
    /// The numbers of the records that the call ended, with a space between them.
    pub ended: Option<String>,
    /// How many files the call added to those that wait for deletion.
    pub waiting: u64,
}

impl Entry {
    /// The answer; `None` if the row has none.
    pub fn reply(&self) -> Option<Reply> {
        self.told.reply()
    }

    /// How many bytes its texts have. Its numbers are few.
    pub fn bytes(&self) -> usize {
        self.line.len() + self.told.files.as_ref().map_or(0, String::len)
    }

    /// The numbers of the records that the call ended.
    pub fn ended_records(&self) -> Vec<u64> {
        self.ended.iter().flat_map(|ids| ids.split(' ')).filter_map(|id| id.parse().ok()).collect()
    }
}

/// What the database gets of a call that changed something.
pub struct Logged {
    pub entry: Entry,
    pub sizes: SizeChange,
    pub states: Option<Box<StateChange>>,
}

pub struct Job {
    pub opening: Opening,
    /// The settings that the job has now.
    pub settings: Settings,
    /// The shape that the job has now.
    pub shape: Vec<u64>,
    /// How many calls were made.
    pub seq: u64,
    /// The moment of the last one.
    pub at: u64,
    /// When the last checkpoint completed.
    pub last_completed: Option<u64>,
    /// When it was restored last, of the calls that this process knows: those after an image.
    pub last_restored: Option<u64>,
    /// The last call that is an event for engines.
    pub last_event: u64,
    /// What a restore would have begun from.
    pub bases: Bases,
    /// What the database has of the log, if this process leads.
    pub retention: Retention,
    /// The bytes of files, if this process leads.
    pub sizes: Sizes,
    /// The records with payloads and the like, if this process leads.
    pub states: States,
    /// As the database has it, and as the calls since have left it.
    pub phase: Phase,
    /// Where its files are, if that was said.
    pub storage: Option<Arc<JobStorage>>,
    pub is_deleted: bool,
    engine: Lendable,
    live: Live,
}

impl Job {
    pub fn open(opening: Opening) -> Result<Job, NoJob> {
        let Opening { ref settings, ref shape, started, first, .. } = opening;
        let engine = Lendable::of(Engine::open(settings, shape, started, first)?);
        let (shape, at, retention) = (opening.shape.clone(), opening.started, Retention::default());
        let (live, sizes, states) = (Live::new(), Sizes::default(), States::default());
        let (seq, last_event, is_deleted) = (0, 0, false);
        let (bases, settings) = (Bases::from(seq, Choice::Fresh), opening.settings);
        Ok(Job {
            opening,
            settings,
            shape,
            seq,
            at,
            last_completed: None,
            last_restored: None,
            last_event,
            bases,
            retention,
            sizes,
            states,
            phase: Phase::Running,
            storage: None,
            is_deleted,
            engine,
            live,
        })
    }

    /// Goes on from an image.
    pub fn resume(&mut self, image: &Image) -> Result<(), Fault> {
        self.engine = Lendable::of(Engine::of_image(&image.text)?);
        self.live = self.engine.live();
        self.settings = image.settings().unwrap_or(self.settings);
        self.shape.clone_from(&image.shape);
        (self.seq, self.at) = (image.seq, image.at);
        (self.last_completed, self.last_event) = (image.last_completed, image.last_event);
        self.bases = Bases::from(image.seq, self.engine.choice());
        Ok(())
    }

    /// The job was deleted: frees what it takes, as far as memory allows.
    pub fn close(&mut self) {
        self.is_deleted = true;
        (self.retention, self.sizes, self.live) = (Retention::default(), Sizes::default(), Live::new());
        self.states = States::default();
        let Opening { ref settings, ref shape, started, first, .. } = self.opening;
        if let Ok(engine) = Engine::open(settings, shape, started, first) {
            self.engine = Lendable::of(engine);
        }
    }

    /// The image of the job as it is now; `None` if memory ran out.
    pub fn image(&self) -> Option<Image> {
        Some(self.image_of(self.engine.image()?))
    }

    /// The image of the job as it is now, with this text.
    fn image_of(&self, text: String) -> Image {
        let Job { seq, at, last_completed, last_event, .. } = *self;
        let (job, shape) = (self.opening.number, self.shape.clone());
        Image { job, seq, at, shape, last_completed, last_event, text }
    }

    /// Gives the coordinator away, with all of the job's image but its text, which the coordinator has. Until it is [back](Job::take_back)
    /// the job has no calls, and no reads but that of its live records.
    pub fn lend(&mut self) -> Option<(Engine, Image)> {
        let engine = self.engine.lend()?;
        Some((engine, self.image_of(String::new())))
    }

    pub fn take_back(&mut self, engine: Engine) {
        self.engine = Lendable::of(engine);
    }

    /// The job's moment when the writer's clock says `now`. It never goes back.
    pub fn moment(&self, now: u64) -> u64 {
        now.max(self.at)
    }

    /// Makes a call, whose answer is held back. If it changed something, also returns its row, which has to be committed before the call is answered.
    pub fn call(&mut self, call: &Call, now: u64) -> (Held, Option<Logged>) {
        let HeldCall { receipt, made } = match self.engine.make(call, now) {
            Ok(held) => held,
            Err(fault) => return (Held::without_memory(fault.into()), None),
        };
        let held = |outcome| Held { outcome, receipt: Some(receipt) };
        let MadeCall { reply, line, released } = match made {
            Ok(made) => made,
            Err(fault) => return (held(fault.into()), None),
        };
        if reply.changed_nothing() {
            return (held(Outcome::Made { seq: None, reply, beside: Extra::Nothing }), None);
        }
        let (record, ended) = self.take_in(call, now, &reply);
        let waiting = released.end.saturating_sub(released.start);
        let sizes = self.resize(call, &reply, released);
        let (job, seq, at) = (self.opening.number, self.seq, self.at);
        let entry = Entry { job, seq, at, record, line, told: AnswerRow::of(&reply), ended, waiting };
        self.retention.count_bytes(entry.bytes() as u64);
        let (beside, states) = (self.beside(call), self.states.follow(call, &reply, &entry));
        (held(Outcome::Made { seq: Some(self.seq), reply, beside }), Some(Logged { entry, sizes, states }))
    }

    /// Holds back an outcome that the service itself decides.
    pub(super) fn hold_back(&mut self, outcome: Outcome) -> Held {
        match self.engine.hold() {
            Ok(receipt) => Held { outcome, receipt: Some(receipt) },
            Err(_) => Held::without_memory(Outcome::NoMemory),
        }
    }

    /// All calls so far are committed: their answers may be told, until the next call. A coordinator that is lent has none.
    pub fn synced(&mut self) -> Result<(), Fault> {
        if self.engine.is_lent() {
            return Ok(());
        }
        self.engine.synced().map(|_| ())
    }

    /// What is told of an outcome. It is a fault before its call is committed, and once the next one is made.
    pub fn tell(&self, held: Held) -> Result<Outcome, Fault> {
        match held.receipt {
            Some(receipt) => self.engine.told(receipt).map(|told| held.outcome.with_answer(told)),
            None => Ok(held.outcome),
        }
    }

    /// What a call changed of the sizes, which released the files at these places among those that wait.
    fn resize(&mut self, call: &Call, reply: &Reply, places: Range<u64>) -> SizeChange {
        if self.sizes.ignores(call) {
            return SizeChange::default();
        }
        let released: Vec<u64> = places.filter_map(|place| self.engine.waiting_file(place)).collect();
        let mut change = self.sizes.follow(call, reply, &released);
        if let Some(said) = &mut change.said {
            (said.job, said.seq) = (self.opening.number, self.seq);
        }
        change
    }

    /// Takes in the sizes that the database has, of the files that the coordinator has; `None` if memory ran out.
    pub fn take_sizes(&mut self, sizes: &[FileBytes]) -> Option<()> {
        let taken = self.engine.taken()?;
        let places = 0..self.engine.counts().waiting;
        let waiting: HashSet<u64> = places.filter_map(|place| self.engine.waiting_file(place)).collect();
        let place = |file: u64| match self.engine.uses(file) {
            _ if taken.binary_search(&file).is_ok() => Some(Use::Taken),
            _ if waiting.contains(&file) => Some(Use::Waiting),
            Some(1..) => Some(Use::Needed),
            _ => None,
        };
        self.sizes = Sizes::of(sizes, place);
        Some(())
    }

    /// Makes a call of the log again.
    pub fn repeat(&mut self, call: &Call, now: u64) -> Outcome {
        let reply = match self.engine.repeat(call, now) {
            Ok(made) => made.reply,
            Err(fault) => return fault.into(),
        };
        if reply.changed_nothing() {
            return Outcome::Made { seq: None, reply, beside: Extra::Nothing };
        }
        self.take_in(call, now, &reply);
        self.bases.forget(self.seq);
        Outcome::Made { seq: Some(self.seq), reply, beside: Extra::Nothing }
    }

    /// What the answer of a call that was made tells beside its text: whoever restarts the tasks learns the term here.
    fn beside(&self, call: &Call) -> Extra {
        match call {
            Call::Reserve { count, .. } => Extra::Names(*count),
            Call::Configure { .. } => Extra::Settings(self.settings),
            Call::Restore { .. } | Call::Advance { .. } | Call::Cancel | Call::Fence { .. } => {
                self.engine.term().map_or(Extra::Nothing, |now| Extra::Term(now.term))
            }
            _ => Extra::Nothing,
        }
    }

    /// Notes the answer of a call. Returns the record that the call is about, and those that it ended.
    fn take_in(&mut self, call: &Call, now: u64, reply: &Reply) -> (Option<u64>, Option<String>) {
        self.seq += 1;
        self.at = self.at.max(now);
        let record = record_of(call, reply);
        let ended = self.follow(record, reply);
        self.note(call, now, record, reply);
        (record, ended)
    }

    /// Brings the live records up to date, and returns which ones a call ended. Reads them anew if the answer says that one
    /// became done or ended.
    fn follow(&mut self, record: Option<u64>, reply: &Reply) -> Option<String> {
        let Reply::Answered(answer) = reply else {
            return None;
        };
        if let (Some(kind), Some(id)) = (added(answer), record) {
            self.live.insert(id, LiveRecord { id, kind, done: false });
            return None;
        }
        if leaves_records(answer) {
            return None;
        }
        let after = self.engine.live();
        let gone = ended_numbers(&self.live, &after);
        self.live = after;
        gone
    }

    fn note(&mut self, call: &Call, now: u64, record: Option<u64>, reply: &Reply) {
        let is_checkpoint = record.and_then(|id| self.live.get(&id)).is_some_and(|live| live.kind == Kind::Checkpoint);
        if matches!(reply, Reply::Answered(Answer::AckCompleted { .. })) && is_checkpoint {
            self.last_completed = Some(now);
        }
        if matches!(call, Call::Restore { .. } | Call::Advance { .. }) {
            self.last_restored = Some(now);
        }
        if let Call::Restore { shape: Some(shape), .. } = call {
            self.shape.clone_from(shape);
        }
        if let Call::Configure { numbers } = call {
            self.settings = Settings::of_numbers(numbers).unwrap_or(self.settings);
        }
        if reply.is_event() {
            self.last_event = self.seq;
        }
        if matches!(reply, Reply::Answered(answer) if changes_choice(answer)) {
            self.bases.note(self.seq, self.engine.choice());
        }
    }

    /// When the writer's clock says that the timer has to tick: a checkpoint is due and may be triggered, or a record expires.
    pub fn wake(&mut self) -> Option<u64> {
        if self.is_deleted || self.engine.is_lent() || self.engine.mode() != Mode::Running {
            return None;
        }
        match self.phase {
            Phase::Stopped(..) => None,
            Phase::Stopping(stop) => Some(self.stop_wakes(stop)),
            Phase::Running | Phase::NotStopped(..) => {
                let expiry = self.engine.oldest_expiry();
                let has_room = self.pending(Kind::Checkpoint) < pending_limit(&self.settings);
                let due = has_room.then(|| self.engine.due());
                due.into_iter().chain(expiry).min()
            }
        }
    }

    pub fn pending(&self, kind: Kind) -> usize {
        self.live.values().filter(|live| live.kind == kind && !live.done).count()
    }

    pub fn live(&self) -> &Live {
        &self.live
    }

    pub fn engine(&mut self) -> &mut Engine {
        &mut self.engine
    }
}

/// The record that a call is about: the one it names, or the one that its answer names.
fn record_of(call: &Call, reply: &Reply) -> Option<u64> {
    use Choice::{Checkpoint, Savepoint};
    match (call, reply) {
        (Call::Ack { id, .. } | Call::Decline { id, .. } | Call::Dispose { id }, _) => Some(*id),
        (_, Reply::Answered(Answer::Triggered { id, .. } | Answer::SavepointTriggered(id))) => Some(*id),
        (_, Reply::Answered(Answer::Restored { from: Checkpoint(id) | Savepoint(id), .. })) => Some(*id),
        _ => None,
    }
}

/// Whether a call with this answer may change what a restore would begin from.
fn changes_choice(answer: &Answer) -> bool {
    matches!(answer, Answer::AckCompleted { .. } | Answer::Restored { .. } | Answer::Cancelled { .. })
}

/// The kind of the record that a call added, if it did nothing else to the records.
fn added(answer: &Answer) -> Option<Kind> {
    match answer {
        Answer::Triggered { expired: 0, .. } => Some(Kind::Checkpoint),
        Answer::SavepointTriggered(_) => Some(Kind::Savepoint),
        _ => None,
    }
}

/// Whether a call with this answer left each live record as it was, except for its missing subtasks.
fn leaves_records(answer: &Answer) -> bool {
    use Answer as A;
    match answer {
        A::HeldInterval { expired } | A::HeldAtOnce { expired } | A::HeldPause { expired } => *expired == 0,
        A::AckPending { .. } | A::AckLate { .. } | A::DeclineLate | A::Deleted(_) | A::Undeleted(_) => true,
        A::Named | A::Reserved(_) | A::Forfeited => true,
        _ => false,
    }
}
