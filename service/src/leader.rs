//! The writer's thread: it follows the log until this process may write, and then works.
use crate::exit;
use crate::log;
use crate::metrics::Metrics;
use crate::model::{check_clock, shown, wall, Clock, Keeping, Moment};
use crate::stop::Stop;
use crate::store::{DbError, Lead, Reader, Store};
use crate::writer::{Board, Imager, Inbox, Jobs, Lease, Messages, OpenReader, Pool, StartError, Writer};
use std::sync::Arc;
use std::time::Duration;

/// How often a standby looks at the log and at the lease.
const LOOK_EACH: Duration = Duration::from_millis(100);
/// How often it reads the log at least: a leader whose lease is long renews it seldom.
const FOLLOW_EACH: Duration = Duration::from_secs(10);

pub struct Leader {
    pub store: Box<dyn Store>,
    pub reader: Box<dyn Reader>,
    /// Opens other readers, for the replay.
    pub open: OpenReader,
    pub board: Arc<Board>,
    pub metrics: Arc<Metrics>,
    pub messages: Messages,
    pub inbox: Inbox,
    pub listen: String,
    pub keeping: Keeping,
    /// Whether the clock may be far ahead of the log.
    pub accept_clock: bool,
}

/// The jobs of a process that does not lead yet, as far as it has read the log.
#[derive(Default)]
struct Followed {
    jobs: Jobs,
    /// When it began to read the log last, and whether there were commits meanwhile.
    read: Option<Moment>,
    misses: bool,
}

/// What the store answered when it was asked to lead, and when.
struct Asked {
    at: Moment,
    lead: Lead,
}

impl Leader {
    /// Ends the process if it can't lead.
    pub fn run(mut self) {
        let led = self.lead().unwrap_or_else(|stop| {
            log::error(&stop.to_string());
            exit::now(stop.status())
        });
        let Some((jobs, lease)) = led else {
            return self.store.release();
        };
        let clock = Clock::starting_after(jobs.last_moment());
        let (board, keeping, inbox) = (self.board, self.keeping, self.inbox);
        let writer = Writer::new(self.store, jobs, clock, lease, Arc::clone(&board), self.metrics, keeping);
        // a request for a job that is not replayed waits for it
        board.open();
        log::info(&format!("serves on {}", self.listen));
        Pool { open: self.open, board, inbox: inbox.clone(), keeping }.start();
        writer.run(&self.messages, &Imager::start(inbox));
    }

    /// Follows the log while another process leads. So a take-over has little to replay. `None` if the process was told to stop first.
    fn lead(&mut self) -> Result<Option<(Jobs, Lease)>, Stop> {
        let (mut followed, started) = (Followed::default(), Moment::now());
        while !self.board.is_stopping() {
            self.board.beat();
            let mut asked = Asked::now(self.store.as_mut())?;
            let is_first = followed.read.is_none();
            if asked.wants_follow(&followed) {
                asked = self.follow(&mut followed)?.unwrap_or(asked);
            }
            if let Lead::Here { epoch } = asked.lead {
                return Ok(Some(self.take_over(followed, started, asked.at, epoch)?));
            }
            if is_first {
                self.check_clock(followed.jobs.last_moment())?;
                let (jobs, calls) = (followed.jobs.len(), followed.jobs.made);
                log::info(&format!("another process leads; follows jobs={jobs} calls={calls}"));
            }
            std::thread::sleep(LOOK_EACH);
        }
        Ok(None)
    }

    /// Reads what was committed until now. It may take long the first time: it ends at once if this process leads meanwhile, and returns that.
    fn follow(&mut self, followed: &mut Followed) -> Result<Option<Asked>, Stop> {
        let (board, store, mut asked, mut misses) = (&self.board, self.store.as_mut(), None, false);
        let (since, mut looked) = (Moment::now(), Moment::now());
        let mut beat = || {
            board.beat();
            if looked.elapsed() < LOOK_EACH {
                return Ok(());
            }
            let told = Asked::now(store)?;
            looked = Moment::now();
            if let Lead::Elsewhere { committed } = told.lead {
                misses |= committed;
                return Ok(());
            }
            asked = Some(told);
            Err(StartError::Leads)
        };
        match followed.jobs.catch_up(self.reader.as_mut(), &mut beat) {
            Err(StartError::Leads) => return Ok(asked),
            told => told?,
        }
        (followed.read, followed.misses) = (Some(since), misses);
        has_hope(&mut followed.jobs)?;
        self.metrics.queue.followed();
        Ok(None)
    }

    /// Says in the database that this process leads, and hands all jobs over to be replayed, one by one. It keeps its lease meanwhile.
    fn take_over(
        &mut self,
        followed: Followed,
        started: Moment,
        asked: Moment,
        epoch: u64,
    ) -> Result<(Jobs, Lease), Stop> {
        let mut jobs = followed.jobs;
        let mut lease = Lease::of(self.store.lease(), asked);
        let (store, board) = (self.store.as_mut(), &self.board);
        let mut keep = || {
            board.beat();
            lease.keep(store).map_err(StartError::NotLeading)
        };
        let pending = jobs.take_over(self.reader.as_mut(), &mut keep)?;
        if pending.is_empty() {
            has_hope(&mut jobs)?;
        }
        let lengths = self.reader.lengths()?;
        keep()?;
        self.check_clock(jobs.last_moment()).inspect_err(|_| self.store.release())?;
        let now = wall().max(jobs.last_moment());
        self.store.note(now).unwrap_or_else(|why| log::warn(&format!("the moment is not written down: {why}")));
        let log = relkvanu_client::new_key();
        self.store.begin(&log, &lengths)?;
        self.board.lead(epoch, log);
        lease.renew(self.store.as_mut())?;
        let (took, over) = (started.elapsed().as_millis(), asked.elapsed().as_millis());
        let (there, calls) = (pending.len(), jobs.made);
        log::info(&format!("leads epoch={epoch} jobs={there} calls={calls} start_ms={took} take_over_ms={over}"));
        self.board.replay.begin(pending, calls);
        Ok((jobs, lease))
    }

    /// Refuses a clock that is far ahead of the log. If it is behind, the moments count on from the log's last one.
    fn check_clock(&mut self, last: u64) -> Result<(), Stop> {
        if !self.accept_clock {
            check_clock(self.reader.noted()?.max(last))?;
        }
        if last > wall().saturating_add(1000) {
            log::warn(&format!(
                "the log ends at {}, which this machine's clock has not reached: moments count on from there",
                shown(last)
            ));
        }
        Ok(())
    }
}

impl Asked {
    fn now(store: &mut dyn Store) -> Result<Asked, DbError> {
        let at = Moment::now();
        Ok(Asked { at, lead: store.lead()? })
    }

    /// Whether the log is to be read: between two renewals of a lease there may be commits.
    fn wants_follow(&self, followed: &Followed) -> bool {
        let is_old = followed.read.is_none_or(|read| read.elapsed() >= FOLLOW_EACH);
        matches!(self.lead, Lead::Elsewhere { committed } if committed || followed.misses || is_old)
    }
}

/// Fails if not one job can be replayed: then this program, or the database, is the wrong one.
fn has_hope(jobs: &mut Jobs) -> Result<(), StartError> {
    jobs.take_hopeless().map_or(Ok(()), Err)
}
