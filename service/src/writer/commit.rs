//! Commits a round, and then answers its requests.
use super::message::{CallsDone, ForKeeping};
use super::round::{Done, Round, Untold};
use super::{state, Writer};
use crate::exit;
use crate::log;
use crate::store::{Failure, Group};
use std::time::{Duration, Instant};
use tokio::sync::oneshot::Sender;

/// For how long a group is tried again that the database certainly rolled back.
const RETRY_FOR: Duration = Duration::from_secs(10);
const RETRY_EACH: Duration = Duration::from_millis(200);
/// How many old records go at once, beside as many as came. So they go at least as fast as they come.
const OLD_RECORDS: u64 = 1000;

impl Writer {
    /// Commits a group, or ends the process: what it left uncommitted was never answered.
    pub(super) fn commit(&mut self, round: &mut Round) {
        if round.group.is_empty() && !self.lease.is_due(self.store.beat()) {
            return;
        }
        self.write(round);
    }

    fn write(&mut self, round: &mut Round) {
        let first = Instant::now();
        self.board.commit_begins();
        loop {
            match self.lease.commit(self.store.as_mut(), &round.group) {
                Ok(()) => break,
                // calls do not wait for an image that can't be written
                Err(Failure::Again(why) | Failure::TooLarge(why)) if round.upkeep.is_some() => {
                    self.keeper.put_off(&mut self.jobs, round, &self.metrics, &why.to_string());
                }
                Err(Failure::Again(why) | Failure::TooLarge(why)) if !round.group.gone.is_empty() => {
                    log::warn(&format!("jobs are not deleted: {why}"));
                    round.group.gone.clear();
                }
                Err(Failure::Again(why)) if first.elapsed() < RETRY_FOR => {
                    log::warn(&format!("commit is tried again: {why}"));
                    self.board.beat();
                    std::thread::sleep(RETRY_EACH);
                }
                Err(why) => lose(&why),
            }
        }
        self.board.commit_ended();
        self.board.set_lease(&self.lease);
        self.board.beat();
        self.keeper.written(round, &self.jobs, &self.metrics);
        if !round.group.entries.is_empty() {
            self.metrics.commit(round.group.entries.len(), first.elapsed());
        }
    }

    /// Renews the lease if it is old: a leader answers only while it surely leads.
    fn renew(&mut self) {
        if !self.lease.is_sure() {
            self.write(&mut Round::default());
        }
    }

    /// Sends the answers to what was committed. A client may have gone away.
    pub(super) fn answer(&mut self, round: Round) {
        // a refusal needs no commit, but only a leader may answer it
        if !round.done.is_empty() || !round.created.is_empty() || !round.undeleted.is_empty() {
            self.renew();
        }
        for place in &round.touched {
            self.jobs.at(*place).synced().unwrap_or_else(|why| lose(&why));
            self.publish(*place);
        }
        for (place, moment) in round.postponed {
            self.timer.set(place, Some(moment));
        }
        for Done { untold, reply } in round.done {
            let _ = reply.send(self.tell(untold));
        }
        for (created, reply) in round.created {
            let _ = reply.send(created);
        }
        for (why, reply) in round.undeleted {
            let _ = reply.send(why);
        }
        for read in round.reads {
            self.renew();
            state::read(&mut self.jobs, read, self.clock.now(), self.lent.as_ref().map(|lent| &lent.state));
        }
    }

    /// What is told of calls that are committed: the answers that the library tells, and no others.
    fn tell(&mut self, untold: Untold) -> CallsDone {
        let (place, calls, is_keyed) = match untold {
            Untold::Known(done) => return done,
            Untold::Held { place, calls, is_keyed } => (place, calls, is_keyed),
        };
        let job = self.jobs.at(place);
        let told = calls.into_iter().map(|held| job.tell(held)).collect::<Result<Vec<_>, _>>();
        let outcomes = told.unwrap_or_else(|why| lose(&why));
        if is_keyed {
            CallsDone::Known(self.board.answers(&outcomes))
        } else {
            CallsDone::Made(outcomes)
        }
    }

    /// Commits what the history gives, apart from calls, so that these neither wait for it nor fail with it.
    pub(super) fn keep(&mut self, given: Vec<(ForKeeping, Sender<bool>)>) {
        for (one, reply) in given {
            // a job may be deleted by now
            if !self.jobs.has(&one) || !self.keeper.can_tell() {
                let _ = reply.send(false);
                continue;
            }
            let old = self.old_records(&one);
            let (job, whole, group) = match one {
                ForKeeping::Summary(part) => {
                    let whole = (part.whole > 0).then_some(part.seq);
                    (self.jobs.place_of(part.job), whole, Group { summaries: vec![part], ..Group::default() })
                }
                ForKeeping::Past(past) => (None, None, Group { past, ..Group::default() }),
            };
            let is_written = match self.store.commit(&group) {
                // it may have renewed the lease: the next one does so too
                Ok(_) => true,
                Err(Failure::Again(why) | Failure::TooLarge(why)) => {
                    log::warn(&format!("a summary of the history was not written: {why}"));
                    false
                }
                Err(Failure::Lost(why)) => lose(&why),
            };
            if let (true, Some((job, upto, most))) = (is_written, old) {
                self.store
                    .forget_past(job, upto, most)
                    .unwrap_or_else(|why| log::warn(&format!("old records stay: {why}")));
            }
            if let (true, Some(place), Some(seq)) = (is_written, job, whole) {
                let job = self.jobs.at(place);
                let keeping = self.keeper.keeping(job);
                job.retention.add_summary(seq, keeping);
                self.keeper.called(&[place].into());
            }
            let _ = reply.send(is_written);
        }
    }
}

impl Writer {
    /// Which records of a job are old once these are kept: up to which number, and how many of them go at once.
    fn old_records(&self, given: &ForKeeping) -> Option<(i64, u64, u64)> {
        let ForKeeping::Past(past) = given else {
            return None;
        };
        let last = past.iter().max_by_key(|record| record.id)?;
        let upto = last.id.checked_sub(self.keeper.keep_records()).filter(|upto| *upto > 0)?;
        Some((last.job, upto, OLD_RECORDS + past.len() as u64))
    }
}

/// Ends the process: nothing of the group was answered, and the next start reads what was committed.
pub(super) fn lose(why: &dyn std::error::Error) -> ! {
    log::error(&format!("the group was not committed, or that is not known; nothing of it was answered: {why}"));
    exit::now(exit::START_AGAIN)
}
