//! Deletion of a job: what is refused, and what the threads and the database forget.
use super::message::{Deletion, NotDeletable};
use super::round::Round;
use super::Writer;
use crate::log;
use crate::model::Mode;
use crate::store::GoneJob;
use tokio::sync::oneshot::Sender;

/// A request to delete a job.
pub struct Delete {
    pub job: String,
    /// Also if files of it are left: nobody deletes them then.
    pub abandon: bool,
    pub reply: Sender<Deletion>,
}

impl Writer {
    /// Looks at the deletions of a round once its calls are made. Those that may be made are committed with these; the others are answered after the commit.
    pub(super) fn consider(&mut self, round: &mut Round) {
        for delete in std::mem::take(&mut round.deletions) {
            match self.refusal(&delete, round) {
                Ok(gone) => {
                    round.group.gone.extend(gone);
                    round.deletions.push(delete);
                }
                Err(why) => round.undeleted.push((why, delete.reply)),
            }
        }
    }

    /// What is to be committed for a deletion, which is nothing if another one of this round is of the same job, or why it is not made.
    fn refusal(&mut self, delete: &Delete, round: &Round) -> Result<Option<GoneJob>, Deletion> {
        let Some(place) = self.jobs.place(&delete.job) else {
            return Err(Deletion::NoJob);
        };
        let job = self.jobs.at(place);
        let (number, files, mode) = (job.opening.number, job.engine().counts(), job.engine().mode());
        if mode == Mode::Running {
            return Err(Deletion::Refused(NotDeletable::Running));
        }
        if !delete.abandon && files.in_use + files.waiting + files.taken > 0 {
            return Err(Deletion::Refused(NotDeletable::Files(files)));
        }
        if round.group.jobs.iter().any(|job| job.number == number) {
            // one commit can't open and delete it
            return Err(Deletion::Busy);
        }
        let is_new = round.group.gone.iter().all(|gone| gone.job != number);
        Ok(is_new.then(|| GoneJob { job: number, name: delete.job.clone(), at: self.clock.now() }))
    }

    /// Answers the deletions of a round that was committed, with these jobs. What they leave in other tables is deleted in pieces.
    pub(super) fn delete(&mut self, deletions: Vec<Delete>, gone: &[GoneJob]) {
        for Delete { job, reply, .. } in deletions {
            let told = match self.jobs.place(&job) {
                None => Deletion::NoJob,
                Some(place) => self.forget(place, &job, gone),
            };
            let _ = reply.send(told);
        }
    }

    fn forget(&mut self, place: usize, name: &str, gone: &[GoneJob]) -> Deletion {
        let number = self.jobs.at(place).opening.number;
        if gone.iter().all(|gone| gone.job != number) {
            return Deletion::Busy;
        }
        self.jobs.delete(place);
        self.keeper.forget(place);
        self.timer.set(place, None);
        self.board.forget(name);
        self.metrics.forget(name);
        self.leftovers.add(number);
        log::info(&format!("job {name} number={number} is deleted"));
        Deletion::Done
    }
}
