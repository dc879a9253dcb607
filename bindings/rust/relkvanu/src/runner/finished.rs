//! Tasks that have ended before their job: the runner acknowledges for them, with the state that they had at their end.
use super::{in_term, locked, Barrier, Engine, RunFault, Runner};
use crate::fault::{Fault, Fenced};
use crate::job::Job;
use crate::lineage::Lineage;
use crate::store::{CallError, More};
use std::collections::BTreeMap;
use std::sync::atomic::Ordering::SeqCst;

/// The last state of a task.
pub(super) struct Finished {
    term: u64,
    payload: Vec<u8>,
    files: Vec<u64>,
    contents: Vec<Vec<u8>>, // of the files, since those of a record that fails are deleted
    lineage: Lineage<usize>,
    was_named: bool, // an acknowledgement had the files
}

impl<E: Engine<J>, J: Job> Runner<E, J> {
    /// The task has ended with this last state, its files fresh ones of the term: from the next barrier on the runner acknowledges for it. Call it under the lock
    /// under which barriers reach the task, so that it has acknowledged those before. A restart forgets it: a task that reads in its state that it has ended
    /// says so again. The runner keeps the files' contents in memory. `OldTerm` if the term has ended.
    pub fn finished(&self, term: u64, subtask: (u16, u16), files: &[u64], payload: &[u8]) -> Result<(), RunFault> {
        let get = |file: &u64| {
            self.patiently(|| self.files().get(*file)).map_err(|why| RunFault::Unreadable { file: *file, why })
        };
        let contents = files.iter().map(get).collect::<Result<_, _>>()?;
        let (files, payload) = (files.to_vec(), payload.to_vec());
        let it = Finished { term, payload, files, contents, lineage: Lineage::new(), was_named: false };
        let mut finished = locked(&self.finished);
        if term != self.term.load(SeqCst) {
            return Err(CallError::Fault(Fault::Fenced(Fenced::OldTerm)).into());
        }
        finished.insert(subtask, it);
        Ok(())
    }

    pub(super) fn ack_finished(&self, barrier: &Barrier) -> Result<(), RunFault> {
        let mut finished = std::mem::take(&mut *locked(&self.finished)); // an engine that is told of a checkpoint may say that more have
        let of_term = finished.iter_mut().filter(|(_, it)| it.term == barrier.term);
        let acked = of_term.map(|(subtask, task)| self.ack_last_state(barrier, *subtask, task));
        let told = acked.map(|told| match told {
            Err(CallError::Fault(Fault::Refused(_))) => Ok(()), // the record has ended, or the task has acknowledged it
            told => in_term(told.map_err(Into::into)),
        });
        let told = told.collect::<Result<(), _>>();
        let said = std::mem::replace(&mut *locked(&self.finished), finished);
        locked(&self.finished).extend(said);
        told
    }

    fn ack_last_state(&self, barrier: &Barrier, subtask: (u16, u16), task: &mut Finished) -> Result<(), CallError> {
        let more = More { payload: &task.payload, ..More::default() };
        let reused: Vec<u64> = task.lineage.reusable(barrier.base).values().copied().collect();
        let fresh = match (task.files.is_empty() || !reused.is_empty(), task.was_named) {
            (true, _) => Vec::new(),
            (false, false) => task.files.clone(),
            (false, true) => match self.put_anew(barrier.term, &task.contents)? {
                Ok(names) => names,
                Err(why) => return self.decline(barrier.term, barrier.id, subtask, &why).map(drop),
            },
        };
        let made = self.ack(barrier.term, barrier.id, subtask, &fresh, &reused, more);
        if made.is_ok() {
            task.was_named = true;
            let named: BTreeMap<usize, u64> = reused.into_iter().chain(fresh).enumerate().collect();
            task.lineage.acked(barrier.id, named);
        } else if task.was_named && !fresh.is_empty() {
            self.forfeit(barrier.term, &fresh)?;
        }
        made.map(drop)
    }

    /// Files with these contents under new names, or why not.
    fn put_anew(&self, term: u64, contents: &[Vec<u8>]) -> Result<Result<Vec<u64>, String>, CallError> {
        let names: Vec<u64> = self.reserve(term, contents.len() as u64)?.collect();
        let put = names.iter().zip(contents).try_for_each(|(name, contents)| self.files().put(*name, contents));
        match put {
            Ok(()) => Ok(Ok(names)),
            Err(why) => {
                self.forfeit(term, &names)?;
                Ok(Err(why.to_string().chars().take(60).collect()))
            }
        }
    }
}
