//! States of tasks, of any size: a payload, or a file of the storage. And what was on the way to them.
use super::{locked, Ack, Barrier, Engine, Record, RunFault, Runner, SECOND};
use crate::fault::Fault;
use crate::job::Job;
use crate::storage::StorageError;
use crate::store::{CallError, Made, More, StoreError, StoreErrorKind};
use crate::unaligned::{check, elements_in, file_of};
use std::borrow::Cow;
use std::collections::BTreeSet;
use std::ops::ControlFlow;
use std::thread;
use std::time::Instant;

/// Bytes that travel with an acknowledgement.
const MOST_PAYLOAD: usize = 4096;

impl<E: Engine<J>, J: Job> Runner<E, J> {
    /// [`ack`](Self::ack) of a task with this barrier whose whole state this is: a payload, or if it is longer than that may be, one new file. `None`: the file could
    /// not be put, so its name is given up, and the task has declined with the reason.
    pub fn ack_state(&self, barrier: &Barrier, subtask: (u16, u16), state: &[u8]) -> Result<Option<Made>, CallError> {
        if state.len() <= MOST_PAYLOAD {
            return self.ack_payload(barrier, subtask, state).map(Some);
        }
        let more = More { bytes: state.len() as u64, ..More::default() };
        self.ack_with_file(Ack { barrier: *barrier, subtask, fresh: &[], reused: &[], more }, |_| state.into())
    }

    /// [`ack`](Self::ack) at a [`Taken::Recorded`](crate::unaligned::Taken::Recorded), with its elements as the engine writes them, empty if there are none: they
    /// are in one more fresh file. `None` as of [`ack_state`](Self::ack_state).
    pub fn ack_recorded(&self, ack: Ack<'_>, elements: &[u8]) -> Result<Option<Made>, CallError> {
        if elements.is_empty() {
            return self.ack(ack.barrier.term, ack.barrier.id, ack.subtask, ack.fresh, ack.reused, ack.more).map(Some);
        }
        self.ack_with_file(ack, |name| file_of(name, elements).into())
    }

    /// Puts one more fresh file, which may have its name in it, and acknowledges.
    fn ack_with_file<'a>(
        &self,
        ack: Ack<'_>,
        contents: impl FnOnce(u64) -> Cow<'a, [u8]>,
    ) -> Result<Option<Made>, CallError> {
        let (term, id, subtask) = (ack.barrier.term, ack.barrier.id, ack.subtask);
        let name = self.reserve(term, 1)?.start;
        if let Err(why) = self.files().put(name, &contents(name)) {
            self.forfeit(term, &[name])?;
            let reason: String = why.to_string().chars().take(60).collect();
            return self.decline(term, id, subtask, &reason).map(|_| None);
        }
        let acked = self.ack(term, id, subtask, &[ack.fresh, &[name]].concat(), ack.reused, ack.more);
        if matches!(acked, Err(CallError::Fault(Fault::Refused(_)))) {
            self.forfeit(term, &[name])?;
        }
        acked.map(Some)
    }

    /// What [`ack_state`](Self::ack_state) has kept. `None`: the record has no such subtask, as after a restore in another shape.
    pub fn state(&self, record: &Record, subtask: (u16, u16)) -> Result<Option<Vec<u8>>, RunFault> {
        let Some(part) = record.part(subtask.0, subtask.1) else { return Ok(None) };
        let state = self.found(record, &part.files, |file, contents| elements_in(file, contents).is_none())?;
        Ok(Some(state.map_or_else(|| part.payload.clone(), |(_, contents)| contents)))
    }

    /// What [`ack_recorded`](Self::ack_recorded) has kept: what was on the way to this subtask. Its [`UnalignedInputs`](crate::unaligned::UnalignedInputs)
    /// give it before all else.
    pub fn recorded(&self, record: &Record, subtask: (u16, u16)) -> Result<Vec<u8>, RunFault> {
        let files = record.part(subtask.0, subtask.1).map_or(&[][..], |it| &it.files);
        let found = self.found(record, files, |file, contents| elements_in(file, contents).is_some())?;
        let elements = found.as_ref().and_then(|(file, contents)| elements_in(*file, contents));
        Ok(elements.unwrap_or_default().to_vec())
    }

    /// The first of these files of a record with such contents.
    fn found(
        &self,
        record: &Record,
        files: &[u64],
        is_it: impl Fn(u64, &[u8]) -> bool,
    ) -> Result<Option<(u64, Vec<u8>)>, RunFault> {
        for &file in files {
            let contents = self.patiently(|| self.files().get(file)).map_err(|why| match why {
                StorageError::Absent => lost(record, file).into(),
                why => RunFault::Unreadable { file, why },
            })?;
            if is_it(file, &contents) {
                return Ok(Some((file, contents)));
            }
        }
        Ok(None)
    }

    /// The job has the record's shape, or nothing was on the way in it.
    pub(super) fn check_shape(&self, record: &Record) -> Result<(), RunFault> {
        if record.parts.iter().all(|it| it.files.is_empty()) || self.job.settings_and_shape()?.1 == record.shape {
            return Ok(());
        }
        for part in &record.parts {
            let has_elements =
                self.found(record, &part.files, |file, contents| elements_in(file, contents).is_some())?;
            let has_elements = has_elements.iter().map(|(file, contents)| (*file, &contents[..]));
            check(record.id, false, has_elements).map_err(RunFault::NotRescalable)?;
        }
        Ok(())
    }

    /// Asks a storage again until it answers, or the patience ends.
    pub(super) fn patiently<T>(&self, ask: impl Fn() -> Result<T, StorageError>) -> Result<T, StorageError> {
        let began = Instant::now();
        loop {
            match ask() {
                Err(StorageError::Failed(_) | StorageError::NoMemory) if began.elapsed() < self.options.patience => {
                    thread::sleep(SECOND.min(self.options.patience));
                }
                told => return told,
            }
        }
    }

    /// The record from which the job begins, all of whose files are there.
    pub(super) fn load(&self) -> Result<Option<Record>, RunFault> {
        let record = super::with_memory(|| Ok(self.job.load(None)?))?;
        let (Some(found), Some(files)) = (&record, self.options.files.as_deref()) else { return Ok(record) };
        let wanted = || found.parts.iter().flat_map(|it| it.files.iter().copied()).collect::<BTreeSet<u64>>();
        let missing = self.patiently(|| {
            let mut missing = wanted();
            files.check()?;
            if !missing.is_empty() {
                let _ = files.pages(0, &mut |page| {
                    for it in page {
                        missing.remove(&it.file);
                    }
                    missing.first().map_or(ControlFlow::Break(()), |_| ControlFlow::Continue(()))
                })?;
            }
            Ok(missing)
        });
        match missing.map_err(RunFault::Files)?.first() {
            Some(&file) => Err(lost(found, file).into()),
            None => Ok(record),
        }
    }

    /// Ends the run if the job has failed for too long.
    pub(super) fn look_at_progress(&self) -> Result<(), RunFault> {
        if locked(&self.fails_since).get_or_insert_with(Instant::now).elapsed() <= self.options.patience {
            return Ok(());
        }
        let Some((id, acked)) = locked(&self.missed).clone() else { return Ok(()) };
        let (_, shape) = self.job.settings_and_shape()?;
        let subtasks = (0..).zip(shape).flat_map(|(vertex, count)| (0..count as u16).map(move |index| (vertex, index)));
        Err(RunFault::Stuck { id, missing: subtasks.filter(|it| !acked.contains(it)).collect() })
    }
}

fn lost(record: &Record, file: u64) -> StoreError {
    let message = format!("file {file} of record {} is not in the storage", record.id);
    StoreError { kind: StoreErrorKind::FileLost, message }
}
