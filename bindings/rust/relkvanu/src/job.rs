//! What a runner asks of the coordinator of a job: a [`Store`], or a job of the service (`relkvanu_client::ServiceJob`).
use crate::answer::{Answer, Choice, FileCounts, Garbage, Mode};
use crate::call::Call;
use crate::coordinator::Settings;
use crate::fault::Fault;
use crate::storage::Storage;
use crate::store::{Awaited, CallError, JobPhase, Made, More, Past, Phase, Step, Store, StoreError, Whole, NOW};
use std::num::NonZeroU64;
use std::ops::Range;

/// What a runner does first.
#[derive(Clone, Copy, Debug, PartialEq, Eq)]
pub enum Opening {
    /// It starts tasks in this term: the job is new.
    Starts(u64),
    Restores,
    /// Somebody has begun the job since, and [`Job::await_next`] hands that over.
    Begun,
    Stopped,
    Cancelled,
}

/// The coordinator of a job. Threads share it. Its functions are those of [`Store`], with their answers and errors. Of a service that is not reached for the
/// client's patience the error is `NotDone`, and `Storage` once another process has begun the job, or a backup of the service was restored.
pub trait Job: Send + Sync + 'static {
    /// 32 hexadecimal digits, which no other job has.
    fn identity(&self) -> String;

    fn opening(&self) -> Result<Opening, CallError>;

    fn phase(&self) -> Result<JobPhase, StoreError>;

    fn mode(&self) -> Result<Mode, StoreError>;

    fn choice(&self) -> Result<Choice, StoreError>;

    fn file_counts(&self) -> Result<FileCounts, StoreError>;

    fn settings_and_shape(&self) -> Result<(Settings, Vec<u64>), StoreError>;

    /// The term that runs. A task never asks.
    fn term(&self) -> Result<u64, CallError>;

    fn calls_with(&self, calls: &[(Call<'_>, More<'_>)]) -> Result<Vec<Result<Made, Fault>>, StoreError>;

    fn trigger(&self) -> Result<Made, CallError>;

    fn configure(&self, settings: &Settings) -> Result<Made, CallError>;

    fn stop_job(&self) -> Result<Made, CallError>;

    fn begin_job(&self) -> Result<Made, CallError>;

    fn go_back(&self, id: u64, accept_published: bool) -> Result<Made, CallError>;

    fn load(&self, id: Option<NonZeroU64>) -> Result<Option<Whole>, StoreError>;

    fn history(&self, most: usize) -> Result<Vec<Past>, StoreError>;

    fn garbage(&self, files: &[u64]) -> Result<Garbage, CallError>;

    /// Barriers come in rising numbers.
    fn await_next(&self, longest: u64) -> Result<Awaited, CallError>;

    /// Whether [`await_next`](Self::await_next) hands over savepoints that [`Call::Savepoint`] has triggered, and restores that [`Call::Restore`] has made.
    fn hands_over_savepoints(&self) -> bool {
        false
    }

    /// The storage that it looks after itself.
    fn own_files(&self) -> Option<&dyn Storage> {
        None
    }

    /// Deletes garbage: in its own storage, or in this one.
    fn sweep(&self, files: Option<&dyn Storage>) -> Result<(), CallError>;

    /// Deletes what is released until [`stop`](Self::stop).
    fn discard(&self, files: Option<&dyn Storage>) -> Result<(), CallError>;

    /// Lets [`await_next`](Self::await_next) and [`discard`](Self::discard) end, now and later.
    fn stop(&self);

    fn call_with(&self, call: Call<'_>, more: More<'_>) -> Result<Made, CallError> {
        let mut outcomes = self.calls_with(&[(call, more)])?;
        outcomes.pop().unwrap_or(Err(Fault::Memory)).map_err(CallError::Fault)
    }

    fn call(&self, call: Call<'_>) -> Result<Made, CallError> {
        self.call_with(call, More::default())
    }

    fn reserve(&self, term: u64, count: u64) -> Result<Range<u64>, CallError> {
        match self.call(Call::Reserve { term, count })?.called() {
            Some(Answer::Reserved(first)) => Ok(first..first + count),
            other => unreachable!("a reservation is answered {other:?}"),
        }
    }

    fn forfeit(&self, term: u64, names: &[u64]) -> Result<(), CallError> {
        self.call(Call::Forfeit { term, names }).map(drop)
    }

    /// A restore by the runner, which begins the job from it. It hears of a restore by anybody else.
    fn restore(&self, savepoint: Option<NonZeroU64>, shape: Option<&[u64]>) -> Result<Made, CallError> {
        self.call(Call::Restore { now: NOW, savepoint, shape })
    }

    fn cancel(&self) -> Result<Made, CallError> {
        self.call(Call::Cancel { now: NOW })
    }
}

/// The functions of [`Store`] with these names.
macro_rules! of_store {
    ($($name:ident($($word:ident: $what:ty),*) -> $told:ty;)*) => {
        $(fn $name(&self, $($word: $what),*) -> $told {
            Store::$name(self, $($word),*)
        })*
    };
}

impl Job for Store {
    fn identity(&self) -> String {
        let [high, low] = self.report().job;
        format!("{high:016x}{low:016x}")
    }

    fn opening(&self) -> Result<Opening, CallError> {
        let report = self.report();
        let has = |step| report.steps.contains(&step);
        Ok(match report.phase.phase {
            _ if self.phase()?.phase == Phase::Stopped => Opening::Stopped,
            Phase::Stopped => Opening::Begun,
            _ if !has(Step::StartTasks) => Opening::Cancelled,
            _ if has(Step::Restore) => Opening::Restores,
            _ => Opening::Starts(report.names.term),
        })
    }

    of_store! {
        phase() -> Result<JobPhase, StoreError>;
        calls_with(calls: &[(Call<'_>, More<'_>)]) -> Result<Vec<Result<Made, Fault>>, StoreError>;
        trigger() -> Result<Made, CallError>;
        configure(settings: &Settings) -> Result<Made, CallError>;
        stop_job() -> Result<Made, CallError>;
        begin_job() -> Result<Made, CallError>;
        go_back(id: u64, accept_published: bool) -> Result<Made, CallError>;
        load(id: Option<NonZeroU64>) -> Result<Option<Whole>, StoreError>;
        history(most: usize) -> Result<Vec<Past>, StoreError>;
        garbage(files: &[u64]) -> Result<Garbage, CallError>;
        await_next(longest: u64) -> Result<Awaited, CallError>;
        forfeit(term: u64, names: &[u64]) -> Result<(), CallError>; // more of them at once
        stop() -> ();
    }

    fn mode(&self) -> Result<Mode, StoreError> {
        self.read(|job| job.mode())
    }

    fn choice(&self) -> Result<Choice, StoreError> {
        self.read(|job| job.choice())
    }

    fn file_counts(&self) -> Result<FileCounts, StoreError> {
        self.read(|job| job.file_counts())
    }

    fn settings_and_shape(&self) -> Result<(Settings, Vec<u64>), StoreError> {
        self.job()
    }

    fn term(&self) -> Result<u64, CallError> {
        Store::term(self).map(|it| it.term)
    }

    fn own_files(&self) -> Option<&dyn Storage> {
        self.folder().map(|_| self as &dyn Storage)
    }

    fn sweep(&self, files: Option<&dyn Storage>) -> Result<(), CallError> {
        Ok(files.map_or_else(|| Store::sweep(self), |it| self.sweep_storage(it)).map(drop)?)
    }

    fn discard(&self, files: Option<&dyn Storage>) -> Result<(), CallError> {
        Ok(files.map_or_else(|| self.discard_files(0), |it| self.discard_storage(0, it))?)
    }
}
