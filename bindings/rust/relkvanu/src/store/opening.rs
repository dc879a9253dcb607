//! How a store is opened, and what an opening finds.
use crate::answer::{Choice, Mode, RunningTerm};
use crate::coordinator::Settings;
use crate::store::phase::JobPhase;
use relkvanu_sys as sys;
use std::path::PathBuf;

/// What an engine has to do after an opening, in the order of the report.
#[derive(Clone, Copy, Debug, PartialEq, Eq, Hash)]
pub enum Step {
    /// Tell the earlier tasks to end, and wait for none.
    EndTasks,
    /// Make a restore: its answer says where the job begins again.
    Restore,
    /// Call [`Store::sweep`](super::Store::sweep), or delete the files of the storage that are [`Store::garbage`](super::Store::garbage).
    Sweep,
    /// Start tasks, a timer and a discarder. The term of the tasks is [`Made::term`](super::Made::term) of the restore, or that of the report
    /// if the job is new.
    StartTasks,
    /// Start a discarder alone: the job is cancelled, or stopped.
    Discard,
}

/// How a store is opened. The default recovers a job, and makes none.
#[derive(Clone, Debug)]
pub struct Options {
    /// Of a new job. A recovered one keeps its own.
    pub settings: Settings,
    pub shape: Vec<u64>,
    /// The folder of the state files, which has to exist. Without it the engine looks after it.
    pub storage: Option<PathBuf>,
    pub create: bool,
    pub only_create: bool,
    pub adopt: bool,
    pub earlier_image: bool,
    /// It is a backup, which is opened so once: see [`Store::backup`](super::Store::backup). Makes no job.
    pub backup: bool,
    /// The folder of the storage gets a manifest of each complete record, of which the command `relkvanu recover` makes the job again if
    /// its file is lost.
    pub manifests: bool,
    /// With `manifests`: these have a checksum of each file, for which the store reads it once.
    pub checksums: bool,
    /// Milliseconds for which a commit is tried again.
    pub patience: u32,
    /// An image after so many calls; `None`: no images.
    pub image_calls: Option<u64>,
    /// 0: a day.
    pub most_ahead: u64,
}

impl Options {
    pub fn new(settings: Settings, shape: &[u64]) -> Options {
        Options {
            settings,
            shape: shape.to_vec(),
            storage: None,
            create: false,
            only_create: false,
            adopt: false,
            earlier_image: false,
            backup: false,
            manifests: false,
            checksums: false,
            patience: 0,
            image_calls: Some(10_000),
            most_ahead: 0,
        }
    }

    pub(super) fn flags(&self) -> u32 {
        let flag = |is_set, flag| if is_set { flag } else { 0 };
        flag(self.create, sys::store::RELKVANU_STORE_CREATE)
            | flag(self.only_create, sys::store::RELKVANU_STORE_CREATE_ONLY)
            | flag(self.adopt, sys::store::RELKVANU_STORE_ADOPT)
            | flag(self.earlier_image, sys::store::RELKVANU_STORE_EARLIER_IMAGE)
            | flag(self.backup, sys::store::RELKVANU_STORE_BACKUP)
            | flag(self.manifests, sys::store::RELKVANU_STORE_MANIFESTS)
            | flag(self.checksums, sys::store::RELKVANU_STORE_CHECKSUMS)
    }
}

/// What an opening found.
#[derive(Clone, Debug, PartialEq, Eq)]
pub struct Report {
    pub is_recovered: bool,
    pub settings_differ: bool,
    pub steps: Vec<Step>,
    pub epoch: u64,
    pub job: [u64; 2],
    pub image_place: u64,
    pub replayed: u64,
    pub taken: u64,
    pub moment: u64,
    pub mode: Mode,
    pub choice: Choice,
    /// The term that runs, and the next name.
    pub names: RunningTerm,
    /// Without its term, which `names` has.
    pub phase: JobPhase,
}

pub(super) fn step(number: &u32) -> Step {
    match *number {
        sys::store::RELKVANU_STORE_END_TASKS => Step::EndTasks,
        sys::store::RELKVANU_STORE_RESTORE => Step::Restore,
        sys::store::RELKVANU_STORE_SWEEP => Step::Sweep,
        sys::store::RELKVANU_STORE_START_TASKS => Step::StartTasks,
        sys::store::RELKVANU_STORE_DISCARD => Step::Discard,
        other => unreachable!("step {other}"),
    }
}
