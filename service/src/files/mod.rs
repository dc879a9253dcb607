//! Where a job's files are: a folder, or a bucket. A `Storage` is asked for what either can do. Whose place it is, and what may be deleted there, is
//! decided in `marked`, `others` and by who asks, once for both.
mod bucket;
mod folder;
mod job_storage;
mod marked;
mod names;
mod others;

pub use folder::Folder;
pub use job_storage::JobStorage;
pub use marked::{no_marker, Marked, Owner};
pub use names::FileNames;
pub use others::{check, check_own, forget, say, Need, BEGUN, MARK};

use bucket::Bucket;
use clap::{Args, ValueEnum};
use std::path::{Path, PathBuf};

/// Why the work ends.
#[derive(Debug, thiserror::Error)]
pub enum Stop {
    /// The storage does not do it now. Another try may go on.
    #[error("{0}")]
    Again(String),
    /// The service gave no answer to go on with.
    #[error("{0}")]
    Away(String),
    /// Another process works there.
    #[error("{0}")]
    Busy(String),
    /// Somebody has to look first.
    #[error("{1}")]
    Never(Refusal, String),
}

impl Stop {
    /// Its word in the metrics.
    pub fn word(&self) -> &'static str {
        match self {
            Stop::Again(_) => "storage",
            Stop::Away(_) => "service",
            Stop::Busy(_) => "busy",
            Stop::Never(refusal, _) => refusal.word(),
        }
    }
}

/// Why no file of a place is deleted before somebody looks.
#[derive(Clone, Copy, Debug, PartialEq, Eq, ValueEnum)]
pub enum Refusal {
    /// The place has no marker, or that of another job or opening.
    NoMarker,
    OtherMarker,
    /// Another job may have files of the same names, or this one had other names.
    Names,
    /// All files that were handed out together are absent.
    AllAbsent,
    /// The bucket keeps versions of what is deleted.
    KeepsVersions,
    /// Nobody has said where the files are.
    NoPlace,
}

impl Refusal {
    pub fn word(self) -> &'static str {
        match self {
            Refusal::NoMarker => "no_marker",
            Refusal::OtherMarker => "other_marker",
            Refusal::Names => "names",
            Refusal::AllAbsent => "all_absent",
            Refusal::KeepsVersions => "keeps_versions",
            Refusal::NoPlace => "no_storage",
        }
    }

    /// The one that has this word.
    pub fn of(word: &str) -> Option<Refusal> {
        Refusal::value_variants().iter().copied().find(|refusal| refusal.word() == word)
    }
}

/// Where the files of a job are.
#[derive(Args, Clone)]
pub struct Where {
    /// The folder of the files, which has a file .relkvanu-NAME of this job
    #[arg(long, value_name = "DIR", conflicts_with = "bucket")]
    pub folder: Option<PathBuf>,
    /// The bucket of the files, which has an object .relkvanu-NAME of this job beside them
    #[arg(long, value_name = "NAME")]
    pub bucket: Option<String>,
    /// Another S3 server than that of AWS
    #[arg(long, value_name = "URL", requires = "bucket")]
    pub endpoint: Option<String>,
    /// The region of the bucket
    #[arg(long, value_name = "NAME", requires = "bucket")]
    pub region: Option<String>,
    /// The bucket keeps versions, and its lifecycle rules delete old ones
    #[arg(long, requires = "bucket")]
    pub keeps_versions: bool,
}

impl Where {
    pub fn is_said(&self) -> bool {
        self.folder.is_some() || self.bucket.is_some()
    }

    /// The place with the names of the files there, if it is said; or why there can be no such place.
    pub fn storage(&self, names: &FileNames) -> Result<Option<JobStorage>, String> {
        if !self.is_said() {
            return Ok(None);
        }
        let folder = self.folder.as_deref().map(absolute).transpose()?;
        let storage = JobStorage {
            folder,
            bucket: self.bucket.clone(),
            prefix: names.prefix.clone(),
            suffix: names.suffix.clone(),
            endpoint: self.endpoint.clone(),
            region: self.region.clone(),
            keeps_versions: self.keeps_versions,
        };
        match storage.wrong() {
            Some((member, why)) => Err(format!("--{member}: {why}")),
            None => Ok(Some(storage)),
        }
    }
}

/// The path of a folder, from the root on.
fn absolute(folder: &Path) -> Result<String, String> {
    let shown = folder.display();
    let path = std::path::absolute(folder).map_err(|error| format!("--folder: {shown}: {error}"))?;
    path.into_os_string().into_string().map_err(|_| format!("--folder: {shown} is no text"))
}

/// What became of a file.
#[derive(Clone, Debug, PartialEq, Eq)]
pub enum Gone {
    Deleted,
    /// It was not there. A bucket does not tell that of one file among others.
    Absent,
    /// It may be there still.
    Failed(String),
}

/// A file of a listing.
pub struct Found {
    pub name: String,
    /// `None` if the listing does not have it.
    pub bytes: Option<u64>,
}

/// A folder or a bucket with files. Names are those in it, without a path. It stays the same one until it is dropped, also if another disk is
/// mounted or renamed to its path.
pub trait Storage: Send {
    /// What a person calls it.
    fn title(&self) -> String;

    /// What a person calls a file in it.
    fn title_of(&self, name: &str) -> String;

    fn is_bucket(&self) -> bool;

    /// All names that begin so.
    fn beginning(&self, with: &str) -> Result<Vec<String>, Stop>;

    /// A small file; `None` if there is none, or it can't be read.
    fn read(&self, name: &str) -> Result<Option<String>, Stop>;

    /// Makes or replaces a small file, whole or not at all, and durable.
    fn write(&self, name: &str, text: &str) -> Result<(), Stop>;

    /// The same of one that may be cut short by an end of the process.
    fn note(&self, name: &str, text: &str) -> Result<(), Stop>;

    fn remove(&self, name: &str) -> Result<(), Stop>;

    /// What the marker says; `None` if there is none. From here on it is this one that is locked, and that has to stay.
    fn hold(&mut self, marker: &str) -> Result<Option<String>, Stop>;

    /// Keeps other cleaners out by the marker that is held; `false` if another one works here.
    fn lock(&self) -> Result<bool, Stop>;

    /// Whether the marker that is held is still there.
    fn is_marked(&self) -> Result<bool, Stop>;

    /// Whether one of these files is there, or it is not known.
    fn has_any(&self, names: &[String]) -> Result<bool, Stop>;

    /// How many bytes a file has; `None` if it is not there, or the listing alone tells.
    fn bytes(&self, name: &str) -> Option<u64>;

    /// Deletes files permanently: no loss of power brings one back that counts as deleted.
    fn delete(&self, names: &[String]) -> Result<Vec<Gone>, Stop>;

    /// Begins a listing of the files whose names begin so.
    fn pages<'a>(&'a self, prefix: &'a str) -> Result<Box<dyn Pages + 'a>, Stop>;
}

/// A listing, in parts.
pub trait Pages {
    /// At most so many more files; none at the end.
    fn next(&mut self, most: usize) -> Result<Vec<Found>, Stop>;
}
