//! The command line of the commands that ask a service.
use super::words::SOCKET;
use super::{job_name, LOCAL};
use crate::files::{FileNames, Where};
use clap::{ArgGroup, Args, Subcommand};
use serde_json::Value;
use std::path::PathBuf;

/// Commands that ask a service.
#[derive(Subcommand)]
pub enum Ask {
    /// List the jobs of a service
    #[command(after_help = "Example:\n  relkvanu jobs --json")]
    Jobs(At),
    /// Show the state of a job, or one of its records
    #[command(after_help = "Example:\n  relkvanu show orders 12")]
    Show(Show),
    /// List the records of a job that ended last: how long each took, its bytes, and why it failed
    #[command(after_help = "Example:\n  relkvanu history orders --last 20")]
    History(History),
    /// Print the calls that the log of a job has, each with its answer
    #[command(after_help = "Example:\n  relkvanu log orders --after 4000 --most 20")]
    Log(Log),
    /// List files that were taken and not reported, and those deleted last; or show one file
    #[command(after_help = "Why a file was deleted:\n  relkvanu files orders 31")]
    Files(Files),
    /// List the records that a restore may begin from, and how many of their files a folder or a bucket lacks
    #[command(
        after_help = "Example:\n  relkvanu savepoints orders --folder /srv/orders --prefix state- --suffix .bin"
    )]
    Savepoints(Savepoints),
    /// Trigger a savepoint
    #[command(after_help = "Example:\n  relkvanu savepoint orders --wait 600")]
    Savepoint(Awaited),
    /// Trigger a checkpoint now, whatever the interval
    #[command(after_help = "Example:\n  relkvanu checkpoint orders --wait 600")]
    Checkpoint(Checkpoint),
    /// Change settings of a job while it runs, or say where its files are, for the cleaner
    #[command(
        after_help = "A longer interval, and three checkpoints to go back to:\n  relkvanu set orders interval=30000 retained=3\n\nWhere its files are:\n  relkvanu set orders --folder /srv/orders --prefix state- --suffix .bin"
    )]
    Set(Set),
    /// Stop a job with a savepoint, until it begins again
    #[command(after_help = "Example:\n  relkvanu stop orders --wait 600")]
    Stop(Stop),
    /// Begin a job again that has stopped
    #[command(after_help = "Example:\n  relkvanu begin orders")]
    Begin(OfJob),
    /// Dispose of a savepoint
    #[command(after_help = "Example:\n  relkvanu dispose orders 12")]
    Dispose(Dispose),
    /// Begin a job again from its latest record, or from a savepoint
    #[command(
        after_help = "Another parallelism:\n  relkvanu restore orders --shape 1,3\n\nAfter `put-back` of the service's database:\n  relkvanu restore orders --from-backup --folder /srv/orders --prefix state- --suffix .bin"
    )]
    Restore(Restore),
    /// Show the term that runs, for whoever starts the tasks of a job
    #[command(after_help = "Example:\n  relkvanu term orders --json")]
    Term(OfJob),
    /// Let a job go on from a restored backup, above the terms and names that it lost
    #[command(after_help = "Example:\n  relkvanu advance orders")]
    Advance(Advance),
    /// Cancel a job permanently: its checkpoints are dropped, unless it has `keep_on_cancel`
    #[command(after_help = "Example:\n  relkvanu cancel orders")]
    Cancel(OfJob),
    /// Delete a job that was cancelled or has failed, with its log and its history
    #[command(after_help = "Example:\n  relkvanu delete orders")]
    Delete(Delete),
    /// End a job for good, with all its files: cancel it, delete what it has in a folder, and delete the job
    #[command(after_help = "Example:\n  relkvanu end orders --folder /srv/orders --prefix state- --suffix .bin")]
    End(End),
}

/// Where the service is, and how the answer is printed.
#[derive(Args, Clone)]
pub struct At {
    /// The service; given again, its next address
    #[arg(long = "url", value_name = "URL", env = "RELKVANU_URL", value_delimiter = ' ', default_value = LOCAL)]
    pub urls: Vec<String>,
    /// A file whose first line is a token
    #[arg(long, value_name = "FILE", env = "RELKVANU_TOKEN_FILE")]
    pub token_file: Option<PathBuf>,
    /// For how long a request that is not answered is made again
    #[arg(long, value_name = "SECONDS", default_value_t = 10)]
    pub within: u64,
    /// Print JSON for programs
    #[arg(long)]
    pub json: bool,
}

impl At {
    /// Whether a running job of the durable coordinator is asked.
    pub fn is_socket(&self) -> bool {
        self.urls.iter().any(|url| url.starts_with(SOCKET))
    }
}

// (no comment of the documentation: it would be the help of the commands that have no other words, as that of `Awaited` would be of both)
#[derive(Args)]
pub struct OfJob {
    /// The job
    #[arg(value_parser = job_name)]
    pub job: String,
    #[command(flatten)]
    pub at: At,
}

#[derive(Args)]
pub struct Show {
    #[command(flatten)]
    pub of: OfJob,
    /// The number of a record
    pub id: Option<u64>,
}

#[derive(Args)]
pub struct History {
    /// So many records
    #[arg(long, value_name = "RECORDS", default_value_t = 20, value_parser = clap::value_parser!(u64).range(1..=1000))]
    pub last: u64,
    #[command(flatten)]
    pub of: OfJob,
}

#[derive(Args)]
pub struct Log {
    /// Only calls after this one
    #[arg(long, value_name = "SEQ", default_value_t = 0)]
    pub after: u64,
    /// At most so many calls
    #[arg(long, value_name = "CALLS")]
    pub most: Option<u64>,
    /// With the terms in the lines, as `ckpt_log` reads them; the token has to be a write token
    #[arg(long)]
    pub terms: bool,
    #[command(flatten)]
    pub of: OfJob,
}

#[derive(Args)]
pub struct Files {
    /// The number of a file
    #[arg(index = 2)]
    pub file: Option<u64>,
    /// At most so many files of each list
    #[arg(long, value_name = "FILES", default_value_t = 100, value_parser = clap::value_parser!(u64).range(1..=1000))]
    pub most: u64,
    #[command(flatten)]
    pub of: OfJob,
}

#[derive(Args)]
pub struct Savepoints {
    #[command(flatten)]
    pub place: Where,
    #[command(flatten)]
    pub names: FileNames,
    #[command(flatten)]
    pub of: OfJob,
}

#[derive(Args)]
pub struct Awaited {
    /// Wait so long until it is complete
    #[arg(long, value_name = "SECONDS", num_args = 0..=1, default_value_t = 0, default_missing_value = "600")]
    pub wait: u64,
    #[command(flatten)]
    pub of: OfJob,
}

#[derive(Args)]
pub struct Checkpoint {
    /// All state is written anew, none is shared with earlier checkpoints: the cure of a damaged shared file
    #[arg(long)]
    pub full: bool,
    #[command(flatten)]
    pub awaited: Awaited,
}

#[derive(Args)]
#[command(group(ArgGroup::new("where").args(["folder", "bucket"])))]
pub struct Set {
    /// A setting and its new value, as interval=30000
    #[arg(index = 2, value_name = "SETTING=VALUE", required_unless_present = "where", conflicts_with = "where", value_parser = setting)]
    pub settings: Vec<(String, Value)>,
    #[command(flatten)]
    pub place: Where,
    #[command(flatten)]
    pub names: FileNames,
    #[command(flatten)]
    pub of: OfJob,
}

/// A setting and its value. Which there are, and their limits, says the service.
fn setting(text: &str) -> Result<(String, Value), String> {
    let (name, value) = text.split_once('=').ok_or("is not as interval=30000")?;
    let value = serde_json::from_str(value)
        .map_err(|_| format!("{name}: {value:?} is no number, and neither true nor false"))?;
    Ok((name.to_string(), value))
}

#[derive(Args)]
pub struct Stop {
    /// Wait so long until it has stopped
    #[arg(long, value_name = "SECONDS", num_args = 0..=1, default_value_t = 0, default_missing_value = "600")]
    pub wait: u64,
    #[command(flatten)]
    pub of: OfJob,
}

#[derive(Args)]
pub struct Dispose {
    #[command(flatten)]
    pub of: OfJob,
    /// The savepoint
    pub id: u64,
}

#[derive(Args)]
#[command(group(ArgGroup::new("where").args(["folder", "bucket"])))]
pub struct Restore {
    /// A savepoint [default: the latest record]
    #[arg(long, value_name = "ID")]
    pub savepoint: Option<u64>,
    /// An older checkpoint that is retained, by a savepoint that the service makes of its files
    #[arg(long, value_name = "ID", conflicts_with = "savepoint", requires = "accept_published")]
    pub checkpoint: Option<u64>,
    /// Accept that what sinks published for records after the checkpoint is not taken back
    #[arg(long, requires = "checkpoint")]
    pub accept_published: bool,
    /// A backup was put back: go on above all that the job lost, from its last record that has all its files in the folder or the bucket
    #[arg(long, conflicts_with_all = ["savepoint", "checkpoint"], requires = "where")]
    pub from_backup: bool,
    /// Look at no files: they are where this machine does not reach, and somebody has looked that those of the record are whole
    #[arg(long, conflicts_with_all = ["where", "from_backup"])]
    pub without_look: bool,
    /// A new shape: the parallelism of each vertex
    #[arg(long, value_name = "N,N..", value_delimiter = ',')]
    pub shape: Option<Vec<u64>>,
    #[command(flatten)]
    pub place: Where,
    #[command(flatten)]
    pub names: FileNames,
    #[command(flatten)]
    pub of: OfJob,
}

#[derive(Args)]
pub struct Advance {
    /// The greatest term that was told [default: 2^32 above that of the job]
    #[arg(long, value_name = "TERM")]
    pub term: Option<u64>,
    /// The first name, above each that was given out [default: 2^40 above the next one of the job]
    #[arg(long, value_name = "NAME")]
    pub name: Option<u64>,
    #[command(flatten)]
    pub of: OfJob,
}

#[derive(Args)]
pub struct Delete {
    /// Delete the job even if files of it are left; nothing deletes these afterwards
    #[arg(long)]
    pub abandon: bool,
    #[command(flatten)]
    pub of: OfJob,
}

#[derive(Args)]
pub struct End {
    /// The job, which gives out names and whose engine has ended
    #[arg(value_parser = job_name)]
    pub job: String,
    /// The folder of the job's files
    #[arg(long, value_name = "DIR")]
    pub folder: PathBuf,
    #[command(flatten)]
    pub names: FileNames,
    #[command(flatten)]
    pub at: At,
}

impl Ask {
    /// The command, if it is for a service alone.
    pub fn of_service(&self) -> Option<&'static str> {
        match self {
            Ask::Log(_) => Some("log"),
            Ask::Term(_) => Some("term"),
            Ask::Advance(_) => Some("advance"),
            Ask::Delete(_) => Some("delete"),
            Ask::End(_) => Some("end"),
            Ask::Restore(given) if given.from_backup => Some("restore --from-backup"),
            Ask::Set(given) if given.place.is_said() => Some("set --folder"),
            _ => None,
        }
    }

    /// Where is asked, and the job, in whose place comes that of a socket.
    pub fn parts(&mut self) -> (&mut At, Option<&mut String>) {
        let of = match self {
            Ask::Jobs(at) => return (at, None),
            Ask::End(given) => return (&mut given.at, Some(&mut given.job)),
            Ask::Show(given) => &mut given.of,
            Ask::History(given) => &mut given.of,
            Ask::Log(given) => &mut given.of,
            Ask::Files(given) => &mut given.of,
            Ask::Set(given) => &mut given.of,
            Ask::Savepoints(given) => &mut given.of,
            Ask::Savepoint(given) => &mut given.of,
            Ask::Checkpoint(given) => &mut given.awaited.of,
            Ask::Stop(given) => &mut given.of,
            Ask::Begin(of) | Ask::Term(of) | Ask::Cancel(of) => of,
            Ask::Dispose(given) => &mut given.of,
            Ask::Restore(given) => &mut given.of,
            Ask::Advance(given) => &mut given.of,
            Ask::Delete(given) => &mut given.of,
        };
        (&mut of.at, Some(&mut of.job))
    }
}

#[cfg(test)]
mod tests {
    use super::*;

    #[test]
    fn a_setting_has_a_name_and_a_value() {
        let told = |text: &str| setting(text).map(|(name, value)| format!("{name} {value}"));
        assert_eq!(told("interval=30000").as_deref(), Ok("interval 30000"));
        assert_eq!(told("keep_on_cancel=true").as_deref(), Ok("keep_on_cancel true"));
        for text in ["interval", "interval=", "interval=30s"] {
            assert!(told(text).is_err(), "{text}");
        }
    }
}
