//! `relkvanu clean`: deletes what no checkpoint of a service's jobs needs any more, wherever each job says that its files are: the files that jobs hand
//! out, and the garbage, which has a name that a job gave out and that nobody will ever use.
mod deletions;
mod discard;
mod inside;
mod jobs;
mod metrics;
mod schedule;
mod slots;
mod sweep;

pub use inside::Inside;

use crate::cli::{job_name, LOCAL};
use crate::exit;
use crate::files::{FileNames, JobStorage, Stop, Where};
use crate::log;
use crate::metrics_server;
use crate::process;
use crate::remote::{self, NoService};
use clap::{ArgGroup, Args, ValueEnum};
use metrics::Metrics;
use relkvanu_client::Service;
use schedule::Schedule;
use std::net::SocketAddr;
use std::path::PathBuf;
use std::sync::Arc;
use std::time::Duration;

/// The exit status if there are files whose names were never given out.
const UNISSUED: u8 = 3;
/// Threads beside those of the work: names of machines are looked up there.
const OTHER_THREADS: usize = 4;

#[derive(Args)]
#[command(group(ArgGroup::new("where").args(["folder", "bucket"]).requires("job")))]
pub struct Clean {
    /// This job alone; without it all jobs of the service that the token is for, also those that come later
    #[arg(long, value_name = "NAME", value_parser = job_name)]
    pub job: Option<String>,
    #[command(flatten)]
    pub place: Where,
    #[command(flatten)]
    pub names: FileNames,
    /// Files of this kind alone
    #[arg(long, value_name = "KIND")]
    pub only: Option<Kind>,
    /// Print the garbage and the files whose names were never given out, and delete nothing
    #[arg(long, conflicts_with = "only")]
    pub look: bool,
    /// Stop when no file waits, and the garbage of each job was looked for once
    #[arg(long)]
    pub once: bool,
    /// After what time the garbage of a job is looked for again, as 15m or 1h
    #[arg(long, value_name = "TIME", value_parser = time, default_value = "1h")]
    pub every: Duration,
    /// At most so many threads, each with a connection to the service and one to a storage. A storage takes a tenth of them at most
    #[arg(long, value_name = "N", default_value_t = 40, value_parser = clap::value_parser!(u16).range(10..=1000))]
    pub threads: u16,
    #[command(flatten)]
    pub accepted: Accepted,
    /// The service; given again, its next address
    #[arg(long = "url", value_name = "URL", env = "RELKVANU_URL", value_delimiter = ' ', default_value = LOCAL)]
    pub urls: Vec<String>,
    /// A file whose first line is a write token
    #[arg(long, value_name = "FILE", env = "RELKVANU_TOKEN_FILE")]
    pub token_file: Option<PathBuf>,
    /// For how long a request that is not answered is made again
    #[arg(long, value_name = "SECONDS", default_value_t = 60)]
    pub within: u64,
    /// Serve Prometheus' metrics at this address, under /metrics
    #[arg(long, value_name = "ADDRESS")]
    pub metrics: Option<SocketAddr>,
    // as the service runs it: the first line of its input is a token, and it ends with its input
    #[arg(long, hide = true)]
    pub inside: bool,
}

/// What somebody has looked at.
#[derive(Args, Clone, Copy)]
pub struct Accepted {
    /// Mark the folder or the bucket as this job's, if it is not yet
    #[arg(long, requires = "job")]
    pub init: bool,
    /// Go on if all files that were handed out together are absent
    #[arg(long)]
    pub allow_absent: bool,
}

/// What is deleted.
#[derive(Clone, Copy, Debug, PartialEq, Eq, Hash, PartialOrd, Ord, ValueEnum)]
pub enum Kind {
    /// Files that jobs hand out, since no checkpoint uses them any more
    Released,
    /// Files that nobody will ever use, though no checkpoint did
    Garbage,
}

/// A time, as 90, 90s, 15m or 1h.
fn time(text: &str) -> Result<Duration, String> {
    let seconds = text.parse().ok().map(Duration::from_secs);
    let time = seconds.map_or_else(|| humantime::parse_duration(text).map_err(|why| why.to_string()), Ok)?;
    if time < Duration::from_secs(1) {
        return Err("is less than a second".to_string());
    }
    Ok(time)
}

/// What all turns share.
struct Shared {
    service: Service,
    metrics: Arc<Metrics>,
    /// Where the files of the one job are, if that was given.
    place: Option<JobStorage>,
    accepted: Accepted,
    /// Whether garbage is deleted, and whether it is one job, of which each file is printed.
    deletes: bool,
    is_one: bool,
}

/// Cleans, and ends the process: a thread that a storage holds does not keep it.
pub fn run(given: &Clean) -> ! {
    if given.job.is_none() {
        process::most_files();
    }
    let threads = usize::from(given.threads) + OTHER_THREADS;
    let runtime = tokio::runtime::Builder::new_multi_thread()
        .worker_threads(1)
        .max_blocking_threads(threads)
        .enable_all()
        .build();
    let status = match runtime {
        Ok(runtime) => runtime.block_on(clean(given)),
        Err(error) => Err(Stop::Again(error.to_string())),
    };
    exit::now(status.unwrap_or_else(|stop| {
        log::error(&stop.to_string());
        status_of(&stop)
    }))
}

/// Cleans for ever, or with `--once` until there is nothing to do. Returns the exit status.
async fn clean(given: &Clean) -> Result<u8, Stop> {
    if let Some(folder) = given.place.folder.as_deref().filter(|folder| !folder.is_dir()) {
        return Err(Stop::Again(format!("--folder: {} is no folder", folder.display())));
    }
    let place = given.place.storage(&given.names).map_err(Stop::Again)?;
    let metrics = Arc::new(Metrics::new(given.every).map_err(|error| Stop::Again(error.to_string()))?);
    let service = if given.inside {
        inside::token().map_err(NoService::Token).and_then(|token| remote::with_token(&given.urls, token.as_deref()))
    } else {
        remote::service(&given.urls, given.token_file.as_deref())
    };
    let service = service.map_err(|error| Stop::Again(error.to_string()))?;
    if let Some(address) = given.metrics {
        metrics_server::serve(&metrics.families.registry, address).map_err(Stop::Again)?;
    }
    let noticed = Arc::clone(&metrics);
    let patience = Duration::from_secs(given.within);
    let service = service.within(Some(patience)).noticing(move |error| noticed.lost(error));
    let (accepted, deletes, is_one) = (given.accepted, !given.look, given.job.is_some());
    let shared = Arc::new(Shared { service, metrics, place, accepted, deletes, is_one });
    Schedule::new(given, shared).work().await
}

/// The exit status after a job could not be cleaned.
fn status_of(stop: &Stop) -> u8 {
    match stop {
        Stop::Never(..) => exit::NOT_TO_START,
        Stop::Again(_) | Stop::Away(_) | Stop::Busy(_) => 1,
    }
}
