//! The configuration: defaults, then a TOML file that overrides them, then the command line.
use crate::cli::Serve;
use crate::database::{Database, NoDatabase};
use crate::http::TlsFiles;
use crate::log;
use crate::model::Keeping;
use clap::ValueEnum;
use serde::Deserialize;
use std::io;
use std::net::SocketAddr;
use std::path::{Path, PathBuf};
use std::time::Duration;
use thiserror::Error;

const LISTEN: &str = "127.0.0.1:7780";
const DATABASE: &str = "relkvanu.db";
const IMAGE_CALLS: u64 = 2_500;
const KEEP_CALLS: u64 = 1_000_000;
/// How many records a job keeps by default: one for so many calls that it keeps, and some in any case.
const CALLS_OF_RECORD: u64 = 10;
const LEAST_RECORDS: u64 = 1000;

/// What is wrong with which setting. Another start with the same words ends in the same way.
#[derive(Debug, Error)]
pub enum BadConfig {
    #[error("--config {}: {why}", .path.display())]
    Unread { path: PathBuf, why: io::Error },
    #[error("{}: {why}", .path.display())]
    NoToml { path: PathBuf, why: toml::de::Error },
    #[error("listen: {0:?} is no address with a port")]
    NoAddress(String),
    #[error("listen: {0} can be reached from other machines, so a token_file is needed")]
    NoTokens(SocketAddr),
    #[error("tls_certificate and tls_key: there is only one of them")]
    HalfTls,
    #[error("{name}: {value} is not within {least} to {most}")]
    Number { name: &'static str, value: u64, least: u64, most: u64 },
    #[error(transparent)]
    Database(#[from] NoDatabase),
}

/// What the file may say.
#[derive(Deserialize, Default)]
#[serde(deny_unknown_fields, default)]
struct FileConfig {
    listen: Option<String>,
    database: Option<String>,
    history: Option<PathBuf>,
    token_file: Option<PathBuf>,
    advertise: Option<String>,
    lease_seconds: Option<u64>,
    image_calls: Option<u64>,
    keep_calls: Option<u64>,
    keep_bytes: Option<u64>,
    keep_records: Option<u64>,
    log: Option<LogForm>,
    log_requests: bool,
    tls_certificate: Option<PathBuf>,
    tls_key: Option<PathBuf>,
    limits: Limits,
    clean: CleanConfig,
}

/// The cleaner that the service runs.
#[derive(Deserialize, Clone, Debug, Default)]
#[serde(deny_unknown_fields, default)]
pub struct CleanConfig {
    pub run: bool,
    /// Options of `relkvanu clean`.
    pub options: Vec<String>,
}

/// How lines of the service's log are written.
#[derive(Deserialize, Clone, Copy, Debug, PartialEq, Eq, ValueEnum)]
#[serde(rename_all = "lowercase")]
pub enum LogForm {
    Text,
    Json,
}

/// What requests may use.
#[derive(Deserialize, Clone, Debug)]
#[serde(deny_unknown_fields, default)]
pub struct Limits {
    /// Connections that make calls and reads at once.
    pub connections: usize,
    /// Connections that wait for events at once.
    pub polls: usize,
    /// Connections that made no request with a token.
    pub new_connections: usize,
    /// Bytes of a request's body.
    pub body_bytes: usize,
    /// Bytes of all bodies that are read or worked on at once.
    pub all_bodies_bytes: usize,
    /// Bytes of all large answers that are being sent at once.
    pub all_answers_bytes: usize,
    /// Calls of a request.
    pub calls: usize,
    /// Requests that wait for the writer.
    pub queue: usize,
    /// Seconds that a connection may be open without a complete request.
    pub idle_seconds: u64,
    /// Seconds in which a request's body has to be complete.
    pub body_seconds: u64,
}

impl Default for Limits {
    fn default() -> Limits {
        Limits {
            connections: 1024,
            polls: 16_384,
            new_connections: 1024,
            body_bytes: 8 << 20,
            all_bodies_bytes: 64 << 20,
            all_answers_bytes: 64 << 20,
            calls: 1000,
            queue: 4096,
            idle_seconds: 30,
            body_seconds: 30,
        }
    }
}

/// Files that are open beside connections: databases, the log, and room for others.
const OTHER_FILES: u64 = 128;

impl Limits {
    /// Lessens the number of connections to what this many open files allow. Those that wait for events are lessened first.
    pub fn fit(&mut self, files: u64) {
        let files = usize::try_from(files.saturating_sub(OTHER_FILES)).unwrap_or(usize::MAX);
        let wanted = self.polls.saturating_add(self.connections).saturating_add(self.new_connections);
        if wanted <= files {
            return;
        }
        let (polls, connections, new) = (self.polls, self.connections, self.new_connections);
        self.new_connections = new.min(files / 4).max(1);
        self.connections = connections.min(files / 2).max(1);
        self.polls = polls.min(files.saturating_sub(self.new_connections + self.connections)).max(1);
        log::warn(&format!(
            "the limit of open files allows {} connections, {} that wait for events and {} new ones; wanted: {connections}, {polls} and {new}",
            self.connections, self.polls, self.new_connections
        ));
    }
}

#[derive(Clone, Debug)]
pub struct Config {
    pub listen: SocketAddr,
    pub database: Database,
    pub history: PathBuf,
    pub token_file: Option<PathBuf>,
    pub advertise: String,
    pub lease: Duration,
    pub keeping: Keeping,
    pub limits: Limits,
    /// Whether the clock may be far ahead of the log.
    pub accept_clock: bool,
    /// How the lines of the service's own log are written, and whether it has one for each request.
    pub log: LogForm,
    pub log_requests: bool,
    pub tls: Option<TlsFiles>,
    pub clean: CleanConfig,
}

/// The database that these settings name.
pub fn database_of(path: &Path) -> Result<Database, BadConfig> {
    Ok(Database::of(&read(path)?.database.unwrap_or_else(|| DATABASE.to_string()))?)
}

impl Config {
    /// The configuration of a command line.
    pub fn of(given: &Serve) -> Result<Config, BadConfig> {
        let file = match &given.config {
            Some(path) => read(path)?,
            None => FileConfig::default(),
        };
        let listen = given.listen.clone().or(file.listen).unwrap_or_else(|| LISTEN.to_string());
        let listen = listen.parse().map_err(|_| BadConfig::NoAddress(listen))?;
        let database = given.database.clone().or(file.database).unwrap_or_else(|| DATABASE.to_string());
        let database = Database::of(&database)?;
        let tls = match (file.tls_certificate, file.tls_key) {
            (Some(certificate), Some(key)) => Some(TlsFiles { certificate, key }),
            (None, None) => None,
            _ => return Err(BadConfig::HalfTls),
        };
        let keep_calls = given.keep_calls.or(file.keep_calls).unwrap_or(KEEP_CALLS);
        let config = Config {
            history: given.history.clone().or(file.history).unwrap_or_else(|| database.history(&listen)),
            token_file: given.token_file.clone().or(file.token_file),
            advertise: (given.advertise.clone().or(file.advertise))
                .unwrap_or_else(|| format!("{}://{listen}", if tls.is_some() { "https" } else { "http" })),
            lease: Duration::from_secs(file.lease_seconds.unwrap_or(5)),
            keeping: Keeping {
                image_calls: given.image_calls.or(file.image_calls).unwrap_or(IMAGE_CALLS),
                keep_calls,
                keep_bytes: given.keep_bytes.or(file.keep_bytes).unwrap_or(0),
                keep_records: (given.keep_records.or(file.keep_records))
                    .unwrap_or(LEAST_RECORDS.max(keep_calls / CALLS_OF_RECORD)),
            },
            limits: file.limits,
            accept_clock: given.accept_clock,
            log: given.log.or(file.log).unwrap_or(LogForm::Text),
            log_requests: file.log_requests,
            tls,
            clean: file.clean,
            listen,
            database,
        };
        config.checked()
    }

    fn checked(self) -> Result<Config, BadConfig> {
        let limits = &self.limits;
        let numbers = [
            ("limits.connections", limits.connections as u64, 1, 100_000),
            ("limits.polls", limits.polls as u64, 1, 1_000_000),
            ("limits.new_connections", limits.new_connections as u64, 1, 100_000),
            ("limits.all_answers_bytes", limits.all_answers_bytes as u64, 1 << 20, 1 << 32),
            ("limits.body_bytes", limits.body_bytes as u64, 1024, 1 << 30),
            ("limits.all_bodies_bytes", limits.all_bodies_bytes as u64, limits.body_bytes as u64, 1 << 32),
            ("limits.calls", limits.calls as u64, 1, 4096),
            ("limits.queue", limits.queue as u64, 1, 1 << 20),
            ("limits.idle_seconds", limits.idle_seconds, 1, 3600),
            ("limits.body_seconds", limits.body_seconds, 1, 3600),
            ("lease_seconds", self.lease.as_secs(), 1, 600),
            ("image_calls", self.keeping.image_calls, 0, 1_000_000_000),
            ("keep_calls", self.keeping.keep_calls, 0, 1_000_000_000_000),
            ("keep_bytes", self.keeping.keep_bytes, 0, 1 << 50),
            ("keep_records", self.keeping.keep_records, 1, 1_000_000_000_000),
        ];
        for (name, value, least, most) in numbers {
            if !(least..=most).contains(&value) {
                return Err(BadConfig::Number { name, value, least, most });
            }
        }
        if self.token_file.is_none() && !self.listen.ip().is_loopback() {
            return Err(BadConfig::NoTokens(self.listen));
        }
        Ok(self)
    }
}

fn read(path: &Path) -> Result<FileConfig, BadConfig> {
    let text = std::fs::read_to_string(path).map_err(|why| BadConfig::Unread { path: path.to_path_buf(), why })?;
    toml::from_str(&text).map_err(|why| BadConfig::NoToml { path: path.to_path_buf(), why })
}
