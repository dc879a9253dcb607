//! The command line.
mod commands;
mod end;
mod ended;
mod folder;
mod run;
mod tables;
mod words;

pub use commands::Ask;
pub use ended::{made, Ended};
pub use run::run;
pub use words::words;

use crate::carry::Carry;
use crate::clean::Clean;
use crate::config::LogForm;
use crate::http::{is_name, NO_NAME};
use clap::{ArgGroup, Args, Parser, Subcommand, ValueEnum};
use clap_complete::Shell;
use std::net::SocketAddr;
use std::path::PathBuf;

/// The address of a service if nobody says another.
pub const LOCAL: &str = "http://127.0.0.1:7780";

/// What `relkvanu --help` says last. A verb says what else its statuses mean.
const STATUSES: &str = "Exit status:
  0   it is done
  1   the answer is no, and nothing has changed
  2   a word is wrong
  75  another try may succeed: nobody answers, there is no memory, or what was waited for is not there yet
  78  somebody has to look first: at a token, an address, a setting or a place

A running job of the durable coordinator is asked at the address unix:PATH of its socket; then a verb has no JOB.";

/// Checkpoints of stream processors: the service for many jobs, what operators do with jobs, and with what lies on a disk or in a bucket.
#[derive(Parser)]
#[command(name = "relkvanu", version, disable_help_subcommand = true, after_help = STATUSES)]
pub struct Cli {
    #[command(subcommand)]
    pub command: Command,
}

#[derive(Subcommand)]
pub enum Command {
    /// Serve jobs over HTTP
    #[command(
        after_help = "Example:\n  relkvanu serve --config /etc/relkvanu/service.toml --token-file /etc/relkvanu/token"
    )]
    Serve(Serve),
    /// Delete the files that no checkpoint needs any more, of all jobs of a service, in the folders and buckets that they name
    #[command(
        after_help = "Examples:\n  relkvanu clean\n  relkvanu clean --job orders --folder /srv/orders --prefix state- --suffix .bin --look\n\nWith --once status 1 says that files are left, and 3 that there are files whose names were never given out, which stay. With 78 nothing was deleted: the place is not that of the job."
    )]
    Clean(Clean),
    /// Copy the database while a service runs over it; that of PostgreSQL by pg_dump
    #[command(
        after_help = "Examples:\n  relkvanu backup --database /var/lib/relkvanu/relkvanu.db --to copy.db\n  relkvanu backup --config /etc/relkvanu/service.toml --to /var/backups/relkvanu --keep 14 --savepoints"
    )]
    Backup(Backup),
    /// Put a copy of a database in its place, over which no service runs, and set what is there aside
    #[command(
        after_help = "Example:\n  relkvanu put-back copy.db --database /var/lib/relkvanu/relkvanu.db\n\nBy PostgreSQL's commands, as PGHOST, PGPORT and PGUSER say:\n  relkvanu put-back copy.dump --database postgres://relkvanu@db.example/relkvanu\n\nOf a durable job:\n  relkvanu put-back copy.db job.db state"
    )]
    PutBack(PutBack),
    /// Make the calls of a database's log again, and compare each answer
    #[command(
        after_help = "Examples:\n  relkvanu check --database copy.db\n  relkvanu check --database copy.db --against laws\n\nStatus 1 says that something differs, and where. With 2 the package relkvanu-laws is not installed."
    )]
    Check(Check),
    #[command(flatten)]
    Carry(Carry),
    /// Make the tokens, the certificate and the settings with which the service speaks TLS
    #[command(after_help = "Example:\n  relkvanu setup-tls relkvanu.example --self-signed")]
    SetupTls(SetupTls),
    #[command(flatten)]
    Ask(Ask),
    /// Print a script that completes the words of this program in a shell
    #[command(after_help = "Example:\n  relkvanu completions bash")]
    Completions {
        /// The shell
        shell: Shell,
    },
}

#[derive(Args)]
pub struct Serve {
    /// A configuration file in TOML; the options below override it
    #[arg(long, value_name = "FILE")]
    pub config: Option<PathBuf>,
    /// Address and port [default: 127.0.0.1:7780]
    #[arg(long, value_name = "ADDRESS")]
    pub listen: Option<String>,
    /// An SQLite file, or postgres://.. [default: relkvanu.db]
    #[arg(long, value_name = "DATABASE")]
    pub database: Option<String>,
    /// The SQLite file of the history; if it is deleted, it is made again from the database [default: DATABASE.history]
    #[arg(long, value_name = "FILE")]
    pub history: Option<PathBuf>,
    /// The file of tokens: lines of 'read TOKEN' and 'write TOKEN'
    #[arg(long, value_name = "FILE")]
    pub token_file: Option<PathBuf>,
    /// Make an image of a job after this many calls; 0 makes none and keeps the whole log [default: 2500]
    #[arg(long, value_name = "CALLS")]
    pub image_calls: Option<u64>,
    /// How many calls before its last image a job's log keeps [default: 1000000]
    #[arg(long, value_name = "CALLS")]
    pub keep_calls: Option<u64>,
    /// How many bytes the logs of all jobs keep together; 0 sets no such limit [default: 0]
    #[arg(long, value_name = "BYTES")]
    pub keep_bytes: Option<u64>,
    /// How many records of a job the history keeps once they have ended [default: a tenth of --keep-calls, and at least 1000]
    #[arg(long, value_name = "RECORDS")]
    pub keep_records: Option<u64>,
    /// The address that a standby names to clients [default: http://LISTEN]
    #[arg(long, value_name = "URL")]
    pub advertise: Option<String>,
    /// How the lines of the service's own log are written [default: text]
    #[arg(long, value_name = "FORM")]
    pub log: Option<LogForm>,
    /// Start though the clock is more than a day after the last moment of the log: it is right
    #[arg(long)]
    pub accept_clock: bool,
}

#[derive(Args)]
pub struct Backup {
    /// An SQLite file, or postgres://..
    #[arg(long, value_name = "DATABASE", default_value = "relkvanu.db")]
    pub database: String,
    /// The settings of the service, which name the database
    #[arg(long, value_name = "FILE", conflicts_with = "database")]
    pub config: Option<PathBuf>,
    /// The copy, which must not exist; with --keep the folder of the copies, whose names are their times
    #[arg(long, value_name = "PATH")]
    pub to: PathBuf,
    /// So many copies stay, the newest
    #[arg(long, value_name = "COPIES", value_parser = clap::value_parser!(u16).range(1..))]
    pub keep: Option<u16>,
    /// Before the copy a savepoint of each job that the token is for, which is disposed of once its copy is gone
    #[arg(long, requires = "keep")]
    pub savepoints: bool,
    /// The service; given again, its next address
    #[arg(long = "url", value_name = "URL", env = "RELKVANU_URL", value_delimiter = ' ', default_value = LOCAL)]
    pub urls: Vec<String>,
    /// A file whose first line is a write token
    #[arg(long, value_name = "FILE", env = "RELKVANU_TOKEN_FILE")]
    pub token_file: Option<PathBuf>,
}

#[derive(Args)]
pub struct PutBack {
    /// The copy, which stays as it is
    #[arg(value_name = "COPY", required_unless_present_any = ["back", "none"], conflicts_with_all = ["back", "none"])]
    pub copy: Option<PathBuf>,
    /// The file of a durable job, in whose place a backup gets
    #[arg(value_name = "JOB", requires = "storage")]
    pub job: Option<PathBuf>,
    /// The storage of the durable job
    #[arg(value_name = "STORAGE")]
    pub storage: Option<PathBuf>,
    /// An SQLite file, or postgres://..
    #[arg(long, value_name = "DATABASE", default_value = "relkvanu.db")]
    pub database: String,
    /// The folder of the files that are set aside, on the same disk, or the name of the database [default: aside, beside the file; NAME_aside]
    #[arg(long, value_name = "NAME")]
    pub aside: Option<PathBuf>,
    /// The copy was checked already
    #[arg(long)]
    pub checked: bool,
    /// Put the files back that were set aside, and set those aside that are there now
    #[arg(long)]
    pub back: bool,
    /// Put no copy in the place of the files that are set aside: the next start of the service makes a new database
    #[arg(long, conflicts_with = "back")]
    pub none: bool,
}

#[derive(Args)]
pub struct Check {
    /// An SQLite file, or postgres://.., and against the laws also the file of a durable job, or its backup
    #[arg(long, value_name = "DATABASE", default_value = "relkvanu.db")]
    pub database: String,
    /// This job alone
    #[arg(long, value_name = "NAME", value_parser = job_name)]
    pub job: Option<String>,
    /// Make the calls by the program that Coq extracts from the laws, of the package relkvanu-laws [default: by this program]
    #[arg(long, value_name = "WHAT")]
    pub against: Option<Against>,
    /// Print JSON for programs
    #[arg(long)]
    pub json: bool,
}

/// What else than this program makes calls again.
#[derive(Clone, Copy, Debug, ValueEnum)]
pub enum Against {
    Laws,
}

#[derive(Args)]
#[command(group = ArgGroup::new("kind").required(true).multiple(true).args(["self_signed", "certificate", "renew"]))]
pub struct SetupTls {
    /// The name by which others reach the machine
    pub name: String,
    /// Make a certificate for the name that the machine signs itself, for 90 days
    #[arg(long, conflicts_with = "certificate")]
    pub self_signed: bool,
    /// Put another certificate in the place of the one that is there: that of the folder `renewed` of the settings, which --self-signed makes, or
    /// the one that is given
    #[arg(long)]
    pub renew: bool,
    /// A certificate with its chain, in PEM
    #[arg(long, value_name = "FILE", requires = "key")]
    pub certificate: Option<PathBuf>,
    /// Its key, in PEM (PKCS#8)
    #[arg(long, value_name = "FILE", requires = "certificate")]
    pub key: Option<PathBuf>,
    /// Address and port
    #[arg(long, value_name = "ADDRESS", default_value = "0.0.0.0:7780")]
    pub listen: SocketAddr,
    /// The folder of the settings, which get tokens and the certificate
    #[arg(long, value_name = "DIR", default_value = "/etc/relkvanu")]
    pub settings: PathBuf,
    /// The folder of systemd's units
    #[arg(long, value_name = "DIR", default_value = "/etc/systemd/system")]
    pub units: PathBuf,
}

/// A job's name, which is a part of a path of the API.
pub fn job_name(text: &str) -> Result<String, &'static str> {
    if is_name(text) {
        Ok(text.to_string())
    } else {
        Err(NO_NAME)
    }
}

#[cfg(test)]
mod tests {
    use super::*;
    use clap::CommandFactory;

    /// The command of a verb's example, as its words.
    fn example(verb: &clap::Command) -> Option<Vec<String>> {
        let help = verb.get_after_help()?.to_string();
        let line = help.lines().map(str::trim).find(|line| line.starts_with("relkvanu "))?;
        Some(line.split_whitespace().map(str::to_string).collect())
    }

    #[test]
    fn each_verb_has_an_example_that_the_program_takes() {
        let carried = Carry::augment_subcommands(clap::Command::new("carry"));
        for verb in Cli::command().get_subcommands().filter(|it| carried.find_subcommand(it.get_name()).is_none()) {
            let words = example(verb).unwrap_or_default();
            assert_eq!(words.get(1).map(String::as_str), Some(verb.get_name()), "{words:?}");
            let taken = Cli::try_parse_from(&words);
            assert!(taken.is_ok(), "{words:?}: {}", taken.err().map(|why| why.to_string()).unwrap_or_default());
        }
    }

    #[test]
    fn the_command_line_is_sound() {
        Cli::command().debug_assert();
    }
}
