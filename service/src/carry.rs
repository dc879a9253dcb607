//! Verbs of which the Python package has the options and the work: manifests of jobs of the service, and what lies on a disk or in a bucket of a job of the
//! durable coordinator. It runs in this process's place.
use crate::exit::NOT_TO_START;
use crate::log;
use clap::{Arg, Args, Command, Subcommand};
use std::ffi::OsString;
use std::os::unix::process::CommandExt;
use std::process::{Command as Program, ExitCode};

const MODULE: &str = "relkvanu";

#[derive(Subcommand)]
pub enum Carry {
    /// Write the manifests of a job's complete records beside its files, of which `recover` makes the job again
    #[command(disable_help_flag = true)]
    Keep(Words),
    /// Carry a complete record out of a job, which may run
    #[command(disable_help_flag = true)]
    Export(Words),
    /// Begin another job from a record of an export, or of the storage of a durable job
    #[command(disable_help_flag = true)]
    Import(Words),
    /// Make a job again that was lost, of the manifests beside its files
    #[command(disable_help_flag = true)]
    Recover(Words),
    /// List the records that have manifests, without a service
    #[command(disable_help_flag = true)]
    Records(Words),
}

#[derive(Args)]
pub struct Words {
    #[arg(hide = true, trailing_var_arg = true, allow_hyphen_values = true)]
    #[allow(dead_code, reason = "the Python package reads the words")]
    words: Vec<OsString>,
}

fn python() -> Program {
    let mut python = Program::new("python3");
    python.args(["-m", MODULE]);
    python
}

/// Hands over the words of the command line, the verb first.
pub fn run(words: &[OsString]) -> ExitCode {
    let error = python().args(&words[1..]).exec();
    log::error(&format!("python3: {error}"));
    ExitCode::from(NOT_TO_START)
}

/// The command with the options that the Python package says to have, for completions. Without the package it has none.
pub fn with_options(all: Command) -> Command {
    let verbs = Carry::augment_subcommands(Command::new("carry"));
    let names: Vec<String> = verbs.get_subcommands().map(|verb| verb.get_name().to_string()).collect();
    names.iter().fold(all, |all, name| all.mut_subcommand(name, |verb| verb.args(options(name))))
}

fn options(verb: &str) -> Vec<Arg> {
    let told = python().args([verb, "--help"]).output().map(|told| told.stdout).unwrap_or_default();
    let text = String::from_utf8_lossy(&told).into_owned();
    let lines = text.lines().filter_map(|line| line.trim_start().strip_prefix("--"));
    lines
        .filter_map(|line| line.split(' ').next())
        .map(|name| Arg::new(name.to_string()).long(name.to_string()))
        .collect()
}
