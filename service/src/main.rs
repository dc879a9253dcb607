//! `relkvanu`: serves checkpoint coordinators over HTTP, asks a service, deletes the files that jobs hand out, carries records, and copies,
//! checks and moves a database.
mod auth;
mod backup;
mod carry;
mod check;
mod clean;
mod cli;
mod config;
mod database;
mod disk;
mod exit;
mod files;
mod history;
mod http;
mod leader;
mod log;
mod metrics;
mod metrics_server;
mod model;
mod nightly;
mod process;
mod put_back;
mod put_back_pg;
mod remote;
mod renew_tls;
mod serve;
mod setup_tls;
mod stop;
mod store;
mod systemd_start;
mod writer;

use clap::{CommandFactory, Parser};
use cli::{Cli, Command};
use std::io::Write;
use std::process::ExitCode;

fn main() -> ExitCode {
    abort_on_panic();
    let words = cli::words(std::env::args_os(), std::env::var_os("RELKVANU_URL"));
    match Cli::parse_from(&words).command {
        Command::Serve(given) => serve::run(&given),
        Command::Clean(given) => clean::run(&given),
        Command::Backup(given) => backup::run(&given),
        Command::PutBack(given) if given.job.is_some() => carry::run(&words),
        Command::PutBack(given) => put_back::run(&given),
        Command::Check(given) => check::run(&given),
        Command::Carry(_) => carry::run(&words),
        Command::SetupTls(given) => setup_tls::run(&given),
        Command::Ask(given) => cli::run(given),
        Command::Completions { shell } => {
            let mut script = Vec::new();
            let mut all = carry::with_options(Cli::command());
            clap_complete::generate(shell, &mut all, "relkvanu", &mut script);
            // whoever reads it may have read enough
            std::io::stdout().write_all(&script).map_or(ExitCode::FAILURE, |()| ExitCode::SUCCESS)
        }
    }
}

/// A thread that panics ends the process, so nothing goes on half done. The next start reads what was committed.
fn abort_on_panic() {
    let tell = std::panic::take_hook();
    std::panic::set_hook(Box::new(move |info| {
        tell(info);
        std::process::abort()
    }));
}
