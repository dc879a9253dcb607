//! The cleaner that a service runs, as `[clean] run = true` says: a process beside it, so that a storage which hangs holds up neither a start nor a stop
//! of the service. It works while the service leads, and ends with it.
use crate::exit;
use crate::http::Keys;
use crate::log;
use crate::process;
use crate::writer::Board;
use std::io::{self, Write};
use std::process::{Child, ChildStdin, Command, Stdio};
use std::sync::Arc;
use std::thread::sleep;
use std::time::Duration;

/// How often it is looked whether the service leads and the cleaner runs.
const LOOK: Duration = Duration::from_secs(1);
/// After what time one that has ended is started again.
const AGAIN: Duration = Duration::from_secs(10);

/// What its process needs of the service.
pub struct Inside {
    pub url: String,
    pub options: Vec<String>,
    pub keys: Arc<Keys>,
    pub board: Arc<Board>,
}

impl Inside {
    pub fn start(self) {
        process::thread("cleaner", move || loop {
            if self.board.is_ready() {
                self.run().unwrap_or_else(|why| log::error(&format!("the cleaner does not run: {why}")));
                sleep(AGAIN);
            }
            sleep(LOOK);
        });
    }

    /// Runs a process until it ends, the service leads no more, or its tokens are read again.
    fn run(&self) -> io::Result<()> {
        let generation = self.keys.generation();
        let (mut child, _stdin) = self.spawned()?;
        loop {
            if let Some(status) = child.try_wait()? {
                return Err(io::Error::other(format!("it has ended: {status}")));
            }
            if !self.board.is_ready() || self.keys.generation() != generation {
                child.kill()?;
                return child.wait().map(|_| ());
            }
            sleep(LOOK);
        }
    }

    /// The process, and its input: it ends with that, so also if the service is killed.
    fn spawned(&self) -> io::Result<(Child, ChildStdin)> {
        let token = self.keys.tokens().map(|tokens| tokens.for_all_jobs().unwrap_or_default());
        let mut command = Command::new(std::env::current_exe()?);
        command.args(["clean", "--inside"]).args(&self.options).stdin(Stdio::piped());
        if !self.options.iter().any(|word| word.starts_with("--url")) {
            command.args(["--url", &self.url]);
        }
        let mut child = command.spawn()?;
        let mut stdin = child.stdin.take().ok_or_else(|| io::Error::other("it has no input"))?;
        writeln!(stdin, "{}", token.unwrap_or_default())?;
        Ok((child, stdin))
    }
}

/// In the process: its token, if the service has some. From then on it ends with its input.
pub fn token() -> io::Result<Option<String>> {
    let mut line = String::new();
    io::stdin().read_line(&mut line)?;
    process::thread("end", || {
        io::stdin().lines().for_each(drop);
        exit::now(0)
    });
    Ok(Some(line.trim().to_string()).filter(|token| !token.is_empty()))
}
