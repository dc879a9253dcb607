//! `relkvanu check --against laws`: the program that Coq extracts from the definitions of the laws makes the calls of a log again, and compares
//! each answer and each image.
use super::{Compared, Repeats, Unchecked};
use crate::model::{settings_json, AnswerRow, Entry, Opening};
use crate::store::{LogReader, SavedImage};
use crate::writer::{replay, StartError};
use serde_json::json;
use std::io::{self, BufWriter, Write};
use std::path::{Path, PathBuf};
use std::process::{ChildStdin, Command, Output, Stdio};
use std::{env, iter};

/// The program, and its package.
const PROGRAM: &str = "relkvanu-laws";
/// Where the package has it, which is not on the PATH.
const FOLDER: &str = "/usr/libexec/relkvanu";

pub fn program() -> Result<PathBuf, Unchecked> {
    let path = env::var_os("PATH").unwrap_or_default();
    let mut places = env::split_paths(&path).chain(iter::once(PathBuf::from(FOLDER))).map(|at| at.join(PROGRAM));
    places.find(|it| it.is_file()).ok_or(Unchecked::NoLaws(PROGRAM))
}

/// What a job was opened with, as an image has it.
pub fn opening(it: &Opening) -> String {
    let Opening { settings, shape, started, first, .. } = it;
    json!({"config": settings_json(settings), "first": first, "shape": shape, "start": started}).to_string()
}

/// Gives a log to the program. The opening is a state too; the log of a durable job may lack it.
pub fn compare<L: LogReader + ?Sized>(
    program: &Path,
    log: &mut L,
    job: (i64, &str),
    opening: Option<String>,
) -> Result<Result<Compared, StartError>, Unchecked> {
    let failed = |why: io::Error| Unchecked::Laws(PROGRAM, why.to_string());
    let mut command = Command::new(program);
    let piped = command.stdin(Stdio::piped()).stdout(Stdio::piped()).stderr(Stdio::piped());
    let mut child = piped.spawn().map_err(failed)?;
    let to = child.stdin.take().ok_or_else(|| failed(io::ErrorKind::BrokenPipe.into()))?;
    let mut laws = Laws { name: job.1.to_string(), seq: 0, to: BufWriter::new(to) };
    if let Some(opening) = opening {
        laws.put(&format!("@state 0 {opening}"));
    }
    let compared = super::compare(log, job, &mut laws);
    drop(laws);
    verdict(job.1, compared, &child.wait_with_output().map_err(failed)?)
}

/// What the program says, behind the number of a line that nobody sees here. What differs came before the place where the log could not be read.
fn verdict(
    job: &str,
    compared: Result<Compared, StartError>,
    told: &Output,
) -> Result<Result<Compared, StartError>, Unchecked> {
    let said = String::from_utf8_lossy(&told.stdout);
    let numbers: Vec<u64> = said.split(' ').filter_map(|word| word.parse().ok()).collect();
    match (told.status.code(), &numbers[..], compared) {
        (Some(1), ..) => {
            let why = said.split_once(": ").map_or(&*said, |(_, why)| why).trim().to_string();
            Ok(Err(StartError::NoLaw { job: job.to_string(), why }))
        }
        (Some(0), [calls, images], Ok(compared)) if [*calls, *images] == [compared.calls, compared.images] => {
            Ok(Ok(compared))
        }
        (Some(0), _, Err(error)) => Ok(Err(error)),
        _ => {
            let why = String::from_utf8_lossy(&told.stderr);
            Err(Unchecked::Laws(PROGRAM, format!("{}: {}{}", told.status, why.trim(), said.trim())))
        }
    }
}

/// The log that the program reads.
struct Laws {
    name: String,
    seq: u64,
    to: BufWriter<ChildStdin>,
}

impl Laws {
    /// Writes one line, whatever the text has. A program that has ended reads it no more, and has said why.
    fn put(&mut self, text: &str) {
        let _ = writeln!(self.to, "{}", text.replace('\n', "\\n"));
    }

    fn put_image(&mut self, word: &str, saved: &SavedImage) -> Result<(), StartError> {
        replay::undamaged(&self.name, saved)?;
        self.put(&format!("@{word} {} {}", saved.image.seq, saved.image.text));
        Ok(())
    }
}

impl Repeats for Laws {
    fn seq(&self) -> u64 {
        self.seq
    }

    fn resume(&mut self, saved: &SavedImage) -> Result<(), StartError> {
        self.seq = saved.image.seq;
        self.put_image("state", saved)
    }

    fn repeat(&mut self, entry: &Entry) -> Result<(), StartError> {
        self.seq = entry.seq;
        self.put(&format!("{}  -  {}  ->  {}", entry.seq, entry.line, text(&entry.told)));
        Ok(())
    }

    fn alike(&mut self, saved: &SavedImage) -> Result<(), StartError> {
        self.put_image("image", saved)
    }
}

/// The text of an answer, or the numbers of a row that are none.
fn text(row: &AnswerRow) -> String {
    match row.reply() {
        Some(reply) if AnswerRow::of(&reply) == *row => reply.text(),
        _ => format!("unknown {} {} {}", row.what, row.a, row.b),
    }
}

#[cfg(test)]
mod tests {
    use super::*;

    #[test]
    fn a_row_that_is_no_answer_has_another_text() {
        for (a, b, wanted) in [(3, 12, "ack completed 3 12"), (3, 0, "ack completed 3 0")] {
            assert_eq!(text(&AnswerRow { what: 8, a, b, files: None }), wanted);
        }
        assert_eq!(text(&AnswerRow { what: 7, a: 2, b: 1, files: None }), "unknown 7 2 1");
    }
}
