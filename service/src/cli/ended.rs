//! Why a command that asks a service did not do what it was told, and its exit status.
use crate::exit::{NOT_TO_START, START_AGAIN};
use crate::remote::NoService;
use relkvanu_client::{Answer, Error as Asked};
use serde_json::Value;
use std::io;
use thiserror::Error;

/// The exit status if the service answered, and the answer is no.
const NO: u8 = 1;
/// If a word is missing.
const WRONG_WORD: u8 = 2;
const BAD_REQUEST: u16 = 400;
const NOT_FOUND: u16 = 404;
const CONFLICT: u16 = 409;
const NO_MEMORY: u16 = 507;

#[derive(Debug, Error)]
pub enum Ended {
    #[error(transparent)]
    NoService(#[from] NoService),
    #[error(transparent)]
    Asked(#[from] Asked),
    #[error("the coordinator refuses it: {0}")]
    Refused(String),
    #[error("there is no job {0}")]
    NoJob(String),
    #[error("the service has no memory for it now")]
    NoMemory,
    #[error("{0} {1} ended before it was complete")]
    Incomplete(&'static str, u64),
    #[error("{0} {1} is not complete yet")]
    Late(&'static str, u64),
    #[error("the job has not stopped at savepoint {0}: {1}")]
    RunsOn(u64, String),
    #[error("{0}")]
    Word(String),
    #[error("{0}")]
    Place(String),
    #[error("{0}")]
    Away(String),
    #[error("nothing has changed: record {id} lacks files in {place}, or they have another length than their tasks told: {files}")]
    Lost { id: u64, files: String, place: String },
    #[error("nothing has changed: --folder or --bucket says where the files of record {0} are, so that it is looked whether they are whole")]
    NotLooked(u64),
    #[error("no such record has all its files in the {0}")]
    NoneWhole(&'static str),
    #[error("the job was cancelled with keep_on_cancel, so it keeps its checkpoints: docs/SERVICE-ENGINE.md, Stop, go back, end")]
    Keeps,
    #[error("relkvanu {0} has ended with status {1}: the same command goes on there")]
    Step(String, u8),
    #[error("`{0}` asks a service: a running job does not serve it at its socket")]
    OfService(&'static str),
    #[error(transparent)]
    Output(#[from] io::Error),
}

/// What the only call of a list was answered.
pub fn made(mut answers: Vec<Answer>) -> Result<Value, Ended> {
    match answers.pop() {
        Some(Answer::Made { reply, .. }) => Ok(reply),
        Some(Answer::Refused { name, .. } | Answer::Fenced { name, .. }) => Err(Ended::Refused(name)),
        Some(Answer::NoMemory | Answer::NotMade) => Err(Ended::NoMemory),
        None => Err(Asked::Answer("has no answer of the call".to_string()).into()),
    }
}

impl Ended {
    /// 1 if the answer is no, 2 if a word is missing, 75 if another try may be answered otherwise, and 78 if somebody has to look first.
    pub fn status(&self) -> u8 {
        match self {
            Ended::Step(_, status) => *status,
            Ended::Keeps => NO,
            Ended::Refused(_) | Ended::Incomplete(..) | Ended::RunsOn(..) | Ended::NoJob(_) => NO,
            Ended::Asked(Asked::Status { status: NOT_FOUND | CONFLICT, .. }) => NO,
            Ended::NoneWhole(_)
            | Ended::Lost { .. }
            | Ended::Asked(Asked::Fenced { .. } | Asked::OldTerm | Asked::Refused(_)) => NO,
            Ended::NoMemory | Ended::Late(..) | Ended::Asked(Asked::Status { status: NO_MEMORY, .. }) => START_AGAIN,
            Ended::Away(_) => START_AGAIN,
            Ended::Asked(error) if error.may_pass() => START_AGAIN,
            Ended::Asked(Asked::Status { status: BAD_REQUEST, .. }) => WRONG_WORD,
            Ended::NoService(_) | Ended::Asked(_) | Ended::Output(_) => NOT_TO_START,
            Ended::Word(_) | Ended::NotLooked(_) | Ended::OfService(_) => WRONG_WORD,
            Ended::Place(_) => NOT_TO_START,
        }
    }
}
