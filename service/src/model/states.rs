//! What a subtask has in a record beside its files: a payload, if its state is small, the order of its files, and figures. The coordinator knows none of it,
//! so it is kept beside the log, in the commit of the acknowledgement, until its record ends.
use super::call::{Call, Subtask};
use super::job::Entry;
use super::outcome::Reply;
use relkvanu::Answer;
use std::collections::BTreeSet;

/// The most bytes of a payload.
pub const MOST_PAYLOAD: usize = 4096;
/// The most bytes of the reason of a decline.
pub const MOST_REASON: usize = 200;

/// What an acknowledgement gives beside its files.
#[derive(Clone, Debug, Default, PartialEq, Eq)]
pub struct Given {
    /// In base64; empty: none.
    pub payload: String,
    /// The bytes of the subtask's snapshot, as its task counts them, if it said them. A row of the record has 0 then.
    pub bytes: Option<u64>,
    /// How long the snapshot took.
    pub millis: Option<u64>,
}

/// What a subtask has in a record: a row of the database.
#[derive(Clone, Debug, PartialEq, Eq)]
pub struct SubtaskState {
    pub job: i64,
    pub record: u64,
    pub subtask: Subtask,
    /// In the order in which the acknowledgement gave them, the fresh ones first.
    pub files: Vec<u64>,
    pub given: Given,
}

/// What an acknowledgement or a decline told for the history: a row beside the log, which goes as its call is cut.
#[derive(Clone, Debug, Default, PartialEq, Eq)]
pub struct Figure {
    pub job: i64,
    pub seq: u64,
    pub bytes: u64,
    pub millis: u64,
    /// Of a decline. Of an acknowledgement that told one of both alone it is the word for that one.
    pub reason: Option<String>,
}

/// What an acknowledgement told that told one alone.
const BYTES: &str = "bytes";
const MILLIS: &str = "millis";

impl Figure {
    /// What an acknowledgement told; `None` if it told nothing of it.
    pub fn told(&self) -> (Option<u64>, Option<u64>) {
        let only = self.reason.as_deref();
        (Some(self.bytes).filter(|_| only != Some(MILLIS)), Some(self.millis).filter(|_| only != Some(BYTES)))
    }

    fn of_ack(self, given: &Given) -> Option<Figure> {
        let only = match (given.bytes, given.millis) {
            (None, None) => return None,
            (Some(_), None) => Some(BYTES),
            (None, Some(_)) => Some(MILLIS),
            (Some(_), Some(_)) => None,
        };
        let (bytes, millis) = (given.bytes.unwrap_or(0), given.millis.unwrap_or(0));
        Some(Figure { bytes, millis, reason: only.map(str::to_string), ..self })
    }
}

/// The numbers of files, with a space between.
pub fn files_text(files: &[u64]) -> String {
    files.iter().map(u64::to_string).collect::<Vec<_>>().join(" ")
}

/// Reads what [`files_text`] writes.
pub fn parse_files(text: &str) -> Option<Vec<u64>> {
    text.split(' ').filter(|word| !word.is_empty()).map(|word| word.parse().ok()).collect()
}

/// What a call changed of the rows.
#[derive(Debug, Default, PartialEq, Eq)]
pub struct StateChange {
    pub new: Option<SubtaskState>,
    pub figure: Option<Figure>,
    /// The record whose rows another one gets too, and that one.
    pub copy: Option<(u64, u64)>,
    /// Records whose rows go.
    pub gone: Vec<u64>,
}

/// The records of a job that have rows.
#[derive(Default)]
pub struct States(BTreeSet<u64>);

impl States {
    /// The database has rows of this record.
    pub fn note(&mut self, record: u64) {
        self.0.insert(record);
    }

    pub fn has(&self, record: u64) -> bool {
        self.0.contains(&record)
    }

    /// Takes in a call that was made; `None` if it changes no row, as most calls don't.
    pub fn follow(&mut self, call: &Call, reply: &Reply, entry: &Entry) -> Option<Box<StateChange>> {
        let gives = matches!(call, Call::Ack { given: Some(_), .. } | Call::Decline { reason: Some(_), .. });
        if !gives && (entry.ended.is_none() || self.0.is_empty()) {
            return None;
        }
        let (new, figure) = (given(call, reply, entry.job), figure(call, reply, entry));
        if let Some(new) = &new {
            self.0.insert(new.record);
        }
        let gone = entry.ended_records().into_iter().filter(|record| self.0.remove(record)).collect();
        Some(Box::new(StateChange { new, figure, gone, copy: None }))
    }

    /// A savepoint that is made of a checkpoint has what this one has.
    pub fn copy(&mut self, checkpoint: u64, savepoint: u64) -> Option<(u64, u64)> {
        self.has(checkpoint).then(|| {
            self.note(savepoint);
            (checkpoint, savepoint)
        })
    }
}

/// What a call tells for the history.
fn figure(call: &Call, reply: &Reply, entry: &Entry) -> Option<Figure> {
    if matches!(reply, Reply::Answered(Answer::AckLate { .. } | Answer::DeclineLate)) {
        return None;
    }
    let it = Figure { job: entry.job, seq: entry.seq, ..Figure::default() };
    match call {
        Call::Ack { given: Some(given), .. } => it.of_ack(given),
        Call::Decline { reason: Some(reason), .. } => Some(Figure { reason: Some(reason.clone()), ..it }),
        _ => None,
    }
}

/// The row of an acknowledgement that gives something. What comes late is not kept.
fn given(call: &Call, reply: &Reply, job: i64) -> Option<SubtaskState> {
    let Call::Ack { id, subtask, fresh, reused, given: Some(given), .. } = call else {
        return None;
    };
    if matches!(reply, Reply::Answered(Answer::AckLate { .. })) {
        return None;
    }
    let files = [fresh.as_slice(), reused].concat();
    Some(SubtaskState { job, record: *id, subtask: *subtask, files, given: (**given).clone() })
}

#[cfg(test)]
mod tests {
    use super::*;

    #[test]
    fn a_row_of_before_tells_what_it_told() {
        let old = Figure { bytes: 0, millis: 3, ..Figure::default() };
        assert_eq!(old.told(), (Some(0), Some(3)));
    }

    #[test]
    fn files_keep_their_order_in_texts() {
        assert_eq!(files_text(&[u64::MAX, 3, 7]), "18446744073709551615 3 7");
        assert_eq!(parse_files("18446744073709551615 3 7"), Some(vec![u64::MAX, 3, 7]));
        assert_eq!((parse_files(""), parse_files("3 x")), (Some(vec![]), None));
    }
}
