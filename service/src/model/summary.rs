//! What the database keeps of a history, so that it outlives the calls that are cut.

/// A part of what the history has read up to a place of a job's log.
#[derive(Clone, Debug, PartialEq, Eq)]
pub struct SummaryPart {
    pub job: i64,
    /// The last call that it includes.
    pub seq: u64,
    pub part: u64,
    /// In the last part, how many bytes all parts have; 0 in the others.
    pub whole: u64,
    pub text: String,
}

/// A record that ended, as the history has it.
#[derive(Clone, Debug, PartialEq, Eq)]
pub struct PastRecord {
    pub job: i64,
    pub id: u64,
    pub text: String,
}

/// A summary that the database has.
#[derive(Clone, Copy, Debug, PartialEq, Eq)]
pub struct KeptSummary {
    pub seq: u64,
    /// 0 if its last part is missing.
    pub bytes: u64,
}
