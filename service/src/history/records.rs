//! The history of records: when each was triggered and acknowledged, when and how it ended, and which subtasks were missing.
use super::follow::LoggedCall;
use super::tables::Tables;
use crate::model::{AckBytes, Answer, Call, Entry, Figure, Kind, Reply, Subtask};
use std::collections::{BTreeMap, BTreeSet, HashSet};

/// How a record ended that one of its subtasks declined.
const DECLINED: &str = "declined";
/// How many missing subtasks are named.
const MOST_NAMED: usize = 32;

/// A record that lacks acknowledgements, and what is known of it so far.
pub struct Pending {
    pub kind: Kind,
    pub shape: Vec<u64>,
    pub started: u64,
    pub acked: HashSet<Subtask>,
    pub first_ack: Option<u64>,
    pub last_ack: Option<u64>,
    pub slowest: Option<Subtask>,
    /// The bytes of its new files, and of all files that its acknowledgements name, if one said some.
    pub bytes: Option<(u64, u64)>,
    /// What its tasks told of their snapshots: the sum of the bytes, and the greatest milliseconds, each if one told it.
    pub told: (Option<u64>, Option<u64>),
    /// The milliseconds of the acknowledgements that the log has, from the trigger on.
    times: Vec<u64>,
}

impl Pending {
    pub fn new(kind: Kind, shape: Vec<u64>, started: u64) -> Pending {
        let (first_ack, last_ack, slowest, bytes) = (None, None, None, None);
        let (acked, told, times) = (HashSet::new(), (None, None), Vec::new());
        Pending { kind, shape, started, acked, first_ack, last_ack, slowest, bytes, told, times }
    }

    fn add_figure(&mut self, figure: &Figure) {
        let ((bytes, millis), told) = (self.told, figure.told());
        let sum = told.0.map(|it| bytes.unwrap_or(0).saturating_add(it));
        self.told = (sum.or(bytes), millis.max(told.1));
    }

    /// The lower median of its acknowledgements, and the 99th of 100 by rank.
    pub fn ranks(&self) -> (Option<u64>, Option<u64>) {
        let mut rising = self.times.clone();
        rising.sort_unstable();
        (rank(&rising, 50), rank(&rising, 99))
    }

    fn add_bytes(&mut self, said: &AckBytes) {
        let (fresh, full) = self.bytes.unwrap_or_default();
        self.bytes = Some((fresh.saturating_add(said.fresh_bytes()), full.saturating_add(said.full)));
    }

    pub fn ack(&mut self, subtask: Subtask, at: u64) {
        self.acked.insert(subtask);
        self.first_ack.get_or_insert(at);
        self.last_ack = Some(at);
        self.slowest = Some(subtask);
        self.times.push(at.saturating_sub(self.started));
    }

    /// The first missing subtasks by name, then how many more there are; `None` if none is missing.
    pub fn missing(&self) -> Option<String> {
        let subtasks = self.shape.iter().zip(0..).flat_map(|(parallelism, vertex)| {
            (0..*parallelism).map(move |index| Subtask { vertex, index: u16::try_from(index).unwrap_or(u16::MAX) })
        });
        let missing: Vec<String> =
            subtasks.filter(|one| !self.acked.contains(one)).map(|one| one.to_string()).collect();
        let named = missing[..missing.len().min(MOST_NAMED)].join(" ");
        match missing.len() {
            0 => None,
            count if count > MOST_NAMED => Some(format!("{named} +{}", count - MOST_NAMED)),
            _ => Some(named),
        }
    }
}

/// How a record stopped being pending.
pub struct Ended {
    pub kind: Kind,
    pub how: &'static str,
    /// Milliseconds from its trigger on.
    pub took: u64,
    /// The bytes of its new files, and of all.
    pub bytes: Option<(u64, u64)>,
}

/// The records of one job.
pub struct Records {
    pub shape: Vec<u64>,
    pub pending: BTreeMap<u64, Pending>,
    /// Pending records of which more is known than the tables have.
    changed: BTreeSet<u64>,
}

impl Records {
    pub fn new(shape: Vec<u64>) -> Records {
        Records { shape, pending: BTreeMap::new(), changed: BTreeSet::new() }
    }

    /// The pending records, and the subtasks that have acknowledged each.
    pub fn acked(&self) -> Vec<(u64, Vec<String>)> {
        let names = |pending: &Pending| pending.acked.iter().map(Subtask::to_string).collect();
        self.pending.iter().map(|(id, pending)| (*id, names(pending))).collect()
    }

    /// Adds a call of the log, and returns which records stopped being pending by it.
    pub fn follow(&mut self, tables: &Tables, made: &LoggedCall) -> rusqlite::Result<Vec<Ended>> {
        let LoggedCall { entry, call, reply, said, figure } = made;
        let mut ended = Vec::new();
        if let (Call::Ack { id, subtask, .. }, Reply::Answered(answer)) = (call, reply) {
            if let (Some(pending), Some(said), false) = (self.pending.get_mut(id), said, is_late(answer)) {
                pending.add_bytes(said);
            }
            if let (Some(pending), Some(figure), false) = (self.pending.get_mut(id), figure, is_late(answer)) {
                pending.add_figure(figure);
            }
            ended.extend(self.ack(tables, *id, *subtask, answer, entry)?);
        }
        if let (Call::Decline { id, .. }, Some(Figure { reason: Some(reason), .. })) = (call, figure) {
            tables.set_reason(entry.job, *id, reason)?;
        }
        for (place, id) in entry.ended_records().into_iter().enumerate() {
            ended.extend(self.end(tables, id, (place as u64) < expired(reply), call, entry)?);
        }
        if let Call::Restore { shape: Some(shape), .. } = call {
            self.shape.clone_from(shape);
        }
        let kind = match reply {
            Reply::Answered(Answer::Triggered { .. }) => Some(Kind::Checkpoint),
            Reply::Answered(Answer::SavepointTriggered(_)) => Some(Kind::Savepoint),
            _ => None,
        };
        if let (Some(kind), Some(id)) = (kind, entry.record) {
            let pending = Pending::new(kind, self.shape.clone(), entry.at);
            tables.new_record(entry.job, id, &pending)?;
            self.pending.insert(id, pending);
        }
        Ok(ended)
    }

    fn ack(
        &mut self,
        tables: &Tables,
        id: u64,
        subtask: Subtask,
        answer: &Answer,
        entry: &Entry,
    ) -> rusqlite::Result<Option<Ended>> {
        if is_late(answer) {
            return Ok(None);
        }
        if let Some(pending) = self.pending.get_mut(&id) {
            pending.ack(subtask, entry.at);
            self.changed.insert(id);
        }
        if matches!(answer, Answer::AckCompleted { .. }) {
            return self.finish(tables, id, "completed", entry);
        }
        Ok(None)
    }

    /// A record is no longer live, because of a call for it or for another record.
    fn end(
        &mut self,
        tables: &Tables,
        id: u64,
        is_expired: bool,
        call: &Call,
        entry: &Entry,
    ) -> rusqlite::Result<Option<Ended>> {
        let how = if self.pending.contains_key(&id) {
            how_pending_ended(call, entry, id, is_expired)
        } else {
            how_done_ended(call)
        };
        let why = match call {
            Call::Decline { subtask, .. } if how == DECLINED => format!("{DECLINED} by {subtask}"),
            _ => how.to_string(),
        };
        tables.gone(entry.job, id, entry.at, &why)?;
        self.finish(tables, id, how, entry)
    }

    /// A pending record is no longer pending.
    fn finish(
        &mut self,
        tables: &Tables,
        id: u64,
        how: &'static str,
        entry: &Entry,
    ) -> rusqlite::Result<Option<Ended>> {
        let Some(pending) = self.pending.remove(&id) else {
            return Ok(None);
        };
        self.changed.remove(&id);
        tables.acks(entry.job, id, &pending)?;
        tables.finish(entry.job, id, entry.at, how, &pending)?;
        let (kind, took, bytes) = (pending.kind, entry.at.saturating_sub(pending.started), pending.bytes);
        Ok(Some(Ended { kind, how, took, bytes }))
    }

    /// Writes what the tables do not have yet.
    pub fn write(&mut self, tables: &Tables, job: i64) -> rusqlite::Result<()> {
        for id in std::mem::take(&mut self.changed) {
            if let Some(pending) = self.pending.get(&id) {
                tables.acks(job, id, pending)?;
            }
        }
        Ok(())
    }
}

/// The least of these rising numbers that so many of a hundred do not exceed.
pub fn rank(rising: &[u64], hundredths: usize) -> Option<u64> {
    let place = (rising.len() * hundredths).div_ceil(100);
    rising.get(place.saturating_sub(1)).copied()
}

pub fn is_late(answer: &Answer) -> bool {
    matches!(answer, Answer::AckLate { .. })
}

/// How many records a tick found too old. They are the first of those that it ended: what is triggered later expires later, whatever
/// timeout the job has by then.
fn expired(reply: &Reply) -> u64 {
    use Answer as A;
    match reply {
        Reply::Answered(
            A::Triggered { expired, .. }
            | A::HeldInterval { expired }
            | A::HeldAtOnce { expired }
            | A::HeldPause { expired }
            | A::Failed { expired },
        ) => *expired,
        _ => 0,
    }
}

fn how_pending_ended(call: &Call, entry: &Entry, id: u64, is_expired: bool) -> &'static str {
    match call {
        Call::Tick if is_expired => "expired",
        Call::Decline { .. } if entry.record == Some(id) => DECLINED,
        Call::Tick | Call::Decline { .. } => "failed over",
        Call::Restore { .. } | Call::Advance { .. } => "restored",
        Call::Cancel => "cancelled",
        _ => "subsumed",
    }
}

fn how_done_ended(call: &Call) -> &'static str {
    match call {
        Call::Dispose { .. } => "disposed",
        Call::Restore { .. } => "rolled back",
        Call::Cancel => "cancelled",
        _ => "not retained",
    }
}

#[cfg(test)]
mod tests {
    use super::*;

    #[test]
    fn ranks_of_a_hundred() {
        let hundred: Vec<u64> = (1..=100).collect();
        assert_eq!((rank(&hundred, 50), rank(&hundred, 99)), (Some(50), Some(99)));
        assert_eq!((rank(&hundred[..2], 50), rank(&hundred[..2], 99), rank(&[], 50)), (Some(1), Some(2), None));
        assert_eq!((rank(&[7], 50), rank(&hundred[..99], 99)), (Some(7), Some(99)));
    }

    #[test]
    fn names_who_is_missing() {
        let mut pending = Pending::new(Kind::Checkpoint, vec![1, 3], 0);
        pending.ack(Subtask { vertex: 1, index: 1 }, 5);
        assert_eq!(pending.missing().as_deref(), Some("0.0 1.0 1.2"));
        let many = Pending::new(Kind::Checkpoint, vec![40], 0);
        assert!(many.missing().is_some_and(|text| text.ends_with("0.31 +8")));
        for index in 0..3 {
            pending.ack(Subtask { vertex: 1, index }, 6);
        }
        pending.ack(Subtask { vertex: 0, index: 0 }, 7);
        assert_eq!(pending.missing(), None);
        assert_eq!((pending.first_ack, pending.last_ack), (Some(5), Some(7)));
    }
}
