//! Which files of a subtask a later checkpoint may use again.
use crate::answer::Choice;
use std::collections::BTreeMap;

/// The files that a subtask has acknowledged, by keys of its state, for incremental checkpoints. It is made anew when the task starts.
///
/// ```
/// use relkvanu::{Choice, Lineage};
/// let mut files = Lineage::of(6, [("a", 61)].into());
/// files.acked(7, [("a", 61), ("b", 71)].into());
/// assert_eq!(files.reusable(Choice::Checkpoint(6)).keys().collect::<Vec<_>>(), [&"a"]);
/// assert!(files.reusable(Choice::Fresh).is_empty());
/// ```
#[derive(Clone, Debug, Default)]
pub struct Lineage<K> {
    acked: BTreeMap<u64, BTreeMap<K, u64>>,
    none: BTreeMap<K, u64>,
}

impl<K: Ord> Lineage<K> {
    /// Of a task that begins without files.
    pub fn new() -> Lineage<K> {
        Lineage { acked: BTreeMap::new(), none: BTreeMap::new() }
    }

    /// Of a task that begins with these files of this record.
    pub fn of(record: u64, files: BTreeMap<K, u64>) -> Lineage<K> {
        Lineage { acked: [(record, files)].into(), none: BTreeMap::new() }
    }

    /// The subtask has acknowledged this record with these files, fresh ones and others.
    pub fn acked(&mut self, record: u64, files: BTreeMap<K, u64>) {
        self.acked.insert(record, files);
    }

    /// What the acknowledgement of a barrier with this base may name again: nothing without a base, and of a record that this task has not acknowledged. What
    /// has changed since the base is in fresh files. Forgets records before it.
    pub fn reusable(&mut self, base: Choice) -> &BTreeMap<K, u64> {
        let (Choice::Checkpoint(id) | Choice::Savepoint(id)) = base else { return &self.none };
        self.acked.retain(|record, _| *record >= id);
        self.acked.get(&id).unwrap_or(&self.none)
    }
}
