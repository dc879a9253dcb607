//! Jobs that are kept out: the database has their logs, and these can't be replayed. Nothing of them is served or written.
use super::replay::StartError;
use crate::log;
use std::collections::{BTreeMap, HashSet};

/// A job that is kept out, and why.
pub struct Damaged {
    pub name: String,
    pub why: StartError,
}

/// The jobs that are kept out, by their numbers.
#[derive(Default)]
pub struct KeptOut(BTreeMap<i64, Damaged>);

impl KeptOut {
    pub fn add(&mut self, number: i64, name: String, why: StartError) {
        log::error(&format!("job {name} is damaged, and is kept out: {why}"));
        self.0.insert(number, Damaged { name, why });
    }

    pub fn has(&self, number: i64) -> bool {
        self.0.contains_key(&number)
    }

    pub fn is_empty(&self) -> bool {
        self.0.is_empty()
    }

    /// Why the job of this name is kept out.
    pub fn why(&self, name: &str) -> Option<String> {
        self.iter().find(|damaged| damaged.name == name).map(|damaged| damaged.why.to_string())
    }

    pub fn iter(&self) -> impl Iterator<Item = &Damaged> {
        self.0.values()
    }

    /// Forgets a job that was deleted, or all, so that they are tried again.
    pub fn forget(&mut self, number: i64) {
        self.0.remove(&number);
    }

    pub fn clear(&mut self) {
        self.0.clear();
    }

    pub fn retain(&mut self, there: &HashSet<i64>) {
        self.0.retain(|number, _| there.contains(number));
    }

    /// Why the first of them is kept out.
    pub fn into_first(self) -> Option<StartError> {
        self.0.into_values().next().map(|damaged| damaged.why)
    }
}
