//! The messages that share a commit, and the answers that were given before under their keys, read for all at once.
use super::message::{Key, Message};
use super::Jobs;
use crate::log;
use crate::store::{DbError, Keyed, Store};
use std::collections::HashMap;

/// What was answered under the keys of a batch, by job and key, or why that can't be read.
#[derive(Default)]
pub struct Answered(HashMap<(i64, String), Result<Keyed, String>>);

impl Answered {
    /// Reads what the database has under the keys of these messages.
    pub fn read(messages: &[Message], jobs: &Jobs, store: &mut dyn Store) -> Result<Answered, DbError> {
        let keys: Vec<(i64, String)> = messages.iter().filter_map(|message| key_of(message, jobs)).collect();
        if keys.is_empty() {
            return Ok(Answered::default());
        }
        let found = store.keyed(&keys)?.into_iter().map(|it| {
            let told = it.found.map_err(|why| why.to_string());
            if let Err(why) = &told {
                log::error(&format!("the answer under a key of job number {} can't be read: {why}", it.job));
            }
            ((it.job, it.key), told)
        });
        Ok(Answered(found.collect()))
    }

    pub fn get(&self, job: i64, key: &str) -> Option<Result<Keyed, String>> {
        self.0.get(&(job, key.to_string())).cloned()
    }
}

pub fn calls_of(message: &Message) -> usize {
    match message {
        Message::Calls { calls, .. } => calls.len(),
        _ => 0,
    }
}

/// The job and key under which a message may have been answered.
fn key_of(message: &Message, jobs: &Jobs) -> Option<(i64, String)> {
    let Message::Calls { job, key: Some(Key { name, .. }), .. } = message else {
        return None;
    };
    Some((jobs.number(job)?, name.clone()))
}
