//! What the tests of the durable coordinator share: a folder of a test's own, the settings of a job, and its next checkpoint.
#![allow(dead_code)] // each test uses a part
use relkvanu::store::{Options, Store};
use relkvanu::{Answer, Call, Settings};
use std::fs;
use std::path::PathBuf;

pub const SETTINGS: Settings = Settings {
    interval: 10,
    pause: 0,
    at_once: 1,
    timeout: 1 << 30,
    tolerable: 1000,
    retained: 1,
    keep_on_cancel: false,
};

/// How a new job of this shape is opened.
pub fn new_job(shape: &[u64]) -> Options {
    let mut options = Options::new(SETTINGS, shape);
    options.create = true;
    options
}

/// A folder of the test's own, which is removed.
pub struct Place(pub PathBuf);

impl Place {
    pub fn new(name: &str) -> Place {
        let path = std::env::temp_dir().join(format!("relkvanu-{name}-{}", std::process::id()));
        fs::create_dir_all(path.join("state")).unwrap();
        Place(path)
    }

    pub fn state(&self) -> PathBuf {
        self.0.join("state")
    }

    pub fn job(&self) -> PathBuf {
        self.0.join("job.db")
    }
}

impl Drop for Place {
    fn drop(&mut self) {
        let _ = fs::remove_dir_all(&self.0);
    }
}

/// Triggers the checkpoint that is due next.
pub fn triggered(store: &Store) -> u64 {
    let due = store.read(|job| job.due()).unwrap();
    let ticked = store.call(Call::Tick { now: due }).unwrap();
    let Some(Answer::Triggered { id, .. }) = ticked.called() else {
        panic!("{ticked:?}");
    };
    id
}
