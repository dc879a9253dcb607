//! What stands for a topic with transactions: files that are prepared, durable and not visible, and then published. Each step may be made again.
use std::fs::{self, File};
use std::io::{
    self,
    ErrorKind::{AlreadyExists, NotFound},
};
use std::path::PathBuf;
use std::sync::{Mutex, PoisonError};

pub struct Target {
    pub folder: PathBuf,
    pub prepared: Mutex<Vec<u64>>, // and not yet published
}

impl Target {
    fn file(&self, id: u64, state: &str) -> PathBuf {
        self.folder.join(format!("{id}.{state}"))
    }

    /// Returns all that is prepared and was not published.
    pub fn prepare(&self, id: u64, text: &str) -> io::Result<Vec<u64>> {
        let mut prepared = self.prepared.lock().unwrap_or_else(PoisonError::into_inner); // what was published is durable then
        if self.file(id, "published").try_exists()? {
            return Err(io::Error::new(
                AlreadyExists,
                format!("{id} was published before: the job is another one, or has gone back to a backup"),
            ));
        }
        fs::write(self.file(id, "prepared"), text)?;
        File::open(self.file(id, "prepared"))?.sync_all()?;
        File::open(&self.folder)?.sync_all()?;
        prepared.push(id);
        Ok(prepared.clone())
    }

    pub fn publish(&self, up_to: u64) -> io::Result<()> {
        let mut prepared = self.prepared.lock().unwrap_or_else(PoisonError::into_inner);
        for &id in prepared.iter().filter(|&&id| id <= up_to) {
            match fs::rename(self.file(id, "prepared"), self.file(id, "published")) {
                Err(why) if why.kind() == NotFound => fs::metadata(self.file(id, "published")).map(drop)?, // published before. If not, it is lost
                told => told?,
            }
        }
        prepared.retain(|&id| id > up_to);
        File::open(&self.folder)?.sync_all()
    }

    /// Begins with what a record had prepared, and publishes it: perhaps that was not told. All else that was prepared is given up.
    pub fn begin(&self, prepared: Vec<u64>) -> io::Result<()> {
        *self.prepared.lock().unwrap_or_else(PoisonError::into_inner) = prepared;
        self.publish(u64::MAX)?;
        for entry in fs::read_dir(&self.folder)? {
            let path = entry?.path();
            if path.extension().is_some_and(|it| it == "prepared") {
                fs::remove_file(path)?;
            }
        }
        Ok(())
    }
}
