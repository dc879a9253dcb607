//! Copies of state files on a local disk: a restart reads what its machine has put or read last.
use super::{Deletion, Page, Storage, StorageError};
use crate::keys::group_of;
use std::fs::{self, Metadata};
use std::io;
use std::ops::ControlFlow;
use std::path::PathBuf;
use std::time::SystemTime;

/// Bytes before a copy: its length, and a checksum.
const HEAD: usize = 16;

/// A storage with copies in a folder of a local disk. A name is given to one file alone, so no copy is ever stale, and one that a loss of power has damaged is
/// read anew. Each job has a folder of its own. A disk that is full or gone keeps nothing, and nothing fails.
#[derive(Debug)]
pub struct Cached<S> {
    files: S,
    folder: PathBuf,
    most: u64,
}

impl<S: Storage> Cached<S> {
    /// With copies of at most so many bytes.
    pub fn new(files: S, folder: impl Into<PathBuf>, most: u64) -> io::Result<Cached<S>> {
        let folder = folder.into();
        fs::create_dir_all(&folder)?;
        Ok(Cached { files, folder, most })
    }

    fn path(&self, file: u64) -> PathBuf {
        self.folder.join(format!("{file}.copy"))
    }

    fn copy(&self, file: u64) -> Option<Vec<u8>> {
        let mut copy = fs::read(self.path(file)).ok()?;
        let contents = copy.split_off(HEAD.min(copy.len()));
        (copy == checksum(&contents)).then_some(contents)
    }

    fn keep(&self, file: u64, contents: &[u8]) {
        let new = self.folder.join(format!("{file}.{}", std::process::id()));
        let kept =
            fs::write(&new, [&checksum(contents), contents].concat()).and_then(|()| fs::rename(&new, self.path(file)));
        if kept.and_then(|()| self.make_room()).is_err() {
            let _ = fs::remove_file(new); // what is left is written over
        }
    }

    /// Deletes the oldest copies.
    fn make_room(&self) -> io::Result<()> {
        let entry = |it: io::Result<fs::DirEntry>| it.and_then(|it| Ok((it.path(), it.metadata()?)));
        let mut copies = fs::read_dir(&self.folder)?.map(entry).collect::<io::Result<Vec<(PathBuf, Metadata)>>>()?;
        copies.sort_by_key(|(_, it)| it.modified().unwrap_or(SystemTime::UNIX_EPOCH));
        let mut bytes: u64 = copies.iter().map(|(_, it)| it.len()).sum();
        for (path, it) in copies {
            if bytes <= self.most {
                break;
            }
            fs::remove_file(path)?;
            bytes -= it.len();
        }
        Ok(())
    }
}

/// Of the bytes of a file: others under its name are noticed.
pub(crate) fn checksum(contents: &[u8]) -> Vec<u8> {
    [contents.len() as u64, group_of(contents, 1 << 32)].iter().flat_map(|it| it.to_le_bytes()).collect()
}

impl<S: Storage> Storage for Cached<S> {
    fn check(&self) -> Result<(), StorageError> {
        self.files.check()
    }

    fn put(&self, file: u64, contents: &[u8]) -> Result<(), StorageError> {
        self.files.put(file, contents)?;
        self.keep(file, contents);
        Ok(())
    }

    fn get(&self, file: u64) -> Result<Vec<u8>, StorageError> {
        if let Some(contents) = self.copy(file) {
            return Ok(contents);
        }
        let contents = self.files.get(file)?;
        self.keep(file, &contents);
        Ok(contents)
    }

    fn delete(&self, files: &[u64]) -> Result<Vec<Deletion>, StorageError> {
        for file in files {
            let _ = fs::remove_file(self.path(*file)); // one that is left goes with its age
        }
        self.files.delete(files)
    }

    fn pages(&self, most: usize, page: &mut Page<'_>) -> Result<ControlFlow<()>, StorageError> {
        self.files.pages(most, page)
    }
}
