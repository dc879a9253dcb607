//! The file of the history, and whether it works.
use super::error::Error;
use super::read::HistoryReader;
use super::tables::Tables;
use crate::disk::{beside, if_there};
use crate::log;
use std::fs;
use std::io::{self, ErrorKind};
use std::path::{Path, PathBuf};
use std::sync::atomic::{AtomicBool, AtomicU64, Ordering};
use std::sync::Arc;

pub struct HistoryFile {
    path: PathBuf,
    works: AtomicBool,
    /// How often the file was set aside: a reader that opened it before has to open it again.
    replaced: AtomicU64,
}

impl HistoryFile {
    pub fn new(path: PathBuf) -> HistoryFile {
        HistoryFile { path, works: AtomicBool::new(true), replaced: AtomicU64::new(0) }
    }

    pub fn path(&self) -> &Path {
        &self.path
    }

    /// Whether the history could be written when that was tried last.
    pub fn works(&self) -> bool {
        self.works.load(Ordering::SeqCst)
    }

    /// Opens the tables, and makes them if they are missing. If they are damaged, sets them aside and makes them anew.
    pub fn open(&self) -> Result<Tables, Error> {
        let opened = Tables::open(&self.path).or_else(|error| {
            self.failed(&error);
            if error.is_damage() {
                Tables::open(&self.path)
            } else {
                Err(error)
            }
        });
        self.works.store(opened.is_ok(), Ordering::SeqCst);
        opened
    }

    /// The history can't be written. If it is damaged, sets it aside.
    pub fn failed(&self, error: &Error) {
        self.works.store(false, Ordering::SeqCst);
        log::warn(&format!("history {}: {error}", self.path.display()));
        if !error.is_damage() {
            return;
        }
        self.replaced.fetch_add(1, Ordering::SeqCst);
        match set_aside(&self.path) {
            Ok(folder) => log::warn(&format!("history: it is made again; the old one is in {}", folder.display())),
            Err(error) => log::warn(&format!("history: it can't be set aside: {error}")),
        }
    }
}

/// Moves an SQLite file, and the files that SQLite keeps beside it, into a new folder beside them. So no file is ever overwritten.
fn set_aside(path: &Path) -> io::Result<PathBuf> {
    let folder = new_folder(path)?;
    for end in ["-wal", "-shm", ""] {
        let from = beside(path, end);
        let name = from.file_name().ok_or(ErrorKind::InvalidInput)?;
        if_there(fs::rename(&from, folder.join(name)))?;
    }
    Ok(folder)
}

/// Makes the first folder of `PATH.bad`, `PATH.bad.2`, `PATH.bad.3` .. that does not exist.
fn new_folder(path: &Path) -> io::Result<PathBuf> {
    for number in 1_u64.. {
        let folder = beside(path, &if number == 1 { ".bad".to_string() } else { format!(".bad.{number}") });
        match fs::create_dir(&folder) {
            Ok(()) => return Ok(folder),
            Err(error) if error.kind() != ErrorKind::AlreadyExists => return Err(error),
            Err(_) => {}
        }
    }
    Err(ErrorKind::AlreadyExists.into())
}

/// The reader of requests. It is opened at the first read, and again after the file was set aside.
pub struct Door {
    file: Arc<HistoryFile>,
    opened: Option<(u64, HistoryReader)>,
}

impl Door {
    pub fn new(file: Arc<HistoryFile>) -> Door {
        Door { file, opened: None }
    }

    pub fn reader(&mut self) -> Result<&HistoryReader, Error> {
        let replaced = self.file.replaced.load(Ordering::SeqCst);
        let opened = match self.opened.take() {
            Some((when, reader)) if when == replaced => reader,
            _ => HistoryReader::open(&self.file.path)?,
        };
        Ok(&self.opened.insert((replaced, opened)).1)
    }
}
