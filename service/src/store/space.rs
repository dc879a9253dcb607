//! How much room an SQLite file takes, and its disk has.
use super::rows::{Disk, Space};
use crate::disk::beside;
use std::io::{ErrorKind, Result};
use std::path::Path;

/// The room of an SQLite file with its write-ahead log.
pub fn space_of(path: &Path) -> Result<Space> {
    let length = |end: &str| std::fs::metadata(beside(path, end)).map(|it| it.len());
    let log = match length("-wal") {
        Err(error) if error.kind() == ErrorKind::NotFound => 0,
        told => told?,
    };
    Ok(Space { bytes: length("")? + log, disk: Some(disk(path)?) })
}

/// The disk of a file, and how many bytes a user without privileges may still write to it.
fn disk(path: &Path) -> Result<Disk> {
    let told = rustix::fs::statvfs(path)?;
    Ok(Disk { size: told.f_blocks * told.f_frsize, free: told.f_bavail * told.f_frsize })
}
