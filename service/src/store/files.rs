//! The files of an SQLite database: what a start does before SQLite opens them, and whether they are still those that were opened.
use super::error::DbError;
use crate::disk::{beside, of, private};
use std::fs::{self, File};
use std::io::{self, ErrorKind};
use std::os::unix::fs::{FileExt, MetadataExt};
use std::path::{Path, PathBuf};

const PIECE: usize = 1 << 20;

/// Makes the database's file, which only its owner may read, if there is none. Returns its path without symbolic links, by which SQLite
/// names the files beside it.
pub fn make_file(path: &Path) -> io::Result<PathBuf> {
    private().open(path)?;
    fs::canonicalize(path)
}

/// Writes the bytes of a write-ahead log again, and syncs them.
///
/// After a sync that failed, Linux takes the log's pages as written, though they are not on the disk. What is committed later is chained to
/// them: a loss of power would take it all.
pub fn write_again(log: &Path) -> io::Result<()> {
    let file = match File::options().read(true).write(true).open(log) {
        Err(error) if error.kind() == ErrorKind::NotFound => return Ok(()),
        opened => opened?,
    };
    let (mut piece, mut at) = (vec![0; PIECE], 0);
    loop {
        let length = file.read_at(&mut piece, at)?;
        if length == 0 {
            return file.sync_all();
        }
        file.write_all_at(&piece[..length], at)?;
        at += length as u64;
    }
}

/// The database and its write-ahead log, as they were opened.
pub struct Opened {
    files: [(PathBuf, Identity); 2],
}

/// The device and the number of a file.
type Identity = (u64, u64);

impl Opened {
    /// What the paths name now. An error says which file is not there.
    pub fn now(path: &Path) -> Result<Opened, DbError> {
        let named = |path: PathBuf| identity(&path).map(|it| (path, it));
        Ok(Opened { files: [named(path.to_path_buf())?, named(beside(path, "-wal"))?] })
    }

    /// Whether the paths still name these files. If not, another program has replaced or deleted one, and what is committed
    /// from now on is lost with it. SQLite's own lock does not prevent that: it ends when any part of this process closes the file.
    pub fn check(&self) -> Result<(), DbError> {
        self.files.iter().try_for_each(|(path, opened)| match identity(path)? {
            found if found == *opened => Ok(()),
            _ => Err(DbError::Unfit { path: path.clone(), why: "another program has replaced this file".to_string() }),
        })
    }
}

fn identity(path: &Path) -> Result<Identity, DbError> {
    fs::metadata(path).map(|it| (it.dev(), it.ino())).map_err(|why| of(path)(why).into())
}

#[cfg(test)]
mod tests {
    use super::*;

    #[test]
    fn a_file_that_was_replaced_is_seen() -> io::Result<()> {
        let folder = std::env::temp_dir().join(format!("relkvanu-files-{}", std::process::id()));
        fs::create_dir_all(&folder)?;
        let path = make_file(&folder.join("x.db"))?;
        let log = beside(&path, "-wal");
        write_again(&log)?;
        assert!(Opened::now(&path).is_err_and(|why| why.to_string().contains("x.db-wal")));
        let bytes: Vec<u8> = (0..PIECE + 100).map(|place| (place % 251) as u8).collect();
        fs::write(&log, &bytes)?;
        write_again(&log)?;
        assert_eq!(fs::read(&log)?, bytes);
        let opened = Opened::now(&path).map_err(io::Error::other)?;
        assert!(opened.check().is_ok());
        fs::write(folder.join("other"), b"")?;
        fs::rename(folder.join("other"), &log)?;
        assert!(opened.check().is_err_and(|why| why.to_string().contains("replaced")));
        fs::remove_file(&log)?;
        assert!(opened.check().is_err());
        fs::remove_dir_all(&folder)
    }
}
