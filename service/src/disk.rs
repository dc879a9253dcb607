//! Files and folders as commands make them: their user alone reads them, and what is said to be there is on the disk.
use std::fs::{DirBuilder, File, OpenOptions};
use std::io::{self, ErrorKind};
use std::os::unix::fs::{DirBuilderExt, OpenOptionsExt};
use std::path::{Path, PathBuf};
use thiserror::Error;

/// What the system says of a file.
#[derive(Debug, Error)]
#[error("{}: {why}", .path.display())]
pub struct FileError {
    pub path: PathBuf,
    pub why: io::Error,
}

/// What the system says of this file.
pub fn of(path: &Path) -> impl Fn(io::Error) -> FileError + '_ {
    |why| FileError { path: path.to_path_buf(), why }
}

/// The path with this end.
pub fn beside(path: &Path, end: &str) -> PathBuf {
    let mut name = path.as_os_str().to_owned();
    name.push(end);
    PathBuf::from(name)
}

/// The folder that a path is in.
pub fn folder_of(path: &Path) -> &Path {
    path.parent().filter(|it| !it.as_os_str().is_empty()).unwrap_or(Path::new("."))
}

/// Syncs a file or a folder.
pub fn sync(path: &Path) -> Result<(), FileError> {
    File::open(path).and_then(|it| it.sync_all()).map_err(of(path))
}

/// Syncs the folder of a file.
pub fn sync_folder(path: &Path) -> Result<(), FileError> {
    sync(folder_of(path))
}

/// Makes a folder, which may be there. Returns whether it was not.
pub fn make_folder(path: &Path) -> io::Result<bool> {
    match DirBuilder::new().mode(0o700).create(path) {
        Err(why) if why.kind() == ErrorKind::AlreadyExists => Ok(false),
        made => made.map(|()| true),
    }
}

/// How a file is made to be written.
pub fn private() -> OpenOptions {
    let mut options = OpenOptions::new();
    options.write(true).create(true).mode(0o600);
    options
}

/// What came of removing or moving a file, which need not be there.
pub fn if_there(done: io::Result<()>) -> io::Result<()> {
    match done {
        Err(why) if why.kind() == ErrorKind::NotFound => Ok(()),
        done => done,
    }
}
