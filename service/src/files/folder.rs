//! A folder of files, held open.
use super::{Found, Gone, Pages, Stop, Storage};
use crate::log;
use rustix::fd::OwnedFd;
use rustix::fs::{openat, renameat, statat, unlinkat, AtFlags, Dir, FileType, Mode, OFlags};
use rustix::io::Errno;
use std::fs::{File, TryLockError};
use std::io::{Read, Write};
use std::os::unix::fs::MetadataExt;
use std::path::{Path, PathBuf};

pub struct Folder {
    path: PathBuf,
    folder: File,
    /// The marker's name, and the open file.
    marker: Option<(String, File)>,
}

impl Folder {
    pub fn open(path: &Path) -> Result<Folder, Stop> {
        let folder = File::open(path).map_err(|error| Stop::Again(format!("{}: {error}", path.display())))?;
        Ok(Folder { path: path.to_path_buf(), folder, marker: None })
    }

    fn failed(&self, error: impl Into<std::io::Error>) -> Stop {
        Stop::Again(format!("{}: {}", self.path.display(), error.into()))
    }

    fn unread(&self, error: Errno) -> Stop {
        Stop::Again(format!("{} is not listed to its end: {}", self.path.display(), std::io::Error::from(error)))
    }

    fn held(&self) -> Result<&(String, File), Stop> {
        self.marker.as_ref().ok_or_else(|| Stop::Again(format!("{}: no marker is held", self.path.display())))
    }

    fn delete_one(&self, name: &str) -> Gone {
        match unlinkat(&self.folder, name, AtFlags::empty()) {
            Ok(()) => Gone::Deleted,
            Err(Errno::NOENT) => Gone::Absent,
            Err(error) => Gone::Failed(std::io::Error::from(error).to_string()),
        }
    }

    /// Writes a file whole, or not at all. While it is written it has a name that no marker has: no job has this sign in its name.
    fn write_whole(&self, name: &str, text: &str) -> std::io::Result<()> {
        let new = format!("{name}~");
        self.write_in_place(&new, text)?;
        renameat(&self.folder, &new, &self.folder, name)?;
        sync(&self.folder)
    }

    fn write_in_place(&self, name: &str, text: &str) -> std::io::Result<()> {
        let mut file = open_in(&self.folder, name, OFlags::WRONLY | OFlags::CREATE | OFlags::TRUNC)?;
        file.write_all(text.as_bytes())?;
        file.sync_all()
    }
}

impl Storage for Folder {
    fn title(&self) -> String {
        self.path.display().to_string()
    }

    fn title_of(&self, name: &str) -> String {
        name.to_string()
    }

    fn is_bucket(&self) -> bool {
        false
    }

    fn beginning(&self, with: &str) -> Result<Vec<String>, Stop> {
        let mut found = Vec::new();
        for entry in Dir::read_from(&self.folder).map_err(|error| self.unread(error))? {
            let entry = entry.map_err(|error| self.unread(error))?;
            found.extend(entry.file_name().to_str().ok().filter(|name| name.starts_with(with)).map(str::to_string));
        }
        Ok(found)
    }

    fn read(&self, name: &str) -> Result<Option<String>, Stop> {
        let mut text = String::new();
        let opened = open_in(&self.folder, name, OFlags::RDONLY).map_err(std::io::Error::from);
        Ok(opened.and_then(|mut file| file.read_to_string(&mut text)).ok().map(|_| text))
    }

    fn write(&self, name: &str, text: &str) -> Result<(), Stop> {
        self.write_whole(name, text).map_err(|error| self.failed(error))
    }

    fn note(&self, name: &str, text: &str) -> Result<(), Stop> {
        self.write_in_place(name, text).map_err(|error| self.failed(error))
    }

    fn remove(&self, name: &str) -> Result<(), Stop> {
        unlinkat(&self.folder, name, AtFlags::empty()).map_err(|error| self.failed(error))
    }

    fn hold(&mut self, marker: &str) -> Result<Option<String>, Stop> {
        let mut text = Vec::new();
        let mut file = match open_marker(&self.folder, marker) {
            Ok(file) => file,
            Err(Errno::NOENT) => return Ok(None),
            Err(error) => return Err(self.failed(error)),
        };
        file.read_to_end(&mut text).map_err(|error| self.failed(error))?;
        self.marker = Some((marker.to_string(), file));
        Ok(Some(String::from_utf8_lossy(&text).into_owned()))
    }

    /// If its file system has locks.
    fn lock(&self) -> Result<bool, Stop> {
        match self.held()?.1.try_lock() {
            Ok(()) => Ok(true),
            Err(TryLockError::WouldBlock) => Ok(false),
            Err(TryLockError::Error(error))
                if matches!(error.raw_os_error(), Some(libc::ENOLCK | libc::EOPNOTSUPP)) =>
            {
                log::warn(&format!("{} has no locks: see to it that there is one cleaner", self.path.display()));
                Ok(true)
            }
            Err(TryLockError::Error(error)) => Err(self.failed(error)),
        }
    }

    fn is_marked(&self) -> Result<bool, Stop> {
        let (name, marker) = self.held()?;
        let held = marker.metadata().map_err(|error| self.failed(error))?;
        match statat(&self.folder, name, AtFlags::SYMLINK_NOFOLLOW) {
            Ok(found) => Ok(found.st_ino == held.ino()),
            Err(Errno::NOENT) => Ok(false),
            Err(error) => Err(self.failed(error)),
        }
    }

    fn has_any(&self, names: &[String]) -> Result<bool, Stop> {
        let is_there = |name| !matches!(statat(&self.folder, name, AtFlags::SYMLINK_NOFOLLOW), Err(Errno::NOENT));
        Ok(names.iter().any(is_there))
    }

    fn bytes(&self, name: &str) -> Option<u64> {
        let found = statat(&self.folder, name, AtFlags::empty()).ok()?;
        u64::try_from(found.st_size).ok()
    }

    fn delete(&self, names: &[String]) -> Result<Vec<Gone>, Stop> {
        let gone = names.iter().map(|name| self.delete_one(name)).collect();
        let synced = sync(&self.folder);
        synced.map_err(|error| Stop::Again(format!("{} is not synced: {error}", self.path.display())))?;
        Ok(gone)
    }

    fn pages<'a>(&'a self, prefix: &'a str) -> Result<Box<dyn Pages + 'a>, Stop> {
        let entries = Dir::read_from(&self.folder).map_err(|error| self.unread(error))?;
        Ok(Box::new(Entries { folder: self, prefix, entries }))
    }
}

/// The listing of a folder. Folders and symbolic links are left out.
struct Entries<'a> {
    folder: &'a Folder,
    prefix: &'a str,
    entries: Dir,
}

impl Entries<'_> {
    /// Some file systems don't tell in their listing.
    fn is_file(&self, name: &str, told: FileType) -> Result<bool, Stop> {
        if told != FileType::Unknown {
            return Ok(told == FileType::RegularFile);
        }
        match statat(&self.folder.folder, name, AtFlags::SYMLINK_NOFOLLOW) {
            Ok(found) => Ok(FileType::from_raw_mode(found.st_mode) == FileType::RegularFile),
            Err(Errno::NOENT) => Ok(false),
            Err(error) => Err(self.folder.unread(error)),
        }
    }
}

impl Pages for Entries<'_> {
    fn next(&mut self, most: usize) -> Result<Vec<Found>, Stop> {
        let mut page = Vec::new();
        while page.len() < most {
            let Some(entry) = self.entries.read() else {
                break;
            };
            let entry = entry.map_err(|error| self.folder.unread(error))?;
            let name = entry.file_name().to_str().ok().filter(|name| name.starts_with(self.prefix)).map(str::to_string);
            let Some(name) = name else {
                continue;
            };
            if self.is_file(&name, entry.file_type())? {
                page.push(Found { name, bytes: None });
            }
        }
        Ok(page)
    }
}

fn open_in(folder: &File, name: &str, flags: OFlags) -> Result<File, Errno> {
    let flags = flags | OFlags::CLOEXEC | OFlags::NOFOLLOW;
    openat(folder, name, flags, Mode::from_raw_mode(0o644)).map(|file| File::from(OwnedFd::from(file)))
}

/// NFS locks only a file that is open for writing.
fn open_marker(folder: &File, name: &str) -> Result<File, Errno> {
    match open_in(folder, name, OFlags::RDWR) {
        Err(Errno::ACCESS | Errno::ROFS) => open_in(folder, name, OFlags::RDONLY),
        opened => opened,
    }
}

/// Syncs a folder. Some file systems, as FUSE's, can't.
fn sync(folder: &File) -> std::io::Result<()> {
    match folder.sync_all() {
        Err(error) if error.raw_os_error() == Some(libc::EINVAL) => Ok(()),
        synced => synced,
    }
}
