//! State files that are there already, or do not fit into memory; the folder of a store as any storage; and what the job is.
use super::phase::said_why;
use super::{c_path, Panic, Store, StoreError, StoreErrorKind};
use crate::coordinator::Settings;
use crate::storage::{Deletion, Page, Storage, StorageError, StoredFile, PAGE};
use relkvanu_sys as sys;
use std::ffi::{c_int, c_void};
use std::fs::{self, File, OpenOptions};
use std::io::{self, Read};
use std::ops::ControlFlow;
use std::os::unix::fs::OpenOptionsExt;
use std::panic::{catch_unwind, resume_unwind, AssertUnwindSafe};
use std::path::{Path, PathBuf};

/// The descriptor of paths that are relative to the working folder.
const AT_FDCWD: c_int = -100;
/// Of an opening: no symbolic link is followed.
const O_NOFOLLOW: c_int = 0o400_000;

/// A source that is read for the library: what it failed or panicked with goes on to the caller.
struct Reading<R> {
    source: R,
    failed: Option<io::Error>,
    panicked: Option<Panic>,
}

impl<R: Read> Reading<R> {
    fn next(&mut self, to: &mut [u8]) -> io::Result<usize> {
        loop {
            match self.source.read(to) {
                Err(why) if why.kind() == io::ErrorKind::Interrupted => {}
                told => return told,
            }
        }
    }
}

unsafe extern "C" fn next<R: Read>(with: *mut c_void, to: *mut c_void, room: usize) -> i64 {
    // SAFETY: `with` is the reading of `put_from`, in its thread.
    let it = unsafe { &mut *with.cast::<Reading<R>>() };
    // SAFETY: the place has room for so many bytes, and zeros are bytes.
    let to = unsafe {
        to.cast::<u8>().write_bytes(0, room);
        std::slice::from_raw_parts_mut(to.cast::<u8>(), room)
    };
    match catch_unwind(AssertUnwindSafe(|| it.next(to))) {
        Ok(Ok(len)) => i64::try_from(len).unwrap_or(-1),
        Ok(Err(why)) => {
            it.failed = Some(why);
            -1
        }
        Err(panic) => {
            it.panicked = Some(panic);
            -1
        }
    }
}

impl Store {
    /// As [`put`](Self::put), of all that a reader gives: for a file that does not fit into memory. The reader makes no call of the store. If it panics, so
    /// does this; after that as after an error the task forfeits the name.
    pub fn put_from<R: Read>(&self, file: u64, source: R) -> Result<(), StoreError> {
        let mut with = Reading { source, failed: None, panicked: None };
        let at: *mut Reading<R> = &mut with;
        // SAFETY: the reading outlives the call, which calls `next` with it in this thread.
        let status = unsafe { sys::store::relkvanu_store_put_from(self.at(), file, next::<R>, at.cast()) };
        if let Some(panic) = with.panicked {
            resume_unwind(panic);
        }
        self.told_of_put(status).map_err(|why| match (why.kind, with.failed) {
            (StoreErrorKind::NotPut, Some(failed)) => StoreError { message: failed.to_string(), ..why },
            _ => why,
        })
    }

    /// As [`put`](Self::put), of a file that exists: it is synced, and gets the number as a second name. Both are one file, so nobody writes it afterwards, and
    /// the caller removes the first name when it likes. `NotPut` if it is on another file system, which [`put_from`](Self::put_from) can copy from, or is a
    /// symbolic link or another thing than a file: the message says which.
    pub fn put_link(&self, file: u64, path: &Path) -> Result<(), StoreError> {
        let path = c_path(path)?;
        // SAFETY: the path outlives the call.
        let status = unsafe { sys::store::relkvanu_store_put_link(self.at(), file, AT_FDCWD, path.as_ptr()) };
        self.told_of_put(status)
    }

    fn told_of_put(&self, status: c_int) -> Result<(), StoreError> {
        match status {
            sys::store::RELKVANU_STORE_NOT_PUT => Err(StoreError { kind: StoreErrorKind::NotPut, message: said_why() }),
            other => self.check(other),
        }
    }

    /// The settings and the shape that the job has now: for after an opening whose report says `settings_differ`. Makes an image.
    pub fn job(&self) -> Result<(Settings, Vec<u64>), StoreError> {
        self.outside()?;
        // SAFETY: all zero is such a struct.
        let mut settings: sys::relkvanu_settings = unsafe { std::mem::zeroed() };
        let mut shape = vec![0; sys::store::RELKVANU_STORE_MOST_VERTICES];
        let mut len = shape.len();
        // SAFETY: the places are this function's own, and the list has as many as is said.
        self.check(unsafe { sys::store::relkvanu_store_job(self.at(), &mut settings, shape.as_mut_ptr(), &mut len) })?;
        shape.truncate(len);
        Ok(((&settings).into(), shape))
    }
}

impl From<StoreError> for StorageError {
    fn from(why: StoreError) -> StorageError {
        match why.kind {
            StoreErrorKind::Present => StorageError::Present,
            StoreErrorKind::NoMemory => StorageError::NoMemory,
            StoreErrorKind::Storage => StorageError::OtherJob,
            _ => StorageError::Failed(io::Error::other(why)),
        }
    }
}

impl Store {
    /// The path of the folder that is open, whatever is mounted or renamed to the path that it was opened by.
    fn open_folder(&self) -> Result<PathBuf, StorageError> {
        let folder = self.folder().ok_or(StorageError::NotThere)?;
        Ok(PathBuf::from(format!("/proc/self/fd/{folder}")))
    }
}

/// The state files of its folder. A runner deletes by [`Store::discard_files`] and [`Store::sweep`] instead.
impl Storage for Store {
    fn check(&self) -> Result<(), StorageError> {
        self.open_folder().map(drop)
    }

    fn put(&self, file: u64, contents: &[u8]) -> Result<(), StorageError> {
        Ok(Store::put(self, file, contents)?)
    }

    fn get(&self, file: u64) -> Result<Vec<u8>, StorageError> {
        let path = self.open_folder()?.join(file.to_string());
        let mut contents = Vec::new();
        match OpenOptions::new().read(true).custom_flags(O_NOFOLLOW).open(path) {
            Err(why) if why.kind() == io::ErrorKind::NotFound => return Err(StorageError::Absent),
            opened => opened?.read_to_end(&mut contents)?,
        };
        Ok(contents)
    }

    fn delete(&self, files: &[u64]) -> Result<Vec<Deletion>, StorageError> {
        let folder = self.open_folder()?;
        let delete = |file: &u64| match fs::remove_file(folder.join(file.to_string())) {
            Ok(()) => Deletion::Deleted,
            Err(why) if why.kind() == io::ErrorKind::NotFound => Deletion::Missing,
            Err(_) => Deletion::Undeleted,
        };
        let told = files.iter().map(delete).collect();
        File::open(&folder)?.sync_all()?;
        Ok(told)
    }

    fn pages(&self, most: usize, page: &mut Page<'_>) -> Result<ControlFlow<()>, StorageError> {
        let mut found = Vec::new();
        for entry in fs::read_dir(self.open_folder()?)? {
            let entry = entry?;
            let number =
                entry.file_name().to_str().and_then(|it| it.parse().ok().filter(|file: &u64| file.to_string() == it));
            if let Some(file) = number {
                found.push(StoredFile { file, bytes: entry.metadata()?.len() });
            }
        }
        let most = if most == 0 { PAGE } else { most.min(PAGE) };
        Ok(found.chunks(most).try_for_each(page))
    }
}
