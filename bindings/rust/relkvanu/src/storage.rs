//! Where a job's state files are: a trait that an engine implements for its own storage (an object store, say), and a folder
//! (`include/relkvanu_storage.h`). A file is whole or not there, and durable before a task acknowledges it. It counts as deleted only in a
//! storage that is there, and that is the job's.
//!
//! A storage of your own, over a client with puts, gets, deletions and listings. Here a map stands for the client of an object store:
//! ```
//! use relkvanu::storage::{Deletion, Page, Storage, StorageError, StoredFile};
//! use std::{collections::BTreeMap, ops::ControlFlow, sync::Mutex};
//!
//! struct Bucket(Mutex<BTreeMap<u64, Vec<u8>>>);
//!
//! impl Storage for Bucket {
//!     fn check(&self) -> Result<(), StorageError> {
//!         Ok(()) // reads the marker, an object with the job's identity: `NotThere`, `OtherJob`
//!     }
//!     fn put(&self, file: u64, contents: &[u8]) -> Result<(), StorageError> {
//!         match self.0.lock().unwrap().insert(file, contents.to_vec()) {
//!             Some(_) => Err(StorageError::Present), // in S3 a put with `If-None-Match: *`
//!             None => Ok(()),
//!         }
//!     }
//!     fn get(&self, file: u64) -> Result<Vec<u8>, StorageError> {
//!         self.0.lock().unwrap().get(&file).cloned().ok_or(StorageError::Absent)
//!     }
//!     fn delete(&self, files: &[u64]) -> Result<Vec<Deletion>, StorageError> {
//!         let was_there = |file| self.0.lock().unwrap().remove(file).is_some();
//!         Ok(files.iter().map(|it| if was_there(it) { Deletion::Deleted } else { Deletion::Missing }).collect())
//!     }
//!     fn pages(&self, most: usize, page: &mut Page<'_>) -> Result<ControlFlow<()>, StorageError> {
//!         let file = |(file, it): (&u64, &Vec<u8>)| StoredFile { file: *file, bytes: it.len() as u64 };
//!         let all: Vec<StoredFile> = self.0.lock().unwrap().iter().map(file).collect(); // `page` may delete
//!         Ok(all.chunks(if most == 0 { 1000 } else { most }).try_for_each(page))
//!     }
//! }
//! ```
mod cached;

pub(crate) use cached::checksum;
pub use cached::Cached;

use relkvanu_sys::storage as sys;
use std::error::Error;
use std::ffi::{c_int, c_void, CString};
use std::fmt;
use std::io;
use std::marker::PhantomData;
use std::ops::ControlFlow;
use std::os::unix::ffi::OsStrExt;
use std::panic::{catch_unwind, resume_unwind, AssertUnwindSafe};
use std::path::Path;
use std::ptr;
use std::slice;

/// No page of a listing has more files.
pub const PAGE: usize = sys::RELKVANU_STORAGE_PAGE;

/// Why a file was not put, read, deleted or listed. It may be there, or not.
#[derive(Debug)]
pub enum StorageError {
    /// An option of the folder.
    BadArgument,
    NoMemory,
    /// The storage is not there, or it has no marker: a wrong path, or one that is not mounted. No file of it counts as deleted.
    NotThere,
    /// Its marker is that of another job.
    OtherJob,
    /// A file has this number already, whole or in part. No number is given to two files.
    Present,
    /// No file has this number.
    Absent,
    /// A new job needs a storage without state files.
    NotEmpty,
    /// A read, write, sync or request.
    Failed(io::Error),
}

impl fmt::Display for StorageError {
    fn fmt(&self, f: &mut fmt::Formatter<'_>) -> fmt::Result {
        match self {
            StorageError::BadArgument => f.write_str("an option of the storage is bad"),
            StorageError::NoMemory => f.write_str("there is no memory"),
            StorageError::NotThere => f.write_str("the storage is not there, or has no marker"),
            StorageError::OtherJob => f.write_str("the storage is that of another job"),
            StorageError::Present => f.write_str("a file has this number already"),
            StorageError::Absent => f.write_str("no file has this number"),
            StorageError::NotEmpty => f.write_str("a new job needs a storage without state files"),
            StorageError::Failed(why) => why.fmt(f),
        }
    }
}

impl Error for StorageError {
    fn source(&self) -> Option<&(dyn Error + 'static)> {
        match self {
            StorageError::Failed(why) => Some(why),
            _ => None,
        }
    }
}

impl From<io::Error> for StorageError {
    fn from(why: io::Error) -> StorageError {
        match why.kind() {
            io::ErrorKind::OutOfMemory => StorageError::NoMemory,
            _ => StorageError::Failed(why),
        }
    }
}

/// What a status of the C functions says. `errno` is that of the function that has just returned it.
fn result(status: c_int) -> Result<(), StorageError> {
    Err(match status {
        sys::RELKVANU_STORAGE_OK => return Ok(()),
        sys::RELKVANU_STORAGE_BAD_ARGUMENT => StorageError::BadArgument,
        sys::RELKVANU_STORAGE_NO_MEMORY => StorageError::NoMemory,
        sys::RELKVANU_STORAGE_NOT_THERE => StorageError::NotThere,
        sys::RELKVANU_STORAGE_OTHER_JOB => StorageError::OtherJob,
        sys::RELKVANU_STORAGE_PRESENT => StorageError::Present,
        sys::RELKVANU_STORAGE_ABSENT => StorageError::Absent,
        sys::RELKVANU_STORAGE_NOT_EMPTY => StorageError::NotEmpty,
        _ => StorageError::Failed(io::Error::last_os_error()),
    })
}

/// The status of an error.
fn status(why: &StorageError) -> c_int {
    match why {
        StorageError::BadArgument => sys::RELKVANU_STORAGE_BAD_ARGUMENT,
        StorageError::NoMemory => sys::RELKVANU_STORAGE_NO_MEMORY,
        StorageError::NotThere => sys::RELKVANU_STORAGE_NOT_THERE,
        StorageError::OtherJob => sys::RELKVANU_STORAGE_OTHER_JOB,
        StorageError::Present => sys::RELKVANU_STORAGE_PRESENT,
        StorageError::Absent => sys::RELKVANU_STORAGE_ABSENT,
        StorageError::NotEmpty => sys::RELKVANU_STORAGE_NOT_EMPTY,
        StorageError::Failed(_) => sys::RELKVANU_STORAGE_FAILED,
    }
}

/// What became of a file of a deletion.
#[derive(Clone, Copy, Debug, PartialEq, Eq)]
pub enum Deletion {
    /// It may be there still.
    Undeleted,
    /// It was there, and is gone for good.
    Deleted,
    /// It was not there, and the storage is.
    Missing,
}

/// A file of a listing.
#[derive(Clone, Copy, Debug, PartialEq, Eq)]
pub struct StoredFile {
    pub file: u64,
    pub bytes: u64,
}

/// Takes a page of a listing, and says whether it shall go on. It may delete these files.
pub type Page<'a> = dyn FnMut(&[StoredFile]) -> ControlFlow<()> + 'a;

/// State files by their numbers. Threads share it, and processes and hosts use one at once.
pub trait Storage: Send + Sync {
    /// Whether it is there, and has the job's marker: [`StorageError::NotThere`], [`StorageError::OtherJob`].
    fn check(&self) -> Result<(), StorageError>;

    /// Makes a file. When it returns `Ok`, a loss of power does not take the file. After an error the file may be there: the task forfeits
    /// the name and declines, and a sweep deletes what is left. [`StorageError::Present`] if the number is taken.
    fn put(&self, file: u64, contents: &[u8]) -> Result<(), StorageError>;

    /// Reads a file: [`StorageError::Absent`].
    fn get(&self, file: u64) -> Result<Vec<u8>, StorageError>;

    /// Deletes files for good, also what is there in part. Returns what became of each. After an error all may be there.
    fn delete(&self, files: &[u64]) -> Result<Vec<Deletion>, StorageError>;

    /// Calls `page` with all files, also with those that were put in part, at most so many at a time; 0: as many as it likes, at most
    /// [`PAGE`]. A number may come twice: of a file, and of a part. `Break` if a page has ended the listing.
    fn pages(&self, most: usize, page: &mut Page<'_>) -> Result<ControlFlow<()>, StorageError>;
}

/// How a folder is opened: [`FolderOptions::new`] and the fields that differ.
#[derive(Clone, Debug, Default)]
pub struct FolderOptions {
    /// Makes the marker, in a folder without state files.
    pub is_new: bool,
    /// What a file's name has before its number, and after it. Any bytes but `/`, at most 200 together.
    pub prefix: Vec<u8>,
    pub suffix: Vec<u8>,
    /// The name and the text of the marker, if they are not those of the job.
    pub marker: Option<(Vec<u8>, Vec<u8>)>,
}

impl FolderOptions {
    pub fn new() -> FolderOptions {
        FolderOptions::default()
    }
}

/// A folder, which stays open: no call reaches a folder that is mounted or renamed to its path later. No symbolic link in it is followed.
pub struct Folder {
    it: sys::relkvanu_storage,
}

// SAFETY: any number of threads may call the functions of the header, from any thread, until the close.
unsafe impl Send for Folder {}
// SAFETY: as above.
unsafe impl Sync for Folder {}

impl fmt::Debug for Folder {
    fn fmt(&self, f: &mut fmt::Formatter<'_>) -> fmt::Result {
        f.debug_struct("Folder").finish_non_exhaustive()
    }
}

impl Drop for Folder {
    fn drop(&mut self) {
        // SAFETY: nobody borrows the folder.
        unsafe { sys::relkvanu_storage_close_folder(&mut self.it) }
    }
}

fn c_text(bytes: &[u8]) -> Result<CString, StorageError> {
    CString::new(bytes).map_err(|_| StorageError::BadArgument)
}

impl Folder {
    /// Opens the folder of a job, which has its marker, or makes the marker.
    pub fn open(path: &Path, job: &str, how: &FolderOptions) -> Result<Folder, StorageError> {
        let (path, job) = (c_text(path.as_os_str().as_bytes())?, c_text(job.as_bytes())?);
        let (prefix, suffix) = (c_text(&how.prefix)?, c_text(&how.suffix)?);
        let marker = how.marker.as_ref();
        let name = marker.map(|(name, _)| c_text(name)).transpose()?;
        let text = marker.map(|(_, text)| c_text(text)).transpose()?;
        let at = |it: &Option<CString>| it.as_ref().map_or(ptr::null(), |it| it.as_ptr());
        let options = sys::relkvanu_storage_options {
            flags: if how.is_new { sys::RELKVANU_STORAGE_NEW } else { 0 },
            path: path.as_ptr(),
            job: job.as_ptr(),
            prefix: prefix.as_ptr(),
            suffix: suffix.as_ptr(),
            marker_name: at(&name),
            marker_text: at(&text),
            reserved: [0; 4],
        };
        // SAFETY: all zero is a storage that is not open.
        let mut it: sys::relkvanu_storage = unsafe { std::mem::zeroed() };
        // SAFETY: the options and what they point to outlive the call, which keeps none of them.
        result(unsafe { sys::relkvanu_storage_open_folder(&mut it, &options) })?;
        Ok(Folder { it })
    }
}

/// The functions of a folder that is open.
const OPEN: &str = "an open folder has all functions";

impl Storage for Folder {
    fn check(&self) -> Result<(), StorageError> {
        let check = self.it.check.expect(OPEN);
        // SAFETY: the folder is open.
        result(unsafe { check(self.it.with) })
    }

    fn put(&self, file: u64, contents: &[u8]) -> Result<(), StorageError> {
        let put = self.it.put.expect(OPEN);
        // SAFETY: the folder is open, and the contents outlive the call.
        result(unsafe { put(self.it.with, file, contents.as_ptr().cast(), contents.len()) })
    }

    fn get(&self, file: u64) -> Result<Vec<u8>, StorageError> {
        let (get, mut len) = (self.it.get.expect(OPEN), 0);
        // SAFETY: the folder is open, and the buffer has no room.
        result(unsafe { get(self.it.with, file, ptr::null_mut(), 0, &mut len) })?;
        let room = usize::try_from(len).map_err(|_| StorageError::NoMemory)?;
        let mut contents = Vec::new();
        contents.try_reserve_exact(room).map_err(|_| StorageError::NoMemory)?;
        contents.resize(room, 0);
        // SAFETY: the buffer has as many bytes as is said.
        result(unsafe { get(self.it.with, file, contents.as_mut_ptr().cast(), room, &mut len) })?;
        Ok(contents)
    }

    fn delete(&self, files: &[u64]) -> Result<Vec<Deletion>, StorageError> {
        let mut told = Vec::new();
        told.try_reserve_exact(files.len()).map_err(|_| StorageError::NoMemory)?;
        told.resize(files.len(), 0);
        let delete = self.it.delete_files.expect(OPEN);
        // SAFETY: both lists have as many elements as is said.
        result(unsafe { delete(self.it.with, files.as_ptr(), files.len(), told.as_mut_ptr()) })?;
        Ok(told.into_iter().map(deletion).collect())
    }

    fn pages(&self, most: usize, page: &mut Page<'_>) -> Result<ControlFlow<()>, StorageError> {
        let list = self.it.list.expect(OPEN);
        let mut turn = Turn { page, panic: None };
        // SAFETY: the folder is open, and the turn outlives the call.
        let status = unsafe { list(self.it.with, most, take_page, (&mut turn as *mut Turn<'_, '_>).cast()) };
        if let Some(panic) = turn.panic {
            resume_unwind(panic);
        }
        match status {
            sys::RELKVANU_STORAGE_ENDED => Ok(ControlFlow::Break(())),
            other => result(other).map(|()| ControlFlow::Continue(())),
        }
    }
}

fn deletion(told: u8) -> Deletion {
    match told {
        sys::RELKVANU_STORAGE_DELETED => Deletion::Deleted,
        sys::RELKVANU_STORAGE_MISSING => Deletion::Missing,
        _ => Deletion::Undeleted,
    }
}

/// A listing of a folder that is under way. What a page panics with goes on to the caller.
struct Turn<'a, 'b> {
    page: &'a mut Page<'b>,
    panic: Option<Box<dyn std::any::Any + Send>>,
}

unsafe extern "C" fn take_page(with: *mut c_void, files: *const sys::relkvanu_storage_file, len: usize) -> bool {
    // SAFETY: `with` is the turn of the listing, and the page has so many files.
    let (turn, found) = unsafe { (&mut *with.cast::<Turn<'_, '_>>(), slice::from_raw_parts(files, len)) };
    let page: Vec<StoredFile> = found.iter().map(|it| StoredFile { file: it.file, bytes: it.bytes }).collect();
    match catch_unwind(AssertUnwindSafe(|| (turn.page)(&page))) {
        Ok(flow) => flow.is_continue(),
        Err(panic) => {
            turn.panic = Some(panic);
            false
        }
    }
}

/// A storage as functions of C, for as long as it is borrowed.
pub(crate) struct Functions<'a> {
    it: sys::relkvanu_storage,
    storage: PhantomData<&'a dyn Storage>,
}

impl<'a> Functions<'a> {
    pub(crate) fn of(storage: &'a &'a dyn Storage) -> Functions<'a> {
        let it = sys::relkvanu_storage {
            with: (storage as *const &dyn Storage).cast_mut().cast(),
            check: Some(check),
            put: Some(put),
            get: Some(get),
            delete_files: Some(delete_files),
            list: Some(list),
            reserved: [0; 4],
        };
        Functions { it, storage: PhantomData }
    }

    pub(crate) fn at(&self) -> *const sys::relkvanu_storage {
        &self.it
    }
}

/// A list of C, whose pointer may be null if it is empty.
///
/// # Safety
///
/// It has so many elements, and stays as it is.
unsafe fn elements<'a, T>(first: *const T, len: usize) -> &'a [T] {
    match len {
        0 => &[],
        // SAFETY: the caller's condition.
        _ => unsafe { slice::from_raw_parts(first, len) },
    }
}

/// Calls a storage. A panic is a failure to the functions of C.
///
/// # Safety
///
/// `with` is the pointer of [`Functions`] that is still borrowed.
unsafe fn tried(with: *mut c_void, make: impl FnOnce(&dyn Storage) -> Result<c_int, StorageError>) -> c_int {
    // SAFETY: the caller's condition.
    let storage = unsafe { *with.cast_const().cast::<&dyn Storage>() };
    match catch_unwind(AssertUnwindSafe(|| make(storage))) {
        Ok(Ok(told)) => told,
        Ok(Err(why)) => status(&why),
        Err(_) => sys::RELKVANU_STORAGE_FAILED,
    }
}

unsafe extern "C" fn check(with: *mut c_void) -> c_int {
    // SAFETY: the pointer is that of the functions.
    unsafe { tried(with, |storage| storage.check().map(|()| sys::RELKVANU_STORAGE_OK)) }
}

unsafe extern "C" fn put(with: *mut c_void, file: u64, contents: *const c_void, len: usize) -> c_int {
    // SAFETY: the contents have as many bytes as is said.
    let contents = unsafe { elements(contents.cast::<u8>(), len) };
    // SAFETY: the pointer is that of the functions.
    unsafe { tried(with, |storage| storage.put(file, contents).map(|()| sys::RELKVANU_STORAGE_OK)) }
}

unsafe extern "C" fn get(with: *mut c_void, file: u64, contents: *mut c_void, room: usize, len: *mut u64) -> c_int {
    let make = |storage: &dyn Storage| {
        let found = storage.get(file)?;
        // SAFETY: the buffer has as many bytes as is said, and the place of the length is the caller's.
        unsafe {
            if room != 0 {
                ptr::copy_nonoverlapping(found.as_ptr(), contents.cast(), found.len().min(room));
            }
            *len = found.len() as u64;
        }
        Ok(sys::RELKVANU_STORAGE_OK)
    };
    // SAFETY: the pointer is that of the functions.
    unsafe { tried(with, make) }
}

unsafe extern "C" fn delete_files(with: *mut c_void, files: *const u64, len: usize, outcomes: *mut u8) -> c_int {
    // SAFETY: the outcomes have as many places. Zero is RELKVANU_STORAGE_UNDELETED.
    unsafe { ptr::write_bytes(outcomes, sys::RELKVANU_STORAGE_UNDELETED, len) };
    let make = |storage: &dyn Storage| {
        // SAFETY: the list has as many files as is said.
        let told = storage.delete(unsafe { elements(files, len) })?;
        for place in 0..len {
            let outcome = match told.get(place) {
                Some(Deletion::Deleted) => sys::RELKVANU_STORAGE_DELETED,
                Some(Deletion::Missing) => sys::RELKVANU_STORAGE_MISSING,
                Some(Deletion::Undeleted) | None => sys::RELKVANU_STORAGE_UNDELETED,
            };
            // SAFETY: the outcomes have as many places.
            unsafe { *outcomes.add(place) = outcome };
        }
        Ok(sys::RELKVANU_STORAGE_OK)
    };
    // SAFETY: the pointer is that of the functions.
    unsafe { tried(with, make) }
}

unsafe extern "C" fn list(
    with: *mut c_void,
    most: usize,
    page: sys::relkvanu_storage_page,
    with_page: *mut c_void,
) -> c_int {
    let mut each = |files: &[StoredFile]| {
        let found: Vec<_> =
            files.iter().map(|it| sys::relkvanu_storage_file { file: it.file, bytes: it.bytes }).collect();
        // SAFETY: the page has as many files as is said, and the pointer is the caller's own.
        match unsafe { page(with_page, found.as_ptr(), found.len()) } {
            true => ControlFlow::Continue(()),
            false => ControlFlow::Break(()),
        }
    };
    let make = |storage: &dyn Storage| {
        Ok(match storage.pages(most, &mut each)? {
            ControlFlow::Continue(()) => sys::RELKVANU_STORAGE_OK,
            ControlFlow::Break(()) => sys::RELKVANU_STORAGE_ENDED,
        })
    };
    // SAFETY: the pointer is that of the functions.
    unsafe { tried(with, make) }
}
