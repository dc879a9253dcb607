//! What an operator does with manifests (`Options::manifests`): a job that lost its file is made again from its storage folder, and a record is carried
//! elsewhere. `include/relkvanu_store.h` says how, and docs/RECOVERY.md.
use super::error::{check, text};
use super::{c_path, StoreError, StoreErrorKind};
use relkvanu_sys::store as sys;
use std::ffi::{c_int, c_void};
use std::path::Path;

// bindings/generate makes the records
/// A record of a storage folder, as its manifest says it.
#[derive(Clone, Copy, Debug, PartialEq, Eq)]
pub struct Record {
    pub id: u64,
    /// Ok; Damaged: the manifest is damaged; NotAStore: another version wrote it. Then all below is 0.
    pub damage: Option<StoreErrorKind>,
    /// Otherwise it is a checkpoint.
    pub is_savepoint: bool,
    /// Its job is the one that the marker of the folder names, or there is no marker.
    pub is_of_job: bool,
    /// Recover, or import, begins from it.
    pub is_next: bool,
    /// When the manifest was, in ms of the wall clock since 1970.
    pub written: u64,
    pub files: u64,
    pub bytes: u64,
    /// Files that are not there, or have another length.
    pub missing: u64,
}

impl Record {
    fn of(it: &sys::relkvanu_store_record) -> Record {
        Record {
            id: it.id,
            damage: damage_of(it),
            is_savepoint: it.is_savepoint,
            is_of_job: it.is_of_job,
            is_next: it.is_next,
            written: it.written,
            files: it.files,
            bytes: it.bytes,
            missing: it.missing,
        }
    }
}

/// The record of which [`export`] has made a folder.
#[derive(Clone, Copy, Debug, PartialEq, Eq)]
pub struct Carried {
    pub record: u64,
    /// Otherwise it is a checkpoint.
    pub is_savepoint: bool,
    pub files: u64,
    pub bytes: u64,
}

impl Carried {
    fn of(it: &sys::relkvanu_store_carried) -> Carried {
        Carried { record: it.record, is_savepoint: it.is_savepoint, files: it.files, bytes: it.bytes }
    }
}

/// What a job was made of.
#[derive(Clone, Debug, PartialEq, Eq)]
pub struct Recovered {
    /// The choice, which has the number that it had.
    pub record: u64,
    /// Otherwise it is a checkpoint.
    pub is_savepoint: bool,
    pub files: u64,
    pub bytes: u64,
    /// Manifests of the job that are damaged or lack files.
    pub passed: u64,
    /// That live on beside it, under new numbers. A list of records after the first opening has them.
    pub savepoints: u64,
    /// Of the job.
    pub term: u64,
    pub next_name: u64,
    /// The least one that a later record gets.
    pub next_number: u64,
    pub set_aside: String,
}

impl Recovered {
    fn of(it: &sys::relkvanu_store_recovered) -> Recovered {
        Recovered {
            record: it.record,
            is_savepoint: it.is_savepoint,
            files: it.files,
            bytes: it.bytes,
            passed: it.passed,
            savepoints: it.savepoints,
            term: it.term,
            next_name: it.next_name,
            next_number: it.next_number,
            set_aside: text(&it.message),
        }
    }
}
// bindings/generate: end

/// `Damaged`, or `NotAStore`: a later version wrote it.
fn damage_of(it: &sys::relkvanu_store_record) -> Option<StoreErrorKind> {
    (it.status != sys::RELKVANU_STORE_OK as u32).then(|| StoreErrorKind::of(it.status as c_int))
}

/// What is wrong with a file of a record.
#[derive(Clone, Copy, Debug, PartialEq, Eq)]
#[non_exhaustive]
pub enum FileFault {
    Missing,
    /// It has another length than the manifest says.
    Length,
    /// It has another checksum.
    Changed,
    Unreadable,
}

impl FileFault {
    fn of(fault: u32) -> FileFault {
        match fault {
            sys::RELKVANU_STORE_FILE_MISSING => FileFault::Missing,
            sys::RELKVANU_STORE_FILE_LENGTH => FileFault::Length,
            sys::RELKVANU_STORE_FILE_CHANGED => FileFault::Changed,
            _ => FileFault::Unreadable,
        }
    }
}

/// A record whose files were read.
#[derive(Clone, Debug, PartialEq, Eq)]
pub struct Checked {
    pub record: Record,
    /// Files of which the manifest has no checksum.
    pub unknown: u64,
    pub faults: Vec<(u64, FileFault)>,
}

/// The records of a storage folder that have a manifest, in the order of their numbers. It needs no job, and may be called at any time.
pub fn records(folder: &Path) -> Result<Vec<Record>, StoreError> {
    unsafe extern "C" fn note(with: *mut c_void, it: *const sys::relkvanu_store_record) -> bool {
        // SAFETY: `with` is the list below, and the library gives a record.
        let (found, it) = unsafe { (&mut *with.cast::<Vec<Record>>(), &*it) };
        found.push(Record::of(it));
        true
    }
    let folder = c_path(folder)?;
    let mut found: Vec<Record> = Vec::new();
    let mut message = [0; sys::RELKVANU_STORE_MESSAGE];
    // SAFETY: all that is passed outlives the call.
    let status = unsafe {
        let with: *mut Vec<Record> = &mut found;
        sys::relkvanu_store_records(folder.as_ptr(), note, with.cast(), message.as_mut_ptr(), message.len())
    };
    check(status, &message).map(|()| found)
}

/// What [`check_records`] has been told: the records, and what is wrong with the files of the one that comes next.
#[derive(Default)]
struct Checking {
    found: Vec<Checked>,
    faults: Vec<(u64, FileFault)>,
}

/// The same, and reads the files: each one of which a manifest has a checksum, once.
pub fn check_records(folder: &Path) -> Result<Vec<Checked>, StoreError> {
    unsafe extern "C" fn note(with: *mut c_void, it: *const sys::relkvanu_store_record) -> bool {
        // SAFETY: `with` is what is told below, and the library gives a record.
        let (told, it) = unsafe { (&mut *with.cast::<Checking>(), &*it) };
        told.found.push(Checked {
            record: Record::of(it),
            unknown: it.unknown,
            faults: std::mem::take(&mut told.faults),
        });
        true
    }
    unsafe extern "C" fn note_fault(with: *mut c_void, _: u64, file: u64, fault: u32) -> bool {
        // SAFETY: `with` is what is told below.
        let told = unsafe { &mut *with.cast::<Checking>() };
        told.faults.push((file, FileFault::of(fault)));
        true
    }
    let folder = c_path(folder)?;
    let mut told = Checking::default();
    let mut message = [0; sys::RELKVANU_STORE_MESSAGE];
    // SAFETY: all that is passed outlives the call.
    let status = unsafe {
        let (with, message, room): (*mut Checking, _, _) = (&mut told, message.as_mut_ptr(), message.len());
        sys::relkvanu_store_check_records(folder.as_ptr(), note, note_fault, with.cast(), message, room)
    };
    check(status, &message).map(|()| told.found)
}

/// What a function has made of a job.
fn recovered(make: impl FnOnce(*mut sys::relkvanu_store_recovered) -> c_int) -> Result<Recovered, StoreError> {
    // SAFETY: all zero is such a struct.
    let mut it: sys::relkvanu_store_recovered = unsafe { std::mem::zeroed() };
    check(make(&mut it), &it.message)?;
    Ok(Recovered::of(&it))
}

fn carried(make: impl FnOnce(*mut sys::relkvanu_store_carried) -> c_int) -> Result<Carried, StoreError> {
    // SAFETY: all zero is such a struct.
    let mut it: sys::relkvanu_store_carried = unsafe { std::mem::zeroed() };
    check(make(&mut it), &it.message)?;
    Ok(Carried::of(&it))
}

// bindings/generate makes what is made of manifests
/// Makes the job at path again, whose file was lost, from the manifests in its storage folder: from the last record that was the
/// choice and has all its files, or from the record with this number; 0: any. The files stay where they are. Each task and
/// process of the old job has been told to end. Records, terms and names that the new job gives out are above all that the old
/// one told anybody, and an old file that comes back to path is refused. Savepoints that have all their files live on under new
/// numbers. What the other records have is garbage to the next sweep: so is the state of a record that was complete and has no
/// manifest.
pub fn recover(path: &Path, folder: &Path, record: u64) -> Result<Recovered, StoreError> {
    let (path, folder) = (c_path(path)?, c_path(folder)?);
    recovered(|told| {
        // SAFETY: all that is passed outlives the call.
        unsafe { sys::relkvanu_store_recover(path.as_ptr(), folder.as_ptr(), record, told) }
    })
}

/// Makes the folder `to` of a record that has a manifest in a storage folder, with its manifest and its files: of the one that
/// recover would begin from, or of the record with this number. It needs no job, and may run beside one, whose tasks take no
/// part: it links the files, so that they stay whatever the job deletes, or copies them to another file system. If the record
/// ends meanwhile, it takes the next one. The folder is made beside `to`, as to.part, and gets its name once all is on the disk.
/// So killed at any moment it has done nothing, or all.
pub fn export(folder: &Path, record: u64, to: &Path) -> Result<Carried, StoreError> {
    let (folder, to) = (c_path(folder)?, c_path(to)?);
    carried(|told| {
        // SAFETY: all that is passed outlives the call.
        unsafe { sys::relkvanu_store_export(folder.as_ptr(), record, to.as_ptr(), told) }
    })
}

/// Makes another job, at path over a folder that is made, of a record in `from`: an exported folder, or the storage folder of a
/// job, which may run. It exports the record to the folder, and then does what recover does. The job has an identity of its own,
/// and each goes its own way. Killed at any moment it has done nothing, a part that the same call finishes, or all. Statuses as
/// those of the two.
pub fn import(from: &Path, record: u64, path: &Path, folder: &Path) -> Result<Recovered, StoreError> {
    let (from, path, folder) = (c_path(from)?, c_path(path)?, c_path(folder)?);
    recovered(|told| {
        // SAFETY: all that is passed outlives the call.
        unsafe { sys::relkvanu_store_import(from.as_ptr(), record, path.as_ptr(), folder.as_ptr(), told) }
    })
}

/// Takes a record over, with its files. A storage folder's old job is fenced first, before the record is chosen: its file is
/// refused from then on, and a process that still has it puts and deletes nothing more. If `folder` is `from`, its files stay in
/// place: a job that has a marker there keeps its identity, as by recover; a job over an exported folder gets one of its own.
/// Otherwise it is import, after which the files leave `from`, but for those that another record there has, and last of all the
/// manifest. An exported folder that is empty then is removed. Other records of `from` stay there, without a job. If import has
/// made the job already, the same record leaves `from` in the same way, and its old job is fenced first too.
pub fn claim(from: &Path, record: u64, path: &Path, folder: &Path) -> Result<Recovered, StoreError> {
    let (from, path, folder) = (c_path(from)?, c_path(path)?, c_path(folder)?);
    recovered(|told| {
        // SAFETY: all that is passed outlives the call.
        unsafe { sys::relkvanu_store_claim(from.as_ptr(), record, path.as_ptr(), folder.as_ptr(), told) }
    })
}

/// Puts a backup of backup back in the place of a job's file, which may be damaged, lost, or a later one. Each process and task
/// of the job has ended, also on other hosts. The new file begins from the choice of the backup if its files are all in the
/// storage folder, or else from the last savepoint of which they are; above all terms of the backup, and above the name of each
/// file in the folder. What was there is set aside beside it, in a folder aside-XXXXXX with a copy of the marker, whose path
/// message gets. No engine starts while there is no file at path. Killed at any moment it has done nothing, or all, or there is
/// no file at path: make the same call again before an engine starts. What was set aside may then be in two folders. Until an
/// engine opens the job, the files that were set aside go back in its place, and last of all the marker. READ docs/DURABLE-
/// OPERATION.md, Back up, first: sinks are told of numbers of records once more.
pub fn put_back(backup: &Path, path: &Path, folder: &Path) -> Result<Recovered, StoreError> {
    let (backup, path, folder) = (c_path(backup)?, c_path(path)?, c_path(folder)?);
    recovered(|told| {
        // SAFETY: all that is passed outlives the call.
        unsafe { sys::relkvanu_store_put_back(backup.as_ptr(), path.as_ptr(), folder.as_ptr(), told) }
    })
}
// bindings/generate: end
