//! A storage: a folder, its errors, odd names and pages; and a store over a storage of the engine. What a folder does is in `store/tests`.
#![cfg(feature = "store")]
mod common;

use common::{new_job, triggered, Place};
use relkvanu::storage::{Deletion, Folder, FolderOptions, Page, Storage, StorageError, StoredFile, PAGE};
use relkvanu::store::{Store, StoreErrorKind, NOW};
use relkvanu::{Answer, Call};
use std::alloc::{GlobalAlloc, Layout, System};
use std::cell::Cell;
use std::collections::{BTreeMap, BTreeSet};
use std::ffi::OsStr;
use std::fs;
use std::ops::ControlFlow;
use std::os::unix::ffi::OsStrExt;
use std::panic::{catch_unwind, AssertUnwindSafe};
use std::ptr;
use std::sync::Mutex;
use std::thread;

/// Refuses all memory to the thread that asks it to.
struct Refusing;

thread_local! {
    static REFUSES: Cell<bool> = const { Cell::new(false) };
}

// SAFETY: it is the system's, or has no memory.
unsafe impl GlobalAlloc for Refusing {
    unsafe fn alloc(&self, layout: Layout) -> *mut u8 {
        match REFUSES.get() {
            true => ptr::null_mut(),
            // SAFETY: the caller's conditions.
            false => unsafe { System.alloc(layout) },
        }
    }

    unsafe fn dealloc(&self, at: *mut u8, layout: Layout) {
        // SAFETY: the caller's conditions.
        unsafe { System.dealloc(at, layout) }
    }
}

#[global_allocator]
static MEMORY: Refusing = Refusing;

fn without_memory<T>(make: impl FnOnce() -> T) -> T {
    REFUSES.set(true);
    let told = make();
    REFUSES.set(false);
    told
}

fn opened(place: &Place, prefix: &[u8], suffix: &[u8]) -> Folder {
    let how = FolderOptions { is_new: true, prefix: prefix.to_vec(), suffix: suffix.to_vec(), marker: None };
    Folder::open(&place.state(), "orders", &how).unwrap()
}

fn listed(storage: &dyn Storage, most: usize) -> BTreeMap<u64, u64> {
    let mut found = BTreeMap::new();
    let mut note = |files: &[StoredFile]| {
        assert!(!files.is_empty() && (most == 0 || files.len() <= most));
        for it in files {
            *found.entry(it.file).or_default() += it.bytes;
        }
        ControlFlow::Continue(())
    };
    assert!(storage.pages(most, &mut note).unwrap().is_continue());
    found
}

#[test]
fn openings_that_are_refused() {
    let place = Place::new("whose");
    let (new, again) = (FolderOptions { is_new: true, ..FolderOptions::new() }, FolderOptions::new());
    let open = |job: &str, how: &FolderOptions| Folder::open(&place.state(), job, how);
    assert!(matches!(open("orders", &again), Err(StorageError::NotThere)));
    let folder = open("orders", &new).unwrap();
    assert!(matches!(open("others", &again), Err(StorageError::OtherJob)));
    let marker = Some((b".relkvanu-storage".to_vec(), b"relkvanu: state files of the job orders\n".to_vec()));
    open("others", &FolderOptions { marker, ..again }).unwrap();
    fs::remove_file(place.state().join(".relkvanu-storage")).unwrap();
    assert!(matches!(folder.check(), Err(StorageError::NotThere)));
    assert!(matches!(folder.delete(&[7]), Err(StorageError::NotThere)));
    fs::write(place.state().join("7.part"), "").unwrap();
    assert!(matches!(open("orders", &new), Err(StorageError::NotEmpty)));
    for (job, prefix) in [("a\0b", &b""[..]), ("a", b"a/"), ("a", &[b'x'; 201])] {
        let how = FolderOptions { prefix: prefix.to_vec(), ..FolderOptions::new() };
        assert!(matches!(open(job, &how), Err(StorageError::BadArgument)));
    }
}

#[test]
fn files_with_unusual_names() {
    let place = Place::new("files");
    let (prefix, suffix) = (b"a \xff%s-", b"\n\"");
    let folder = opened(&place, prefix, suffix);
    folder.put(7, b"state").unwrap();
    folder.put(u64::MAX, b"").unwrap();
    let five = [prefix, &b"5"[..], suffix].concat();
    fs::create_dir(place.state().join(OsStr::from_bytes(&five))).unwrap();
    assert!(matches!(folder.put(7, b"other"), Err(StorageError::Present)));
    assert_eq!(folder.get(7).unwrap(), b"state");
    assert!(matches!(folder.get(8), Err(StorageError::Absent)));
    assert!(matches!(folder.get(5), Err(StorageError::Failed(why)) if why.raw_os_error().is_some()));
    assert_eq!(listed(&folder, 0), BTreeMap::from([(7, 5), (u64::MAX, 0)]));
    let told = folder.delete(&[5, 7, 8, u64::MAX]).unwrap();
    assert_eq!(told, [Deletion::Undeleted, Deletion::Deleted, Deletion::Missing, Deletion::Deleted]);
    assert!(listed(&folder, 0).is_empty() && folder.delete(&[]).unwrap().is_empty());
}

#[test]
fn pages() {
    let place = Place::new("pages");
    let folder = opened(&place, b"", b"");
    (0..50).for_each(|file| folder.put(file, b"x").unwrap());
    for most in [0, 7, PAGE] {
        assert_eq!(listed(&folder, most).len(), 50);
    }
    let mut seen = 0;
    let mut end = |files: &[StoredFile]| {
        seen += files.len();
        ControlFlow::Break(())
    };
    assert!(folder.pages(10, &mut end).unwrap().is_break() && seen == 10);
    let told = catch_unwind(AssertUnwindSafe(|| folder.pages(10, &mut |_: &[StoredFile]| panic!("planted"))));
    assert!(told.is_err() && listed(&folder, 0).len() == 50);
}

#[test]
fn memory_that_runs_out() {
    let place = Place::new("memory");
    let folder = opened(&place, b"", b"");
    without_memory(|| folder.put(7, b"state")).unwrap();
    assert!(matches!(without_memory(|| folder.get(7)), Err(StorageError::NoMemory)));
    assert!(matches!(without_memory(|| folder.delete(&[7])), Err(StorageError::NoMemory)));
    assert_eq!(folder.get(7).unwrap(), b"state");
    assert_eq!(folder.delete(&[7]).unwrap(), [Deletion::Deleted]);
}

/// A storage of an engine: objects in memory.
#[derive(Default)]
struct Objects {
    objects: Mutex<BTreeMap<u64, Vec<u8>>>,
    fault: Mutex<Option<fn() -> StorageError>>,
    undeleted: Mutex<BTreeSet<u64>>,
}

impl Objects {
    fn fails(&self, fault: Option<fn() -> StorageError>) {
        *self.fault.lock().unwrap() = fault;
    }

    fn files(&self) -> Vec<u64> {
        self.objects.lock().unwrap().keys().copied().collect()
    }
}

impl Storage for Objects {
    fn check(&self) -> Result<(), StorageError> {
        self.fault.lock().unwrap().map_or(Ok(()), |why| Err(why()))
    }

    fn put(&self, file: u64, contents: &[u8]) -> Result<(), StorageError> {
        self.check()?;
        match self.objects.lock().unwrap().insert(file, contents.to_vec()) {
            Some(_) => Err(StorageError::Present),
            None => Ok(()),
        }
    }

    fn get(&self, file: u64) -> Result<Vec<u8>, StorageError> {
        let objects = self.objects.lock().unwrap();
        objects.get(&file).cloned().ok_or(StorageError::Absent)
    }

    fn delete(&self, files: &[u64]) -> Result<Vec<Deletion>, StorageError> {
        self.check()?;
        let (mut objects, undeleted) = (self.objects.lock().unwrap(), self.undeleted.lock().unwrap());
        Ok(files
            .iter()
            .map(|file| match undeleted.contains(file) {
                true => Deletion::Undeleted,
                false => objects.remove(file).map_or(Deletion::Missing, |_| Deletion::Deleted),
            })
            .collect())
    }

    fn pages(&self, _: usize, page: &mut Page<'_>) -> Result<ControlFlow<()>, StorageError> {
        self.check()?;
        let found: Vec<StoredFile> = self.files().into_iter().map(|file| StoredFile { file, bytes: 0 }).collect();
        for some in found.chunks(2) {
            if page(some).is_break() {
                return Ok(ControlFlow::Break(()));
            }
        }
        Ok(ControlFlow::Continue(()))
    }
}

/// A job of one task, and its term.
fn job_of(place: &Place) -> (Store, u64) {
    let store = Store::open(&place.job(), &new_job(&[1])).unwrap();
    let term = store.report().names.term;
    (store, term)
}

/// A checkpoint of one task, with a file of a name that it reserves and puts.
fn complete(store: &Store, storage: &dyn Storage, term: u64) -> u64 {
    let file = store.reserve(term, 1).unwrap().start;
    storage.put(file, b"state").unwrap();
    let id = triggered(store);
    let ack = Call::AckIn { term, now: NOW, id, subtask: (0, 0), fresh: &[file], reused: &[] };
    let told = store.call(ack).unwrap().called();
    assert!(matches!(told, Some(Answer::AckCompleted { .. })));
    file
}

#[test]
fn a_store_over_a_storage_of_the_engine() {
    let place = Place::new("store");
    let objects = Objects::default();
    let (store, term) = job_of(&place);
    let first = complete(&store, &objects, term);
    let last = complete(&store, &objects, term);
    let given_up: Vec<u64> = store.reserve(term, 3).unwrap().collect();
    for file in &given_up {
        objects.put(*file, b"state").unwrap();
    }
    store.forfeit(term, &given_up[..2]).unwrap();
    objects.put(1000, b"of another job").unwrap();

    objects.fails(Some(|| StorageError::NotThere));
    assert_eq!(store.sweep_storage(&objects).unwrap_err().kind, StoreErrorKind::Storage);
    objects.fails(None);
    objects.undeleted.lock().unwrap().insert(given_up[0]);
    assert_eq!(store.sweep_storage(&objects).unwrap(), 1);
    assert_eq!(objects.files(), [first, last, given_up[0], given_up[2], 1000]);
    assert_eq!((store.counts().swept, store.counts().unissued), (1, 1));
    objects.undeleted.lock().unwrap().clear();
    assert_eq!(store.sweep_storage(&objects).unwrap(), 0);

    thread::scope(|scope| {
        let discarder = scope.spawn(|| store.discard_storage(0, &objects));
        while objects.files().contains(&first) {
            thread::yield_now();
        }
        store.stop();
        discarder.join().unwrap().unwrap();
    });
    assert_eq!(objects.files(), [last, given_up[2], 1000]);
}

#[test]
fn a_discarder_ends_at_another_job() {
    let place = Place::new("other");
    let objects = Objects::default();
    let (store, term) = job_of(&place);
    let first = complete(&store, &objects, term);
    complete(&store, &objects, term);
    objects.fails(Some(|| StorageError::OtherJob));
    let why = store.discard_storage(0, &objects).unwrap_err();
    assert_eq!(why.kind, StoreErrorKind::Storage);
    assert!(objects.files().contains(&first));
}
