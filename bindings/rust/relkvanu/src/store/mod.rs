//! A durable coordinator: one SQLite file for each job (`include/relkvanu_store.h`).
mod calls;
mod error;
mod files;
mod next;
mod opening;
mod phase;
pub mod records;
mod whole;

pub use calls::{Made, More, Outcome};
pub use error::{CallError, StoreError, StoreErrorKind};
pub use next::{Awaited, Next};
pub use opening::{Options, Report, Step};
pub use phase::{why, JobPhase, Phase, StopFailed};
pub use whole::{Ending, Part, Past, Restored, Whole};

use crate::answer::{self, Garbage, RunningTerm};
use crate::call::Call;
use crate::coordinator::Coordinator;
use crate::fault::{done, Fault};
use crate::job::Job;
use crate::locked;
use crate::storage::{Functions, Storage};
use calls::{outcome_of, List};
use error::text;
use opening::step;
use relkvanu_sys as sys;
use std::collections::HashMap;
use std::ffi::{c_int, c_void, CString};
use std::fmt;
use std::ops::Range;
use std::os::fd::{BorrowedFd, RawFd};
use std::os::unix::ffi::OsStrExt;
use std::panic::{catch_unwind, resume_unwind, AssertUnwindSafe};
use std::path::Path;
use std::ptr::{self, NonNull};
use std::sync::Mutex;
use std::thread::{self, ThreadId};

/// The moment of a call that the store shall choose: that of its clock, which never jumps.
pub const NOW: u64 = sys::store::RELKVANU_STORE_NOW;

/// What a closure panicked with.
type Panic = Box<dyn std::any::Any + Send>;

/// What a submit became: the outcomes of its calls, or why they were not committed.
pub type Completion = (u64, Result<Vec<Result<Made, Fault>>, StoreError>);

/// A durable coordinator. Threads share it; its drop closes it.
///
/// ```
/// fn is_shared<T: Send + Sync>() {}
/// is_shared::<relkvanu::store::Store>();
/// ```
#[derive(Debug)]
pub struct Store {
    store: NonNull<sys::store::relkvanu_store>,
    report: Report,
    submits: Mutex<Submits>,
    reader: Mutex<Option<ThreadId>>, // who is in a read
}

#[derive(Default)]
struct Submits {
    last: u64,
    lists: HashMap<u64, List>,
}

impl fmt::Debug for Submits {
    fn fmt(&self, f: &mut fmt::Formatter<'_>) -> fmt::Result {
        write!(f, "{} submits", self.lists.len())
    }
}

// SAFETY: any number of threads may call the functions of the header, from any thread, until the close.
unsafe impl Send for Store {}
// SAFETY: as above.
unsafe impl Sync for Store {}

impl Drop for Store {
    fn drop(&mut self) {
        // SAFETY: nobody borrows the store. The close waits for each submit, whose lists are dropped after it.
        unsafe { sys::store::relkvanu_store_close(self.store.as_ptr()) }
    }
}

fn c_path(path: &Path) -> Result<CString, StoreError> {
    CString::new(path.as_os_str().as_bytes())
        .map_err(|why| StoreError { kind: StoreErrorKind::BadArgument, message: why.to_string() })
}

impl Store {
    /// Recovers the job at the path, or makes one if the options say so.
    pub fn open(path: &Path, options: &Options) -> Result<Store, StoreError> {
        let path = c_path(path)?;
        let storage = options.storage.as_deref().map(c_path).transpose()?;
        let given = sys::store::relkvanu_store_options {
            flags: options.flags(),
            patience: options.patience,
            image_calls: options.image_calls.unwrap_or(sys::store::RELKVANU_STORE_NO_IMAGES),
            most_ahead: options.most_ahead,
            storage: storage.as_ref().map_or(ptr::null(), |it| it.as_ptr()),
            settings: (&options.settings).into(),
            shape: options.shape.as_ptr(),
            shape_len: options.shape.len(),
            reserved: [0; 4],
        };
        let mut store = ptr::null_mut();
        // SAFETY: all zero is a report.
        let mut found: sys::store::relkvanu_store_report = unsafe { std::mem::zeroed() };
        // SAFETY: the path, the options and what they point to outlive the call, which keeps none of them.
        let status = unsafe { sys::store::relkvanu_store_open(&mut store, path.as_ptr(), &given, &mut found) };
        let Some(store) = NonNull::new(store) else {
            return Err(StoreError { kind: StoreErrorKind::of(status), message: text(&found.message) });
        };
        let report = Report {
            is_recovered: found.is_recovered,
            settings_differ: found.settings_differ,
            steps: found.steps[..found.steps_len].iter().map(step).collect(),
            epoch: found.epoch,
            job: found.job,
            image_place: found.image_place,
            replayed: found.replayed,
            taken: found.taken,
            moment: found.moment,
            mode: crate::Mode::of(found.mode.what),
            choice: answer::choice(found.choice),
            names: RunningTerm { term: found.term, next_name: found.next_name },
            phase: phase::job_phase(found.phase, found.savepoint, 0, found.stop_failed),
        };
        Ok(Store { store, report, submits: Mutex::default(), reader: Mutex::default() })
    }

    pub fn report(&self) -> &Report {
        &self.report
    }

    fn at(&self) -> *mut sys::store::relkvanu_store {
        self.store.as_ptr()
    }

    /// Refuses a call of the thread that reads: it would wait for itself.
    fn outside(&self) -> Result<(), StoreError> {
        if *locked(&self.reader) != Some(thread::current().id()) {
            return Ok(());
        }
        Err(StoreError {
            kind: StoreErrorKind::InRead,
            message: "this thread is in a read: make the call after it".to_owned(),
        })
    }

    fn check(&self, status: c_int) -> Result<(), StoreError> {
        if status == sys::store::RELKVANU_STORE_OK {
            return Ok(());
        }
        Err(StoreError { kind: StoreErrorKind::of(status), message: self.message() })
    }

    fn message(&self) -> String {
        let mut text = [0; sys::store::RELKVANU_STORE_MESSAGE];
        // SAFETY: the buffer has as many bytes as is said, and gets a zero at the end.
        unsafe { sys::store::relkvanu_store_message(self.at(), text.as_mut_ptr(), text.len()) };
        error::text(&text)
    }

    /// Makes 1 to 4096 calls, with no other in between, and returns once they are committed. After one without memory the later ones
    /// are not made.
    pub fn calls(&self, calls: &[Call<'_>]) -> Result<Vec<Result<Made, Fault>>, StoreError> {
        self.make_list(List::of(calls))
    }

    /// As [`calls`](Self::calls), of calls that have more. `BadArgument` says what is wrong with it.
    pub fn calls_with(&self, calls: &[(Call<'_>, More<'_>)]) -> Result<Vec<Result<Made, Fault>>, StoreError> {
        self.make_list(List::with(calls.iter().copied()))
    }

    fn make_list(&self, mut list: List) -> Result<Vec<Result<Made, Fault>>, StoreError> {
        self.outside()?;
        // SAFETY: the calls and all that they point to stay until the call returns.
        let status = unsafe { sys::store::relkvanu_store_calls(self.at(), list.calls.as_mut_ptr(), list.calls.len()) };
        self.check_why(status)?;
        Ok(list.outcomes())
    }

    /// Makes one call. Its moment may be [`NOW`].
    pub fn call(&self, call: Call<'_>) -> Result<Made, CallError> {
        self.call_with(call, More::default())
    }

    /// Makes one call that has more: an acknowledgement with a payload, or a decline with a reason.
    pub fn call_with(&self, call: Call<'_>, more: More<'_>) -> Result<Made, CallError> {
        Job::call_with(self, call, more)
    }

    /// A task of this term gets names for files that it will write, 1 to 65536. They are durable, and are not given out again.
    pub fn reserve(&self, term: u64, count: u64) -> Result<Range<u64>, CallError> {
        Job::reserve(self, term, count)
    }

    /// A task of this term gives up names that it will not acknowledge, at most 65536: their files are garbage then. Names that the term does
    /// not hold are passed over.
    pub fn forfeit(&self, term: u64, names: &[u64]) -> Result<(), CallError> {
        self.outside()?;
        let mut told = sys::relkvanu_answer { code: 0, what: 0, a: 0, b: 0 };
        // SAFETY: the names and the place of the answer outlive the call.
        let status =
            unsafe { sys::store::relkvanu_store_forfeit(self.at(), term, names.as_ptr(), names.len(), &mut told) };
        self.check(status)?;
        done(told).map(|_| ()).map_err(CallError::Fault)
    }

    /// The term that runs, and the next name. Whoever starts tasks takes the term from [`Made::term`] of its restore. A task never asks.
    pub fn term(&self) -> Result<RunningTerm, CallError> {
        self.read(|job| job.term())?.map_err(CallError::Fault)
    }

    /// Of these files those that are garbage, which may be deleted at any time, and those whose names were not given out, which nobody deletes.
    pub fn garbage(&self, files: &[u64]) -> Result<Garbage, CallError> {
        self.read(|job| job.garbage(files))?.map_err(CallError::Fault)
    }

    /// For event loops: as [`calls`](Self::calls), but returns a token at once. [`completed`](Self::completed) returns it with the outcomes.
    pub fn submit(&self, calls: &[Call<'_>]) -> Result<u64, StoreError> {
        self.submit_list(List::of(calls))
    }

    /// As [`submit`](Self::submit), of calls that have more.
    pub fn submit_with(&self, calls: &[(Call<'_>, More<'_>)]) -> Result<u64, StoreError> {
        self.submit_list(List::with(calls.iter().copied()))
    }

    fn submit_list(&self, list: List) -> Result<u64, StoreError> {
        self.submitted(list, |store, at, len, token| {
            // SAFETY: the calls and all that they point to are in vectors that stay in the map until the completion.
            unsafe { sys::store::relkvanu_store_submit(store, at, len, token) }
        })
    }

    /// For event loops: as [`stop_job`](Self::stop_job). The completion has one outcome, or is `NotNow`.
    pub fn submit_stop_job(&self) -> Result<u64, StoreError> {
        self.submitted(List::place(), |store, at, _, token| {
            // SAFETY: the place of the call stays in the map until the completion.
            unsafe { sys::store::relkvanu_store_submit_stop_job(store, at, token) }
        })
    }

    /// For event loops: as [`begin_job`](Self::begin_job). The completion has one outcome, or is `NotNow`.
    pub fn submit_begin_job(&self) -> Result<u64, StoreError> {
        self.submitted(List::place(), |store, at, _, token| {
            // SAFETY: the place of the call stays in the map until the completion.
            unsafe { sys::store::relkvanu_store_submit_begin_job(store, at, token) }
        })
    }

    fn submitted(
        &self,
        mut list: List,
        submit: impl Fn(*mut sys::store::relkvanu_store, *mut sys::store::relkvanu_store_call, usize, u64) -> c_int,
    ) -> Result<u64, StoreError> {
        let (at, len) = (list.calls.as_mut_ptr(), list.calls.len());
        let mut submits = locked(&self.submits);
        submits.last += 1;
        let token = submits.last;
        submits.lists.insert(token, list);
        if let Err(why) = self.check(submit(self.at(), at, len, token)) {
            submits.lists.remove(&token);
            return Err(why);
        }
        Ok(token)
    }

    /// The submits that are committed, or failed, since the last time. Never waits.
    pub fn completed(&self) -> Vec<Completion> {
        let mut found = [sys::store::relkvanu_store_completion { token: 0, status: 0 }; 64];
        let mut submits = locked(&self.submits);
        // SAFETY: the buffer has as many places as is said.
        let len = unsafe { sys::store::relkvanu_store_completed(self.at(), found.as_mut_ptr(), found.len()) };
        let complete = |it: &sys::store::relkvanu_store_completion| {
            let list = submits.lists.remove(&it.token)?;
            Some((it.token, self.check(it.status).map(|()| list.outcomes())))
        };
        found[..len].iter().filter_map(complete).collect()
    }

    /// A descriptor that can be read while there are completions.
    pub fn descriptor(&self) -> BorrowedFd<'_> {
        // SAFETY: the eventfd stays open until the close.
        unsafe { BorrowedFd::borrow_raw(sys::store::relkvanu_store_descriptor(self.at())) }
    }

    /// Reads of what is committed. All callers wait meanwhile, so be quick, and make no call.
    pub fn read<T>(&self, look: impl FnOnce(&Coordinator) -> T) -> Result<T, StoreError> {
        self.outside()?;
        let mut handle = ptr::null_mut();
        // SAFETY: the place for the handle is this function's own.
        self.check(unsafe { sys::store::relkvanu_store_read(self.at(), &mut handle) })?;
        *locked(&self.reader) = Some(thread::current().id());
        let reading = Reading {
            of: self,
            handle,
            // SAFETY: until the end of the read the handle is this function's alone. Its state moves into the coordinator, and back.
            job: std::mem::ManuallyDrop::new(Coordinator::over(unsafe { handle.read() })),
        };
        Ok(look(&reading.job))
    }

    /// The moment of the store's clock.
    pub fn now(&self) -> u64 {
        // SAFETY: the store is open.
        unsafe { sys::store::relkvanu_store_now(self.at()) }
    }

    /// After how many milliseconds the next tick has to come, unless a call is made before; `None`: only a call can bring one.
    pub fn next_tick(&self) -> Result<Option<u64>, StoreError> {
        let mut wait = 0;
        // SAFETY: the place is this function's own.
        self.check(unsafe { sys::store::relkvanu_store_next_tick(self.at(), &mut wait) })?;
        Ok((wait != u64::MAX).then_some(wait))
    }

    /// A timer in a loop of a thread: sleeps until a tick is due, at most so many milliseconds, and makes it. It also hands over, once, what the calls
    /// of [`phase`](Self::phase) and a trigger have made. Otherwise the error is `TimedOut` (none was due, or the job is not running: read the mode),
    /// `JobStopped`, `NotStopped` or `Stopped` (by [`stop`](Self::stop)).
    pub fn await_tick(&self, longest: u64) -> Result<Made, CallError> {
        self.outside()?;
        let mut list = List::of(&[Call::Tick { now: NOW }]);
        // SAFETY: the call is this function's own.
        let status = unsafe {
            let call = list.calls.as_mut_ptr();
            sys::store::relkvanu_store_await_tick_with(self.at(), longest, call, (*call).more)
        };
        self.check(match status {
            sys::store::RELKVANU_STORE_NOT_RUNNING => sys::store::RELKVANU_STORE_TIMED_OUT,
            other => other,
        })?;
        outcome_of(&list.calls[0], &[]).map_err(CallError::Fault)
    }

    /// Makes a file of the storage folder by its number, whole and durable, so that a task may acknowledge it. After an error the task
    /// forfeits the name and declines: a sweep deletes what is there.
    pub fn put(&self, file: u64, contents: &[u8]) -> Result<(), StoreError> {
        // SAFETY: the contents outlive the call.
        let status =
            unsafe { sys::store::relkvanu_store_put(self.at(), file, contents.as_ptr().cast(), contents.len()) };
        match status {
            sys::store::RELKVANU_STORE_NOT_PUT => {
                Err(StoreError { kind: StoreErrorKind::NotPut, message: std::io::Error::last_os_error().to_string() })
            }
            other => self.check(other),
        }
    }

    /// Deletes the files of the storage folder that are garbage, and syncs it. Returns how many could not be deleted. It
    /// runs at any time; [`counts`](Self::counts) then tells how many files it left since their names were not given out.
    pub fn sweep(&self) -> Result<usize, StoreError> {
        self.outside()?;
        let mut left = 0;
        // SAFETY: the place is this function's own.
        self.check(unsafe { sys::store::relkvanu_store_sweep(self.at(), &mut left) })?;
        Ok(left)
    }

    /// Makes a backup of the job in a new file, while other threads call. It is whole and durable when this returns. `Present`, `NotNow` (another
    /// backup writes it) or `NotPut` (a full disk, say): then there is none, and the store goes on.
    ///
    /// **A backup lacks the calls since it was made.** [`Options::backup`] opens it, once, after all processes and tasks of the job have ended, and
    /// then the engine restores a record whose files are all there: docs/DURABLE-OPERATION.md, Back up. Without that option the opening is refused.
    pub fn backup(&self, path: &Path) -> Result<(), StoreError> {
        self.outside()?;
        let path = c_path(path)?;
        let mut message = [0; sys::store::RELKVANU_STORE_MESSAGE];
        // SAFETY: the path and the message outlive the call.
        let status =
            unsafe { sys::store::relkvanu_store_backup(self.at(), path.as_ptr(), message.as_mut_ptr(), message.len()) };
        error::check(status, &message)
    }

    /// The descriptor of the storage folder, which stays open until the drop: delete within it.
    pub fn folder(&self) -> Option<RawFd> {
        // SAFETY: the store is open.
        let folder = unsafe { sys::store::relkvanu_store_folder(self.at()) };
        (folder >= 0).then_some(folder)
    }

    /// A discarder in a thread of the engine, until [`stop`](Self::stop): `gone(file)` says whether the file is not there any more, also if it
    /// was not there before. Never gives up. `Ok` after a stop. If it panics, so does this, once the files before are reported: the file waits again.
    pub fn discard<F: FnMut(u64) -> bool>(&self, batch: usize, gone: F) -> Result<(), StoreError> {
        self.outside()?;
        unsafe extern "C" fn delete<F: FnMut(u64) -> bool>(
            with: *mut c_void,
            files: *const u64,
            len: usize,
            is_gone: *mut u8,
        ) -> bool {
            // SAFETY: `with` is the closure with its place for a panic.
            let (gone, panicked) = unsafe { &mut *with.cast::<(F, Option<Panic>)>() };
            for place in 0..len {
                // SAFETY: the list has so many elements.
                let file = unsafe { *files.add(place) };
                match catch_unwind(AssertUnwindSafe(|| gone(file))) {
                    // SAFETY: as above.
                    Ok(is) => unsafe { *is_gone.add(place) = u8::from(is) },
                    Err(panic) => *panicked = Some(panic),
                }
                if panicked.is_some() {
                    return false;
                }
            }
            true
        }
        let mut with = (gone, None::<Panic>);
        loop {
            // SAFETY: the closure outlives the call, which calls it in this thread alone.
            let status = unsafe {
                let with: *mut (F, Option<Panic>) = &mut with;
                sys::store::relkvanu_store_discard_for(self.at(), batch, u64::MAX, delete::<F>, with.cast())
            };
            if let Some(panic) = with.1.take() {
                resume_unwind(panic);
            }
            if !matches!(status, sys::store::RELKVANU_STORE_NO_MEMORY | sys::store::RELKVANU_STORE_TIMED_OUT) {
                return self.check_end(status);
            }
        }
    }

    /// A discarder of the storage folder's files, as [`discard`](Self::discard).
    pub fn discard_files(&self, batch: usize) -> Result<(), StoreError> {
        self.outside()?;
        // SAFETY: without a storage the library takes that of the store.
        self.check_end(unsafe { sys::store::relkvanu_store_discard_storage(self.at(), batch, ptr::null()) })
    }

    /// What a discarder returns.
    fn check_end(&self, status: c_int) -> Result<(), StoreError> {
        match status {
            sys::store::RELKVANU_STORE_STOPPED => Ok(()),
            other => self.check(other),
        }
    }

    /// A discarder of the files of any storage, as [`discard`](Self::discard): an engine's own, or a [`Folder`](crate::storage::Folder). The error is
    /// `Storage` once the storage is another job's; while it is not there, no file counts as gone.
    pub fn discard_storage(&self, batch: usize, storage: &dyn Storage) -> Result<(), StoreError> {
        self.outside()?;
        let functions = Functions::of(&storage);
        // SAFETY: the storage outlives the call, which calls its functions in this thread alone.
        self.check_end(unsafe { sys::store::relkvanu_store_discard_storage(self.at(), batch, functions.at()) })
    }

    /// A sweep of any storage, as [`sweep`](Self::sweep).
    pub fn sweep_storage(&self, storage: &dyn Storage) -> Result<usize, StoreError> {
        self.outside()?;
        let (functions, mut left) = (Functions::of(&storage), 0);
        // SAFETY: the storage outlives the call, and the place is this function's own.
        self.check(unsafe { sys::store::relkvanu_store_sweep_storage(self.at(), functions.at(), &mut left) })?;
        Ok(left)
    }

    /// Lets [`await_tick`](Self::await_tick) and the discarders end, now and later.
    pub fn stop(&self) {
        // SAFETY: the store is open.
        unsafe { sys::store::relkvanu_store_stop(self.at()) }
    }

    /// What the store measures of itself.
    pub fn measures(&self) -> sys::store::relkvanu_store_measures {
        let mut found = Default::default();
        // SAFETY: the place is this function's own, and has so many bytes.
        unsafe { sys::store::relkvanu_store_measure(self.at(), &mut found, std::mem::size_of_val(&found)) };
        found
    }

    /// Counts since the opening.
    pub fn counts(&self) -> sys::store::relkvanu_store_counts {
        let mut counts = Default::default();
        // SAFETY: the place is this function's own.
        unsafe { sys::store::relkvanu_store_count(self.at(), &mut counts) };
        counts
    }
}

/// A read, which ends with its drop, also by a panic: then the state is back in the store's handle.
struct Reading<'a> {
    of: &'a Store,
    handle: *mut sys::relkvanu,
    job: std::mem::ManuallyDrop<Coordinator>,
}

impl Drop for Reading<'_> {
    fn drop(&mut self) {
        *locked(&self.of.reader) = None;
        // SAFETY: the handle is the store's own, and nobody else has it before the end of the read.
        unsafe {
            self.handle.write(self.job.taken_back());
            sys::store::relkvanu_store_read_end(self.of.at());
        }
    }
}
