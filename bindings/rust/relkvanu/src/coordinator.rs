//! The coordinator of one job, for one thread at a time.
use crate::aligner::Cut;
use crate::answer::{self, Answer, Choice, FileCounts, Garbage, Live, Mode, RunningTerm, Standing};
use crate::fault::{check_library, done, text, text_in, written, Fault, Refusal};
use relkvanu_sys as sys;
use std::cell::{Cell, UnsafeCell};
use std::collections::hash_map::RandomState;
use std::hash::BuildHasher;
use std::num::NonZeroU64;
use std::ops::Range;

// bindings/generate makes the settings
/// How a job takes checkpoints.
#[derive(Clone, Copy, Debug, PartialEq, Eq, Hash)]
pub struct Settings {
    /// 10 to 2^40 ms between two triggers.
    pub interval: u64,
    /// 0 to 2^40 ms between a completion and the next trigger.
    pub pause: u64,
    /// 1 to 64 checkpoints that may be pending.
    pub at_once: u64,
    /// 1 to 2^40 ms after which a pending record expires.
    pub timeout: u64,
    /// 0 to 1000 failed checkpoints in a row.
    pub tolerable: u64,
    /// 1 to 1000 completed checkpoints to keep.
    pub retained: u64,
    /// Whether to keep them when the job is cancelled.
    pub keep_on_cancel: bool,
}

impl Settings {
    /// The 7 values in the order of the fields; the last is 0 or 1.
    pub fn numbers(&self) -> [u64; 7] {
        let Settings { interval, pause, at_once, timeout, tolerable, retained, keep_on_cancel } = *self;
        [interval, pause, at_once, timeout, tolerable, retained, u64::from(keep_on_cancel)]
    }

    /// The settings of such numbers. `None` if they are not 7, or the last is above 1.
    pub fn of_numbers(numbers: &[u64]) -> Option<Settings> {
        let &[interval, pause, at_once, timeout, tolerable, retained, keep_on_cancel] = numbers else { return None };
        (keep_on_cancel <= 1).then_some(Settings {
            interval,
            pause,
            at_once,
            timeout,
            tolerable,
            retained,
            keep_on_cancel: keep_on_cancel == 1,
        })
    }
}

impl From<&Settings> for sys::relkvanu_settings {
    fn from(it: &Settings) -> Self {
        let Settings { interval, pause, at_once, timeout, tolerable, retained, keep_on_cancel } = *it;
        sys::relkvanu_settings { interval, pause, at_once, timeout, tolerable, retained, keep_on_cancel }
    }
}

impl From<&sys::relkvanu_settings> for Settings {
    fn from(it: &sys::relkvanu_settings) -> Self {
        let sys::relkvanu_settings { interval, pause, at_once, timeout, tolerable, retained, keep_on_cancel } = *it;
        Settings { interval, pause, at_once, timeout, tolerable, retained, keep_on_cancel }
    }
}
// bindings/generate: end

impl Settings {
    /// A checkpoint each so many milliseconds, one at a time, of which the last one is kept. One that is not complete after ten minutes expires, and the first
    /// failure fails the job.
    pub const fn every(interval: u64) -> Settings {
        Settings { interval, pause: 0, at_once: 1, timeout: 600_000, tolerable: 0, retained: 1, keep_on_cancel: false }
    }
}

/// The checkpoint coordinator of one job.
///
/// The library allows one call or read at a time for each handle, because a read takes the state out of its handle and
/// puts it back. So a `Coordinator` is `Send` and not `Sync`. Its reads take `&self`, since one thread runs one call at
/// a time. Threads share it as a [`SharedCoordinator`](crate::SharedCoordinator).
///
/// ```compile_fail
/// fn is_sync<T: Sync>() {}
/// is_sync::<relkvanu::Coordinator>();
/// ```
#[derive(Debug)]
pub struct Coordinator {
    handle: UnsafeCell<sys::relkvanu>,
    /// Bytes that the next image probably fits: a buffer that is too short costs a second image.
    image_room: Cell<usize>,
    most_ahead: u64,
    /// The greatest moment when it was last asked for. The one of now is not below it.
    seen: Cell<u64>,
}

/// Milliseconds.
const DAY: u64 = 24 * 60 * 60 * 1000;
const LAST_MOMENT: u64 = (1 << 62) - 1;

// SAFETY: a handle may move between threads, as the header says; the library's check proves it. The memory behind it
// is the handle's alone, and any thread may free what another allocated.
unsafe impl Send for Coordinator {}

impl Drop for Coordinator {
    fn drop(&mut self) {
        // SAFETY: the handle is as the library last left it, and nobody else has it.
        unsafe { sys::relkvanu_close(self.handle.get()) }
    }
}

type Called = Result<Answer, Fault>;

/// A list as the library takes it.
pub(crate) fn parts(list: &[u64]) -> (*const u64, usize) {
    (list.as_ptr(), list.len())
}

fn called(told: sys::relkvanu_answer) -> Called {
    done(told).and_then(answer::answer)
}

/// The answer of a call that has this reply only.
fn reply(told: sys::relkvanu_answer, what: u32) -> Result<sys::relkvanu_answer, Fault> {
    match done(told)? {
        told if told.what == what => Ok(told),
        told => Err(Fault::unknown(told)),
    }
}

/// Calls. A call that returns a [`Fault`] has changed nothing.
impl Coordinator {
    /// Opens a coordinator at the moment `now`. The shape is the number of subtasks of each vertex: 1 to 256 vertices,
    /// at most 4096 subtasks. The first record has the number `first`: 1 for a new job, otherwise one above all earlier
    /// numbers.
    ///
    /// Checks the settings first, then the shape, the moment and the first number. Takes memory for the coordinator.
    pub fn open(settings: &Settings, shape: &[u64], now: u64, first: u64) -> Result<Coordinator, Fault> {
        // SAFETY: the handle is all zero; the settings and the slice outlive the call, which keeps none of them.
        Coordinator::opened(|handle, word, other| unsafe {
            sys::relkvanu_open(handle, &settings.into(), shape.as_ptr(), shape.len(), now, first, word, other)
        })
    }

    /// Opens a coordinator with names, in term 1. The first name that it gives out is `first_name`, 1 to 2^62: all numbers of
    /// files that were used before are below it. [`ack`](Self::ack) and [`decline`](Self::decline) are refused then: its tasks
    /// call [`ack_in`](Self::ack_in) and [`decline_in`](Self::decline_in).
    ///
    /// Checks the settings first, then the shape, the first name, the moment and the first number. Takes memory for the
    /// coordinator.
    pub fn open_fenced(
        settings: &Settings,
        shape: &[u64],
        now: u64,
        first: u64,
        first_name: u64,
    ) -> Result<Coordinator, Fault> {
        let (settings, (shape, len)) = (settings.into(), parts(shape));
        // SAFETY: the handle is all zero; the settings and the slice outlive the call, which keeps none of them.
        Coordinator::opened(|handle, word, other| unsafe {
            sys::relkvanu_open_fenced(handle, &settings, shape, len, now, first, first_name, word, other)
        })
    }

    /// Opens the coordinator that an image describes, which [`save`](Self::save) wrote (`docs/LOGS.md`). It answers
    /// every list of calls as the saved one would. Takes memory for the coordinator.
    pub fn open_saved(image: &[u8]) -> Result<Coordinator, Fault> {
        // SAFETY: the handle is all zero; the slice outlives the call, which does not keep it.
        Coordinator::opened(|handle, word, other| unsafe {
            sys::relkvanu_open_saved(handle, image.as_ptr(), image.len(), word, other)
        })
    }

    /// The coordinator whose handle, which is all zero, is opened so, with two random words.
    fn opened(open: impl FnOnce(*mut sys::relkvanu, u64, u64) -> sys::relkvanu_answer) -> Result<Coordinator, Fault> {
        check_library()?;
        let opened = Coordinator {
            handle: UnsafeCell::new(sys::relkvanu { state: std::ptr::null_mut() }),
            image_room: Cell::new(256),
            most_ahead: DAY,
            seen: Cell::new(0),
        };
        // the system's random source, which std keeps for its own maps
        let words = RandomState::new();
        let told = open(opened.handle.get(), words.hash_one(0), words.hash_one(1));
        done(told).map(|_| opened)
    }

    /// A coordinator for the reads of a handle that stays another owner's.
    #[cfg(feature = "store")]
    pub(crate) fn over(handle: sys::relkvanu) -> Coordinator {
        Coordinator { handle: UnsafeCell::new(handle), image_room: Cell::new(256), most_ahead: DAY, seen: Cell::new(0) }
    }

    /// The handle for its owner, as the reads left it.
    #[cfg(feature = "store")]
    pub(crate) fn taken_back(&self) -> sys::relkvanu {
        // SAFETY: `Coordinator` is not `Sync`, so no read runs. The owner does not drop the coordinator.
        unsafe { self.handle.get().read() }
    }

    /// The handle for a call: the library's own, which is used by one call at a time.
    pub(crate) fn handle(&mut self) -> *mut sys::relkvanu {
        self.handle.get_mut()
    }

    /// A moment that is far ahead would stop the job's checkpoints until then. So a call is refused with
    /// [`MomentTooLarge`](Refusal::MomentTooLarge) if its moment is more than so many milliseconds beyond the greatest moment
    /// so far, and beyond what a timer waits for. That is a day, unless an engine sets it, which it does if a longer time may
    /// pass without a call. Lines of a log are not checked.
    pub fn set_most_ahead(&mut self, milliseconds: u64) {
        self.most_ahead = milliseconds;
    }

    /// Asks the library only if a longer time than `most_ahead` has passed since it was asked.
    pub(crate) fn check_moment(&self, now: u64) -> Result<(), Fault> {
        let past = now.saturating_sub(self.most_ahead);
        if past <= self.seen.get() {
            return Ok(());
        }
        self.seen.set(self.moment());
        let is_ahead = past > self.seen.get() && past > self.due() && past > self.oldest_expiry().unwrap_or_default();
        match is_ahead && now <= LAST_MOMENT {
            true => Err(Refusal::MomentTooLarge.into()),
            false => Ok(()),
        }
    }

    // bindings/generate makes the calls of one number
    /// Time has passed: records that are too old expire, and a checkpoint is triggered if one is due.
    pub fn tick(&mut self, now: u64) -> Called {
        self.check_moment(now)?;
        // SAFETY: the handle is as the library last left it, and `&mut self` keeps other calls away.
        called(unsafe { sys::relkvanu_tick(self.handle(), now) })
    }

    /// Triggers a savepoint. At most 1000 savepoints are pending or done.
    pub fn savepoint(&mut self, now: u64) -> Called {
        self.check_moment(now)?;
        // SAFETY: as in `tick`.
        called(unsafe { sys::relkvanu_savepoint(self.handle(), now) })
    }

    /// A user disposes of the completed savepoint id.
    pub fn dispose(&mut self, id: u64) -> Called {
        // SAFETY: as in `tick`.
        called(unsafe { sys::relkvanu_dispose(self.handle(), id) })
    }

    /// The job ends for good.
    pub fn cancel(&mut self, now: u64) -> Called {
        self.check_moment(now)?;
        // SAFETY: as in `tick`.
        called(unsafe { sys::relkvanu_cancel(self.handle(), now) })
    }

    /// A fetched file is deleted: the coordinator forgets it.
    pub fn deleted(&mut self, file: u64) -> Called {
        // SAFETY: as in `tick`.
        called(unsafe { sys::relkvanu_deleted(self.handle(), file) })
    }

    /// A fetched file could not be deleted: it waits again, behind all others.
    pub fn undeleted(&mut self, file: u64) -> Called {
        // SAFETY: as in `tick`.
        called(unsafe { sys::relkvanu_undeleted(self.handle(), file) })
    }

    /// Triggers a checkpoint now, whatever the interval and the pause. Nothing expires: make a tick first if records may be too
    /// old. The interval counts from it, as after a tick that triggers.
    pub fn trigger(&mut self, now: u64) -> Called {
        self.check_moment(now)?;
        // SAFETY: as in `tick`.
        called(unsafe { sys::relkvanu_trigger(self.handle(), now) })
    }
    // bindings/generate: end

    // bindings/generate makes the calls of tasks
    /// The subtask vertex.index has taken its part of record id. fresh has the files that it wrote. reused has files of earlier
    /// records that it uses again. Both may be in any order, with at most 4096 files together. After a refusal the task must not
    /// delete a file that an accepted acknowledgement ever named.
    pub fn ack(&mut self, now: u64, id: u64, subtask: (u16, u16), fresh: &[u64], reused: &[u64]) -> Called {
        self.check_moment(now)?;
        // SAFETY: as in `tick`; the slices outlive the call, which keeps none of them.
        called(unsafe {
            sys::relkvanu_ack(
                self.handle(),
                now,
                id,
                subtask.0,
                subtask.1,
                fresh.as_ptr(),
                fresh.len(),
                reused.as_ptr(),
                reused.len(),
            )
        })
    }

    /// The subtask vertex.index could not take its part of record id.
    pub fn decline(&mut self, now: u64, id: u64, subtask: (u16, u16)) -> Called {
        self.check_moment(now)?;
        // SAFETY: as in `tick`.
        called(unsafe { sys::relkvanu_decline(self.handle(), now, id, subtask.0, subtask.1) })
    }

    /// Begins a job again that goes on from an older image or log, such as one that was restored from a backup: restore of the
    /// latest, in the shape that the job has, in a term above term, the greatest that any task was told, and with names from
    /// first_name on, 1 to 2^62, above each that was given out. A smaller term and a smaller first_name lower nothing. Names that
    /// are passed over are garbage, unless the handle's records use them. Make this call before any other of such a job.
    /// docs/RULES.md, section 13, says what it is for.
    pub fn advance(&mut self, now: u64, term: u64, first_name: u64) -> Called {
        self.check_moment(now)?;
        // SAFETY: as in `tick`.
        called(unsafe { sys::relkvanu_advance(self.handle(), now, term, first_name) })
    }

    /// ack of a task of this term. An accepted acknowledgement spends the names of its fresh files. So a task does not delete a
    /// file for Spent.
    pub fn ack_in(
        &mut self,
        term: u64,
        now: u64,
        id: u64,
        subtask: (u16, u16),
        fresh: &[u64],
        reused: &[u64],
    ) -> Called {
        self.check_moment(now)?;
        // SAFETY: as in `tick`; the slices outlive the call, which keeps none of them.
        called(unsafe {
            sys::relkvanu_ack_in(
                self.handle(),
                term,
                now,
                id,
                subtask.0,
                subtask.1,
                fresh.as_ptr(),
                fresh.len(),
                reused.as_ptr(),
                reused.len(),
            )
        })
    }

    /// decline of a task of this term.
    pub fn decline_in(&mut self, term: u64, now: u64, id: u64, subtask: (u16, u16)) -> Called {
        self.check_moment(now)?;
        // SAFETY: as in `tick`.
        called(unsafe { sys::relkvanu_decline_in(self.handle(), term, now, id, subtask.0, subtask.1) })
    }
    // bindings/generate: end

    /// [`ack`](Self::ack) of the record that a task has [cut](crate::Aligner).
    pub fn ack_cut(&mut self, now: u64, cut: &Cut, subtask: (u16, u16), fresh: &[u64], reused: &[u64]) -> Called {
        self.ack(now, cut.id(), subtask, fresh, reused)
    }

    /// Restores the job from a savepoint, or from the latest record if `None` is given. `shape` may give a new shape.
    /// An empty shape is a bad one. A bad shape is reported before any refusal.
    pub fn restore(&mut self, now: u64, savepoint: Option<NonZeroU64>, shape: Option<&[u64]>) -> Called {
        if shape.is_some_and(<[u64]>::is_empty) {
            return Err(Fault::BadShape);
        }
        self.check_moment(now)?;
        let shape = shape.unwrap_or(&[]);
        // SAFETY: as in `tick`; the slice outlives the call, which does not keep it.
        called(unsafe {
            sys::relkvanu_restore(self.handle(), now, savepoint.map_or(0, NonZeroU64::get), shape.as_ptr(), shape.len())
        })
    }

    /// The job has these settings from now on. Done checkpoints above the new number retained are dropped at once. Settings
    /// outside their limits are reported before any refusal.
    pub fn configure(&mut self, now: u64, settings: &Settings) -> Called {
        self.check_moment(now)?;
        // SAFETY: as in `tick`; the settings outlive the call, which does not keep them.
        called(unsafe { sys::relkvanu_configure(self.handle(), now, &settings.into()) })
    }

    /// Fetches files that wait for deletion, at most as many as the buffer has places, and returns those that it wrote
    /// there. Report each by [`deleted`](Self::deleted) or [`undeleted`](Self::undeleted). A repeated acknowledgement
    /// that comes late may hand out a file that no longer exists: report it as deleted.
    pub fn take<'a>(&mut self, files: &'a mut [u64]) -> Result<&'a [u64], Fault> {
        // SAFETY: as in `tick`; the buffer is borrowed for writing, and has as many places as is said.
        let told = unsafe { sys::relkvanu_take(self.handle(), files.as_mut_ptr(), files.len()) };
        reply(told, sys::RELKVANU_TAKEN).map(|told| &files[..told.a as usize])
    }
}

/// Terms and names. Each accepted restore and cancel ends the term. What a task of an ended term sends is refused as
/// [`OldTerm`](crate::Fenced::OldTerm), and changes nothing. A coordinator without names refuses all but [`fence`](Self::fence) as
/// [`NoNames`](crate::Fenced::NoNames). A [`Fault`] has changed nothing.
impl Coordinator {
    /// Gives the coordinator names, from `first_name` on, 1 to 2^62, in term 1. All numbers of files that were used before are
    /// below it, those of files that nobody acknowledged too. Make the call between the end of all tasks and their restart.
    ///
    /// It is refused as [`NameInUse`](crate::Fenced::NameInUse) if a known file has this number or a greater one.
    pub fn fence(&mut self, first_name: u64) -> Result<(), Fault> {
        // SAFETY: as in `tick`.
        let told = unsafe { sys::relkvanu_fence(self.handle(), first_name) };
        reply(told, sys::RELKVANU_NAMED).map(|_| ())
    }

    /// The term that runs, and the next name. Whoever restarts the tasks reads it after the restore, and tells each of them once
    /// the restore is in the durable log. A task never asks for it: one that should be dead would learn the new term.
    pub fn term(&self) -> Result<RunningTerm, Fault> {
        // SAFETY: as in `count`.
        let told = unsafe { sys::relkvanu_term(self.read_handle()) };
        reply(told, sys::RELKVANU_TERM).map(|told| RunningTerm { term: told.a, next_name: told.b })
    }

    /// A task of this term reserves 1 to 65536 names for files that it will write. The reservation is in the durable log
    /// before the task uses one of them.
    pub fn reserve(&mut self, term: u64, count: u64) -> Result<Range<u64>, Fault> {
        // SAFETY: as in `tick`.
        let told = unsafe { sys::relkvanu_reserve(self.handle(), term, count) };
        reply(told, sys::RELKVANU_RESERVED).map(|told| told.a..told.a + told.b)
    }

    /// A task of this term gives up names that it will not acknowledge, such as those of a failed upload: their files are
    /// garbage then. Names that the term does not hold are passed over, so the call can be repeated.
    pub fn forfeit(&mut self, term: u64, names: &[u64]) -> Result<(), Fault> {
        // SAFETY: as in `tick`; the slice outlives the call, which does not keep it.
        let told = unsafe { sys::relkvanu_forfeit(self.handle(), term, names.as_ptr(), names.len()) };
        reply(told, sys::RELKVANU_FORFEITED).map(|_| ())
    }

    /// [`ack_in`](Self::ack_in) of the record that a task has [cut](crate::Aligner).
    pub fn ack_cut_in(
        &mut self,
        term: u64,
        now: u64,
        cut: &Cut,
        subtask: (u16, u16),
        fresh: &[u64],
        reused: &[u64],
    ) -> Called {
        self.ack_in(term, now, cut.id(), subtask, fresh, reused)
    }

    /// Of these files, in their order: those that are garbage, which may be deleted at any time, also while tasks run; and those
    /// whose names were not given out, which nobody deletes. Changes nothing. Ask a coordinator whose calls are durable.
    pub fn garbage(&self, files: &[u64]) -> Result<Garbage, Fault> {
        let (mut garbage, mut unissued) = (vec![0; files.len()], vec![0; files.len()]);
        let ((files, len), to, other) = (parts(files), garbage.as_mut_ptr(), unissued.as_mut_ptr());
        // SAFETY: as in `count`; the slice outlives the call, and each buffer has as many places as is said.
        let told = unsafe { sys::relkvanu_garbage(self.read_handle(), files, len, to, len, other, len) };
        let told = reply(told, sys::RELKVANU_GARBAGE)?;
        garbage.truncate(told.a as usize);
        unissued.truncate(told.b as usize);
        Ok(Garbage { garbage, unissued })
    }
}

/// Reads. None changes anything. [`show`](Self::show), [`save`](Self::save), [`pins_of`](Self::pins_of) and
/// [`taken_files`](Self::taken_files) may run out of memory, and `show` may be refused. No other fails.
impl Coordinator {
    /// The handle for a read. A read takes the state out and puts it back, so the handle has to be writable, though
    /// nothing changes.
    fn read_handle(&self) -> *mut sys::relkvanu {
        self.handle.get()
    }

    /// The metadata of a live record, as JSON (`docs/SCRIPT.md`).
    pub fn show(&self, id: u64) -> Result<String, Fault> {
        // SAFETY: the handle is as the library last left it; `Coordinator` is not `Sync`, so no other call runs. The
        // buffer has as many bytes as is said.
        text(|json| unsafe { sys::relkvanu_show(self.read_handle(), id, json.as_mut_ptr(), json.len()) })
    }

    /// The image of the coordinator, as JSON (`docs/LOGS.md`): all of its state.
    pub fn save(&self) -> Result<String, Fault> {
        // SAFETY: as in `show`.
        let image = text_in(self.image_room.get(), |image| unsafe {
            sys::relkvanu_save(self.read_handle(), image.as_mut_ptr(), image.len())
        })?;
        // a state that has grown is not saved twice; room that is not written takes no memory
        self.image_room.set(2 * image.len());
        Ok(image)
    }

    /// The number of uses of a file.
    pub fn count(&self, file: u64) -> Called {
        // SAFETY: the handle is as the library last left it; `Coordinator` is not `Sync`, so no other call runs.
        called(unsafe { sys::relkvanu_count(self.read_handle(), file) })
    }

    // bindings/generate makes the reads
    /// What the job is doing.
    pub fn mode(&self) -> Mode {
        // SAFETY: as in `count`.
        Mode::of(read(unsafe { sys::relkvanu_mode(self.read_handle()) }).what)
    }

    /// The greatest moment that the coordinator has seen, at its opening or in an accepted call. It takes an earlier moment for
    /// this one. So it shows whether a clock has run ahead.
    pub fn moment(&self) -> u64 {
        // SAFETY: as in `count`.
        read(unsafe { sys::relkvanu_moment(self.read_handle()) }).a
    }

    /// The moment from which neither the interval nor the pause holds a checkpoint back. No tick before it triggers one. A tick
    /// at it or later triggers one, with three exceptions: as many are pending as may be, the job is not running, or so many
    /// checkpoints expire in the tick that the job fails over. A call that triggers, completes, restores or configures may move
    /// this moment, so read it again after a call.
    pub fn due(&self) -> u64 {
        // SAFETY: as in `count`.
        read(unsafe { sys::relkvanu_due(self.read_handle()) }).a
    }

    /// The moment from which a pending record is expired. A tick at that moment drops the record. None if no record is pending.
    /// Visits each pending record.
    pub fn oldest_expiry(&self) -> Option<u64> {
        // SAFETY: as in `count`.
        number_of(unsafe { sys::relkvanu_oldest_expiry(self.read_handle()) }, sys::RELKVANU_EXPIRES)
    }

    /// The record that a restore of the latest would begin from.
    pub fn choice(&self) -> Choice {
        // SAFETY: as in `count`.
        answer::choice(read(unsafe { sys::relkvanu_choice(self.read_handle()) }))
    }

    /// The live record at this place, from 0, in order of their numbers; none past the last. The time grows with the place.
    pub fn live(&self, place: usize) -> Option<Live> {
        // SAFETY: as in `count`.
        answer::live(read(unsafe { sys::relkvanu_live(self.read_handle(), place) }))
    }

    /// How many subtasks of this record have not acknowledged. None if no record with this number is pending.
    pub fn missing(&self, id: u64) -> Option<u64> {
        // SAFETY: as in `count`.
        number_of(unsafe { sys::relkvanu_missing(self.read_handle(), id) }, sys::RELKVANU_MISSING)
    }

    /// The live record with the least number that is at least id; none if there is none. To visit all live records, begin with 0,
    /// and go on with the returned number plus 1. A binary search. Takes no memory.
    pub fn live_from(&self, id: u64) -> Option<Live> {
        // SAFETY: as in `count`.
        answer::live(read(unsafe { sys::relkvanu_live_from(self.read_handle(), id) }))
    }

    /// Whether the record with this number is pending, done or ended, or no record has had the number. A binary search. Takes no
    /// memory.
    pub fn standing(&self, id: u64) -> Standing {
        // SAFETY: as in `count`.
        Standing::of(read(unsafe { sys::relkvanu_standing(self.read_handle(), id) }).what)
    }

    /// The file at this place, from 0, among those that wait for deletion. The next to be fetched is the first. None past the
    /// last. Takes constant time and no memory.
    pub fn waiting_file(&self, place: usize) -> Option<u64> {
        // SAFETY: as in `count`.
        number_of(unsafe { sys::relkvanu_waiting_file(self.read_handle(), place) }, sys::RELKVANU_WAITING)
    }

    /// The files that the subtask vertex.index acknowledged in the live record id, in ascending order. None if it has not
    /// acknowledged in one.
    pub fn files_of(&self, id: u64, subtask: (u16, u16)) -> Option<Vec<u64>> {
        // SAFETY: as in `count`; the buffer has as many places as is said.
        files(|to| unsafe {
            sys::relkvanu_files_of(self.read_handle(), id, subtask.0, subtask.1, to.as_mut_ptr(), to.len())
        })
        .expect("a read that takes no memory")
    }

    /// The files that the pending record id pins, in ascending order: the files of the record that a restart would have begun
    /// from at its trigger. None if no record with this number is pending.
    pub fn pins_of(&self, id: u64) -> Result<Vec<u64>, Fault> {
        // SAFETY: as in `count`; the buffer has as many places as is said.
        files(|to| unsafe { sys::relkvanu_pins_of(self.read_handle(), id, to.as_mut_ptr(), to.len()) })
            .map(Option::unwrap_or_default)
    }

    /// The files that were fetched for deletion and are not yet reported, in ascending order.
    pub fn taken_files(&self) -> Result<Vec<u64>, Fault> {
        // SAFETY: as in `count`; the buffer has as many places as is said.
        files(|to| unsafe { sys::relkvanu_taken_files(self.read_handle(), to.as_mut_ptr(), to.len()) })
            .map(Option::unwrap_or_default)
    }
    // bindings/generate: end

    /// The moment of the next tick after a tick with this answer, unless another call comes first: when a checkpoint is
    /// due or a pending record expires. While as many are pending as may be, it is the expiry, because `due` has
    /// passed. `None` if nothing changes before the next call, for example while the job has failed. After a tick that ran
    /// out of memory it has passed: wait for a second instead.
    pub fn next_tick(&self, ticked: &Result<Answer, Fault>) -> Option<u64> {
        if self.mode() != Mode::Running {
            return None;
        }
        let expiry = self.oldest_expiry();
        match ticked {
            Ok(Answer::HeldAtOnce { .. }) => expiry,
            _ => Some(expiry.map_or(self.due(), |expiry| expiry.min(self.due()))),
        }
    }

    /// How many files are in use by live records, wait for deletion, and were fetched for deletion.
    pub fn file_counts(&self) -> FileCounts {
        // SAFETY: as in `count`.
        let told = unsafe { sys::relkvanu_file_counts(self.read_handle()) };
        assert_eq!(told.code, sys::RELKVANU_DONE, "the handle is open");
        FileCounts { in_use: told.in_use, waiting: told.waiting, taken: told.taken }
    }
}

fn read(told: sys::relkvanu_answer) -> sys::relkvanu_answer {
    assert_eq!(told.code, sys::RELKVANU_DONE, "the handle is open");
    told
}

/// The number of an answer, if it is this one.
fn number_of(told: sys::relkvanu_answer, what: u32) -> Option<u64> {
    let told = read(told);
    (told.what == what).then_some(told.a)
}

/// The files that are written into a buffer.
fn files(write: impl Fn(&mut [u64]) -> sys::relkvanu_answer) -> Result<Option<Vec<u64>>, Fault> {
    let (told, files) = written(64, write)?;
    Ok((told.what == sys::RELKVANU_FILES).then_some(files))
}
