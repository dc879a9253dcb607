//! The coordinator of one job, for any number of threads.
use crate::answer::{Answer, Choice, FileCounts, Garbage, Live, Mode, RunningTerm, Standing};
use crate::call::Call;
use crate::coordinator::{Coordinator, Settings};
use crate::fault::Fault;
use crate::lines::{Made, Said};
use crate::locked;
use std::num::NonZeroU64;
use std::ops::Range;
use std::sync::{Arc, Condvar, Mutex, MutexGuard};
use std::time::Duration;

type Called = Result<Answer, Fault>;

/// A coordinator under a mutex, and the number of calls made under it.
#[derive(Debug)]
struct Inner {
    coordinator: Coordinator,
    calls: u64,
}

#[derive(Debug)]
struct Shared {
    inner: Mutex<Inner>,
    called: Condvar,
}

/// A coordinator that threads share. A clone is the same coordinator. Each method locks it for one call, and
/// [`with`](Self::with) for several, with no other thread's call between them.
///
/// A method unlocks before it returns, so the arms of a `match` over an answer may call again.
#[derive(Clone, Debug)]
pub struct SharedCoordinator {
    shared: Arc<Shared>,
}

impl From<Coordinator> for SharedCoordinator {
    fn from(coordinator: Coordinator) -> SharedCoordinator {
        let inner = Mutex::new(Inner { coordinator, calls: 0 });
        SharedCoordinator { shared: Arc::new(Shared { inner, called: Condvar::new() }) }
    }
}

impl SharedCoordinator {
    /// Opens a coordinator, as [`Coordinator::open`].
    pub fn open(settings: &Settings, shape: &[u64], now: u64, first: u64) -> Result<SharedCoordinator, Fault> {
        Coordinator::open(settings, shape, now, first).map(SharedCoordinator::from)
    }

    /// Opens a coordinator with names, as [`Coordinator::open_fenced`].
    pub fn open_fenced(
        settings: &Settings,
        shape: &[u64],
        now: u64,
        first: u64,
        first_name: u64,
    ) -> Result<SharedCoordinator, Fault> {
        Coordinator::open_fenced(settings, shape, now, first, first_name).map(SharedCoordinator::from)
    }

    /// Opens the coordinator that an image describes, as [`Coordinator::open_saved`].
    pub fn open_saved(image: &[u8]) -> Result<SharedCoordinator, Fault> {
        Coordinator::open_saved(image).map(SharedCoordinator::from)
    }

    /// The lock. A thread that panics under it leaves the coordinator between two calls, so its state is sound.
    fn lock(&self) -> MutexGuard<'_, Inner> {
        locked(&self.shared.inner)
    }

    /// Runs a closure under one lock, and wakes threads that wait for a call. Delete, send and wait outside of it.
    pub fn with<T>(&self, calls: impl FnOnce(&mut Coordinator) -> T) -> T {
        let mut inner = self.lock();
        inner.calls += 1;
        let told = calls(&mut inner.coordinator);
        drop(inner);
        self.shared.called.notify_all();
        told
    }

    /// A call that does not change what a timer waits for, so nobody is woken.
    fn quietly<T>(&self, call: impl FnOnce(&mut Coordinator) -> T) -> T {
        call(&mut self.lock().coordinator)
    }

    /// Reads under one lock.
    pub fn read<T>(&self, reads: impl FnOnce(&Coordinator) -> T) -> T {
        reads(&self.lock().coordinator)
    }

    /// The number of calls that may have changed what a timer waits for, [`with`](Self::with) included.
    pub fn calls(&self) -> u64 {
        self.lock().calls
    }

    /// Waits until [`calls`](Self::calls) is above `seen`, or the time is over. `None` sets no limit.
    pub fn wait_for_call(&self, seen: u64, longest: Option<Duration>) {
        let is_unseen = |inner: &mut Inner| inner.calls <= seen;
        let inner = self.lock();
        match longest {
            Some(longest) => drop(self.shared.called.wait_timeout_while(inner, longest, is_unseen)),
            None => drop(self.shared.called.wait_while(inner, is_unseen)),
        }
    }
}

/// The methods of [`Coordinator`] with these names, under the lock, each by the method of [`SharedCoordinator`] before its name.
macro_rules! under_lock {
    ($($(#[$of:meta])* $lock:ident $name:ident$(<$life:lifetime>)?($($word:ident: $what:ty),*) -> $told:ty;)*) => {
        $($(#[$of])*
        pub fn $name$(<$life>)?(&self, $($word: $what),*) -> $told {
            self.$lock(|it| it.$name($($word),*))
        })*
    };
}

/// The calls and reads of [`Coordinator`], each under the lock. `next_tick` is not among them: it belongs to the tick before it, so
/// both are made under one lock, by [`with`](Self::with).
impl SharedCoordinator {
    // bindings/generate makes the calls of one number
    pub fn tick(&self, now: u64) -> Called {
        self.with(|it| it.tick(now))
    }

    pub fn savepoint(&self, now: u64) -> Called {
        self.with(|it| it.savepoint(now))
    }

    pub fn dispose(&self, id: u64) -> Called {
        self.quietly(|it| it.dispose(id))
    }

    pub fn cancel(&self, now: u64) -> Called {
        self.with(|it| it.cancel(now))
    }

    pub fn deleted(&self, file: u64) -> Called {
        self.quietly(|it| it.deleted(file))
    }

    pub fn undeleted(&self, file: u64) -> Called {
        self.quietly(|it| it.undeleted(file))
    }

    pub fn trigger(&self, now: u64) -> Called {
        self.with(|it| it.trigger(now))
    }
    // bindings/generate: end

    under_lock! {
        /// [`Coordinator::ack`] says who may then delete the files.
        with ack(now: u64, id: u64, subtask: (u16, u16), fresh: &[u64], reused: &[u64]) -> Called;
        with decline(now: u64, id: u64, subtask: (u16, u16)) -> Called;
        /// Gives the coordinator names: [`Coordinator::fence`].
        quietly fence(first_name: u64) -> Result<(), Fault>;
        /// [`Coordinator::term`] says who asks for it.
        read term() -> Result<RunningTerm, Fault>;
        /// Reserves names: [`Coordinator::reserve`].
        quietly reserve(term: u64, count: u64) -> Result<Range<u64>, Fault>;
        /// Gives names up: [`Coordinator::forfeit`].
        quietly forfeit(term: u64, names: &[u64]) -> Result<(), Fault>;
        /// [`Coordinator::ack_in`] says who may then delete the files.
        with ack_in(term: u64, now: u64, id: u64, subtask: (u16, u16), fresh: &[u64], reused: &[u64]) -> Called;
        with decline_in(term: u64, now: u64, id: u64, subtask: (u16, u16)) -> Called;
        /// Which of these files may be deleted: [`Coordinator::garbage`].
        read garbage(files: &[u64]) -> Result<Garbage, Fault>;
        with restore(now: u64, savepoint: Option<NonZeroU64>, shape: Option<&[u64]>) -> Called;
        with configure(now: u64, settings: &Settings) -> Called;
        quietly take<'a>(files: &'a mut [u64]) -> Result<&'a [u64], Fault>;
        /// Makes a call, and returns its line too: [`Coordinator::make`].
        with make<'a>(call: &Call<'_>, files: &'a mut [u64]) -> Result<Made<'a>, Fault>;
        /// Makes the call of a line: [`Coordinator::line`].
        with line<'a>(line: &[u8], files: &'a mut [u64]) -> Result<Said<'a>, Fault>;
        read show(id: u64) -> Result<String, Fault>;
        /// The image of the coordinator: [`Coordinator::save`].
        read save() -> Result<String, Fault>;
        read count(file: u64) -> Called;
        read mode() -> Mode;
        read moment() -> u64;
        read due() -> u64;
        read oldest_expiry() -> Option<u64>;
        read choice() -> Choice;
        read live(place: usize) -> Option<Live>;
        read live_from(id: u64) -> Option<Live>;
        read standing(id: u64) -> Standing;
        read files_of(id: u64, subtask: (u16, u16)) -> Option<Vec<u64>>;
        read pins_of(id: u64) -> Result<Vec<u64>, Fault>;
        read waiting_file(place: usize) -> Option<u64>;
        read taken_files() -> Result<Vec<u64>, Fault>;
        read missing(id: u64) -> Option<u64>;
        read file_counts() -> FileCounts;
    }
}
