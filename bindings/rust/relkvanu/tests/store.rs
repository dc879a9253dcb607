//! The durable coordinator: calls and refusals, a recovery, submits, a read that panics, the discarder, and state files that come from a reader or are there.
#![cfg(feature = "store")]
mod common;

use common::{new_job, triggered, Place, SETTINGS};
use relkvanu::store::{
    CallError, Made, Options, Outcome, Phase, Step, StopFailed, Store, StoreError, StoreErrorKind, NOW,
};
use relkvanu::{Answer, Call, Choice, Fault, Mode, Refusal, Settings};
use std::collections::BTreeSet;
use std::fs;
use std::io::{self, Read};
use std::os::unix::fs::MetadataExt;
use std::panic::{catch_unwind, AssertUnwindSafe};
use std::sync::atomic::{AtomicU64, Ordering};
use std::thread;
use std::time::Duration;

fn job(place: &Place) -> Store {
    Store::open(&place.job(), &new_job(&[2])).unwrap()
}

/// Reserves the names that were not given out up to the file.
fn ack(store: &Store, id: u64, index: u16, file: u64) -> Answer {
    let running = store.term().unwrap();
    if running.next_name <= file {
        let count = file + 1 - running.next_name;
        store.reserve(running.term, count).unwrap();
    }
    ack_in(store, running.term, id, index, file).unwrap()
}

/// A checkpoint with two files from a number on.
fn complete(store: &Store, file: u64) -> u64 {
    let id = triggered(store);
    assert_eq!(ack(store, id, 0, file), Answer::AckPending { missing: 1 });
    assert!(matches!(ack(store, id, 1, file + 1), Answer::AckCompleted { .. }));
    id
}

#[test]
fn calls_and_a_recovery() {
    let folder = Place::new("calls");
    let store = job(&folder);
    assert!(!store.report().is_recovered);
    assert_eq!(store.report().steps, [Step::StartTasks]);
    complete(&store, 1);
    complete(&store, 11);
    let calls = [Call::Dispose { id: 9 }, Call::Take { most: 1 }, Call::Savepoint { now: NOW }];
    let outcomes = store.calls(&calls).unwrap();
    assert_eq!(outcomes[0], Err(Fault::Refused(Refusal::NoSuchSavepoint)));
    assert_eq!(outcomes[1].as_ref().unwrap().answer, Outcome::Taken(vec![1]));
    let savepoint = outcomes[2].as_ref().unwrap();
    assert_eq!((savepoint.place, savepoint.choice), (12, Some(Choice::Checkpoint(2))));
    assert_eq!(store.calls(&[]).unwrap_err().kind, StoreErrorKind::BadArgument);
    let mut options = Options::new(SETTINGS, &[2]);
    let second = Store::open(&folder.job(), &options).unwrap_err();
    assert_eq!(second.kind, StoreErrorKind::InUse);
    assert!(second.message.contains(&std::process::id().to_string()), "{second}");
    let job = store.report().job;
    drop(store);
    options.settings.interval = 20;
    let store = Store::open(&folder.job(), &options).unwrap();
    let report = store.report();
    assert!(report.is_recovered && report.settings_differ && report.epoch == 2 && report.job == job);
    assert_eq!((report.taken, report.mode, report.choice), (1, Mode::Running, Choice::Checkpoint(2)));
    assert_eq!(report.steps, [Step::EndTasks, Step::Restore, Step::Sweep, Step::StartTasks]);
    assert_eq!(store.garbage(&[1, 3]).unwrap().garbage, []);
    let restore = Call::Restore { now: NOW, savepoint: None, shape: None };
    assert!(matches!(store.call(restore).unwrap().called(), Some(Answer::Restored { .. })));
    assert_eq!(store.garbage(&[1, 2, 3, 11, 12]).unwrap().garbage, [3]);
    assert!(store.next_tick().unwrap().is_some());
}

#[test]
fn a_read_that_panics() {
    let folder = Place::new("panics");
    let store = job(&folder);
    complete(&store, 1);
    let read = catch_unwind(AssertUnwindSafe(|| store.read(|job| panic!("{}", job.due()))));
    assert!(read.is_err());
    complete(&store, 11);
    assert_eq!(store.read(|job| job.file_counts().waiting).unwrap(), 2);
}

#[test]
fn a_call_in_a_read() {
    let folder = Place::new("in-read");
    let store = job(&folder);
    complete(&store, 1);
    let in_read = |told: Result<(), StoreError>| {
        assert_eq!(told.unwrap_err().kind, StoreErrorKind::InRead);
    };
    store
        .read(|_| {
            in_read(store.calls(&[Call::Tick { now: NOW }]).map(drop));
            in_read(store.read(|_| ()));
            in_read(store.sweep().map(drop));
            in_read(store.discard(1, |_| true));
            assert!(store.now() > 0 && store.next_tick().is_ok());
        })
        .unwrap();
    complete(&store, 11);
}

fn ack_in(store: &Store, term: u64, id: u64, index: u16, file: u64) -> Result<Answer, CallError> {
    let call = Call::AckIn { term, now: 0, id, subtask: (0, index), fresh: &[file], reused: &[] };
    store.call(call).map(|made| made.called().unwrap())
}

#[test]
fn submits() {
    let folder = Place::new("submits");
    let store = job(&folder);
    let tokens: Vec<u64> = (0..100).map(|_| store.submit(&[Call::Savepoint { now: NOW }]).unwrap()).collect();
    let mut found = Vec::new();
    while found.len() < 100 {
        found.extend(store.completed());
        thread::sleep(Duration::from_millis(1));
    }
    assert_eq!(found.iter().map(|it| it.0).collect::<Vec<_>>(), tokens);
    let places = found.iter().map(|it| it.1.as_ref().unwrap()[0].as_ref().unwrap().place);
    assert!(places.eq(1..=100));
    store.submit(&[Call::Savepoint { now: NOW }]).unwrap(); // the drop waits for it
}

/// Waits for one completion.
fn completion(store: &Store, token: u64) -> Result<Vec<Result<Made, Fault>>, StoreError> {
    loop {
        if let Some((found, outcomes)) = store.completed().pop() {
            assert_eq!(found, token);
            return outcomes;
        }
        thread::sleep(Duration::from_millis(1));
    }
}

#[test]
fn submitted_commands() {
    let folder = Place::new("submitted-commands");
    let store = job(&folder);
    let why = completion(&store, store.submit_begin_job().unwrap()).unwrap_err();
    assert_eq!(why.kind, StoreErrorKind::NotNow);
    let stop = completion(&store, store.submit_stop_job().unwrap()).unwrap();
    let answer = stop[0].as_ref().unwrap().called();
    assert_eq!(answer, Some(Answer::SavepointTriggered(1)));
    assert_eq!(store.phase().unwrap().phase, Phase::Stopping);
    for index in 0..2 {
        ack(&store, 1, index, 1 + u64::from(index));
    }
    let begun = completion(&store, store.submit_begin_job().unwrap()).unwrap();
    // behind the savepoint, two names and acknowledgements, and the restore with which the job has stopped
    assert_eq!(begun[0].as_ref().unwrap().place, 7);
    assert_eq!(store.phase().unwrap().phase, Phase::Running);
}

#[test]
fn a_discarder() {
    let folder = Place::new("discarder");
    let store = job(&folder);
    let tries = AtomicU64::new(0);
    thread::scope(|scope| {
        let discarder = scope.spawn(|| {
            let (mut gone, mut panics) = (BTreeSet::new(), 0);
            loop {
                let discards = AssertUnwindSafe(|| {
                    store.discard(4, |file| {
                        assert!(file != 2 || tries.fetch_add(1, Ordering::Relaxed) >= 2, "not yet");
                        gone.insert(file)
                    })
                });
                match catch_unwind(discards) {
                    Ok(ended) => return (ended, gone, panics),
                    Err(_) => panics += 1,
                }
            }
        });
        complete(&store, 1);
        complete(&store, 11);
        while store.read(|job| job.file_counts()).is_ok_and(|it| it.waiting + it.taken != 0) {
            thread::sleep(Duration::from_millis(5));
        }
        store.stop();
        let (ended, gone, panics) = discarder.join().unwrap();
        assert_eq!(ended, Ok(()));
        assert_eq!((gone, panics), (BTreeSet::from([1, 2]), 2));
        assert_eq!(tries.load(Ordering::Relaxed), 3);
    });
    assert!(store.await_tick(1000).is_err());
}

fn kind<T>(it: Result<T, CallError>) -> StoreErrorKind {
    match it.err().unwrap() {
        CallError::Store(why) => why.kind,
        CallError::Fault(why) => panic!("{why}"),
    }
}

#[test]
fn commands_of_an_operator() {
    let folder = Place::new("commands");
    let store = job(&folder);
    complete(&store, 1);
    let other = Settings { interval: 1 << 30, retained: 2, ..SETTINGS };
    store.configure(&other).unwrap();
    assert_eq!(kind(store.configure(&Settings { interval: 5, ..other })), StoreErrorKind::BadArgument);
    let made = store.trigger().unwrap();
    assert_eq!(store.await_tick(1000).unwrap(), made);
    assert_eq!(made.choice, Some(Choice::Checkpoint(1)));
    assert_eq!(kind(store.go_back(1, false)), StoreErrorKind::BadArgument);
    let back = store.go_back(1, true).unwrap();
    assert_eq!(store.await_tick(1000).unwrap().called(), back.called());
    assert_eq!(kind(store.begin_job()), StoreErrorKind::NotNow);
    let Some(Answer::SavepointTriggered(id)) = store.stop_job().unwrap().called() else { panic!("a stop") };
    let phase = store.phase().unwrap();
    assert_eq!((phase.phase, phase.savepoint, phase.stop_failed), (Phase::Stopping, Some(id), None));
    store.await_tick(1000).unwrap();
    for index in 0..2 {
        ack(&store, id, index, 21 + u64::from(index));
    }
    assert_eq!(kind(store.await_tick(1000)), StoreErrorKind::JobStopped);
    drop(store);
    let store = Store::open(&folder.job(), &Options::new(SETTINGS, &[2])).unwrap();
    let report = store.report();
    assert_eq!((report.phase.phase, report.steps.as_slice()), (Phase::Stopped, &[Step::EndTasks, Step::Discard][..]));
    store.begin_job().unwrap();
    store.stop_job().unwrap();
    store.call(Call::Cancel { now: NOW }).unwrap();
    let phase = store.phase().unwrap();
    assert_eq!((phase.phase, phase.stop_failed), (Phase::Running, Some(StopFailed::Cancelled)));
    assert_eq!(kind(store.await_tick(1000)), StoreErrorKind::NotStopped);
}

fn with_files(place: &Place) -> Store {
    let store = Store::open(&place.job(), &Options { storage: Some(place.state()), ..new_job(&[2, 1]) }).unwrap();
    store.reserve(store.report().names.term, 9).unwrap();
    store
}

/// Gives some bytes, is interrupted, gives more, and then does what it is asked to.
struct Source<F: FnMut() -> io::Result<usize>>(Vec<&'static [u8]>, F);

impl<F: FnMut() -> io::Result<usize>> Read for Source<F> {
    fn read(&mut self, to: &mut [u8]) -> io::Result<usize> {
        match self.0.pop() {
            Some([]) => Err(io::ErrorKind::Interrupted.into()),
            Some(some) => {
                to[..some.len()].copy_from_slice(some);
                Ok(some.len())
            }
            None => (self.1)(),
        }
    }
}

#[test]
fn a_file_of_a_reader() {
    let place = Place::new("reader");
    let store = with_files(&place);
    let long = vec![7; 600_000];
    store.put_from(1, &long[..]).unwrap();
    assert_eq!(fs::read(place.state().join("1")).unwrap(), long);
    let parts = || vec![&b"te"[..], b"", b"sta"];
    store.put_from(2, Source(parts(), || Ok(0))).unwrap();
    assert_eq!(fs::read(place.state().join("2")).unwrap(), b"state");
    let present = store.put_from(2, &long[..]).unwrap_err();
    assert_eq!(present.kind, StoreErrorKind::Present);
    let failed = Source(parts(), || Err(io::Error::other("no source")));
    let told = store.put_from(3, failed).unwrap_err();
    assert_eq!((told.kind, &*told.message), (StoreErrorKind::NotPut, "no source"));
    let panics = Source(parts(), || panic!("a source"));
    assert!(catch_unwind(AssertUnwindSafe(|| store.put_from(4, panics))).is_err());
    for name in ["3", "3.part", "4", "4.part"] {
        assert!(!place.state().join(name).exists(), "{name}");
    }
}

#[test]
fn a_file_that_is_there() {
    let place = Place::new("links");
    let store = with_files(&place);
    let made = place.0.join("made");
    fs::write(&made, b"state").unwrap();
    store.put_link(1, &made).unwrap();
    assert_eq!(fs::metadata(place.state().join("1")).unwrap().nlink(), 2);
    let present = store.put_link(1, &made).unwrap_err();
    assert_eq!(present.kind, StoreErrorKind::Present);
    let none = store.put_link(2, &place.0.join("none")).unwrap_err();
    assert_eq!(none.kind, StoreErrorKind::NotPut);
    assert!(none.message.contains("No such file"), "{}", none.message);
}

#[test]
fn why_a_call_was_refused() {
    let place = Place::new("why");
    let store = with_files(&place);
    let ack = |term| {
        let refused = store.call(Call::AckIn { now: NOW, term, id: 6, subtask: (1, 0), fresh: &[], reused: &[] });
        assert!(refused.is_err());
        relkvanu::store::why()
    };
    assert_eq!(ack(1), "record 6, subtask 1.0, term 1: refused UnknownCheckpoint");
    assert_eq!(ack(7), "record 6, subtask 1.0, term 7: fenced OldTerm; term 1 runs");
}

#[test]
fn the_job_of_an_opening() {
    let place = Place::new("opening");
    drop(with_files(&place));
    let other = Settings { interval: 99, keep_on_cancel: true, ..SETTINGS };
    let mut options = Options::new(other, &[3]);
    options.storage = Some(place.state());
    let again = Store::open(&place.job(), &options).unwrap();
    assert!(again.report().settings_differ);
    assert_eq!(again.job().unwrap(), (SETTINGS, vec![2, 1]));
    assert_eq!(triggered(&again), 1);
}
