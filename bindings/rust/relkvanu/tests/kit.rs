//! What a runner has beside the loop: any storage, lists, states of any size, full checkpoints, tasks that end before the job, an end of the job, and what it
//! says of a storage or a job that fails for ever. And sinks over a target.
#![cfg(feature = "store")]
mod common;
mod engine;

use common::{new_job, Place, SETTINGS};
use engine::{engine_that, job_of, runs, when, Job, Word, TASKS};
use relkvanu::outputs::{Files, Sink, SinkFault, Target, TargetFault};
use relkvanu::runner::{Ack, Barrier, Ended, Options, RunFault, SavepointFault, Told};
use relkvanu::storage::{Cached, Deletion, Folder, FolderOptions, Page, Storage, StorageError};
use relkvanu::store::{CallError, More, Store, StoreErrorKind, NOW};
use relkvanu::{Call, Choice, Fault, Fenced, Kind, Settings};
use std::cell::Cell;
use std::fs;
use std::ops::ControlFlow;
use std::path::Path;
use std::sync::atomic::{AtomicBool, Ordering::SeqCst};
use std::sync::{Arc, Mutex};
use std::thread;
use std::time::Duration;

/// No checkpoint is due: tests trigger them.
const IDLE: Settings = Settings { interval: 1 << 40, tolerable: 0, ..SETTINGS };

fn job_with(
    place: &Place,
    settings: Settings,
    options: Options,
    does: impl Fn(&Job, Barrier) -> Told + Send + Sync + 'static,
) -> Job {
    let mut how = new_job(&[TASKS.into()]);
    (how.settings, how.storage) = (settings, options.files.is_none().then(|| place.state()));
    job_of(Store::open(&place.job(), &how).unwrap(), engine_that(does), options)
}

/// A run, and how many of the starts, barriers, completions and stops that its engine notes were looked at.
struct Run {
    job: Job,
    run: engine::Run,
    seen: Cell<usize>,
}

impl Run {
    fn begins(job: Job) -> Run {
        Run { run: runs(&job), job, seen: Cell::new(0) }
    }

    fn of(
        place: &Place,
        settings: Settings,
        options: Options,
        does: impl Fn(&Job, Barrier) -> Told + Send + Sync + 'static,
    ) -> Run {
        Run::begins(job_with(place, settings, options, does))
    }

    fn next(&self) -> Word {
        let is_told = |it: &Word| !matches!(it, Word::End | Word::GoOn | Word::Aborted(_));
        let seen = self.seen.replace(self.seen.get() + 1);
        self.job.engine().await_words(seen + 1, is_told);
        self.job.engine().said().into_iter().filter(is_told).nth(seen).unwrap()
    }

    /// The barrier that comes next.
    fn barrier(&self) -> Barrier {
        let Word::Barrier(id, ..) = self.next() else { panic!("no barrier") };
        *self.job.engine().barriers.lock().unwrap().iter().rfind(|it| it.id == id).unwrap()
    }

    fn is_started_from(&self, record: Option<u64>) -> bool {
        matches!(self.next(), Word::Start(_, from, _) if from == record)
    }

    fn is_stopped_with(&self, record: u64) -> bool {
        matches!(self.next(), Word::Stopped(id, _) if id == record)
    }

    fn started(self, record: Option<u64>) -> Run {
        assert!(self.is_started_from(record));
        self
    }

    /// A checkpoint, up to its completion.
    fn checkpoint(&self, is_full: bool) -> Barrier {
        let id = self.job.checkpoint(is_full).unwrap();
        let barrier = self.barrier();
        assert_eq!((barrier.id, barrier.kind, self.next()), (id, Kind::Checkpoint, Word::Complete(id)));
        barrier
    }

    fn ended(self) -> Result<Ended, RunFault> {
        self.job.close();
        self.run.join().unwrap()
    }
}

fn everybody(job: &Job, it: Barrier, state: &[u8]) -> Told {
    (0..TASKS).try_for_each(|index| job.ack_state(&it, (0, index), state).map(drop).map_err(Into::into))
}

fn folder(path: &Path) -> Folder {
    fs::create_dir_all(path).unwrap();
    let open = |is_new| Folder::open(path, "kit", &FolderOptions { is_new, ..FolderOptions::new() });
    open(false).or_else(|_| open(true)).unwrap()
}

fn over(files: impl Storage + 'static) -> Options {
    Options { files: Some(Box::new(files)), patience: Duration::from_millis(300), ..Options::default() }
}

fn names(path: &Path) -> Vec<String> {
    let name = |it: std::io::Result<fs::DirEntry>| it.unwrap().file_name().into_string().unwrap();
    let mut all: Vec<String> = fs::read_dir(path).unwrap().map(name).filter(|it| !it.starts_with('.')).collect();
    all.sort();
    all
}

/// A folder that can't put, read, list or delete.
struct Failing(Folder, &'static str);

impl Failing {
    fn can(&self, what: &str, why: &'static str) -> Result<&Folder, StorageError> {
        if self.1 == what {
            return Err(StorageError::Failed(std::io::Error::other(why)));
        }
        Ok(&self.0)
    }
}

impl Storage for Failing {
    fn check(&self) -> Result<(), StorageError> {
        self.0.check()
    }

    fn put(&self, file: u64, contents: &[u8]) -> Result<(), StorageError> {
        self.can("put", "it is full")?.put(file, contents)
    }

    fn get(&self, file: u64) -> Result<Vec<u8>, StorageError> {
        self.can("get", "it is broken")?.get(file)
    }

    fn delete(&self, files: &[u64]) -> Result<Vec<Deletion>, StorageError> {
        self.can("delete", "it is broken")?.delete(files)
    }

    fn pages(&self, most: usize, page: &mut Page<'_>) -> Result<ControlFlow<()>, StorageError> {
        self.can("list", "it is broken")?.pages(most, page)
    }
}

#[test]
fn states_in_a_storage_of_the_engine() {
    let place = Place::new("kit-storage");
    let at = place.0.join("elsewhere");
    let long = vec![7; 5000];
    let state = long.clone();
    let run = Run::of(&place, IDLE, over(folder(&at)), move |job, it| everybody(job, it, &state)).started(None);
    assert_eq!((1..=2).map(|_| run.checkpoint(false).id).collect::<Vec<_>>(), [1, 2]);
    let record = run.job.job().load(None).unwrap().unwrap();
    assert_eq!(run.job.state(&record, (0, 1)).unwrap(), Some(long));
    assert_eq!(run.job.state(&record, (0, TASKS)).unwrap(), None);
    let files: Vec<String> = record.parts.iter().map(|it| it.files[0].to_string()).collect();
    assert!(matches!(run.ended(), Ok(Ended::Closed)));
    folder(&at).put(1_000_000, b"of nobody").unwrap(); // its name was not given out
    let run = Run::of(&place, IDLE, over(folder(&at)), |_, _| Ok(())).started(Some(2));
    assert!(matches!(run.ended(), Ok(Ended::Closed)));
    assert_eq!(names(&at), [&["1000000".to_owned()], &files[..]].concat());
    fs::remove_file(at.join(&files[0])).unwrap();
    let job = job_with(&place, IDLE, over(folder(&at)), |_, _| Ok(()));
    when(&job.engine().starts, |_, ()| Err("its tasks start".into()));
    let lost = job.run();
    let Err(RunFault::Call(CallError::Store(why))) = lost else { panic!("{lost:?}") };
    assert_eq!(why.kind, StoreErrorKind::FileLost);
    assert_eq!(names(&at).len(), 2); // and nothing was swept
}

#[test]
fn storages_that_fail_for_ever() {
    let place = Place::new("kit-fails");
    let at = place.0.join("elsewhere");
    let full = |job: &Job, it: Barrier| everybody(job, it, &[0; 5000]);
    let run = Run::of(&place, Settings { tolerable: 9, ..IDLE }, over(Failing(folder(&at), "put")), full).started(None);
    let id = run.job.checkpoint(false).unwrap(); // its tasks decline it
    while run.job.job().history(1).unwrap().is_empty() {
        thread::sleep(Duration::from_millis(1));
    }
    let past = run.job.job().history(1).unwrap().remove(0);
    assert_eq!((past.id, past.reason.as_str()), (id, "it is full"));
    assert!(run.ended().is_ok() && names(&at).is_empty());
    let run = Run::of(&place, IDLE, over(folder(&at)), full).started(None);
    let id = run.checkpoint(false).id;
    assert!(run.ended().is_ok());
    let run = Run::of(&place, IDLE, over(Failing(folder(&at), "get")), full).started(Some(id));
    let record = run.job.job().load(None).unwrap().unwrap();
    let told = run.job.state(&record, (0, 0));
    assert!(matches!(&told, Err(RunFault::Unreadable { file, .. }) if *file == record.parts[0].files[0]), "{told:?}");
    assert!(run.ended().is_ok());
    let told = Run::of(&place, IDLE, over(Failing(folder(&at), "list")), full).run.join().unwrap();
    assert!(matches!(told, Err(RunFault::Files(_))), "{told:?}");
    let run = Run::of(&place, IDLE, over(Failing(folder(&at), "delete")), full).started(Some(id));
    run.checkpoint(false); // which releases the files of the first
    run.job.ask_to_stop();
    let told = run.run.join().unwrap();
    assert!(matches!(told, Err(RunFault::FilesLeft(4))), "{told:?}"); // those of the second, too
    assert_eq!(names(&at).len(), 6);
    drop(run.job);
    let run = Run::of(&place, IDLE, over(folder(&at)), full); // the next process deletes them
    assert!(run.is_stopped_with(id + 2));
    assert_eq!(run.run.join().unwrap().unwrap(), Ended::Stopped);
    assert_eq!(names(&at).len(), 2);
}

#[test]
fn a_list_of_acknowledgements() {
    let place = Place::new("kit-acks");
    let list = |job: &Job, it: Barrier| {
        let ack = |index| Ack { barrier: it, subtask: (0, index), fresh: &[], reused: &[], more: More::default() };
        let told = job.acks(&[ack(0), ack(0), ack(1)])?;
        assert_eq!(told.iter().map(Result::is_ok).collect::<Vec<_>>(), [true, false, true]);
        let old = Barrier { term: it.term - 1, ..it };
        let told = job.acks(&[Ack { barrier: old, ..ack(0) }]);
        assert_eq!(told, Err(CallError::Fault(Fault::Fenced(Fenced::OldTerm))));
        Ok(())
    };
    let run = Run::of(&place, IDLE, Options::default(), list).started(None);
    run.job.restart(); // so that a term has ended
    let run = run.started(None);
    assert_eq!(run.checkpoint(false).id, 1);
    assert!(run.ended().is_ok());
}

#[test]
fn a_full_checkpoint_has_no_base() {
    let place = Place::new("kit-full");
    let run = Run::of(&place, IDLE, Options::default(), |job, it| everybody(job, it, b"x")).started(None);
    let bases = [false, false, true, false].map(|is_full| run.checkpoint(is_full).base);
    assert_eq!(bases, [Choice::Fresh, Choice::Checkpoint(1), Choice::Fresh, Choice::Checkpoint(3)]);
    run.job.close();
    assert!(run.run.join().unwrap().is_ok());
    assert_eq!(run.job.checkpoint(true), Err(SavepointFault::Over { id: None }));
}

/// A task has ended with a file. A record that its neighbour declines takes the file with it, and so does one without a base.
#[test]
fn a_task_that_ends_before_the_job() {
    let place = Place::new("kit-finished");
    let declines = Arc::new(AtomicBool::new(false));
    let asked = declines.clone();
    let one = move |job: &Job, it: Barrier| match asked.swap(false, SeqCst) {
        true => Ok(job.decline(it.term, it.id, (0, 0), "no").map(drop)?),
        false => Ok(job.ack_payload(&it, (0, 0), b"one").map(drop)?),
    };
    let run = Run::of(&place, Settings { tolerable: 9, ..IDLE }, Options::default(), one).started(None);
    let name = run.job.reserve(1, 1).unwrap().start;
    run.job.files().put(name, b"the last").unwrap();
    run.job.finished(1, (0, 1), &[name], b"and more").unwrap();
    assert!(run.job.finished(0, (0, 1), &[], b"of a task that should be dead").is_err());
    let part = || run.job.job().load(None).unwrap().unwrap().part(0, 1).unwrap().clone();
    let file_after = |is_full| {
        run.checkpoint(is_full);
        assert_eq!(part().payload, b"and more");
        assert_eq!(run.job.files().get(part().files[0]).unwrap(), b"the last");
        part().files[0]
    };
    assert_eq!([file_after(false), file_after(false)], [name; 2]);
    let anew = file_after(true);
    assert!(anew != name);
    declines.store(true, SeqCst);
    run.job.checkpoint(true).unwrap();
    run.barrier();
    assert_eq!(file_after(false), anew);
    run.job.restart(); // which forgets it
    let run = run.started(Some(5));
    run.job.checkpoint(false).unwrap();
    run.barrier();
    while run.job.job().read(|job| job.missing(6)).unwrap() == Some(2) {
        thread::sleep(Duration::from_millis(1));
    }
    thread::sleep(Duration::from_millis(100)); // in which it would be acknowledged
    assert_eq!(run.job.job().read(|job| job.missing(6)).unwrap(), Some(1));
    assert!(run.ended().is_ok());
}

#[test]
fn a_job_that_is_finished() {
    let place = Place::new("kit-finish");
    let state = |job: &Job, it: Barrier| everybody(job, it, &[0; 5000]);
    let run = Run::of(&place, IDLE, Options::default(), state).started(None);
    run.checkpoint(false);
    run.job.finish();
    let last = run.barrier();
    assert_eq!((last.kind, last.holds, last.drains), (Kind::Savepoint, true, true));
    assert_eq!(run.next(), Word::Complete(last.id));
    assert!(run.is_stopped_with(last.id));
    assert_eq!(run.run.join().unwrap().unwrap(), Ended::Finished);
    assert_eq!(names(&place.state()).len(), 2); // of the savepoint
    drop(run.job);
    let run = Run::of(&place, IDLE, Options::default(), state);
    assert_eq!(run.run.join().unwrap().unwrap(), Ended::Cancelled);
}

/// It is stopped by a drain, and the process dies before the job is cancelled.
#[test]
fn a_job_whose_end_goes_on() {
    let place = Place::new("kit-goes-on");
    let state = |job: &Job, it: Barrier| everybody(job, it, b"x");
    let run = Run::of(&place, IDLE, Options::default(), state).started(None);
    run.job.ask_to_drain();
    assert_eq!(run.run.join().unwrap().unwrap(), Ended::Stopped);
    drop(run.job);
    let job = job_with(&place, IDLE, Options::default(), state);
    when(&job.engine().stops, |job, ()| {
        job.finish();
        Ok(())
    });
    let run = Run::begins(job);
    assert!(run.is_stopped_with(1));
    assert_eq!(run.run.join().unwrap().unwrap(), Ended::Finished);
}

/// Its tasks have not put out what they keep, so it is no end.
#[test]
fn a_stop_of_somebody_else_at_the_end() {
    let place = Place::new("kit-suspended");
    let holds = |job: &Job, it: Barrier| if it.holds && !it.drains { Ok(()) } else { everybody(job, it, b"x") };
    let run = Run::of(&place, IDLE, Options::default(), holds).started(None);
    run.job.job().stop_job().unwrap();
    let barrier = run.barrier();
    run.job.finish();
    everybody(&run.job, barrier, b"x").unwrap();
    assert_eq!(run.run.join().unwrap().unwrap(), Ended::Stopped);
    run.job.job().begin_job().unwrap();
    drop(run.job);
    let run = Run::of(&place, IDLE, Options::default(), holds).started(Some(1));
    run.job.finish();
    assert!(run.barrier().drains);
    assert_eq!(run.run.join().unwrap().unwrap(), Ended::Finished);
}

/// Tasks have put out what they keep, so they can't go on.
#[test]
fn a_drain_that_fails_restarts_the_tasks() {
    let place = Place::new("kit-drain-fails");
    let declines = AtomicBool::new(true);
    let state = move |job: &Job, it: Barrier| match it.drains && declines.swap(false, SeqCst) {
        true => Ok(job.decline(it.term, it.id, (0, 0), "no").map(drop)?),
        false => everybody(job, it, b"x"),
    };
    let run = Run::of(&place, Settings { tolerable: 9, ..IDLE }, Options::default(), state).started(None);
    run.job.ask_to_drain();
    assert!(run.barrier().drains);
    assert!(run.is_started_from(None));
    assert!(run.barrier().drains);
    assert_eq!(run.run.join().unwrap().unwrap(), Ended::Stopped);
}

#[test]
fn a_restore_by_another_thread() {
    let place = Place::new("kit-restored");
    let run = Run::of(&place, IDLE, Options::default(), |job, it| everybody(job, it, b"x")).started(None);
    let mut last = run.checkpoint(false);
    for way in 0..4 {
        let store = run.job.job();
        match way {
            0 | 3 => drop(store.call(Call::Restore { now: NOW, savepoint: None, shape: None }).unwrap()),
            1 => drop(store.go_back(last.id, true).unwrap()),
            _ => drop(run.job.restore(None, None).unwrap()),
        }
        assert!(matches!(run.next(), Word::Start(_, Some(_), _)));
        let next = run.checkpoint(false); // and nothing has started twice
        assert!(next.term > last.term);
        last = next;
    }
    assert!(matches!(run.ended(), Ok(Ended::Closed)));
}

#[test]
fn a_run_that_waits_for_the_begin_of_a_stopped_job() {
    let place = Place::new("kit-waits");
    let options = || Options { waits: true, ..Options::default() };
    let run = Run::of(&place, IDLE, options(), |job, it| everybody(job, it, b"x")).started(None);
    for stop in 1..3 {
        run.job.job().stop_job().unwrap();
        let barrier = run.barrier();
        assert!(barrier.holds && !barrier.drains);
        assert_eq!(run.next(), Word::Complete(stop));
        assert!(run.is_stopped_with(stop));
        run.job.job().begin_job().unwrap();
        assert!(run.is_started_from(Some(stop)));
    }
    run.job.ask_to_stop(); // by this process, which is to end
    assert_eq!(run.run.join().unwrap().unwrap(), Ended::Stopped);
    drop(run.job);
    let run = Run::of(&place, IDLE, options(), |_, _| Ok(()));
    assert!(run.is_stopped_with(3));
    assert!(matches!(run.ended(), Ok(Ended::Closed)));
}

#[test]
fn a_task_that_never_takes_part() {
    let place = Place::new("kit-stuck");
    let settings = Settings { interval: 20, timeout: 50, ..IDLE };
    let options = Options { patience: Duration::from_millis(300), ..Options::default() };
    let run = Run::of(&place, settings, options, |job, it| Ok(job.ack_payload(&it, (0, 0), b"").map(drop)?));
    let told = run.run.join().unwrap();
    assert!(matches!(&told, Err(RunFault::Stuck { missing, .. }) if *missing == [(0, 1)]), "{told:?}");
}

fn lines(at: &Path) -> String {
    names(at).iter().filter(|it| it.ends_with(".jsonl")).map(|it| fs::read_to_string(at.join(it)).unwrap()).collect()
}

/// A sink of files after each of these: rows, records that complete, and restarts from the state of a record.
#[test]
fn a_sink_of_files() {
    let place = Place::new("kit-sink");
    let at = place.state();
    let sink = || Sink::new(Files::new(&at), "job");
    let first = sink();
    first.begin(&[], None).unwrap();
    first.push("1");
    let one = first.prepare(1).unwrap();
    first.push("2");
    let two = first.prepare(2).unwrap(); // 1 has failed: its rows go with 2
    assert_eq!(lines(&at), "");
    first.publish(2).unwrap();
    first.publish(2).unwrap();
    assert_eq!((lines(&at).as_str(), names(&at).len()), ("1\n2\n", 2));
    first.push("3");
    first.prepare(3).unwrap();
    let next = sink(); // of a process that begins from 2: the rows of 3 come again
    next.begin(&two, None).unwrap();
    next.push("3");
    let three = next.prepare(4).unwrap();
    assert_eq!((lines(&at).as_str(), names(&at).len()), ("1\n2\n", 3)); // and what was prepared for 3 is given up
    let slept = sink(); // of a process that has restored the job before that one, and wakes
    slept.begin(&two, None).unwrap();
    slept.push("3");
    slept.prepare(3).unwrap();
    sink().begin(&three, None).unwrap(); // of one that was not told of 4
    assert_eq!(lines(&at), "1\n2\n3\n");
    assert!(matches!(sink().begin(&[1], None), Err(SinkFault::BadState)));
    let rehearsal = place.0.join("rehearsal");
    fs::create_dir(&rehearsal).unwrap();
    let other = Sink::new(Files::new(&rehearsal), "other");
    other.begin(&one, Some([1, 2])).unwrap(); // what another target has stays there
    assert!(matches!(other.begin(&one, None), Err(SinkFault::Lost { record: 1, .. })));
    let claimed = Sink::new(Files::new(&rehearsal), format!("{:016x}{:016x}", 1, 2));
    claimed.push("4");
    let four = claimed.prepare(7).unwrap();
    claimed.push("5");
    claimed.prepare(8).unwrap();
    other.begin(&four, Some([1, 2])).unwrap(); // of a claim, whose target this is
    assert_eq!(lines(&rehearsal), "4\n");
}

/// A backup of the coordinator was put back, so numbers come again.
#[test]
fn a_sink_whose_numbers_come_again() {
    let place = Place::new("kit-again");
    for (row, is_refused) in [("1", false), ("2", true), ("1", false)] {
        let sink = Sink::new(Files::new(place.state()), "job");
        sink.begin(&[], None).unwrap();
        sink.push(row);
        sink.prepare(1).unwrap();
        assert_eq!(matches!(sink.publish(1), Err(SinkFault::OtherRows { record: 1, .. })), is_refused);
        assert_eq!(lines(&place.state()), "1\n");
    }
}

/// A target that fails as long as it is told to.
struct Broken(Arc<AtomicBool>, Mutex<Vec<(String, u64)>>);

impl Target for Broken {
    fn name(&self) -> String {
        "broken".to_owned()
    }

    fn keeps_rows(&self) -> bool {
        true
    }

    fn prepare(&self, _: &str, _: u64, rows: &[Vec<u8>]) -> Result<Vec<u8>, TargetFault> {
        match self.0.load(SeqCst) {
            true => Err(std::io::Error::other("it is broken"))?,
            false => Ok(rows.concat()),
        }
    }

    fn publish(&self, job: &str, record: u64, _: &[u8]) -> Result<(), TargetFault> {
        match self.0.load(SeqCst) {
            true => Err(std::io::Error::other("it is broken"))?,
            false => self.1.lock().unwrap().push((job.to_owned(), record)),
        }
        Ok(())
    }

    fn give_up(&self, _: &str) -> Result<(), TargetFault> {
        Ok(())
    }
}

#[test]
fn a_target_that_fails() {
    let (breaks, patience) = (Arc::new(AtomicBool::new(true)), Duration::from_millis(50));
    let sink = Sink::new(Broken(breaks.clone(), Mutex::default()), "job").within(patience);
    sink.push("1");
    assert!(matches!(sink.prepare(1), Err(SinkFault::Failed { record: 1, .. })));
    breaks.store(false, SeqCst);
    let state = sink.prepare(2).unwrap(); // with the row, which was kept
    breaks.store(true, SeqCst);
    sink.publish(2).unwrap(); // is tried again
    thread::sleep(patience);
    let told = sink.publish(3);
    assert!(matches!(&told, Err(SinkFault::Failed { record: 2, .. })), "{told:?}");
    breaks.store(false, SeqCst);
    sink.publish(3).unwrap();
    sink.begin(&state, Some([1, 2])).unwrap(); // rows in a state are published under the numbers of their job
    let (own, other) = ("job".to_owned(), format!("{:016x}{:016x}", 1, 2));
    assert_eq!(*sink.target().1.lock().unwrap(), [(own, 2), (other, 2)]);
}

#[test]
fn copies_on_a_local_disk() {
    let place = Place::new("kit-cached");
    let (at, copies) = (place.0.join("elsewhere"), place.0.join("copies"));
    let cached = |most| Cached::new(folder(&at), &copies, most).unwrap();
    let it = cached(1000);
    it.put(1, b"one").unwrap();
    folder(&at).put(2, b"two").unwrap();
    assert_eq!([1, 2].map(|file| it.get(file).unwrap()), [b"one", b"two"]);
    assert_eq!(names(&copies), ["1.copy", "2.copy"]);
    let whole = fs::read(copies.join("1.copy")).unwrap();
    for damaged in [&whole[..whole.len() - 1], &whole[..3], b"", b"another text of nobody"] {
        fs::write(copies.join("1.copy"), damaged).unwrap();
        assert_eq!(it.get(1).unwrap(), b"one");
        assert_eq!(fs::read(copies.join("1.copy")).unwrap(), whole);
    }
    fs::remove_file(at.join("1")).unwrap();
    assert_eq!(it.get(1).unwrap(), b"one"); // of the copy alone
    let few = cached(whole.len() as u64);
    few.put(3, b"six").unwrap();
    assert_eq!(names(&copies), ["3.copy"]); // the last one
    assert!(matches!(few.get(1), Err(StorageError::Absent)));
    few.delete(&[2, 3]).unwrap();
    fs::remove_dir(&copies).unwrap(); // it is empty; and without it nothing fails
    few.put(4, b"four").unwrap();
    assert_eq!(few.get(4).unwrap(), b"four");
}
