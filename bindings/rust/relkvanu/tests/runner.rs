//! The loop of an engine: what it is asked to do over checkpoints, failures, stops, commands of an operator and ends. And what records have as a whole.
#![cfg(feature = "store")]
mod common;
mod engine;

use common::{new_job, Place, SETTINGS};
use engine::{
    acknowledge, decline, engine_that, hang, is_complete, is_start, job_of, runs, when, Job, Run, Word, Word::*,
    LONGEST, TASKS,
};
use relkvanu::runner::{
    Barrier, Ended, Engine, Inputs, Options as Kit, Record, RunFault, Runner, SavepointFault, Taken, Told,
};
use relkvanu::store::{CallError, Ending, More, Options, Phase, Store, StoreError, StoreErrorKind, NOW};
use relkvanu::{AlignFault, Answer, Call, Choice, Fault, Fenced, Kind, Refusal, Settings};
use std::fs;
use std::io::{self, BufRead, BufReader, Read};
use std::num::NonZeroU64;
use std::os::unix::process::ExitStatusExt;
use std::path::Path;
use std::process::{Command, Stdio};
use std::sync::atomic::{AtomicUsize, Ordering::SeqCst};
use std::sync::{mpsc, Arc};
use std::thread::{self, JoinHandle};
use std::time::{Duration, Instant};

fn opened(place: &Place, settings: Settings) -> Store {
    let options = Options { settings, storage: Some(place.state()), ..new_job(&[TASKS.into()]) };
    Store::open(&place.job(), &options).unwrap()
}

/// A job whose tasks acknowledge.
fn job_at(place: &Place, settings: Settings) -> Job {
    job_of(opened(place, settings), engine_that(acknowledge), Kit::default())
}

/// Runs an engine in a thread.
fn begin(place: &Place, settings: Settings) -> (Job, Run) {
    let job = job_at(place, settings);
    let run = runs(&job);
    (job, run)
}

const QUICK: Settings = Settings { interval: 20, retained: 3, tolerable: 0, ..SETTINGS };

/// Ends the run, and closes the store.
fn close(job: Job, run: Run) -> Vec<Word> {
    job.close();
    ended_as(Ended::Closed, job, run)
}

fn ended_as(ended_by: Ended, job: Job, run: Run) -> Vec<Word> {
    assert_eq!(run.join().unwrap().unwrap(), ended_by);
    ended(job)
}

fn ended(job: Job) -> Vec<Word> {
    let said = job.engine().said();
    assert_eq!(Arc::strong_count(&job), 1);
    said
}

#[test]
fn checkpoints_and_a_next_process() {
    let place = Place::new("runner");
    let (job, run) = begin(&place, QUICK);
    job.engine().await_word(Complete(3));
    let said = close(job, run);
    let first = [Start(1, None, 0), Barrier(1, Kind::Checkpoint, false), Complete(1)];
    assert_eq!(said[..3], first);
    assert_eq!(said.last(), Some(&End));
    let last = said.iter().rev().find(|it| is_complete(it)).unwrap();
    let &Complete(id) = last else { unreachable!() };
    let (job, run) = begin(&place, QUICK);
    job.engine().await_words(3, is_complete);
    let said = close(job, run);
    // the old tasks are told to end, and the tasks start from the record's payloads; nobody is told by its number that it is complete
    assert_eq!(said[..2], [End, Start(2, Some(id), TASKS.into())]);
    assert!(said.iter().all(|it| *it != Complete(id)), "{said:?}");
    assert_eq!(fs::read_dir(place.state()).unwrap().count(), 1); // its marker
}

/// The contents of a file that come once somebody says so.
struct Slow(mpsc::Sender<()>, mpsc::Receiver<()>);

impl Read for Slow {
    fn read(&mut self, to: &mut [u8]) -> io::Result<usize> {
        self.0.send(()).unwrap();
        Ok(self.1.recv().map_or(0, |()| 5.min(to.len())))
    }
}

/// A restart sweeps the file that a task is writing, and whatever else such a task meets, a panic too: each ends that task alone.
#[test]
fn faults_of_tasks_whose_term_has_ended() {
    let (_place, job, run) = idle("runner-old-faults", IDLE);
    let ((begins, has_begun), (goes, goes_on)) = (mpsc::channel(), mpsc::channel());
    let (faults, told) = mpsc::channel();
    let puts = job.spawn(move |job| {
        let name = job.store().reserve(1, 1)?.start;
        let put = job.store().put_from(name, Slow(begins, goes_on));
        faults.send(put.clone().map_err(|why| why.kind))?;
        Ok(put?)
    });
    let (panics, may_panic) = mpsc::channel::<()>();
    let panics_late = job.spawn(move |_| {
        may_panic.recv()?;
        panic!("its input is gone");
    });
    has_begun.recv().unwrap();
    job.restart();
    job.engine().await_words(2, is_start);
    goes.send(()).unwrap();
    drop(goes);
    panics.send(()).unwrap();
    puts.join().unwrap();
    panics_late.join().unwrap();
    assert_eq!(told.recv().unwrap(), Err(StoreErrorKind::NotPut));
    close(job, run); // it looks at faults first
}

fn await_count(what: &AtomicUsize, is_such: impl Fn(usize) -> bool) {
    let until = Instant::now() + LONGEST;
    while !is_such(what.load(SeqCst)) {
        assert!(Instant::now() < until, "{what:?}");
        thread::sleep(Duration::from_millis(1));
    }
}

/// The task of a thread, which is counted while it runs.
fn counted(job: &Job, tasks: &Arc<AtomicUsize>, task: impl FnOnce() -> Told + Send + 'static) {
    let tasks = tasks.clone();
    tasks.fetch_add(1, SeqCst);
    job.spawn(move |_| {
        let told = task();
        tasks.fetch_sub(1, SeqCst);
        told
    });
}

/// Its tasks wait for elements, and for room.
fn start_waiting(job: &Job, tasks: &Arc<AtomicUsize>) -> Told {
    let inputs = Arc::new(Inputs::new(2, 1)?);
    job.engine().inputs.lock().unwrap().push(inputs.clone());
    let (takes, puts) = (inputs.clone(), inputs.clone());
    counted(job, tasks, move || loop {
        takes.take()?;
    });
    counted(job, tasks, move || {
        while !puts.is_closed() {
            puts.put(0, 1);
        }
        Ok(())
    });
    counted(job, tasks, move || {
        inputs.put_barrier(1, barrier(1));
        (0..2).for_each(|it| inputs.put(1, it)); // behind the barrier, and without room
        Ok(())
    });
    Ok(())
}

/// A thousand in one process, each after a barrier that a task declines.
#[test]
fn restarts_that_leave_no_thread() {
    let place = Place::new("runner-restarts");
    let tasks = Arc::new(AtomicUsize::new(0)); // that run
    let counts = tasks.clone();
    let engine = engine_that(|job, it| Ok(job.decline(it.term, it.id, (0, 0), "a restart").map(drop)?));
    when(&engine.starts, move |job, ()| start_waiting(job, &counts));
    let job = job_of(opened(&place, IDLE), engine, Kit::default());
    let run = runs(&job);
    let descriptors = || fs::read_dir("/proc/self/fd").unwrap().count();
    let before = descriptors();
    for restarts in 0..1000 {
        job.engine().await_words(restarts + 1, is_start);
        job.store().trigger().unwrap();
    }
    job.engine().await_words(1001, is_start);
    await_count(&tasks, |it| it <= 3);
    let after = descriptors(); // other tests of this process open some too
    assert!(after < before + 500, "{before} descriptors, and {after}");
    job.close();
    assert_eq!(run.join().unwrap().unwrap(), Ended::Closed);
    await_count(&tasks, |it| it == 0);
}

#[test]
fn a_job_that_fails_is_restarted() {
    let (_place, job, run) = running("runner-fails", QUICK);
    job.engine().does(decline(Kind::Checkpoint));
    job.engine().await_words(2, is_start);
    job.engine().await_more(1);
    let history = job.store().history(1000).unwrap();
    let declined = history.iter().find(|it| it.ending == Ending::Declined);
    assert_eq!(declined.unwrap().reason, "as it was told");
    let id = declined.unwrap().id;
    let said = close(job, run);
    assert!(said.contains(&Aborted(vec![id])), "{said:?}");
    assert!(!said.contains(&Complete(id)), "{said:?}");
}

fn stops(job: &Job) -> u64 {
    let made = job.store().stop_job().unwrap();
    let Some(Answer::SavepointTriggered(id)) = made.called() else { unreachable!() };
    id
}

#[test]
fn a_process_that_dies_between_a_stop_and_its_publication() {
    let place = Place::new("runner-dies");
    let settings = Settings { interval: 1 << 39, ..QUICK };
    let (job, run) = begin(&place, settings);
    job.engine().await_words(1, is_start);
    when(&job.engine().inside, |_, id| if id == 2 { Err("as a kill".into()) } else { Ok(()) });
    job.store().trigger().unwrap();
    job.engine().await_word(Complete(1));
    assert_eq!(stops(&job), 2);
    assert!(matches!(run.join().unwrap(), Err(RunFault::Engine(_))));
    let said = ended(job);
    assert!(said.iter().all(|it| !matches!(it, Complete(2) | Stopped(..))), "{said:?}");
    for _ in 0..2 {
        let (job, run) = begin(&place, settings);
        assert_eq!(run.join().unwrap().unwrap(), Ended::Stopped);
        assert_eq!(ended(job), [End, Stopped(2, TASKS.into())]);
    }
}

/// An engine with the functions that every engine has, which is told nothing.
struct Least;

impl Engine for Least {
    fn start(&self, _: &Arc<Runner<Least>>, _: u64, _: Option<&Record>) -> Told {
        panic!("no task runs")
    }

    fn barrier(&self, _: Barrier) -> Told {
        panic!("nor has it a barrier")
    }

    fn complete(&self, _: u64) -> Told {
        panic!("nor has it a sink")
    }

    fn end(&self) -> Told {
        Ok(())
    }
}

#[test]
fn an_engine_that_is_not_told_of_a_stop() {
    let (place, job, run) = running("runner-untold", QUICK);
    stops(&job);
    ended_as(Ended::Stopped, job, run);
    assert_eq!(Runner::new(opened(&place, QUICK), Least).run().unwrap(), Ended::Stopped);
}

/// It acknowledges right after an operator has cancelled the job.
#[test]
fn a_barrier_of_a_term_that_has_just_ended() {
    let place = Place::new("runner-late");
    let late = engine_that(|job, it| {
        job.store().call(Call::Cancel { now: NOW })?;
        let why = job.ack_payload(&it, (0, 0), &[]).unwrap_err();
        assert_eq!(why, CallError::Fault(Fault::Fenced(Fenced::OldTerm)));
        Err(why.into())
    });
    assert_eq!(job_of(opened(&place, QUICK), late, Kit::default()).run().unwrap(), Ended::Cancelled);
}

/// Its tasks acknowledge in threads that nobody waits for.
#[test]
fn a_panic_in_a_thread_of_the_engine() {
    let place = Place::new("runner-panics");
    let job = job_at(&place, IDLE);
    when(&job.engine().inside, |_, _| panic!("as a fault of the sink"));
    when(&job.engine().starts, |job, ()| {
        let job = job.clone();
        thread::spawn(move || {
            job.store().trigger().unwrap();
            for index in 0..TASKS {
                job.ack(1, 1, (0, index), &[], &[], More::default()).unwrap();
            }
        });
        Ok(())
    });
    job.engine().does(hang);
    assert_eq!(job.run().unwrap_err().to_string(), "the engine has panicked");
}

#[test]
fn a_sweep_now_and_then() {
    for (interval, goes) in [(1, true), (600_000, false)] {
        let place = Place::new(&format!("runner-sweeps-{interval}"));
        let sweep_interval = Duration::from_millis(interval);
        let job = job_of(opened(&place, QUICK), engine_that(acknowledge), Kit { sweep_interval, ..Kit::default() });
        let run = runs(&job);
        job.engine().await_words(1, is_complete);
        let name = job.store().reserve(1, 1).unwrap().start;
        job.store().put(name, b"x").unwrap();
        job.store().forfeit(1, &[name]).unwrap();
        job.engine().await_more(5);
        let path = place.state().join(name.to_string());
        let until = Instant::now() + LONGEST;
        while goes && path.exists() && Instant::now() < until {
            thread::sleep(Duration::from_millis(10));
        }
        assert_eq!(path.exists(), !goes);
        assert_eq!(job.engine().starts(), [1]);
        close(job, run);
    }
}

/// When tasks start, what nobody needs is in the discarder's list, if it is not deleted yet.
#[test]
fn a_sweep_before_tasks_start() {
    let (place, job, run) = idle("runner-sweeps-first", IDLE);
    let name = job.store().reserve(1, 1).unwrap().start;
    job.store().put(name, b"x").unwrap();
    job.store().forfeit(1, &[name]).unwrap();
    job.restart();
    job.engine().await_word(Start(2, None, 0));
    let counts = job.store().read(|job| job.file_counts()).unwrap();
    assert!(counts.waiting + counts.taken > 0 || !place.state().join(name.to_string()).exists(), "{counts:?}");
    close(job, run);
}

#[test]
fn reports_of_a_term() {
    let (_place, job, run) = running("runner-reports", QUICK);
    job.restart_of(1);
    job.engine().await_words(2, is_start);
    for _ in 0..10 {
        job.restart_of(1); // each task reports its death, also those that were fenced by the restart
    }
    job.engine().await_more(10);
    assert_eq!(job.engine().starts(), [1, 2]);
    job.restart_of(2);
    job.engine().await_words(3, is_start);
    assert_eq!(job.engine().starts(), [1, 2, 3]);
    close(job, run);
}

#[test]
fn a_cancel_between_a_look_and_a_restore() {
    let (_place, job, run) = running("runner-faster", QUICK);
    when(&job.engine().ends, |job, ()| {
        let _ = job.store().call(Call::Cancel { now: NOW }); // once
        Ok(())
    });
    job.restart();
    assert_eq!(run.join().unwrap().unwrap(), Ended::Cancelled);
    assert_eq!(job.engine().starts(), [1]);
    ended(job);
}

/// A task that dies by a command of an operator, and reports it before the loop looks.
fn restarts_after(name: &str, command: fn(&Job)) -> (Ended, Vec<Word>) {
    let (_place, job, run) = idle(name, IDLE);
    job.engine().does(move |job, it| {
        acknowledge(job, it)?;
        command(job);
        job.restart_of(it.term);
        Ok(())
    });
    job.store().stop_job().unwrap();
    let by = run.join().unwrap().unwrap();
    (by, ended(job))
}

#[test]
fn a_task_that_died_of_a_cancel() {
    let (by, said) =
        restarts_after("runner-died-cancelled", |job| drop(job.store().call(Call::Cancel { now: NOW }).unwrap()));
    let stopped = [Start(1, None, 0), Barrier(1, Kind::Savepoint, true), End];
    assert_eq!((by, said), (Ended::Cancelled, stopped.to_vec()));
}

#[test]
fn a_task_that_died_of_a_stop() {
    let (by, said) = restarts_after("runner-died-stopped", |_| ());
    let stopped = [Start(1, None, 0), Barrier(1, Kind::Savepoint, true), End, Stopped(1, TASKS.into())];
    assert_eq!((by, said), (Ended::Stopped, stopped.to_vec()));
}

/// No number says what to publish then: the record has the list.
#[test]
fn a_stopped_job_that_is_restored_elsewhere() {
    let (_place, job, run) = idle("runner-elsewhere", IDLE);
    let made = job.store().call(Call::Savepoint { now: NOW }).unwrap(); // nobody sends its barrier
    assert_eq!(made.called(), Some(Answer::SavepointTriggered(1)));
    for index in 0..TASKS {
        job.ack(1, 1, (0, index), &[], &[], More::default()).unwrap();
    }
    job.engine().does(|job, it| {
        acknowledge(job, it)?;
        Ok(job.store().call(Call::Restore { now: NOW, savepoint: NonZeroU64::new(1), shape: None }).map(drop)?)
    });
    assert_eq!(stops(&job), 2);
    let said = ended_as(Ended::Stopped, job, run);
    assert_eq!(said[1..], [Barrier(2, Kind::Savepoint, true), End, Stopped(1, 0)]);
}

#[test]
fn calls_from_inside_complete_and_aborted() {
    let place = Place::new("runner-inside");
    let settings = Settings { tolerable: 10, ..QUICK };
    let (job, run) = begin(&place, settings);
    let (notes, faults) = mpsc::channel();
    when(&job.engine().inside, move |job, id| {
        for told in [job.ack(1, id, (0, 0), &[], &[], More::default()), job.decline(1, id, (0, 0), "")] {
            let Err(CallError::Store(why)) = told else { panic!("{told:?}") };
            notes.send(why.kind)?;
        }
        Ok(())
    });
    job.engine().await_more(2); // one of them may have begun before
    job.engine().does(decline(Kind::Checkpoint));
    job.engine().await_words(1, |it| matches!(it, Aborted(_)));
    let faults: Vec<StoreErrorKind> = faults.try_iter().collect();
    assert!(faults.len() >= 4 && faults.iter().all(|it| *it == StoreErrorKind::NotNow), "{faults:?}");
    close(job, run);
}

#[test]
fn a_stop_that_fails() {
    let (_place, job, run) = running("runner-goes-on", Settings { tolerable: 10, ..QUICK });
    job.engine().does(decline(Kind::Savepoint));
    job.store().stop_job().unwrap();
    job.engine().await_word(GoOn);
    job.engine().await_more(1);
    let said = close(job, run);
    assert_eq!(said.iter().filter(|it| **it == GoOn).count(), 1);
}

/// Those that start hold for nothing, and are told nothing.
#[test]
fn tasks_that_hold_and_are_restarted() {
    let (_place, job, run) = idle("runner-held", IDLE);
    job.engine().does(hang);
    assert_eq!(stops(&job), 1);
    job.engine().await_word(Barrier(1, Kind::Savepoint, true));
    job.restart();
    job.engine().await_word(Start(2, None, 0));
    job.engine().does(acknowledge);
    while job.store().phase().unwrap().phase != Phase::Running {
        thread::sleep(Duration::from_millis(1));
    }
    job.store().trigger().unwrap();
    job.engine().await_words(1, is_complete);
    assert!(!close(job, run).contains(&GoOn));
}

/// A timer ends it, and the loop tells that before the next barrier.
#[test]
fn a_record_that_expires() {
    let settings = Settings { tolerable: 10, ..IDLE };
    let (_place, job, run) = idle("runner-expires", settings);
    job.engine().does(hang);
    let [first, second] = [1, 2].map(|id| Barrier(id, Kind::Checkpoint, false));
    job.store().trigger().unwrap();
    job.engine().await_word(first.clone());
    job.store().configure(&Settings { timeout: 1, ..settings }).unwrap();
    while job.store().history(1).unwrap().is_empty() {
        thread::sleep(Duration::from_millis(1));
    }
    job.store().configure(&settings).unwrap();
    job.store().trigger().unwrap();
    job.engine().await_word(second.clone());
    assert_eq!(job.engine().said()[1..4], [first, Aborted(vec![1]), second]);
    close(job, run);
}

/// A job that triggers nothing by itself.
const IDLE: Settings = Settings { interval: 1 << 39, ..QUICK };

/// One that has completed a checkpoint.
fn running(name: &str, settings: Settings) -> (Place, Job, Run) {
    let place = Place::new(name);
    let (job, run) = begin(&place, settings);
    job.engine().await_words(1, is_complete);
    (place, job, run)
}

fn idle(name: &str, settings: Settings) -> (Place, Job, Run) {
    let place = Place::new(name);
    let (job, run) = begin(&place, settings);
    job.engine().await_words(1, is_start);
    (place, job, run)
}

/// Its barrier goes the way of a checkpoint's. It is complete when the answer comes, and publishes nothing.
#[test]
fn a_savepoint() {
    let (_place, job, run) = idle("runner-savepoint", IDLE);
    job.store().trigger().unwrap();
    job.engine().await_word(Complete(1));
    assert_eq!(job.savepoint(), Ok(2));
    let bases: Vec<Choice> = job.engine().barriers.lock().unwrap().iter().map(|it| it.base).collect();
    assert_eq!(bases, [Choice::Fresh, Choice::Checkpoint(1)]);
    let past = &job.store().history(1).unwrap()[0];
    assert_eq!((past.id, past.kind, past.ending), (2, Kind::Savepoint, Ending::Completed));
    job.store().trigger().unwrap();
    job.engine().await_word(Complete(3));
    let barrier = |id, kind| Barrier(id, kind, false);
    let [first, savepoint, last] = [(1, Kind::Checkpoint), (2, Kind::Savepoint), (3, Kind::Checkpoint)];
    let [first, savepoint, last] = [first, savepoint, last].map(|(id, kind)| barrier(id, kind));
    assert_eq!(close(job, run)[1..], [first, Complete(1), savepoint, last, Complete(3), End]);
}

#[test]
fn savepoints_of_several_threads() {
    let place = Place::new("runner-savepoints");
    let (job, run) = begin(&place, QUICK);
    let asks: Vec<_> = (0..5).map(|_| job.clone()).map(|job| thread::spawn(move || job.savepoint().unwrap())).collect();
    let mut found: Vec<u64> = asks.into_iter().map(|it| it.join().unwrap()).collect();
    found.sort_unstable();
    let id = |it: Word| if let Barrier(id, Kind::Savepoint, _) = it { Some(id) } else { None };
    let sent: Vec<u64> = close(job, run).into_iter().filter_map(id).collect();
    assert_eq!((found.len(), found), (5, sent));
}

fn ended_savepoint(id: u64, ending: Ending, reason: &str) -> Result<u64, SavepointFault> {
    Err(SavepointFault::Ended { id, ending, reason: reason.to_owned() })
}

#[test]
fn savepoints_that_are_not_completed() {
    let (_place, job, run) = idle("runner-savepoint-declined", Settings { tolerable: 10, ..IDLE });
    job.engine().does(decline(Kind::Savepoint));
    assert_eq!(job.savepoint(), ended_savepoint(1, Ending::Declined, "as it was told"));
    close(job, run);
    let (_place, job, run) = idle("runner-savepoint-expired", Settings { timeout: 50, ..IDLE });
    job.engine().does(hang);
    assert_eq!(job.savepoint(), ended_savepoint(1, Ending::Expired, ""));
    close(job, run);
    let (_place, job, run) = idle("runner-savepoint-dropped", IDLE);
    job.engine().does(|job, it| {
        job.restart_of(it.term);
        Ok(())
    });
    assert_eq!(job.savepoint(), ended_savepoint(1, Ending::Dropped, ""));
    assert_eq!(job.engine().starts(), [1, 2]);
    close(job, run);
}

#[test]
fn a_savepoint_of_a_job_that_is_being_stopped() {
    let (_place, job, run) = idle("runner-savepoint-stop", IDLE);
    job.engine().does(hang);
    assert_eq!(stops(&job), 1);
    job.engine().await_word(Barrier(1, Kind::Savepoint, true));
    let refused = CallError::Fault(Fault::Refused(Refusal::NotRunning));
    assert_eq!(job.savepoint(), Err(SavepointFault::Call(refused)));
    close(job, run);
}

#[test]
fn a_savepoint_that_a_stop_drops() {
    let (_place, job, run) = idle("runner-savepoint-stopped", IDLE);
    job.engine().does(hang);
    let asks = job.clone();
    let pending = thread::spawn(move || asks.savepoint());
    job.engine().await_word(Barrier(1, Kind::Savepoint, false));
    job.engine().does(acknowledge);
    job.ask_to_stop();
    assert_eq!(pending.join().unwrap(), ended_savepoint(1, Ending::Dropped, ""));
    assert_stops(job, run, 2);
}

/// It is triggered in the term of tasks that do not run yet: these get its barrier too.
#[test]
fn a_savepoint_right_after_a_way_back() {
    let (_place, job, run) = idle("runner-savepoint-back", IDLE);
    job.store().trigger().unwrap();
    job.engine().await_word(Complete(1));
    job.engine().does(|job, it| {
        acknowledge(job, it)?;
        // the barrier of record 1 may end only now
        let is_second = job.engine().said().contains(&Barrier(2, Kind::Checkpoint, false));
        if !is_second || it.term != 1 || job.store().read(|job| job.term()).unwrap().unwrap().term != 1 {
            return Ok(());
        }
        let (asks, (tell, told)) = (job.clone(), mpsc::channel());
        thread::spawn(move || {
            tell.send(fs::read_link("/proc/thread-self").unwrap()).unwrap();
            let id = asks.savepoint().unwrap();
            asks.engine().note(Complete(id * 100)) // what comes after the answer
        });
        let state = Path::new("/proc").join(told.recv().unwrap()).join("stat");
        while !fs::read_to_string(&state).unwrap().contains(") S ") {
            thread::sleep(Duration::from_millis(1)); // it sleeps once the run has to take the savepoint
        }
        Ok(job.store().go_back(1, true).map(drop)?)
    });
    job.store().trigger().unwrap();
    job.engine().await_word(Complete(400));
    let barrier = Barrier(4, Kind::Savepoint, false);
    let is_of_it = |it: &Word| is_start(it) || *it == barrier;
    let said: Vec<Word> = job.engine().said().into_iter().filter(is_of_it).collect();
    assert_eq!(said, [Start(1, None, 0), barrier.clone(), Start(2, Some(3), 2), barrier.clone()]);
    close(job, run);
}

/// One that is pending then, and one that is asked for afterwards.
#[test]
fn savepoints_when_the_run_ends() {
    let (_place, job, run) = idle("runner-savepoint-ends", IDLE);
    job.engine().does(hang);
    let asks = job.clone();
    let pending = thread::spawn(move || asks.savepoint());
    job.engine().await_word(Barrier(1, Kind::Savepoint, false));
    job.close();
    assert_eq!(run.join().unwrap().unwrap(), Ended::Closed);
    assert_eq!(pending.join().unwrap(), Err(SavepointFault::Over { id: Some(1) }));
    assert_eq!(job.savepoint(), Err(SavepointFault::Over { id: None }));
    ended(job);
}

#[test]
fn a_savepoint_that_is_complete_as_the_run_ends() {
    let (_place, job, run) = idle("runner-savepoint-closes", IDLE);
    job.engine().does(|job, it| {
        job.spawn(move |job| {
            thread::sleep(Duration::from_millis(50));
            acknowledge(job, it)?;
            job.close();
            Ok(())
        });
        Ok(())
    });
    assert_eq!(job.savepoint(), Ok(1));
    close(job, run);
}

#[test]
fn a_savepoint_when_the_run_fails() {
    let (_place, job, run) = idle("runner-savepoint-fails", IDLE);
    job.engine().does(|_, _| panic!("as a fault of the engine"));
    assert_eq!(job.savepoint(), Err(SavepointFault::Over { id: Some(1) }));
    assert!(run.join().is_err());
    assert_eq!(job.savepoint(), Err(SavepointFault::Over { id: None }));
}

fn is_not_now(told: &Result<u64, SavepointFault>) -> bool {
    matches!(told, Err(SavepointFault::Call(CallError::Store(why))) if why.kind == StoreErrorKind::NotNow)
}

/// In the thread of the run.
#[test]
fn a_savepoint_that_would_wait_for_itself() {
    let (_place, job, run) = idle("runner-savepoint-inside", IDLE);
    job.engine().does(|job, it| {
        acknowledge(job, it)?;
        if is_not_now(&job.savepoint()) {
            job.restart_of(it.term);
        }
        Ok(())
    });
    job.store().trigger().unwrap();
    job.engine().await_words(2, is_start);
    close(job, run);
}

fn assert_stops(job: Job, run: Run, id: u64) -> Vec<Word> {
    let said = ended_as(Ended::Stopped, job, run);
    let last = [Barrier(id, Kind::Savepoint, true), Complete(id), End, Stopped(id, TASKS.into())];
    assert_eq!(said[said.len() - 4..], last);
    said
}

#[test]
fn a_stop_that_is_asked_for() {
    let (place, job, run) = idle("runner-asks", IDLE);
    job.begin_job().unwrap(); // it runs, so this has no effect
    job.ask_to_stop();
    assert_stops(job, run, 1);
    let job = job_at(&place, IDLE);
    job.begin_job().unwrap();
    assert_eq!(job.store().phase().unwrap().phase, Phase::Running);
    let run = runs(&job);
    job.engine().await_words(1, is_start);
    let said = close(job, run);
    assert!(matches!(said[..], [End, Start(_, Some(1), 2), End]), "{said:?}");
}

#[test]
fn a_stop_that_is_asked_for_is_tried_again() {
    let (_place, job, run) = idle("runner-asks-again", Settings { tolerable: 10, ..IDLE });
    job.engine().does(decline(Kind::Savepoint));
    job.ask_to_stop();
    let said = assert_stops(job, run, 2);
    assert_eq!(said.iter().filter(|it| **it == GoOn).count(), 1);
}

#[test]
fn a_stop_that_is_asked_for_of_a_job_that_fails() {
    let (_place, job, run) = idle("runner-asks-failed", IDLE);
    let declines = decline(Kind::Checkpoint);
    job.engine().does(move |job, it| {
        declines(job, it)?;
        job.ask_to_stop();
        Ok(())
    });
    job.store().trigger().unwrap();
    let said = assert_stops(job, run, 2);
    assert_eq!(said.iter().filter(|it| is_start(it)).count(), 2);
}

/// An engine in a process of its own, which says what it is asked, and whose tasks acknowledge if the second word says so.
#[test]
#[ignore = "it is started by another test"]
fn an_engine_with_signals() {
    let place = Place(std::env::var_os("RELKVANU_PLACE").unwrap().into());
    let job = job_at(&place, IDLE);
    if std::env::var_os("RELKVANU_HANGS").is_some() {
        job.engine().does(hang);
    }
    job.stop_at_signals();
    let run = runs(&job);
    for count in 1.. {
        job.engine().await_words(count, |_| true);
        let word = job.engine().said()[count - 1].clone();
        println!("said {word:?}");
        if matches!(word, Stopped(..)) {
            break;
        }
    }
    println!("said {:?}", run.join().unwrap().unwrap());
    std::process::exit(0);
}

/// Sends the first signal once tasks run, and the second one once the barrier of the stop was sent. Returns how it ends, and what it says.
fn with_signals(name: &str, first: &str, second: Option<&str>) -> (Option<i32>, Option<i32>, Vec<String>) {
    let place = Place::new(name);
    // what has started this test may ignore them, as a shell does of what it runs beside itself
    let mut child = Command::new("env");
    child.arg("--default-signal=TERM,INT").arg(std::env::current_exe().unwrap());
    child.args(["--exact", "an_engine_with_signals", "--ignored", "--nocapture"]).env("RELKVANU_PLACE", &place.0);
    if second.is_some() {
        child.env("RELKVANU_HANGS", "1");
    }
    let mut process = child.stdout(Stdio::piped()).spawn().unwrap();
    let id = process.id().to_string();
    let kill = |signal: &str| assert!(Command::new("kill").args([signal, &id]).status().unwrap().success());
    let mut said = Vec::new();
    for line in BufReader::new(process.stdout.take().unwrap()).lines() {
        let Some(word) = line.unwrap().strip_prefix("said ").map(str::to_owned) else { continue };
        match (word.split('(').next(), second) {
            (Some("Start"), _) => kill(first),
            (Some("Barrier"), Some(second)) => kill(second),
            _ => {}
        }
        said.push(word);
    }
    let status = process.wait().unwrap();
    (status.code(), status.signal(), said)
}

#[test]
fn a_stop_by_a_signal() {
    let words = ["Start(1, None, 0)", "Barrier(1, Savepoint, true)", "Complete(1)", "End", "Stopped(1, 2)", "Stopped"];
    for signal in ["-TERM", "-INT"] {
        let (code, _, said) = with_signals(&format!("runner-signal{signal}"), signal, None);
        assert_eq!((code, said), (Some(0), words.map(str::to_owned).to_vec()), "{signal}");
    }
}

#[test]
fn a_second_signal_ends_the_process() {
    let words = ["Start(1, None, 0)", "Barrier(1, Savepoint, true)"];
    for (first, second, number) in [("-TERM", "-TERM", 15), ("-TERM", "-INT", 2), ("-INT", "-TERM", 15)] {
        let (_, signal, said) = with_signals(&format!("runner-second{first}{second}"), first, Some(second));
        assert_eq!((signal, said), (Some(number), words.map(str::to_owned).to_vec()));
    }
}

/// A process that a signal is sent to when its run has ended.
#[test]
#[ignore = "it is started by another test"]
fn a_process_whose_run_has_ended() {
    let place = Place(std::env::var_os("RELKVANU_PLACE").unwrap().into());
    let job = job_at(&place, IDLE);
    job.stop_at_signals();
    job.close();
    assert_eq!(job.run().unwrap(), Ended::Closed);
    let id = std::process::id().to_string();
    Command::new("kill").args(["-TERM", &id]).status().unwrap();
}

#[test]
fn a_signal_after_the_run() {
    let place = Place::new("runner-signal-late");
    let mut process = Command::new(std::env::current_exe().unwrap());
    process.args(["--exact", "a_process_whose_run_has_ended", "--ignored"]).env("RELKVANU_PLACE", &place.0);
    let status = process.stdout(Stdio::null()).status().unwrap();
    assert_eq!(status.signal(), Some(15));
}

#[test]
fn a_last_record() {
    let place = Place::new("runner-last");
    let job = job_at(&place, QUICK);
    job.close_after(3);
    assert_eq!(job.run().unwrap(), Ended::Closed);
    let said = ended(job);
    assert!(said.contains(&Complete(3)) && !said.contains(&Complete(5)), "{said:?}");
    let job = job_at(&place, QUICK);
    job.close_after(3);
    assert_eq!(job.run().unwrap(), Ended::Closed);
    let said = ended(job);
    assert!(matches!(said[..], [End, Start(2, Some(3 | 4), 2), End]), "{said:?}");
}

#[test]
fn tasks_that_fail_and_tasks_of_an_old_term() {
    for panics in [false, true] {
        let (_place, job, run) = idle("runner-tasks", IDLE);
        job.restart();
        job.engine().await_words(2, is_start);
        let old = job.spawn(|job| Ok(job.ack(1, 1, (0, 0), &[], &[], More::default()).map(drop)?));
        old.join().unwrap();
        job.store().trigger().unwrap();
        job.engine().await_word(Complete(1)); // the run goes on
        let fails = move || if panics { panic!("as a fault of the task") } else { Err("no input".into()) };
        job.spawn(move |_| fails()).join().unwrap();
        let told = if panics { "a task has panicked" } else { "no input" };
        assert_eq!(run.join().unwrap().unwrap_err().to_string(), told);
        ended(job);
    }
}

fn barrier(id: u64) -> Barrier {
    Barrier { id, kind: Kind::Checkpoint, base: Choice::Fresh, term: 1, holds: false, drains: false }
}

#[test]
fn an_input_that_is_full_and_a_task_that_waits() {
    let inputs = Arc::new(Inputs::new(2, 2).unwrap());
    (0..2).for_each(|it| inputs.put(0, it));
    let putter = waits(&inputs, |it| {
        (2..4).for_each(|element| it.put(0, element));
        it.put_barrier(0, barrier(1));
    });
    let taken: Vec<Taken<u64>> = (0..4).map(|_| inputs.take().unwrap()).collect();
    assert_eq!(taken, [0, 1, 2, 3].map(|it| Taken::Element(0, it)));
    putter.join().unwrap();
    let taker = waits(&inputs, |it| it.take().unwrap());
    inputs.put_barrier(1, barrier(1));
    assert_eq!(taker.join().unwrap(), Taken::Cut(barrier(1)));
}

/// A thread that waits for room, or for elements.
fn waits<E: Send + 'static, T: Send + 'static>(
    inputs: &Arc<Inputs<E>>,
    does: impl FnOnce(&Inputs<E>) -> T + Send + 'static,
) -> JoinHandle<T> {
    let inputs = inputs.clone();
    let thread = thread::spawn(move || does(&inputs));
    thread::sleep(Duration::from_millis(50));
    assert!(!thread.is_finished());
    thread
}

fn assert_finishes<T>(thread: &JoinHandle<T>) {
    let until = Instant::now() + LONGEST;
    while !thread.is_finished() && Instant::now() < until {
        thread::sleep(Duration::from_millis(1));
    }
    assert!(thread.is_finished());
}

/// The first one waits for an input that a barrier keeps. Room on the other input is for the second one.
#[test]
fn two_threads_that_wait_for_room() {
    let inputs = Arc::new(Inputs::new(2, 1).unwrap());
    inputs.put_barrier(0, barrier(1));
    inputs.put(1, 10);
    assert_eq!(inputs.take(), Ok(Taken::Element(1, 10)));
    inputs.put(0, 1);
    inputs.put(1, 11);
    let threads = [(0, 2), (1, 12)].map(|(input, element)| waits(&inputs, move |it| it.put(input, element)));
    assert_eq!(inputs.take(), Ok(Taken::Element(1, 11)));
    assert_finishes(&threads[1]);
    assert_eq!(inputs.take(), Ok(Taken::Element(1, 12)));
    inputs.put_barrier(1, barrier(1));
    let taken = [(); 3].map(|()| inputs.take().unwrap());
    assert_eq!(taken, [Taken::Cut(barrier(1)), Taken::Element(0, 1), Taken::Element(0, 2)]);
}

/// An input has room for one item at least.
#[test]
fn room_for_nothing() {
    let inputs = Arc::new(Inputs::new(1, 0).unwrap());
    let puts = inputs.clone();
    assert_finishes(&thread::spawn(move || puts.put(0, 1)));
    assert_eq!(inputs.take(), Ok(Taken::Element(0, 1)));
}

/// Who waits, and whoever comes later, goes on: for an element, and for room.
#[test]
fn inputs_that_are_closed() {
    let inputs = Arc::new(Inputs::new(2, 1).unwrap());
    inputs.put(0, 7);
    let putter = waits(&inputs, |it| it.put(0, 8));
    let empty = Arc::new(Inputs::<u64>::new(1, 1).unwrap());
    let taker = waits(&empty, |it| it.take());
    assert!(!inputs.is_closed());
    inputs.close();
    empty.close();
    assert_finishes(&putter);
    assert_finishes(&taker);
    assert_eq!(taker.join().unwrap(), Err(AlignFault::Closed));
    (0..3).for_each(|it| inputs.put(0, it)); // nobody takes them, and they wait for no room
    inputs.end(1);
    assert!(inputs.is_closed());
    assert_eq!(inputs.take(), Err(AlignFault::Closed));
    assert_eq!(inputs.give_up(1), Ok(false));
}

#[test]
fn an_end_while_the_task_waits() {
    let inputs = Arc::new(Inputs::<()>::new(2, 1).unwrap());
    inputs.put_barrier(0, barrier(1));
    let taker = waits(&inputs, |it| (it.take(), it.take()));
    inputs.end(1);
    thread::sleep(Duration::from_millis(50));
    assert!(!taker.is_finished());
    inputs.end(0);
    assert_eq!(taker.join().unwrap(), (Ok(Taken::Cut(barrier(1))), Err(AlignFault::EndedInput)));
}

/// Nobody puts it, also after the end was taken. An input that ends while it is full waits for room.
#[test]
fn what_comes_behind_an_end() {
    let inputs = Arc::new(Inputs::new(2, 1).unwrap());
    inputs.put(0, "a");
    let ender = waits(&inputs, |it| it.end(0));
    assert_eq!(inputs.take(), Ok(Taken::Element(0, "a")));
    ender.join().unwrap();
    for element in ["p", "q"] {
        inputs.put(1, element);
        assert_eq!(inputs.take(), Ok(Taken::Element(1, element))); // the end of the other one is taken before the second
    }
    let behind: [fn(&Inputs<&str>); 4] =
        [|it| it.put(0, "b"), |it| it.put_barrier(0, barrier(1)), |it| it.end(0), |it| it.end(2)];
    for put in behind {
        let puts = inputs.clone();
        assert!(thread::spawn(move || put(&puts)).join().is_err());
    }
    inputs.end(1);
    assert_eq!(inputs.take(), Err(AlignFault::EndedInput));
}

/// What its barriers held comes to a task that waits, in order, each input has its turn, and its other barriers are dropped. The next record is cut.
#[test]
fn a_record_that_is_given_up() {
    let inputs = Arc::new(Inputs::new(3, 100).unwrap());
    [0, 2].into_iter().for_each(|it| inputs.put_barrier(it, barrier(1)));
    [(0, "a"), (0, "b"), (1, "p"), (2, "x")].into_iter().for_each(|(input, it)| inputs.put(input, it));
    assert_eq!(inputs.take(), Ok(Taken::Element(1, "p")));
    let taker = waits(&inputs, |it| [(); 3].map(|()| it.take()));
    assert_eq!(inputs.give_up(1), Ok(true));
    assert_finishes(&taker);
    assert_eq!(taker.join().unwrap(), [(0, "a"), (2, "x"), (0, "b")].map(|(input, it)| Ok(Taken::Element(input, it))));
    [1, 2].into_iter().for_each(|it| inputs.put_barrier(1, barrier(it)));
    [0, 2].into_iter().for_each(|it| inputs.put_barrier(it, barrier(2)));
    assert_eq!(inputs.take(), Ok(Taken::Cut(barrier(2))));
    assert_eq!(Inputs::<()>::new(0, 1).unwrap_err(), AlignFault::BadInputs);
}

fn named(store: &Store, term: u64, id: u64, index: u16, payload: &[u8]) -> u64 {
    let name = store.reserve(term, 2).unwrap().start;
    store.put(name, b"x").unwrap();
    store.put(name + 1, b"x").unwrap();
    let ack = Call::AckIn { term, now: NOW, id, subtask: (0, index), fresh: &[name + 1, name], reused: &[] };
    let more = More { payload, bytes: 3, millis: 4, ..More::default() };
    store.call_with(ack, more).unwrap();
    name
}

#[test]
fn a_record_as_a_whole_and_a_lost_file() {
    let place = Place::new("runner-whole");
    let options = Options { storage: Some(place.state()), ..new_job(&[TASKS.into()]) };
    let store = Store::open(&place.job(), &options).unwrap();
    assert_eq!(store.load(None).unwrap(), None);
    assert_eq!(store.history(10).unwrap(), []);
    store.trigger().unwrap();
    let first = named(&store, 1, 1, 0, b"a state");
    named(&store, 1, 1, 1, b"");
    let restored = store.restore_whole(None, None).unwrap();
    let whole = restored.record.unwrap();
    assert_eq!((restored.term, whole.term), (2, 2));
    assert_eq!((whole.id, whole.kind), (1, Kind::Checkpoint));
    assert_eq!(whole.shape, [2]);
    let part = whole.part(0, 0).unwrap();
    assert_eq!(part.files, [first + 1, first]);
    assert_eq!(part.payload, b"a state");
    assert_eq!((part.bytes, part.millis), (3, 4));
    assert_eq!(whole.part(0, 1).unwrap().payload, b"");
    assert_eq!(whole.part(0, 2), None);
    let past = &store.history(10).unwrap()[0];
    assert_eq!((past.id, past.ending, past.acks), (1, Ending::Completed, 2));
    assert_eq!((past.bytes, past.millis), (6, 4));
    fs::remove_file(place.state().join(first.to_string())).unwrap();
    let lost = store.load(None).unwrap_err();
    assert_eq!(lost.kind, StoreErrorKind::FileLost);
    assert!(lost.message.contains("is missing"), "{lost}");
    let unused = store.reserve(2, 1).unwrap().start;
    store.put(unused, b"x").unwrap();
    store.forfeit(2, &[unused]).unwrap();
    drop(store);
    let (job, run) = begin(&place, QUICK);
    let Err(RunFault::Call(CallError::Store(StoreError { kind, .. }))) = run.join().unwrap() else {
        panic!("a file is lost");
    };
    assert_eq!(kind, StoreErrorKind::FileLost);
    let counts = job.store().read(|job| job.file_counts()).unwrap();
    assert_eq!((counts.waiting, counts.taken), (0, 0)); // nothing was swept
    assert_eq!(ended(job), [End]);
    assert!([first + 1, unused].iter().all(|it| place.state().join(it.to_string()).exists()));
}
