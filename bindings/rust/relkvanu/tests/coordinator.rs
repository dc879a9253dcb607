//! What a coordinator and one that threads share have beside the rows (`rows.rs`): moments that are far ahead, images, threads, and what is said of a refusal.
mod settings;

use relkvanu::{Answer, Coordinator, Fault, Fenced, Garbage, Refusal, RunningTerm, Settings, SharedCoordinator};
use settings::SETTINGS;
use std::error::Error;
use std::thread;
use std::time::{Duration, Instant};

/// Two checkpoints may be pending.
const TWO: Settings = Settings { at_once: 2, ..SETTINGS };

fn opened(settings: &Settings) -> Coordinator {
    Coordinator::open(settings, &[2], 0, 1).unwrap()
}

type Timed = fn(&mut Coordinator, u64) -> Result<Answer, Fault>;

#[test]
fn a_moment_that_is_far_ahead_is_refused() {
    const DAY: u64 = 24 * 60 * 60 * 1000;
    let mut job = Coordinator::open(&TWO, &[1], 0, 1).unwrap();
    job.tick(1000).unwrap();
    let late = 1000 + TWO.timeout + DAY + 1; // a timer may wait until checkpoint 1 expires
    let image = job.save();
    let calls: [Timed; 6] = [
        |job, now| job.tick(now),
        |job, now| job.savepoint(now),
        |job, now| job.ack(now, 1, (0, 0), &[1], &[]),
        |job, now| job.decline(now, 1, (0, 0)),
        |job, now| job.restore(now, None, None),
        |job, now| job.cancel(now),
    ];
    for now in [late, (1 << 62) - 1, 1 << 62] {
        for call in calls {
            assert_eq!(call(&mut job, now), Err(Refusal::MomentTooLarge.into()));
        }
    }
    let too_large = Err(Refusal::MomentTooLarge.into());
    assert_eq!(job.ack_in(1, late, 1, (0, 0), &[1], &[]), too_large);
    assert_eq!(job.decline_in(1, late, 1, (0, 0)), too_large);
    assert_eq!(job.save(), image);
    job.ack(late - 1, 1, (0, 0), &[1], &[]).unwrap();
    job.set_most_ahead(2 * DAY);
    job.tick(late + DAY).unwrap();
    assert_eq!(job.moment(), late + DAY);
    job.line(b"tick 1000000000000", &mut []).unwrap();
    assert_eq!(job.moment(), 1_000_000_000_000, "a line is not checked");
}

#[test]
fn a_timer_that_waits_for_long_is_not_ahead() {
    let mut job = opened(&Settings { interval: 1 << 40, timeout: 1 << 40, ..SETTINGS });
    job.tick(1 << 40).unwrap();
    assert_eq!(job.tick(1 << 41).unwrap(), Answer::Failed { expired: 1 });
}

#[test]
fn a_saved_coordinator_goes_on() {
    let mut job = opened(&TWO);
    job.tick(1000).unwrap();
    job.ack(1100, 1, (0, 0), &[1, 2], &[]).unwrap();
    let image = job.save().unwrap();
    let mut again = Coordinator::open_saved(image.as_bytes()).unwrap();
    assert_eq!(again.ack(1300, 1, (0, 1), &[3], &[]), job.ack(1300, 1, (0, 1), &[3], &[]));
    assert_eq!((again.live(0), again.save()), (job.live(0), job.save()));
    for bytes in [b"{}".as_slice(), b"\xff", b"", &image.as_bytes()[1..]] {
        assert_eq!(Coordinator::open_saved(bytes).err(), Some(Fault::BadImage), "{bytes:?}");
    }
}

/// A cancelled job: its files 1 to 20 wait for deletion.
fn cancelled() -> SharedCoordinator {
    let job = SharedCoordinator::open(&SETTINGS, &[1], 0, 1).unwrap();
    let files: Vec<u64> = (1..=20).collect();
    job.tick(1000).unwrap();
    job.ack(1000, 1, (0, 0), &files, &[]).unwrap();
    let told = Answer::Cancelled { dropped: 1, released: 20 };
    assert_eq!(job.cancel(1000), Ok(told));
    job
}

#[test]
fn threads_acknowledge_at_the_same_time() {
    let job = SharedCoordinator::open(&SETTINGS, &[64], 0, 1).unwrap();
    job.tick(1000).unwrap();
    thread::scope(|scope| {
        for first in (0..64).step_by(8) {
            let job = job.clone();
            scope.spawn(move || {
                for index in first..first + 8 {
                    job.ack(1000, 1, (0, index), &[u64::from(index)], &[]).unwrap();
                }
            });
        }
    });
    assert_eq!(job.file_counts().in_use, 64);
    assert_eq!(job.missing(1), None);
}

#[test]
fn a_call_wakes_who_waits_and_a_report_does_not() {
    let job = cancelled();
    let seen = job.calls();
    job.take(&mut [0]).unwrap();
    job.deleted(1).unwrap();
    assert_eq!(job.calls(), seen);
    let start = Instant::now();
    job.wait_for_call(seen, Some(Duration::from_millis(20)));
    assert!(start.elapsed() >= Duration::from_millis(20));
    thread::scope(|scope| {
        scope.spawn(|| job.wait_for_call(seen, None));
        assert!(job.tick(2000).is_err());
    });
}

#[test]
fn the_next_tick_is_when_something_can_happen() {
    let job = SharedCoordinator::open(&SETTINGS, &[1], 0, 1).unwrap();
    let next = |now| {
        job.with(|it| {
            let ticked = it.tick(now);
            it.next_tick(&ticked)
        })
    };
    assert_eq!(next(0), Some(1000), "the first is due");
    assert_eq!(next(1000), Some(2000), "triggered: the second is due");
    assert_eq!(next(2000), Some(6000), "held: the first expires");
    assert_eq!(next(6000), None, "failed: there is nothing to wait for");
    assert_eq!(next(7000), None, "refused");
    job.restore(7000, None, None).unwrap();
    assert_eq!(next(7000), Some(8000));
}

#[test]
fn it_makes_the_calls_of_terms_and_names() {
    let job = SharedCoordinator::open_fenced(&SETTINGS, &[1], 0, 1, 5).unwrap();
    assert_eq!((job.reserve(1, 3), job.term()), (Ok(5..8), Ok(RunningTerm { term: 1, next_name: 8 })));
    assert_eq!(job.calls(), 0);
    job.tick(1000).unwrap();
    let completed = Answer::AckCompleted { dropped: 0, released: 0 };
    assert_eq!(job.ack_in(1, 1000, 1, (0, 0), &[5], &[]), Ok(completed));
    assert_eq!(job.calls(), 2);
    assert_eq!(job.forfeit(1, &[6]), Ok(()));
    assert_eq!(job.garbage(&[5, 6, 7, 8]), Ok(Garbage { garbage: vec![6], unissued: vec![8] }));
    assert_eq!(job.fence(9), Err(Fenced::HasNames.into()));
    job.tick(2000).unwrap();
    let failed = Answer::DeclineFailed { released: 0 };
    assert_eq!(job.decline_in(1, 2000, 2, (0, 0)), Ok(failed));
    assert_eq!(job.calls(), 4);
}

#[test]
fn a_refusal_says_what_it_is() {
    let job = SharedCoordinator::open(&SETTINGS, &[1], 0, 1).unwrap();
    job.tick(1000).unwrap();
    let fault = job.ack(1000, 1, (0, 0), &[], &[8, 7]).unwrap_err();
    assert_eq!(fault, Fault::Refused(Refusal::FileGone(7)));
    assert_eq!(fault.to_string(), "the call is refused: FileGone 7");
    assert_eq!(fault.source().unwrap().to_string(), "FileGone 7");
    assert_eq!(job.deleted(7), Err(Refusal::NotTaken.into()));
    let told: Fault = Fenced::Spent(7).into();
    assert_eq!(told.to_string(), "the term or the names refuse the call: Spent 7");
    assert_eq!(told.source().unwrap().to_string(), "Spent 7");
    assert_eq!(Fault::BadName.to_string(), "the first name is not within 1 to 2^62");
    assert_eq!(relkvanu::version(), env!("CARGO_PKG_VERSION"));
}
