//! Calls in groups: what is told, and when.
use relkvanu::{Answer, Call, Coordinator, Fault, Fenced, Grouped, Receipt, Refusal, Said, Settings, Told};

const SETTINGS: Settings = Settings::every(10);

/// The calls of a job with one subtask and names, each with what the rules say that it answers.
fn calls() -> Vec<(Call<'static>, Told)> {
    use Told::{Answered, Taken};
    let ack = |now, id, fresh, reused| Call::AckIn { term: 1, now, id, subtask: (0, 0), fresh, reused };
    vec![
        (Call::Fence { first_name: 1 }, Answered(Answer::Named)),
        (Call::Reserve { term: 1, count: 4 }, Answered(Answer::Reserved(1))),
        (Call::Tick { now: 10 }, Answered(Answer::Triggered { expired: 0, id: 1 })),
        (ack(11, 1, &[1, 2], &[]), Answered(Answer::AckCompleted { dropped: 0, released: 0 })),
        (ack(12, 1, &[1, 2], &[]), Told::Fault(Fenced::Spent(1).into())),
        (Call::Tick { now: 20 }, Answered(Answer::Triggered { expired: 0, id: 2 })),
        (ack(21, 2, &[3], &[9]), Told::Fault(Refusal::FileGone(9).into())),
        (ack(22, 2, &[3], &[2]), Answered(Answer::AckCompleted { dropped: 1, released: 1 })),
        (Call::Tick { now: 1 << 50 }, Told::Fault(Refusal::MomentTooLarge.into())),
        (Call::Restore { now: 23, savepoint: None, shape: Some(&[]) }, Told::Fault(Fault::BadShape)),
        (Call::Take { most: 9 }, Taken(1)),
    ]
}

fn opened() -> Coordinator {
    Coordinator::open(&SETTINGS, &[1], 0, 1).unwrap()
}

/// Makes the calls in groups of so many, and returns the lines.
fn made_in_groups_of(size: usize) -> Vec<String> {
    let (mut job, mut lines, mut last) = (Grouped::new(opened()), Vec::new(), None::<Receipt>);
    for group in calls().chunks(size) {
        let mut receipts = Vec::new();
        for (call, told) in group {
            let mut files = [0; 8];
            let held = job.make(call, &mut files).unwrap();
            assert_eq!(job.told(held.receipt), Err(Fault::BadReceipt), "told before the sync: {call:?}");
            assert_eq!(last.map(|old| job.told(old)).unwrap_or(Err(Fault::BadReceipt)), Err(Fault::BadReceipt));
            assert_eq!(held.made.is_err(), matches!(told, Told::Fault(_)), "{call:?}");
            if let Ok(made) = held.made {
                assert!(made.said != Said::Taken(&[]) || *told == Told::Taken(0));
                lines.push(made.line);
            }
            receipts.push(held.receipt);
        }
        assert_eq!(job.synced(), Ok(group.len() as u64));
        for (receipt, (call, told)) in receipts.iter().zip(group) {
            assert_eq!(job.told(*receipt), Ok(*told), "{call:?}");
        }
        last = receipts.pop();
    }
    lines
}

#[test]
fn answers_are_told_once_the_log_is_synced() {
    let lines = made_in_groups_of(1);
    assert_eq!((lines.len(), lines[6].as_str()), (7, "take 9"));
    for size in 2..=calls().len() {
        assert_eq!(made_in_groups_of(size), lines, "{size}");
    }
    // the lines are those of a coordinator without groups, and read back as its calls
    let mut plain = opened();
    for line in &lines {
        plain.line(line.as_bytes(), &mut [0; 8]).unwrap();
    }
    let mut repeated = Grouped::new(opened());
    for (call, _) in calls().iter().filter(|(_, told)| !matches!(told, Told::Fault(_))) {
        repeated.repeat(call, &mut [0; 8]).unwrap();
    }
    assert_eq!(repeated.save(), plain.save());
}

#[test]
fn a_receipt_is_of_one_call() {
    let mut job = Grouped::new(opened());
    let mut receipts = Vec::new();
    for _ in 0..600 {
        receipts.push(job.hold(Refusal::NotRunning).unwrap());
    }
    assert_eq!(job.synced(), Ok(600));
    assert_eq!(job.told(receipts[599]), Ok(Told::Fault(Refusal::NotRunning.into())));
    let later = job.make(&Call::Tick { now: 10 }, &mut []).unwrap().receipt;
    assert_eq!(job.synced(), Ok(1));
    assert!(receipts.iter().all(|old| *old != later && job.told(*old) == Err(Fault::BadReceipt)));
    assert_eq!(job.told(later), Ok(Told::Answered(Answer::Triggered { expired: 0, id: 1 })));
}

#[test]
fn a_take_that_finds_more_files_than_the_buffer_has_places_is_made_again() {
    let mut job = Grouped::new(opened());
    let files: Vec<u64> = (1..=20).collect();
    for call in [
        Call::Tick { now: 10 },
        Call::Ack { now: 11, id: 1, subtask: (0, 0), fresh: &files, reused: &[] },
        Call::Cancel { now: 12 },
    ] {
        assert!(job.make(&call, &mut []).unwrap().made.is_ok());
    }
    let take = Call::Take { most: 20 };
    assert_eq!(job.make(&take, &mut [0; 8]).err(), Some(Fault::TooShort { places: 20 }));
    let mut room = [0; 20];
    let held = job.make(&take, &mut room).unwrap();
    assert_eq!(held.made.unwrap().said, Said::Taken(&files));
    assert_eq!((job.synced(), job.told(held.receipt)), (Ok(4), Ok(Told::Taken(20))));
}

#[test]
fn an_acknowledgement_with_too_long_a_line_has_too_many_files() {
    let mut job = Grouped::new(opened());
    job.make(&Call::Tick { now: 10 }, &mut []).unwrap();
    let image = job.save();
    let many: Vec<u64> = (0..9000).map(|place| u64::MAX - place).collect();
    let held = job.make(&Call::Ack { now: 11, id: 1, subtask: (0, 0), fresh: &many, reused: &[] }, &mut []).unwrap();
    assert_eq!(held.made.err(), Some(Refusal::TooManyFiles.into()));
    assert_eq!((job.synced(), job.told(held.receipt)), (Ok(2), Ok(Told::Fault(Refusal::TooManyFiles.into()))));
    assert_eq!(job.save(), image);
}

#[test]
fn after_a_failed_sync_nothing_is_told() {
    let mut job = Grouped::new(opened());
    let first = job.make(&Call::Tick { now: 10 }, &mut []).unwrap().receipt;
    assert_eq!(job.synced(), Ok(1));
    job.failed();
    assert_eq!(job.told(first), Err(Fault::BadGroup));
    assert_eq!(job.make(&Call::Tick { now: 20 }, &mut []).err(), Some(Fault::BadGroup));
    assert_eq!((job.hold(Refusal::NotRunning), job.synced()), (Err(Fault::BadGroup), Err(Fault::BadGroup)));
    // and a log that is in use is not repeated
    assert_eq!(job.repeat(&Call::Tick { now: 20 }, &mut []), Err(Fault::BadGroup));
}
