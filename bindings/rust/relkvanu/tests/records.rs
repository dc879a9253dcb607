//! Manifests of the durable coordinator: a job that lost its file is made again, and a record is carried elsewhere.
#![cfg(feature = "store")]
mod common;

use common::{new_job, triggered, Place};
use relkvanu::store::records::{
    check_records, claim, export, import, put_back, records, recover, Carried, FileFault, Record,
};
use relkvanu::store::{Store, StoreErrorKind};
use relkvanu::{Answer, Call, Choice};
use std::fs;
use std::path::Path;

/// A job whose folder gets manifests.
fn kept(job: &Path, state: &Path) -> Store {
    let mut options = new_job(&[2]);
    options.storage = Some(state.into());
    options.manifests = true;
    options.checksums = true;
    Store::open(job, &options).unwrap()
}

/// The two tasks put a file each, and acknowledge.
fn complete(store: &Store, term: u64, id: u64) {
    let names = store.reserve(term, 2).unwrap();
    for (index, file) in (0..).zip(names) {
        store.put(file, b"state").unwrap();
        let call =
            Call::AckIn { term, now: relkvanu::store::NOW, id, subtask: (0, index), fresh: &[file], reused: &[] };
        store.call(call).unwrap();
    }
}

fn checkpoint(store: &Store, term: u64) -> u64 {
    let id = triggered(store);
    complete(store, term, id);
    id
}

/// The job is that of the record, and takes another one.
fn goes_on(job: &Path, state: &Path, record: u64, origin: Option<[u64; 2]>) {
    let store = kept(job, state);
    assert_eq!(store.report().choice, Choice::Checkpoint(record));
    assert_eq!(store.load(None).unwrap().unwrap().origin, origin);
    let restore = Call::Restore { now: relkvanu::store::NOW, savepoint: None, shape: None };
    let term = store.call(restore).unwrap().term.unwrap();
    assert!(checkpoint(&store, term) > record);
    assert_eq!(store.load(None).unwrap().unwrap().origin, None);
}

/// A file that changed is found by who reads it.
fn check_files(state: &Path) {
    for (contents, faults) in [
        ("state", vec![]),
        ("stats", vec![(2, FileFault::Changed)]),
        ("stat", vec![(2, FileFault::Length)]),
        ("state", vec![]),
    ] {
        std::fs::write(state.join("2"), contents).unwrap();
        let found = check_records(state).unwrap();
        assert_eq!((found.len(), found[0].unknown), (1, 0));
        assert_eq!(found[0].faults, faults);
    }
    assert!(check_records(&state.join("nowhere")).is_err());
}

#[test]
fn a_record_that_is_carried() {
    let folder = Place::new("records");
    let at = |name: &str| folder.0.join(name);
    let store = kept(&folder.job(), &folder.state());
    let (id, job) = (checkpoint(&store, 1), store.report().job);
    drop(store);
    let manifest = std::fs::read_to_string(folder.state().join(format!("record-{id}.manifest"))).unwrap();
    assert_eq!(manifest.matches("\"sums\":[\"").count(), 2);
    check_files(&folder.state());
    let mut found = records(&folder.state()).unwrap();
    assert!(found[0].written != 0);
    found[0].written = 0;
    let whole = Record {
        id,
        damage: None,
        is_savepoint: false,
        is_of_job: true,
        is_next: true,
        written: 0,
        files: 2,
        bytes: 10,
        missing: 0,
    };
    assert_eq!(found, [whole]);
    let nowhere = records(&at("nowhere")).unwrap_err();
    assert_eq!(nowhere.kind, StoreErrorKind::Storage);
    let there = recover(&folder.job(), &folder.state(), 0).unwrap_err();
    assert_eq!(there.kind, StoreErrorKind::Present);
    assert!(there.message.contains("there is a job"), "{there}");

    fs::remove_file(folder.job()).unwrap();
    let none = recover(&folder.job(), &folder.state(), 99).unwrap_err();
    assert_eq!(none.kind, StoreErrorKind::Absent);
    let made = recover(&folder.job(), &folder.state(), 0).unwrap();
    assert_eq!((made.record, made.files, made.bytes), (id, 2, 10));
    assert!(made.term > 1 && made.next_number > id);

    let carried = export(&folder.state(), 0, &at("out")).unwrap();
    let wanted = Carried { record: id, is_savepoint: false, files: 2, bytes: 10 };
    assert_eq!(carried, wanted);
    let again = export(&folder.state(), 0, &at("out")).unwrap_err();
    assert_eq!(again.kind, StoreErrorKind::Present);
    import(&at("out"), 0, &at("other.db"), &at("other")).unwrap();
    goes_on(&at("other.db"), &at("other"), id, Some(job));
    let claimed = claim(&at("out"), id, &at("third.db"), &at("third")).unwrap();
    assert_eq!(claimed.record, id);
    assert!(!at("out").exists());
    goes_on(&at("third.db"), &at("third"), id, Some(job));
    goes_on(&folder.job(), &folder.state(), id, None);
    fs::write(folder.state().join(format!("record-{id}.manifest")), "x").unwrap();
    let damaged = records(&folder.state()).unwrap();
    assert_eq!(damaged[0].damage, Some(StoreErrorKind::Damaged));
}

#[test]
fn a_backup_that_is_put_back() {
    let folder = Place::new("put-back");
    let copy = folder.0.join("copy.db");
    let store = kept(&folder.job(), &folder.state());
    let Some(Answer::SavepointTriggered(id)) =
        store.call(Call::Savepoint { now: relkvanu::store::NOW }).unwrap().called()
    else {
        panic!("no savepoint");
    };
    complete(&store, 1, id);
    store.backup(&copy).unwrap();
    checkpoint(&store, 1);
    drop(store);
    let made = put_back(&copy, &folder.job(), &folder.state()).unwrap();
    assert_eq!((made.record, made.is_savepoint), (id, true));
    assert!(Path::new(&made.set_aside).is_dir());
}
