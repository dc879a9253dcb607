//! A history that goes on from a summary, and tables of other versions.
use super::super::version::{upgrade, STEPS};
use super::*;
use crate::model::{ack, settings_of, Cut, Job};
use crate::store::{Group, Sqlite, SqliteReader, Store};
use std::path::PathBuf;
use std::sync::atomic::{AtomicU64, Ordering};

/// How many files were named.
static FILES: AtomicU64 = AtomicU64::new(0);

/// A database with a job's log, and what it keeps of a history.
struct Database {
    store: Sqlite,
    file: File,
}

impl Database {
    fn with(opening: &Opening, log: &[Entry]) -> Database {
        let file = File::new("log");
        let store = Sqlite::open(&file.0).unwrap_or_else(|why| panic!("{why}"));
        let mut database = Database { store, file };
        database.keep(Group { jobs: vec![opening.clone()], entries: log.to_vec(), ..Group::default() });
        database
    }

    fn keep(&mut self, group: Group) {
        self.store.commit(&group).unwrap_or_else(|why| panic!("{why}"));
    }

    fn reader(&self) -> SqliteReader {
        SqliteReader::open(&self.file.0).unwrap_or_else(|why| panic!("{why}"))
    }
}

/// A job of two subtasks, with six savepoints of two files each, all but the last two disposed of; files that were taken, deleted and not
/// deleted; and its log.
fn made() -> (Opening, Vec<Entry>) {
    let mut job = Job::tried(settings_of([1 << 40, 0, 1, 1 << 40, 0, 1], false), &[2]).expect("a job");
    let mut calls = Vec::new();
    for id in 1..=6_u64 {
        calls.extend([Call::Savepoint, ack(0, id, (0, 0), &[id * 100], &[])]);
        calls.extend((id < 6).then(|| ack(0, id, (0, 1), &[id * 100 + 1], &[])));
        if (3..6).contains(&id) {
            calls.extend([Call::Dispose { id: id - 2 }, Call::Take { most: 1 }]);
        }
        if id == 4 {
            calls.extend([Call::Deleted { file: 100 }, Call::Undeleted { file: 101 }]);
        }
    }
    let log = calls.iter().zip(1001..).flat_map(|(call, now)| job.committed(call, now).1);
    let log = log.map(|logged| logged.entry).collect();
    (job.opening, log)
}

/// What the acknowledgements of the log said: a file has ten times its number of bytes, and each uses one of 7 again.
fn ack_bytes_of(log: &[Entry]) -> Vec<AckBytes> {
    let of = |entry: &Entry| {
        let file: u64 = entry.line.split_once('+')?.1.parse().ok()?;
        Some(AckBytes { job: 1, seq: entry.seq, fresh: vec![(file, file * 10)], full: file * 10 + 7 })
    };
    log.iter().filter_map(of).collect()
}

fn dump(tables: &Tables) -> Vec<String> {
    let told = ["progress", "record", "file", "queue", "place"].map(|table| {
        // the places of a queue are counted from where it began, and only one of the histories has given its records away
        let columns = match table {
            "queue" => "released, files",
            "record" => {
                "id, kind, shape, started, finished, how, gone, why, first_ack, last_ack, slowest, acks, missing, fresh_bytes, full_bytes"
            }
            _ => "*",
        };
        let order = if table == "queue" { "place" } else { "1, 2" };
        let row = |row: &rusqlite::Row| Ok(format!("{table} {:?}", values(row)?));
        tables
            .all(&format!("select {columns} from {table} order by {order}"), [], row)
            .unwrap_or_else(|why| panic!("{why}"))
    });
    told.concat()
}

fn values(row: &rusqlite::Row) -> rusqlite::Result<Vec<rusqlite::types::Value>> {
    (0..row.as_ref().column_count()).map(|column| row.get(column)).collect()
}

struct File(PathBuf);

impl File {
    fn new(name: &str) -> File {
        let number = FILES.fetch_add(1, Ordering::SeqCst);
        File(std::env::temp_dir().join(format!("relkvanu-follow-{}-{number}-{name}", std::process::id())))
    }
}

impl Drop for File {
    fn drop(&mut self) {
        for end in ["", "-wal", "-shm", ".lock"] {
            let _ = std::fs::remove_file(crate::disk::beside(&self.0, end));
        }
    }
}

#[test]
fn a_summary_and_the_rest_of_the_log_give_the_same_history() -> Result<(), Error> {
    let (opening, whole) = made();
    let file = File::new("whole");
    let tables = Tables::open(&file.0)?;
    let database = Database::with(&opening, &whole);
    let mut reader = database.reader();
    let said = ack_bytes_of(&whole);
    Follower::open(&tables, &mut reader, &opening)?.follow(&tables, &whole, &said, &[])?;
    let wanted = dump(&tables);
    for place in 1..whole.len() {
        let (before, after) = whole.split_at(place);
        let files = [File::new("old"), File::new("new")];
        let old = Tables::open(&files[0].0)?;
        let mut database = Database::with(&opening, &whole);
        let mut reader = database.reader();
        let mut follower = Follower::open(&old, &mut reader, &opening)?;
        follower.follow(&old, before, &said, &[])?;
        let past = old.unsaved(1, 100)?;
        old.set_saved(&past)?;
        assert!(old.unsaved(1, 100)?.is_empty());
        let (summaries, cut) =
            (Summary::of(&old, &follower)?.parts(&follower)?, Cut { job: 1, after: 0, upto: place as u64 });
        database.keep(Group { past, summaries, cuts: vec![cut], ..Group::default() });
        let new = Tables::open(&files[1].0)?;
        let mut follower = Follower::open(&new, &mut reader, &opening)?;
        assert!(follower.load(&new, &mut reader)? && follower.upto == place as u64);
        assert!(!follower.load(&new, &mut reader)?, "it would load it for ever");
        follower.follow(&new, after, &said, &[])?;
        let told = dump(&new);
        let differ: Vec<_> = told.iter().filter(|row| !wanted.contains(row)).collect();
        let missing: Vec<_> = wanted.iter().filter(|row| !told.contains(row)).collect();
        // a file whose deletion was cut is not known, nor are calls that it alone names
        let is_known = |row: &&&String| !(row.starts_with("file") || row.starts_with("place"));
        assert!(
            differ.is_empty() && missing.iter().filter(is_known).count() == 0,
            "{place}: {differ:?} for {missing:?}"
        );
        assert!(
            missing.is_empty() || place >= whole.iter().position(|it| it.line == "deleted 100").unwrap_or(0),
            "{place}: {missing:?}"
        );
    }
    Ok(())
}

#[test]
fn tables_of_other_versions() -> Result<(), Error> {
    let file = File::new("versions");
    let tables = Tables::open(&file.0)?;
    tables.run("insert into queue values(1, 2, 3, 4)", [])?;
    tables.run("update version set number = 2", [])?;
    assert!(matches!(Tables::open(&file.0), Err(error @ Error::Newer(2)) if !error.is_damage()));
    let base = rusqlite::Connection::open(&file.0)?;
    for other in
        ["update version set number = 0", "update version set number = -1", "delete from version", "drop table version"]
    {
        base.execute_batch(&format!("{other}; pragma wal_checkpoint(truncate)"))?;
        assert!(matches!(Tables::open(&file.0), Err(Error::Foreign(_) | Error::Tables(_))), "{other}");
    }
    assert!(matches!(Tables::open(&file.0), Err(error @ Error::Foreign(_)) if error.is_damage()));
    let plan: Vec<String> =
        tables.all("explain query plan select job, at from sample where at < 5 limit 3", [], |row| row.get(3))?;
    assert!(plan.iter().all(|step| step.contains("sample_at")), "{plan:?}");
    let other = File::new("other");
    std::fs::write(&other.0, "no database, and long enough".repeat(100)).unwrap_or_else(|why| panic!("{why}"));
    assert!(matches!(Tables::open(&other.0), Err(error @ Error::Tables(_)) if error.is_damage()));
    Ok(())
}

/// A later version, which is made up, upgrades tables with what they have.
#[test]
fn tables_are_upgraded() -> Result<(), Error> {
    let file = File::new("upgrade");
    Tables::open(&file.0)?.run("insert into queue values(1, 2, 3, 4)", [])?;
    let base = rusqlite::Connection::open(&file.0)?;
    for _ in 0..2 {
        upgrade(&base, &[STEPS[0], "alter table queue add column made_up integer not null default 7;"])?;
        let row: (i64, i64, i64) =
            base.query_row("select released, made_up, number from queue, version", [], |row| row.try_into())?;
        assert_eq!(row, (3, 7, 2));
    }
    assert!(matches!(Tables::open(&file.0), Err(Error::Newer(2))));
    Ok(())
}
