//! The table of a sink in SQLite: each number is published once, all or nothing, and other rows under it are refused.
#![cfg(feature = "sqlite")]
use relkvanu::outputs::{Sink, SinkFault, Target};
use relkvanu_client::table::Table;
use rusqlite::{Connection, Transaction};
use std::path::{Path, PathBuf};

/// A database of the test's own, which is removed.
struct Database(PathBuf);

impl Drop for Database {
    fn drop(&mut self) {
        std::fs::remove_file(&self.0).expect("it is there");
    }
}

impl Database {
    fn new(name: &str) -> Database {
        let it = Database(std::env::temp_dir().join(format!("relkvanu-{name}-{}.db", std::process::id())));
        it.open().execute("CREATE TABLE lines (line TEXT CHECK (line <> 'bad'))", ()).expect("a table");
        it
    }

    fn open(&self) -> Connection {
        Connection::open::<&Path>(&self.0).expect("a database")
    }

    fn lines(&self) -> Vec<String> {
        let open = self.open();
        let mut select = open.prepare("SELECT line FROM lines ORDER BY rowid").expect("a table");
        let rows = select.query_map((), |row| row.get(0)).expect("rows");
        rows.collect::<Result<_, _>>().expect("texts")
    }

    /// Of a process that begins with this state.
    fn sink(&self, state: &[u8]) -> Result<Sink<impl Target>, SinkFault> {
        let write = |within: &Transaction<'_>, row: &[u8]| {
            within.execute("INSERT INTO lines VALUES (?)", [String::from_utf8_lossy(row)]).map(drop)
        };
        let sink = Sink::new(Table::of_sqlite("lines", self.open(), write).expect("a table"), "job")
            .within(std::time::Duration::ZERO);
        sink.begin(state, None).map(|()| sink)
    }
}

#[test]
fn each_number_once() -> Result<(), SinkFault> {
    let at = Database::new("table");
    let sink = at.sink(&[])?;
    sink.push("1");
    sink.push("2");
    let one = sink.prepare(1)?;
    sink.push("3");
    let two = sink.prepare(2)?; // 1 has failed, or was not told of
    assert_eq!(at.lines(), [""; 0]);
    at.sink(&two)?;
    sink.publish(2)?;
    at.sink(&one)?;
    assert_eq!(at.lines(), ["1", "2", "3"]);
    let again = at.sink(&[])?; // a backup was put back: its numbers come again
    again.push("4");
    again.prepare(2)?;
    assert!(matches!(again.publish(2), Err(SinkFault::OtherRows { record: 2, .. })));
    let bad = at.sink(&[])?;
    bad.push("5");
    bad.push("bad");
    bad.prepare(3)?;
    assert!(matches!(bad.publish(3), Err(SinkFault::Failed { record: 3, .. })));
    assert_eq!(at.lines(), ["1", "2", "3"]); // all or nothing
    Ok(())
}
