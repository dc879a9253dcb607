//! The log in PostgreSQL. One process leads, for as long as it renews its lease. Each group is one statement, which renews the lease and is
//! fenced by it. So a leader that was stopped holds no lock.
use super::cells::Row;
use super::error::{DbError, Failure, Unusable};
use super::parameter::{Array, Parameter};
use super::parts::CALLS;
use super::pg_commit::{Columns, Statements};
use super::pg_lease::{self, Leader, Watch};
use super::pq::{Connection, Failed, Rows};
use super::rows::{steps_after, Committed, Erasure, Group, Lead, Store, UnderKey, Written, STORAGES, TABLES, VERSION};
use crate::model::Moment;
use std::ffi::CStr;
use std::time::Duration;

/// A statement of the writer may take this long.
const PATIENCE: Duration = Duration::from_secs(10);
/// The answers under each of these keys.
const KEYED: &str = "select request.job, request.key, at, digest, answers
    from unnest($1::bigint[], $2::text[]) u(job, key) join request on request.job = u.job and request.key = u.key";
const KEYED_NAME: &CStr = c"keyed";

/// The writer's connection and its lease.
pub struct Pg {
    connection: Connection,
    statements: Statements,
    /// This process. Each start has another name.
    name: String,
    address: String,
    lease: Duration,
    /// When the commit began that renewed the lease last.
    renewed: Option<Moment>,
    watch: Watch,
}

impl Pg {
    /// Connects, and makes or upgrades the tables if their version says so. Refuses a database that does not sync its commits.
    pub fn open(url: &str, address: &str, lease: Duration) -> Result<Pg, Unusable> {
        let mut connection = connected(url)?;
        let found = version(&mut connection)?;
        Unusable::check(found)?;
        if found < VERSION as i64 {
            upgrade(&mut connection)?;
        }
        connection.limit(PATIENCE)?;
        connection.prepare(KEYED_NAME, KEYED)?;
        // those of a renewal and of calls, which a leader needs in any case
        let mut statements = Statements::default();
        for (parts, renews) in [(&[][..], true), (&[&CALLS], true), (&[&CALLS], false)] {
            statements.name(&mut connection, parts, renews)?;
        }
        let (name, address) = (relkvanu_client::new_key(), address.to_string());
        Ok(Pg { connection, statements, name, address, lease, renewed: None, watch: Watch::default() })
    }

    /// Deletes in one transaction, and waits for no sync: what comes back after a loss of power is deleted again.
    fn without_sync<T>(&mut self, work: impl FnOnce(&mut Connection) -> Result<T, Failed>) -> Result<T, Failed> {
        self.connection.run("begin; set local synchronous_commit = off")?;
        let worked = work(&mut self.connection);
        self.connection.run(if worked.is_ok() { "commit" } else { "rollback" })?;
        worked
    }

    fn write(&mut self, columns: Columns, renews: bool) -> Result<Rows, Failed> {
        let name = self.statements.name(&mut self.connection, &columns.parts, renews)?;
        let mut given = vec![Parameter::text(&seconds(self.lease))?, Parameter::text(&self.name)?];
        given.extend(columns.given);
        self.connection.run_prepared(&name, &given)
    }
}

impl Store for Pg {
    fn lead(&mut self) -> Result<Lead, DbError> {
        let leader = Leader::read(&mut self.connection)?;
        let committed = self.watch.note(&leader);
        if !self.watch.is_over(&leader, self.lease) {
            return Ok(Lead::Elsewhere { committed });
        }
        let length = seconds(self.lease);
        let taken = pg_lease::take(&mut self.connection, &leader, [&self.name, &self.address, &length])?;
        if let Some(epoch) = taken {
            return Ok(Lead::Here { epoch });
        }
        self.watch.lives(&leader);
        Ok(Lead::Elsewhere { committed: true })
    }

    fn begin(&mut self, log: &str, lengths: &[(i64, u64)]) -> Result<(), DbError> {
        pg_lease::begin(&mut self.connection, &self.name, log, lengths)
    }

    fn commit(&mut self, group: &Group) -> Written {
        let columns = Columns::of(group);
        let wanted: Vec<usize> = std::iter::once(1).chain(columns.counts.iter().copied()).collect();
        let since = Moment::now();
        let renews = group.is_empty() || self.renewed.is_none_or(|renewed| renewed.elapsed() >= self.beat());
        let rows = self.write(columns, renews).map_err(failure)?;
        let written = (0..wanted.len()).map(|column| cell(&rows, column).and_then(|text| text.parse().ok()));
        if !written.eq(wanted.into_iter().map(Some)) {
            return Err(Failure::Lost(DbError::NotLeading));
        }
        if renews {
            self.renewed = Some(since);
        }
        Ok(Committed { renews })
    }

    fn keyed(&mut self, keys: &[(i64, String)]) -> Result<Vec<UnderKey>, DbError> {
        let (mut jobs, mut names) = (Array::default(), Array::default());
        for (job, key) in keys {
            jobs.push(&(*job).into());
            names.push(&key.as_str().into());
        }
        let rows = self.connection.run_prepared(KEYED_NAME, &[jobs.parameter(), names.parameter()])?;
        rows.into_iter().map(|row| Row::of_pg(row).read()).collect()
    }

    fn erase(&mut self, statements: &[Erasure]) -> Result<bool, DbError> {
        Ok(self.without_sync(|within| {
            for Erasure { sql, given, most } in statements {
                let given: Vec<String> = given.iter().map(i64::to_string).collect();
                let given: Vec<&str> = given.iter().map(String::as_str).collect();
                if within.query(&format!("{sql} returning 1"), &given)?.len() as u64 == *most {
                    return Ok(true);
                }
            }
            Ok(false)
        })?)
    }

    fn note(&mut self, at: u64) -> Result<(), Failure> {
        let sql = "insert into clock select true, $1::bigint from leader where name = $2
            on conflict (one) do update set at = excluded.at";
        // a moment that is lost is written down again, and a commit tells what is wrong with the connection
        let noted = self.connection.query(sql, &[&at.to_string(), &self.name]);
        noted.map(|_| ()).map_err(|why| Failure::Again(why.into()))
    }

    fn beat(&self) -> Duration {
        self.lease / 3
    }

    fn lease(&self) -> Option<Duration> {
        Some(self.lease)
    }

    fn release(&mut self) {
        // if this fails, the lease expires by itself
        let _ = pg_lease::leave(&mut self.connection, &self.name);
    }
}

/// Connects to a database that syncs its commits.
fn connected(url: &str) -> Result<Connection, DbError> {
    let mut connection = Connection::open(url)?;
    let fsync = connection.run("show fsync")?;
    if cell(&fsync, 0) != Some("on") {
        return Err(DbError::NoSync);
    }
    connection.run("set synchronous_commit = on; set client_min_messages = warning")?;
    Ok(connection)
}

/// The version of the tables; 0 if there are none, or if they are of a program that did not write a version.
fn version(connection: &mut Connection) -> Result<i64, Failed> {
    let there = connection.run("select 1 where to_regclass('schema_version') is not null")?;
    if there.is_empty() {
        return Ok(0);
    }
    let found = connection.run("select number from schema_version")?;
    Ok(cell(&found, 0).and_then(|number| number.parse().ok()).unwrap_or(0))
}

/// Makes the tables, or those that a later version added. Two processes that start at once take turns. It waits for locks for a
/// few seconds alone, since the leader's calls wait behind it.
fn upgrade(connection: &mut Connection) -> Result<(), Failed> {
    connection.run("begin")?;
    lock_tables(connection)?;
    let found = version(connection)?;
    make_tables(connection, found)?;
    connection.run("commit").map(|_| ())
}

/// Until the end of the transaction no other process makes or upgrades tables.
fn lock_tables(connection: &mut Connection) -> Result<(), Failed> {
    connection.run("set local lock_timeout = '5s'; select pg_advisory_xact_lock(7203146)").map(|_| ())
}

/// What makes each version of the tables from the one before.
fn steps() -> [String; VERSION] {
    let of_pg = |it: &str| it.replace("integer", "bigint").replace(" strict, without rowid", "").replace(" strict", "");
    [of_pg(TABLES) + include_str!("../../sql/pg.sql"), of_pg(STORAGES)]
}

/// Makes the tables after a version, and writes down that they are there.
fn make_tables(connection: &mut Connection, found: i64) -> Result<(), Failed> {
    for step in steps_after(found, &steps()) {
        connection.run(step)?;
    }
    let number = format!(
        "insert into schema_version values(true, {VERSION}) on conflict (one) do update set number = {VERSION}"
    );
    connection.run(&number).map(|_| ())
}

/// What a failed statement means. If the database answered it, it was rolled back.
fn failure(failed: Failed) -> Failure {
    match failed.state.as_deref() {
        // no room or memory, a timeout, a deadlock
        Some(state) if state.starts_with("53") || matches!(state, "57014" | "40001" | "40P01") => {
            Failure::Again(failed.into())
        }
        // a value that is longer than the database takes
        Some(state) if state.starts_with("54") => Failure::TooLarge(failed.into()),
        _ => Failure::Lost(failed.into()),
    }
}

/// The length of a lease as the database reads it.
fn seconds(lease: Duration) -> String {
    lease.as_secs_f64().to_string()
}

/// A cell of the first row.
fn cell(rows: &Rows, column: usize) -> Option<&str> {
    rows.first()?.get(column)?.as_deref()
}
