//! The version of the history's tables, and what makes or upgrades them.
use super::error::Error;
use crate::store::steps_after;
use rusqlite::Connection;

/// What makes each version of the tables from the one before.
pub const STEPS: [&str; 1] = [include_str!("../../sql/history.sql")];

/// The table of a service's calls, which no history has.
const CALLS: &str = "call";

/// The version of the tables; 0 if there are none. A database with a table `call` is a log and not a history: it is never set aside.
pub fn version(connection: &Connection) -> Result<i64, Error> {
    let sql = "select count(*), count(*) filter (where name = ?) from sqlite_master";
    let (count, calls): (i64, i64) = connection.query_row(sql, [CALLS], |row| Ok((row.get(0)?, row.get(1)?)))?;
    match count {
        _ if calls > 0 => Err(Error::Database),
        0 => Ok(0),
        _ => connection.query_row("select number from version", [], |row| row.get(0)).map_err(foreign),
    }
}

/// Makes or upgrades the tables, of which each version has a step, and writes down the version.
pub fn upgrade(connection: &Connection, steps: &[&str]) -> Result<(), Error> {
    let (found, newest) = (version(connection)?, steps.len() as i64);
    match found {
        _ if found == newest => Ok(()),
        _ if found > newest => Err(Error::Newer(found)),
        _ if found < 0 => Err(Error::Foreign(format!("version {found}"))),
        _ => {
            let steps = steps_after(found, steps).concat();
            let number = format!("delete from version; insert into version values({newest});");
            Ok(connection.execute_batch(&format!("begin immediate; {steps} {number} commit"))?)
        }
    }
}

/// A table or column is missing, if SQLite says no more than that the statement is wrong.
pub fn foreign(error: rusqlite::Error) -> Error {
    match &error {
        rusqlite::Error::QueryReturnedNoRows => Error::Foreign("the version is missing".to_string()),
        rusqlite::Error::SqliteFailure(code, _) if code.extended_code == rusqlite::ffi::SQLITE_ERROR => {
            Error::Foreign(error.to_string())
        }
        _ => Error::Tables(error),
    }
}
