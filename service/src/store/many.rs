//! Cells of rows that are written, and many rows in one statement of SQLite. A statement opens a cursor for the table and one for each index, so a
//! row of many costs less than one alone.
use super::rows::signed;
use rusqlite::types::{ToSql, ToSqlOutput, ValueRef};
use rusqlite::Connection;
use std::borrow::Cow;

/// How many rows the statements have.
const ROWS: [usize; 3] = [32, 8, 1];

/// A cell of a row, which has its kind where it is null too.
#[derive(Debug, PartialEq, Eq)]
pub enum Cell<'a> {
    Number(Option<i64>),
    Text(Option<Cow<'a, str>>),
}

/// The cells of a row.
macro_rules! cells {
    ($($cell:expr),+ $(,)?) => { [$($crate::store::many::Cell::from($cell)),+] };
}
pub(crate) use cells;

impl From<i64> for Cell<'_> {
    fn from(number: i64) -> Self {
        Cell::Number(Some(number))
    }
}

impl From<u64> for Cell<'_> {
    fn from(number: u64) -> Self {
        Cell::Number(Some(signed(number)))
    }
}

impl From<Option<u64>> for Cell<'_> {
    fn from(number: Option<u64>) -> Self {
        Cell::Number(number.map(signed))
    }
}

impl<'a> From<&'a str> for Cell<'a> {
    fn from(text: &'a str) -> Self {
        Cell::Text(Some(Cow::Borrowed(text)))
    }
}

impl From<String> for Cell<'_> {
    fn from(text: String) -> Self {
        Cell::Text(Some(Cow::Owned(text)))
    }
}

impl<'a> From<Option<&'a str>> for Cell<'a> {
    fn from(text: Option<&'a str>) -> Self {
        Cell::Text(text.map(Cow::Borrowed))
    }
}

impl ToSql for Cell<'_> {
    fn to_sql(&self) -> rusqlite::Result<ToSqlOutput<'_>> {
        Ok(ToSqlOutput::Borrowed(match self {
            Cell::Number(Some(number)) => ValueRef::Integer(*number),
            Cell::Text(Some(text)) => ValueRef::Text(text.as_bytes()),
            Cell::Number(None) | Cell::Text(None) => ValueRef::Null,
        }))
    }
}

/// Inserts rows, each with the cells that this function gives. `into` is a statement up to its values, and `then` what is behind them.
pub fn insert<'a, T, const N: usize>(
    within: &Connection,
    into: &str,
    then: &str,
    mut rows: impl ExactSizeIterator<Item = T>,
    cells: impl Fn(T) -> [Cell<'a>; N],
) -> rusqlite::Result<()> {
    for count in ROWS {
        if rows.len() < count {
            continue;
        }
        let row = format!("({})", vec!["?"; N].join(", "));
        let mut insert = within.prepare_cached(&format!("{into} values{} {then}", vec![row; count].join(", ")))?;
        while rows.len() >= count {
            for (place, cell) in rows.by_ref().take(count).flat_map(&cells).enumerate() {
                insert.raw_bind_parameter(place + 1, cell)?;
            }
            insert.raw_execute()?;
        }
    }
    Ok(())
}

/// Runs a statement for each row, with as many of its cells as it takes.
pub fn each<'a, T, const N: usize>(
    within: &Connection,
    statement: &str,
    mut rows: impl ExactSizeIterator<Item = T>,
    cells: impl Fn(T) -> [Cell<'a>; N],
) -> rusqlite::Result<()> {
    let mut prepared = within.prepare_cached(statement)?;
    let taken = prepared.parameter_count();
    rows.try_for_each(|row| {
        for (place, cell) in cells(row).into_iter().take(taken).enumerate() {
            prepared.raw_bind_parameter(place + 1, cell)?;
        }
        prepared.raw_execute().map(drop)
    })
}

#[cfg(test)]
mod tests {
    use super::*;

    #[test]
    fn all_rows_are_inserted_in_their_order() -> rusqlite::Result<()> {
        let base = Connection::open_in_memory()?;
        base.execute_batch("create table t(at integer primary key autoincrement, a integer, b text)")?;
        let mut all = Vec::new();
        for count in [0, 1, 7, 8, 31, 32, 33, 75] {
            let rows: Vec<(i64, Option<String>)> =
                (0..count).map(|it| (it, (it % 3 > 0).then(|| it.to_string()))).collect();
            insert(&base, "insert into t(a, b)", "", rows.iter(), |(a, b)| cells![*a, b.as_deref()])?;
            all.extend(rows);
        }
        let mut query = base.prepare("select a, b from t order by at")?;
        let found: Vec<(i64, Option<String>)> =
            query.query_map([], |row| Ok((row.get(0)?, row.get(1)?)))?.collect::<rusqlite::Result<_>>()?;
        assert_eq!(found, all);
        Ok(())
    }
}
