//! One parser of rows for both databases.
use super::error::DbError;
use super::reader::Listed;
use super::rows::{Keyed, SavedImage, UnderKey};
use crate::files::JobStorage;
use crate::model::{
    parse_config, parse_files, parse_sizes, AckBytes, AnswerRow, Entry, Figure, FileBytes, Given, Image, KeptImage,
    KeptSummary, Opening, PastRecord, Phase, Subtask, SubtaskState,
};
use rusqlite::types::{Type, ValueRef};

/// A cell of a row. PostgreSQL gives numbers as texts.
#[derive(Debug)]
pub enum Cell {
    Null,
    Number(i64),
    Text(String),
    /// A text that is not UTF-8, as damage may leave it.
    NoText,
}

/// A row, whose cells are read in their order.
pub struct Row {
    cells: Vec<Cell>,
    next: usize,
}

impl Row {
    /// A row of SQLite.
    pub fn of_sqlite(row: &rusqlite::Row) -> rusqlite::Result<Row> {
        let cell = |place| match row.get_ref(place)? {
            ValueRef::Null => Ok(Cell::Null),
            ValueRef::Integer(number) => Ok(Cell::Number(number)),
            ValueRef::Text(bytes) => {
                Ok(std::str::from_utf8(bytes).map_or(Cell::NoText, |text| Cell::Text(text.to_string())))
            }
            other => Ok(Cell::Text(other.as_str()?.to_string())),
        };
        let cells = (0..row.as_ref().column_count()).map(cell).collect::<rusqlite::Result<_>>()?;
        Ok(Row { cells, next: 0 })
    }

    /// A row of PostgreSQL.
    pub fn of_pg(row: Vec<Option<String>>) -> Row {
        Row { cells: row.into_iter().map(|cell| cell.map_or(Cell::Null, Cell::Text)).collect(), next: 0 }
    }

    /// What the row says.
    pub fn read<T: FromRow>(mut self) -> Result<T, DbError> {
        T::read(&mut self).ok_or_else(|| self.bad::<T>())
    }

    /// That the cell which was read last is not as this program writes it.
    fn bad<T: FromRow>(&self) -> DbError {
        let column = self.next;
        let cell = self.cells.get(column.saturating_sub(1)).map_or("nothing".to_string(), |it| format!("{it:?}"));
        let job = self.cells.first().filter(|_| T::OF_JOB).and_then(Cell::number);
        DbError::BadRow { job, table: T::TABLE, column, cell }
    }

    fn cell(&mut self) -> Option<&mut Cell> {
        self.next += 1;
        self.cells.get_mut(self.next - 1)
    }

    fn number<T: TryFrom<i64>>(&mut self) -> Option<T> {
        self.number_or_null()?
    }

    /// `Some(None)` if it is null.
    fn number_or_null<T: TryFrom<i64>>(&mut self) -> Option<Option<T>> {
        let cell = self.cell()?;
        if matches!(cell, Cell::Null) {
            return Some(None);
        }
        T::try_from(cell.number()?).ok().map(Some)
    }

    /// What the next cells say.
    fn within<T: FromRow>(&mut self) -> Option<T> {
        T::read(self)
    }

    /// A number of which the cell has the 64 bits, as a signed one.
    fn bits(&mut self) -> Option<u64> {
        self.number::<i64>().map(|number| number as u64)
    }

    fn text(&mut self) -> Option<String> {
        self.text_or_null()?
    }

    /// `Some(None)` if it is null. The text is moved: that of an image may be large.
    fn text_or_null(&mut self) -> Option<Option<String>> {
        match self.cell()? {
            Cell::Null => Some(None),
            Cell::Number(_) | Cell::NoText => None,
            Cell::Text(text) => Some(Some(std::mem::take(text))),
        }
    }

    /// What a text says.
    fn parsed<T>(&mut self, parse: impl FnOnce(&str) -> Option<T>) -> Option<T> {
        match self.cell()? {
            Cell::Text(text) => parse(text),
            Cell::Null | Cell::Number(_) | Cell::NoText => None,
        }
    }
}

impl Cell {
    fn number(&self) -> Option<i64> {
        match self {
            Cell::Number(number) => Some(*number),
            Cell::Text(text) => text.parse().ok(),
            Cell::Null | Cell::NoText => None,
        }
    }
}

/// What a row of a statement says.
pub trait FromRow: Sized {
    /// The table that an error names.
    const TABLE: &'static str;
    /// Whether the first column has the number of a job.
    const OF_JOB: bool = false;

    /// `None` if a cell is not as this program writes it: the last one that was read.
    fn read(row: &mut Row) -> Option<Self>;
}

/// A row whose cells are fields in this order; where that is said, the first one is a job's number.
macro_rules! fields {
    ($kind:ident, $table:literal, $of_job:literal, $($field:ident: $read:ident$(($parse:expr))?),+) => {
        impl FromRow for $kind {
            const TABLE: &'static str = $table;
            const OF_JOB: bool = $of_job;

            fn read(row: &mut Row) -> Option<$kind> {
                Some($kind { $($field: row.$read($($parse)?)?),+ })
            }
        }
    };
}

fields!(
    Opening, "job", true,
    number: number, name: text, settings: parsed(parse_config), shape: parsed(parallelisms), started: number, first: number
);
fields!(AnswerRow, "call", false, what: number, a: bits, b: bits, files: text_or_null);
fields!(
    Entry, "call", true,
    job: number, seq: number, at: number, record: number_or_null, line: text, told: within, ended: text_or_null, waiting: number
);
fields!(Keyed, "request", false, job: number, key: text, at: number, digest: text, answers: text);
fields!(KeptImage, "image", false, seq: number, at: number, bytes: number);
fields!(KeptSummary, "summary", false, seq: number, bytes: number);
fields!(PastRecord, "past", false, job: number, id: number, text: text);
fields!(AckBytes, "ack_size", false, job: number, seq: number, fresh: parsed(parse_sizes), full: number);
fields!(Figure, "figure", false, job: number, seq: number, bytes: number, millis: number, reason: text_or_null);

fn parallelisms(words: &str) -> Option<Vec<u64>> {
    words.split(' ').map(|word| word.parse().ok()).collect()
}

/// An opening as it can be shown though a part of it can't be read.
impl FromRow for Listed {
    const TABLE: &'static str = Opening::TABLE;
    const OF_JOB: bool = true;

    fn read(row: &mut Row) -> Option<Listed> {
        let Cell::Text(name) = row.cells.get(1)? else {
            return None;
        };
        let name = name.clone();
        let opening = Opening::read(row).ok_or_else(|| row.bad::<Opening>());
        let number = row.cells.first()?.number()?;
        Some(Listed { number, name, opening })
    }
}

/// What a row says, or why that can't be read.
impl<T: FromRow> FromRow for Result<T, DbError> {
    const TABLE: &'static str = T::TABLE;

    fn read(row: &mut Row) -> Option<Result<T, DbError>> {
        Some(T::read(row).ok_or_else(|| row.bad::<(i64, T)>()))
    }
}

/// The statement has looked for the job and the key, so these can be read.
impl FromRow for UnderKey {
    const TABLE: &'static str = Keyed::TABLE;

    fn read(row: &mut Row) -> Option<UnderKey> {
        let (job, Cell::Text(key)) = (row.cells.first()?.number()?, row.cells.get(1)?) else {
            return None;
        };
        let key = key.clone();
        let found = Keyed::read(row).ok_or_else(|| row.bad::<Keyed>().of_job(job));
        Some(UnderKey { job, key, found })
    }
}

impl FromRow for SavedImage {
    const TABLE: &'static str = "image";
    const OF_JOB: bool = true;

    fn read(row: &mut Row) -> Option<SavedImage> {
        let (job, seq, at, digest) = (row.number()?, row.number()?, row.number()?, row.text()?);
        // a word that is no number shows in the digest
        let shape = row.parsed(|words| Some(words.split(' ').filter_map(|word| word.parse().ok()).collect()))?;
        let (last_completed, last_event, text) = (row.number_or_null()?, row.number()?, row.text()?);
        Some(SavedImage { image: Image { job, seq, at, shape, last_completed, last_event, text }, digest })
    }
}

/// A part of a summary, and how many bytes all parts have if it is the last one.
impl FromRow for (String, u64) {
    const TABLE: &'static str = "summary";

    fn read(row: &mut Row) -> Option<(String, u64)> {
        Some((row.text()?, row.number()?))
    }
}

impl FromRow for SubtaskState {
    const TABLE: &'static str = "subtask_state";

    fn read(row: &mut Row) -> Option<SubtaskState> {
        let (job, record, vertex, index) = (row.number()?, row.number()?, row.number()?, row.number()?);
        let (files, payload) = (row.parsed(parse_files)?, row.text()?);
        let given = Given { payload, bytes: Some(row.number()?), millis: Some(row.number()?) };
        Some(SubtaskState { job, record, subtask: Subtask { vertex, index }, files, given })
    }
}

impl FromRow for FileBytes {
    const TABLE: &'static str = "size";

    fn read(row: &mut Row) -> Option<FileBytes> {
        Some((row.bits()?, row.number()?))
    }
}

impl FromRow for Phase {
    const TABLE: &'static str = "phase";

    fn read(row: &mut Row) -> Option<Phase> {
        let (word, record, at) = (row.text()?, row.number_or_null()?, row.number_or_null()?);
        let (term, failed) = (row.number_or_null()?, row.text_or_null()?);
        Phase::of_row((&word, record, at, term, failed.as_deref()))
    }
}

impl FromRow for JobStorage {
    const TABLE: &'static str = "storage";

    fn read(row: &mut Row) -> Option<JobStorage> {
        row.parsed(|text| serde_json::from_str(text).ok())
    }
}

/// A place in the log.
impl FromRow for u64 {
    const TABLE: &'static str = "call";

    fn read(row: &mut Row) -> Option<u64> {
        row.number()
    }
}

/// A number that may be null, as the least of no rows.
impl FromRow for Option<u64> {
    const TABLE: &'static str = "call";

    fn read(row: &mut Row) -> Option<Option<u64>> {
        row.number_or_null()
    }
}

/// A job's number before what the row says of the job.
impl<T: FromRow> FromRow for (i64, T) {
    const TABLE: &'static str = T::TABLE;
    const OF_JOB: bool = true;

    fn read(row: &mut Row) -> Option<(i64, T)> {
        Some((row.number()?, T::read(row)?))
    }
}

/// An entry of SQLite's columns [`COLUMNS`](super::rows::COLUMNS).
pub fn entry_of(row: &rusqlite::Row) -> rusqlite::Result<Entry> {
    let bad = |error| rusqlite::Error::FromSqlConversionFailure(0, Type::Null, Box::new(error));
    Row::of_sqlite(row)?.read().map_err(bad)
}

#[cfg(test)]
mod tests {
    use super::*;
    use rusqlite::Connection;

    /// Cells with `|` between them; an empty one is null.
    fn of_pg(cells: &str) -> Row {
        Row::of_pg(cells.split('|').map(|cell| (!cell.is_empty()).then(|| cell.to_string())).collect())
    }

    fn of_sqlite(values: &str) -> Result<Row, DbError> {
        let connection = Connection::open_in_memory()?;
        Ok(connection.query_row(&format!("select {values}"), [], Row::of_sqlite)?)
    }

    #[test]
    fn both_databases_give_the_same() -> Result<(), DbError> {
        let entry: Entry = of_sqlite("1, 9, 3010, null, 'take 2', 18, 2, -1, '7 8', null, 0")?.read()?;
        assert_eq!(entry, of_pg("1|9|3010||take 2|18|2|-1|7 8||0").read()?);
        assert_eq!((entry.job, entry.seq, entry.at, entry.record), (1, 9, 3010, None));
        let told = AnswerRow { what: 18, a: 2, b: u64::MAX, files: Some("7 8".to_string()) };
        assert_eq!((entry.line.as_str(), &entry.told, &entry.ended, entry.bytes()), ("take 2", &told, &None, 9));
        let saved: SavedImage = of_sqlite("1, 9, 3010, 'd', '2 3', null, 8, '{}'")?.read()?;
        assert_eq!(saved, of_pg("1|9|3010|d|2 3||8|{}").read()?);
        assert_eq!((saved.image.shape, saved.image.last_completed, saved.digest.as_str()), (vec![2, 3], None, "d"));
        Ok(())
    }

    #[test]
    fn an_error_names_the_cell() {
        let told = of_pg("1|x||||||").read::<Entry>();
        let told = told.map_err(|error| error.to_string());
        assert_eq!(told, Err("a row of call has Text(\"x\") in column 2".to_string()));
        let told = of_sqlite("1, -9, 0").and_then(Row::read::<(i64, KeptSummary)>).map_err(|error| error.to_string());
        assert_eq!(told, Err("a row of summary has Number(-9) in column 2".to_string()));
        let told =
            of_sqlite("1, cast(x'ff' as text)").and_then(Row::read::<(i64, u64)>).map_err(|error| error.bad_job());
        assert_eq!(told, Err(Some(1)));
        let told = of_sqlite("1").and_then(Row::read::<(i64, u64)>).map_err(|error| error.to_string());
        assert_eq!(told, Err("a row of call has nothing in column 2".to_string()));
    }
}
