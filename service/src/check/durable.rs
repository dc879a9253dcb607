//! The log of a durable job: the tables of its file, as store/src/job/open.c makes them.
use crate::model::{Answer, AnswerRow, Entry, Image, KeptImage, Reply};
use crate::store::{DbError, LogReader, SavedImage};
use rusqlite::{Connection, ErrorCode, OpenFlags, OptionalExtension, Row};
use std::path::Path;

/// What the file's header says that it is.
const APPLICATION: i64 = 0x5256_4b53;

/// A connection that only reads.
pub struct Durable(Connection);

impl Durable {
    /// Opens the file of a durable job as it is now; `None` if it is another kind of database.
    pub fn open(path: &Path) -> Result<Option<Durable>, DbError> {
        let flags = OpenFlags::SQLITE_OPEN_READ_ONLY | OpenFlags::SQLITE_OPEN_NO_MUTEX;
        let opened = Connection::open_with_flags(path, flags).and_then(|connection| {
            let kind: i64 = connection.pragma_query_value(None, "application_id", |row| row.get(0))?;
            connection.execute_batch("begin")?;
            Ok((kind == APPLICATION).then_some(Durable(connection)))
        });
        opened.map_err(|why| match why.sqlite_error_code() {
            Some(ErrorCode::DatabaseBusy) => {
                let why =
                    "a process has this file open: if it is a durable job that runs, check its backup".to_string();
                DbError::Unfit { path: path.to_path_buf(), why }
            }
            _ => DbError::unopened(path)(why),
        })
    }

    /// The image of the opening, if the file has it still.
    pub fn opening(&self) -> Result<Option<String>, DbError> {
        let saved = self.first_image("place = ?", 0)?;
        Ok(saved.map(|saved| saved.image.text))
    }

    /// (The text is followed by zeros. The file has a checksum of it, which an opening of the job looks at.)
    fn first_image(&self, which: &str, place: u64) -> Result<Option<SavedImage>, DbError> {
        let sql = format!("select place, text from image where {which} order by place limit 1");
        let found: Option<(u64, Vec<u8>)> =
            self.0.query_row(&sql, [place], |row| Ok((row.get(0)?, row.get(1)?))).optional()?;
        Ok(found.map(|(seq, text)| {
            let text = String::from_utf8_lossy(&text).trim_end_matches('\0').to_string();
            let image = Image { job: 0, seq, at: 0, shape: Vec::new(), last_completed: None, last_event: 0, text };
            SavedImage { digest: image.digest(), image }
        }))
    }
}

impl LogReader for Durable {
    fn log(&mut self, _: i64, after: u64, most: u32) -> Result<Vec<Entry>, DbError> {
        let sql = "select place, line, what, a, b, files from log where place > ? order by place limit ?";
        let mut query = self.0.prepare_cached(sql)?;
        let calls = query.query_map([after, u64::from(most)], entry)?;
        Ok(calls.collect::<rusqlite::Result<_>>()?)
    }

    fn first(&mut self, _: i64) -> Result<Option<u64>, DbError> {
        Ok(self.0.query_row("select min(place) from log", [], |row| row.get(0))?)
    }

    fn images(&mut self, _: i64) -> Result<Vec<KeptImage>, DbError> {
        let mut query = self.0.prepare("select place from image where place > 0 order by place")?;
        let images = query.query_map([], |row| Ok(KeptImage { seq: row.get(0)?, at: 0, bytes: 0 }))?;
        Ok(images.collect::<rusqlite::Result<_>>()?)
    }

    fn image(&mut self, _: i64, after: u64) -> Result<Option<SavedImage>, DbError> {
        self.first_image("place > ?", after)
    }
}

/// Numbers are kept with their 64 bits, as signed ones; the files of a take as 64 bits each.
fn entry(row: &Row) -> rusqlite::Result<Entry> {
    let line: String = row.get(1)?;
    let (what, a, b): (i64, i64, i64) = (row.get(2)?, row.get(3)?, row.get(4)?);
    let files: Option<Vec<u8>> = row.get(5)?;
    let words = |bytes: &[u8]| {
        let numbers = bytes.chunks(8).map(|it| it.iter().rev().fold(0, |sum: u64, byte| sum << 8 | u64::from(*byte)));
        numbers.map(|it| it.to_string()).collect::<Vec<_>>().join(" ")
    };
    // a number that no answer has is 0, which none has either
    let what = u32::try_from(what).unwrap_or(0);
    let files = files.or((what == Answer::TAKEN).then(Vec::new)).map(|it| words(&it));
    let mut told = AnswerRow { what, a: a as u64, b: b as u64, files };
    // how many names there are stands in the line too
    let is_reserved = matches!(told.reply(), Some(Reply::Answered(Answer::Reserved(_))));
    if is_reserved && line.ends_with(&format!(" {}", told.b)) {
        told.b = 0;
    }
    Ok(Entry { job: 0, seq: row.get(0)?, at: 0, record: None, line, told, ended: None, waiting: 0 })
}
