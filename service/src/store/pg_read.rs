//! Reads of the log in PostgreSQL. If the connection is lost, they connect again once.
use super::cells::{FromRow, Row};
use super::error::DbError;
use super::pq::{Connection, Failed, Rows};
use super::reader::{LogReader, Reader, FIRST, IMAGES, LENGTHS_AFTER, LOG};
use super::rows::{image_columns, signed, LogPage, SavedImage, Space, COLUMNS, PAGE_BYTES};
use crate::model::{FileBytes, KeptImage};
use std::time::Duration;

/// A statement of a reader may take this long.
const PATIENCE: Duration = Duration::from_secs(60);
/// A connection that was idle for longer than this is tried first: a firewall may have forgotten it.
const IDLE: Duration = Duration::from_secs(5);
/// How long that may take.
const TRY: Duration = Duration::from_secs(3);

/// The text of a long image.
const JOINED: &str = "select string_agg(part.text, '' order by part.part) from image_part part
    where part.job = image.job and part.seq = image.seq";
/// The bytes of a call's texts.
const BYTES: &str = "(octet_length(line) + coalesce(octet_length(files), 0))";

pub struct PgReader {
    url: String,
    connection: Connection,
}

impl PgReader {
    pub fn open(url: &str) -> Result<PgReader, DbError> {
        Ok(PgReader { url: url.to_string(), connection: connect(url)? })
    }

    fn query(&mut self, sql: &str, given: &[&str]) -> Result<Rows, DbError> {
        if self.connection.idle() > IDLE && !self.connection.answers_within(TRY) {
            self.connection = connect(&self.url)?;
        }
        match self.connection.query(sql, given) {
            Err(Failed { state: None, .. }) => {
                self.connection = connect(&self.url)?;
                Ok(self.connection.query(sql, given)?)
            }
            told => Ok(told?),
        }
    }

    fn all<T: FromRow>(&mut self, sql: &str, given: &[&str]) -> Result<Vec<T>, DbError> {
        self.query(sql, given)?.into_iter().map(|row| Row::of_pg(row).read()).collect()
    }

    fn one<T: FromRow>(&mut self, sql: &str, given: &[&str]) -> Result<Option<T>, DbError> {
        Ok(self.all(sql, given)?.pop())
    }
}

fn connect(url: &str) -> Result<Connection, DbError> {
    let mut connection = Connection::open(url)?;
    connection.limit(PATIENCE)?;
    connection.run("set default_transaction_read_only = on")?;
    Ok(connection)
}

impl LogReader for PgReader {
    fn log(&mut self, job: i64, after: u64, most: u32) -> Result<LogPage, DbError> {
        self.entries(LOG, &[job, signed(after), most.into()])
    }

    fn first(&mut self, job: i64) -> Result<Option<u64>, DbError> {
        Ok(self.one(FIRST, &[&job.to_string()])?.flatten())
    }

    fn images(&mut self, job: i64) -> Result<Vec<KeptImage>, DbError> {
        self.all(IMAGES, &[&job.to_string()])
    }

    fn image(&mut self, job: i64, after: u64) -> Result<Option<SavedImage>, DbError> {
        let sql =
            format!("select {} from image where job = $1 and seq > $2 order by seq limit 1", image_columns(JOINED));
        self.one(&sql, &[&job.to_string(), &signed(after).to_string()])
    }
}

impl Reader for PgReader {
    fn rows(&mut self, sql: &str, given: &[i64]) -> Result<Vec<Row>, DbError> {
        let given: Vec<String> = given.iter().map(i64::to_string).collect();
        let given: Vec<&str> = given.iter().map(String::as_str).collect();
        Ok(self.query(sql, &given)?.into_iter().map(Row::of_pg).collect())
    }

    /// The database counts the bytes of the calls, so that it sends no more.
    fn entries(&mut self, selected: &str, given: &[i64]) -> Result<LogPage, DbError> {
        let asked = format!("select {COLUMNS} from call where {selected}");
        let counted = format!("select *, sum({BYTES}) over (order by seq) - {BYTES} as before from ({asked}) asked");
        let sql = format!("select {COLUMNS} from ({counted}) counted where before < {PAGE_BYTES} order by seq");
        self.rows(&sql, given)?.into_iter().map(Row::read).collect()
    }

    fn version(&mut self) -> Result<i64, DbError> {
        let there = self.query("select to_regclass('call'), to_regclass('schema_version')", &[])?.pop();
        let [call, version] = there.and_then(|row| row.try_into().ok()).unwrap_or([None, None]);
        match (call, version) {
            (None, _) => Err(DbError::Foreign),
            (Some(_), None) => Ok(0),
            (Some(_), Some(_)) => {
                Ok(self.one::<u64>("select number from schema_version", &[])?.map_or(0, |it| it as i64))
            }
        }
    }

    fn hold(&mut self) -> Result<(), DbError> {
        self.query("begin isolation level repeatable read", &[])?;
        Ok(())
    }

    fn bytes_of(&mut self, job: i64, files: &[u64]) -> Result<Vec<FileBytes>, DbError> {
        let sql = "select file, bytes from size where job = $1::bigint and file = any($2::bigint[])";
        self.all(sql, &[&job.to_string(), &array(files.iter().map(|file| *file as i64))])
    }

    fn call_bytes(&mut self, job: i64) -> Result<Option<u64>, DbError> {
        let last = "select line, files from call where job = $1::bigint order by seq desc limit 100";
        let sql = format!("select avg({BYTES})::bigint from ({last}) last");
        Ok(self.one::<Option<u64>>(&sql, &[&job.to_string()])?.flatten())
    }

    fn space(&mut self) -> Result<Space, DbError> {
        let bytes = self.one("select pg_database_size(current_database())", &[])?;
        Ok(Space { bytes: bytes.ok_or(DbError::Odd("the database does not tell its size"))?, disk: None })
    }

    fn lengths(&mut self) -> Result<Vec<(i64, u64)>, DbError> {
        let last = |table| format!("(select max(seq) from {table} it where it.job = job.job)");
        self.all(&format!("select job, greatest({}, {}, 0) from job", last("call"), last("image")), &[])
    }

    fn lengths_after(&mut self, name: &str) -> Result<Option<String>, DbError> {
        let rows = self.query(LENGTHS_AFTER, &[name])?;
        Ok(rows.into_iter().next().and_then(|row| row.into_iter().next()?))
    }

    fn last_moment(&mut self) -> Result<u64, DbError> {
        let sql = "select greatest((select max(at) from call), (select max(at) from image), 0)";
        Ok(self.one(sql, &[])?.unwrap_or(0))
    }

    fn changed(&mut self, since: u64) -> Result<Option<Vec<(i64, u64)>>, DbError> {
        let sql = "select job, max(at) from (
            select job, at from call where at >= $1::bigint union all select job, at from image where at >= $1::bigint) it
            group by job";
        self.all(sql, &[&signed(since).to_string()]).map(Some)
    }

    fn logs(&mut self, after: &[(i64, u64)], most: u32) -> Result<LogPage, DbError> {
        if after.is_empty() {
            return Ok(LogPage::new());
        }
        let asked = format!(
            "select it.* from unnest($1::bigint[], $2::bigint[]) u(job, after) cross join lateral (
            select {COLUMNS} from call where call.job = u.job and call.seq > u.after order by seq limit $3::bigint) it
            limit $3::bigint"
        );
        // the database counts the bytes, so it sends no more
        let before = format!("sum({BYTES}) over (rows between unbounded preceding and 1 preceding)");
        let sql = format!(
            "select {COLUMNS} from (select *, {before} as before from ({asked}) asked) counted
            where before is null or before < {PAGE_BYTES}"
        );
        let [jobs, places] = arrays(after);
        self.all(&sql, &[&jobs, &places, &most.to_string()])
    }

    fn images_of(&mut self, jobs: &[i64]) -> Result<Vec<(i64, KeptImage)>, DbError> {
        let sql = "select job, seq, at, bytes from image where job = any($1::bigint[]) order by job, seq";
        self.all(sql, &[&array(jobs.iter())])
    }

    fn images_at(&mut self, places: &[(i64, u64)]) -> Result<Vec<SavedImage>, DbError> {
        let from = "image join unnest($1::bigint[], $2::bigint[]) u(job, seq) using (job, seq)";
        let [jobs, places] = arrays(places);
        self.all(&format!("select {} from {from}", image_columns(JOINED)), &[&jobs, &places])
    }

    fn leader(&mut self) -> Option<String> {
        let rows = self.query("select address from leader where until > clock_timestamp()", &[]).ok()?;
        rows.into_iter().next()?.into_iter().next()?
    }
}

/// Numbers as `bigint[]` reads them.
fn array<T: ToString>(numbers: impl Iterator<Item = T>) -> String {
    format!("{{{}}}", numbers.map(|number| number.to_string()).collect::<Vec<_>>().join(","))
}

/// Places of jobs, as two arrays.
fn arrays(places: &[(i64, u64)]) -> [String; 2] {
    [array(places.iter().map(|(job, _)| job)), array(places.iter().map(|(_, place)| signed(*place)))]
}
