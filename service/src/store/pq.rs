//! libpq, as far as the service needs it: a connection, statements with parameters, and rows of text.
use super::parameter::{count, Packed, Parameter, TEXT};
use crate::log;
use pq_sys::{
    ConnStatusType, PGconn, PGresult, PQclear, PQconnectdbParams, PQconsumeInput, PQerrorMessage, PQfinish, PQflush,
    PQgetResult, PQgetisnull, PQgetvalue, PQisBusy, PQnfields, PQntuples, PQresultErrorField, PQresultStatus,
    PQsendPrepare, PQsendQuery, PQsendQueryParams, PQsendQueryPrepared, PQsetNoticeReceiver, PQsetnonblocking,
    PQsocket, PQstatus,
};
use std::ffi::{CStr, CString};
use std::os::raw::{c_char, c_int, c_void};
use std::ptr;
use std::sync::atomic::{AtomicBool, Ordering};
use std::sync::Arc;
use std::time::{Duration, Instant};

const COMMAND_OK: u32 = 1;
const TUPLES_OK: u32 = 2;
const STATE: c_int = b'C' as c_int;
const MESSAGE: c_int = b'M' as c_int;
const FUNCTION: c_int = b'R' as c_int;

/// The function of PostgreSQL that waits for synchronous replicas. It warns if somebody cancels that wait: then the commit is in this database, and
/// may be in no replica. The warning's text is in the language of the database, and its state is that of any warning.
const WAITS_FOR_REPLICAS: &CStr = c"SyncRepWaitForLSN";
const LOCAL_ONLY: &str =
    "somebody has cancelled a commit's wait for a synchronous replica: it may be in this database alone";

/// How long a peer that is gone may keep a connection waiting. An idle connection sends something each 5 s, so that no firewall
/// forgets it.
const SETTINGS: [(&CStr, &CStr); 6] = [
    (c"connect_timeout", c"5"),
    (c"tcp_user_timeout", c"10000"),
    (c"keepalives_idle", c"5"),
    (c"keepalives_interval", c"5"),
    (c"keepalives_count", c"2"),
    (c"fallback_application_name", c"relkvanu"),
];

/// How much longer than the database's own limit a statement may take, before the connection counts as lost.
const MORE: Duration = Duration::from_secs(5);

/// A connection. One thread at a time uses it.
pub struct Connection {
    /// What `PQconnectdbParams` returned: valid until `drop`, which alone frees it. It is null if memory ran out: then `open` fails, and what
    /// that calls takes a null.
    raw: *mut PGconn,
    /// Whether a wait for a synchronous replica was cancelled. The receiver of notices has its address, and nothing else has.
    is_local_only: Arc<AtomicBool>,
    /// How long a statement may take until its last row is there; `None`: for ever.
    patience: Option<Duration>,
    /// When the last statement ended.
    used: Instant,
}

// SAFETY: libpq keeps a connection's state in the connection alone, not by thread. `Connection` is not `Sync` and is no `Clone`, so one
// thread at a time has the pointer.
unsafe impl Send for Connection {}

impl Drop for Connection {
    fn drop(&mut self) {
        // SAFETY: `raw` is valid, and this is its last use.
        unsafe { PQfinish(self.raw) }
    }
}

/// Why a statement failed.
#[derive(Debug, thiserror::Error)]
#[error("{text}")]
pub struct Failed {
    pub text: String,
    /// The five characters of SQLSTATE; `None` if the connection was lost. Then it is not known whether the statement was
    /// committed.
    pub state: Option<String>,
}

pub type Rows = Vec<Vec<Option<String>>>;

impl Connection {
    /// Connects by a URL.
    pub fn open(url: &str) -> Result<Connection, Failed> {
        let url = text(url)?;
        // what comes later counts, so the URL may say otherwise
        let settings = SETTINGS.iter().copied().chain([(c"dbname", url.as_c_str())]);
        let (mut names, mut values): (Vec<_>, Vec<_>) =
            settings.map(|(name, value)| (name.as_ptr(), value.as_ptr())).unzip();
        names.push(ptr::null());
        values.push(ptr::null());
        // SAFETY: both arrays have as many texts, end with a null, and live until the call returns, as the texts do. They end with a
        // zero byte each.
        let raw = unsafe { PQconnectdbParams(names.as_ptr(), values.as_ptr(), 1) };
        let is_local_only = Arc::new(AtomicBool::new(false));
        // SAFETY: `raw` is valid or null, which the call takes. It calls `hear` with a result that lives until this returns, and with the
        // address, which lives as long as the connection: `drop` finishes that before the field is dropped.
        unsafe { PQsetNoticeReceiver(raw, Some(hear), Arc::as_ptr(&is_local_only).cast_mut().cast()) };
        let opened = Connection { raw, is_local_only, patience: None, used: Instant::now() };
        // SAFETY: `raw` is valid.
        let is_ready =
            unsafe { PQstatus(opened.raw) == ConnStatusType::CONNECTION_OK && PQsetnonblocking(opened.raw, 1) == 0 };
        if is_ready {
            Ok(opened)
        } else {
            Err(opened.lost())
        }
    }

    /// Limits how long each further statement may take, in the database and here.
    pub fn limit(&mut self, time: Duration) -> Result<(), Failed> {
        self.patience = Some(time + MORE);
        self.run(&format!("set statement_timeout = {}", time.as_millis())).map(|_| ())
    }

    /// How long the connection has not been used.
    pub fn idle(&self) -> Duration {
        self.used.elapsed()
    }

    /// Whether the database answers within a time.
    pub fn answers_within(&mut self, time: Duration) -> bool {
        let patience = self.patience.replace(time);
        let answers = self.run("select 1").is_ok();
        self.patience = patience;
        answers
    }

    /// Prepares a statement under a name.
    pub fn prepare(&mut self, name: &CStr, sql: &str) -> Result<(), Failed> {
        let sql = text(sql)?;
        // SAFETY: `raw` is valid. Both texts end with a zero byte, and libpq copies what it keeps. With no types, null is allowed.
        let is_sent = unsafe { PQsendPrepare(self.raw, name.as_ptr(), sql.as_ptr(), 0, ptr::null()) };
        self.answer(is_sent).map(|_| ())
    }

    /// Runs statements without parameters.
    pub fn run(&mut self, sql: &str) -> Result<Rows, Failed> {
        let sql = text(sql)?;
        // SAFETY: `raw` is valid. The text ends with a zero byte, and libpq copies what it keeps.
        let is_sent = unsafe { PQsendQuery(self.raw, sql.as_ptr()) };
        self.answer(is_sent)
    }

    /// Runs a statement with parameters of text.
    pub fn query(&mut self, sql: &str, given: &[&str]) -> Result<Rows, Failed> {
        let sql = text(sql)?;
        let given = given.iter().map(|one| text(one).map(Parameter::Text)).collect::<Result<Vec<_>, _>>()?;
        let Packed { values, lengths, formats } = Packed::of(&given);
        let count = count(values.len());
        let (values, lengths, formats) = (values.as_ptr(), lengths.as_ptr(), formats.as_ptr());
        let sql = sql.as_ptr();
        // SAFETY: `raw` is valid. The text ends with a zero byte. The three arrays have `count` items each, and what the values point
        // to is in `given`: all live until the call returns, and libpq copies what it keeps. With no types, null is allowed.
        let is_sent = unsafe { PQsendQueryParams(self.raw, sql, count, ptr::null(), values, lengths, formats, TEXT) };
        self.answer(is_sent)
    }

    /// Runs a prepared statement.
    pub fn run_prepared(&mut self, name: &CStr, given: &[Parameter]) -> Result<Rows, Failed> {
        let Packed { values, lengths, formats } = Packed::of(given);
        let count = count(values.len());
        let (values, lengths, formats) = (values.as_ptr(), lengths.as_ptr(), formats.as_ptr());
        // SAFETY: as in `query`.
        let is_sent = unsafe { PQsendQueryPrepared(self.raw, name.as_ptr(), count, values, lengths, formats, TEXT) };
        self.answer(is_sent)
    }

    /// Waits for what was sent to be answered: the rows of its last statement, or the first failure.
    fn answer(&mut self, is_sent: c_int) -> Result<Rows, Failed> {
        if is_sent != 1 {
            return Err(self.lost());
        }
        let until = self.patience.map(|time| Instant::now() + time);
        self.flush(until)?;
        let mut told = Ok(Rows::new());
        while let Some(result) = self.next_result(until)? {
            let rows = self.rows(result);
            told = told.and(rows);
        }
        self.used = Instant::now();
        if self.is_local_only.swap(false, Ordering::SeqCst) {
            // as one whose connection was lost
            return Err(Failed { text: LOCAL_ONLY.to_string(), state: None });
        }
        told
    }

    /// Sends what is left to be sent.
    fn flush(&mut self, until: Option<Instant>) -> Result<(), Failed> {
        loop {
            // SAFETY: `raw` is valid.
            match unsafe { PQflush(self.raw) } {
                0 => return Ok(()),
                // the database may have to be read from before it reads more
                1 => self.wait(libc::POLLIN | libc::POLLOUT, until)?,
                _ => return Err(self.lost()),
            }
            self.consume()?;
        }
    }

    /// Takes in what the database has sent.
    fn consume(&mut self) -> Result<(), Failed> {
        // SAFETY: `raw` is valid.
        match unsafe { PQconsumeInput(self.raw) } {
            1 => Ok(()),
            _ => Err(self.lost()),
        }
    }

    /// The next result of what was sent; `None` if there are no more.
    fn next_result(&mut self, until: Option<Instant>) -> Result<Option<*mut PGresult>, Failed> {
        // SAFETY: `raw` is valid.
        while unsafe { PQisBusy(self.raw) } == 1 {
            self.wait(libc::POLLIN, until)?;
            self.consume()?;
        }
        // SAFETY: `raw` is valid. What it returns is this caller's, and `rows` frees it.
        let result = unsafe { PQgetResult(self.raw) };
        Ok((!result.is_null()).then_some(result))
    }

    /// Waits until the socket is ready for one of these events.
    fn wait(&self, events: libc::c_short, until: Option<Instant>) -> Result<(), Failed> {
        let left = until.map(|until| until.saturating_duration_since(Instant::now()));
        if left.is_some_and(|left| left.is_zero()) {
            return Err(Failed { text: "the database does not answer".to_string(), state: None });
        }
        // rounded up, so that the last wait is not one of zero
        let milliseconds = left.map_or(-1, |left| c_int::try_from(left.as_millis() + 1).unwrap_or(c_int::MAX));
        // SAFETY: `raw` is valid.
        let fd = unsafe { PQsocket(self.raw) };
        let mut socket = libc::pollfd { fd, events, revents: 0 };
        // SAFETY: the call writes to one `pollfd`, which lives until it returns. What it returns shows in the next step of libpq.
        unsafe { libc::poll(&raw mut socket, 1, milliseconds) };
        Ok(())
    }

    /// Reads a result, and frees it.
    fn rows(&self, result: *mut PGresult) -> Result<Rows, Failed> {
        // SAFETY: `next_result` returned this result, and nothing has freed it.
        let read = match unsafe { PQresultStatus(result) } as u32 {
            // SAFETY: the same.
            COMMAND_OK | TUPLES_OK => Ok(unsafe { cells(result) }),
            _ => Err(self.failed(result)),
        };
        // SAFETY: the same. This is its last use, and what was read of it is copied.
        unsafe { PQclear(result) };
        read
    }

    fn failed(&self, result: *const PGresult) -> Failed {
        // SAFETY: `raw` is valid.
        let is_open = unsafe { PQstatus(self.raw) } == ConnStatusType::CONNECTION_OK;
        // SAFETY: `rows` has the result, and frees it only later.
        let state = unsafe { PQresultErrorField(result, STATE) };
        // SAFETY: the field is a text that ends with a zero byte, and is part of the result.
        let state = (is_open && !state.is_null()).then(|| unsafe { shown(state) });
        Failed { text: self.message(), state }
    }

    fn lost(&self) -> Failed {
        Failed { text: self.message(), state: None }
    }

    fn message(&self) -> String {
        // SAFETY: `raw` is valid, and has the text, which ends with a zero byte.
        unsafe { shown(PQerrorMessage(self.raw)) }.trim().replace('\n', " ")
    }
}

/// Hears a notice of the database, which comes beside results.
///
/// # Safety
///
/// `notice` is a result of libpq, and `is_local_only` points to an `AtomicBool`. Both live until this returns.
unsafe extern "C" fn hear(is_local_only: *mut c_void, notice: *const PGresult) {
    // SAFETY: the caller's promise. A field is null or a text that ends with a zero byte, and is part of the result.
    let field = |code| unsafe {
        let text = PQresultErrorField(notice, code);
        (!text.is_null()).then(|| CStr::from_ptr(text))
    };
    if field(FUNCTION) == Some(WAITS_FOR_REPLICAS) {
        // SAFETY: the caller's promise.
        unsafe { &*is_local_only.cast::<AtomicBool>() }.store(true, Ordering::SeqCst);
    }
    if let Some(text) = field(MESSAGE) {
        log::warn(&format!("PostgreSQL: {}", text.to_string_lossy()));
    }
}

/// A copy of a text of libpq.
///
/// # Safety
///
/// `text` points to bytes that end with a zero byte, and lives until this returns.
unsafe fn shown(text: *const c_char) -> String {
    // SAFETY: the caller's promise.
    unsafe { CStr::from_ptr(text) }.to_string_lossy().into_owned()
}

/// A copy of a result's cells.
///
/// # Safety
///
/// `result` is a result of libpq that was not freed.
unsafe fn cells(result: *const PGresult) -> Rows {
    // SAFETY: the caller's promise.
    let (rows, columns) = unsafe { (PQntuples(result), PQnfields(result)) };
    let cell = |row, column| {
        // SAFETY: the caller's promise, and both numbers are within the result.
        let is_null = unsafe { PQgetisnull(result, row, column) } == 1;
        // SAFETY: the same. The value is a text that ends with a zero byte, and is part of the result.
        (!is_null).then(|| unsafe { shown(PQgetvalue(result, row, column)) })
    };
    (0..rows).map(|row| (0..columns).map(|column| cell(row, column)).collect()).collect()
}

pub(super) fn text(given: &str) -> Result<CString, Failed> {
    CString::new(given)
        .map_err(|_| Failed { text: "a text has a zero byte".to_string(), state: Some("22021".to_string()) })
}
