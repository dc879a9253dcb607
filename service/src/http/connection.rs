//! One connection: its requests, and how it ends: once the client has read its last answer, or could have.
use super::slots::Slot;
use super::{gate, App};
use hyper::server::conn::Http;
use hyper::service::service_fn;
use std::convert::Infallible;
use std::io::{Error, IoSlice};
use std::mem::MaybeUninit;
use std::pin::{pin, Pin};
use std::sync::atomic::{AtomicBool, AtomicUsize, Ordering};
use std::sync::{Arc, Mutex, MutexGuard, PoisonError};
use std::task::{ready, Context, Poll};
use std::time::{Duration, Instant};
use tokio::io::{AsyncRead, AsyncWrite, ReadBuf};

/// Bytes of a request's line and headers.
const HEAD_BYTES: usize = 32 << 10;
/// How long a connection that lost its slot may go on to send its last answer, and to wait until its client has read it.
const LEAVE_WITHIN: Duration = Duration::from_secs(2);
/// What is read of a client that sends on after its last answer: so many of the greatest bodies.
const LATE_BODIES: usize = 4;
/// How much of it is read at once, in bytes.
const LATE_PIECE: usize = 16 << 10;

/// The bytes of a connection, with or without TLS.
pub trait Stream: AsyncRead + AsyncWrite + Unpin + Send + 'static {}

impl<S: AsyncRead + AsyncWrite + Unpin + Send + 'static> Stream for S {}

/// Answers the requests of a connection until its client ends it, it is idle for too long, another connection needs its slot, or
/// the service stops. A request that has begun gets its whole answer.
pub async fn serve<S: Stream>(app: Arc<App>, stream: S, slot: Arc<Slot>) {
    let activity = Arc::new(Activity::new());
    let stream = Watched { stream, activity: Arc::clone(&activity), late: late_bytes(&app), is_shut: false };
    let service = service_fn(|request| {
        let (app, activity, slot) = (Arc::clone(&app), Arc::clone(&activity), Arc::clone(&slot));
        async move {
            activity.begin();
            let reply = gate::answer(app, &slot, request).await;
            activity.end();
            Ok::<_, Infallible>(reply)
        }
    });
    let mut http = Http::new();
    http.http1_only(true).http1_keep_alive(true).max_buf_size(HEAD_BYTES);
    let mut connection = pin!(http.serve_connection(stream, service));
    let most_idle = Duration::from_secs(app.limits.idle_seconds);
    let lost = tokio::select! {
        // a request that has come is seen before the slot is given up
        biased;
        // a connection that ends badly is its client's business
        _ = connection.as_mut() => return,
        () = activity.idle_for(most_idle) => return,
        () = slot.lost() => true,
        () = app.board.stopping() => false,
    };
    if activity.is_new() {
        return;
    }
    // a refused one is told so by an answer of its own, which it may still read
    activity.leaves(!slot.is_refused());
    // ends at once if nothing is left to be sent
    connection.as_mut().graceful_shutdown();
    tokio::select! {
        _ = connection.as_mut() => {}
        () = activity.idle_for(most_idle) => {}
        () = activity.answered_for(LEAVE_WITHIN), if lost || activity.has_said_all() => {}
    }
}

/// How many bytes that come after the last answer are read, and dropped.
fn late_bytes(app: &App) -> usize {
    app.limits.body_bytes.saturating_mul(LATE_BODIES)
}

/// Whether a connection has a request that is being answered, and since when nothing was done for it.
struct Activity {
    /// Requests that were begun, and those of them that were answered.
    begun: AtomicUsize,
    ended: AtomicUsize,
    answered: Mutex<Instant>,
    idle_since: Mutex<Instant>,
    /// Whether the service ends it though its client did nothing wrong and has nothing to read.
    leaves: AtomicBool,
    /// Whether the last answer was sent.
    has_said_all: AtomicBool,
}

impl Activity {
    fn new() -> Activity {
        let (begun, ended) = (AtomicUsize::new(0), AtomicUsize::new(0));
        let [answered, idle_since] = [Instant::now(); 2].map(Mutex::new);
        let [leaves, has_said_all] = [false; 2].map(AtomicBool::new);
        Activity { begun, ended, answered, idle_since, leaves, has_said_all }
    }

    fn begin(&self) {
        self.begun.fetch_add(1, Ordering::SeqCst);
    }

    fn end(&self) {
        self.touch();
        *lock(&self.answered) = Instant::now();
        self.ended.fetch_add(1, Ordering::SeqCst);
    }

    /// Something was done now.
    fn touch(&self) {
        *lock(&self.idle_since) = Instant::now();
    }

    /// Whether the service ends it, and waits for nothing that its client still sends.
    fn leaves(&self, is_so: bool) {
        self.leaves.store(is_so, Ordering::SeqCst);
    }

    fn has_said_all(&self) -> bool {
        self.has_said_all.load(Ordering::SeqCst)
    }

    fn is_new(&self) -> bool {
        self.begun.load(Ordering::SeqCst) == 0
    }

    fn is_busy(&self) -> bool {
        self.begun.load(Ordering::SeqCst) > self.ended.load(Ordering::SeqCst)
    }

    /// Ends once no request was answered for this long and nothing of an answer was sent: no head came whole, none was begun, or the
    /// client does not read.
    async fn idle_for(&self, most: Duration) {
        self.without_request(&self.idle_since, most).await;
    }

    /// Ends once the answer to the last request was there for this long, sent or not.
    async fn answered_for(&self, most: Duration) {
        self.without_request(&self.answered, most).await;
    }

    /// Ends once no request is being answered and `since` is as long ago as `most`.
    async fn without_request(&self, since: &Mutex<Instant>, most: Duration) {
        loop {
            let idle = if self.is_busy() { Duration::ZERO } else { lock(since).elapsed() };
            match most.checked_sub(idle) {
                Some(rest) if rest > Duration::ZERO => tokio::time::sleep(rest).await,
                _ => return,
            }
        }
    }
}

fn lock(moment: &Mutex<Instant>) -> MutexGuard<'_, Instant> {
    moment.lock().unwrap_or_else(PoisonError::into_inner)
}

/// A connection's stream. Bytes that its client takes count as activity. After the last answer it reads what the client still sends, until the
/// client has closed its side: a system that gets bytes for a closed socket resets the connection, and the client then may lose the answer.
struct Watched<S> {
    stream: S,
    activity: Arc<Activity>,
    /// How many bytes may still come after the last answer.
    late: usize,
    /// Whether the client was told that no more answers come.
    is_shut: bool,
}

impl<S: Stream> Watched<S> {
    fn sent(&self, told: Poll<Result<usize, Error>>) -> Poll<Result<usize, Error>> {
        if let Poll::Ready(Ok(1..)) = told {
            self.activity.touch();
        }
        told
    }

    /// Reads and drops what comes, until the client has ended the connection or has sent too much.
    fn poll_late(&mut self, cx: &mut Context<'_>) -> Poll<Result<(), Error>> {
        let mut piece = [MaybeUninit::uninit(); LATE_PIECE];
        while self.late > 0 {
            let mut into = ReadBuf::uninit(&mut piece);
            ready!(Pin::new(&mut self.stream).poll_read(cx, &mut into))?;
            let length = into.filled().len();
            self.late = if length == 0 { 0 } else { self.late.saturating_sub(length) };
        }
        Poll::Ready(Ok(()))
    }
}

impl<S: Stream> AsyncRead for Watched<S> {
    fn poll_read(mut self: Pin<&mut Self>, cx: &mut Context<'_>, into: &mut ReadBuf<'_>) -> Poll<Result<(), Error>> {
        Pin::new(&mut self.stream).poll_read(cx, into)
    }
}

impl<S: Stream> AsyncWrite for Watched<S> {
    fn poll_write(mut self: Pin<&mut Self>, cx: &mut Context<'_>, bytes: &[u8]) -> Poll<Result<usize, Error>> {
        let told = Pin::new(&mut self.stream).poll_write(cx, bytes);
        self.sent(told)
    }

    fn poll_write_vectored(
        mut self: Pin<&mut Self>,
        cx: &mut Context<'_>,
        parts: &[IoSlice<'_>],
    ) -> Poll<Result<usize, Error>> {
        let told = Pin::new(&mut self.stream).poll_write_vectored(cx, parts);
        self.sent(told)
    }

    fn is_write_vectored(&self) -> bool {
        self.stream.is_write_vectored()
    }

    fn poll_flush(mut self: Pin<&mut Self>, cx: &mut Context<'_>) -> Poll<Result<(), Error>> {
        Pin::new(&mut self.stream).poll_flush(cx)
    }

    fn poll_shutdown(mut self: Pin<&mut Self>, cx: &mut Context<'_>) -> Poll<Result<(), Error>> {
        if !self.is_shut {
            let leaves = self.activity.leaves.load(Ordering::SeqCst);
            ready!(Pin::new(&mut self.stream).poll_shutdown(cx))?;
            self.is_shut = true;
            self.late = if leaves { 0 } else { self.late };
            self.activity.has_said_all.store(true, Ordering::SeqCst);
        }
        self.poll_late(cx)
    }
}
