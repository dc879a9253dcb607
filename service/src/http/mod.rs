//! The HTTP side: connections and their limits, and the path of every request to its answer.
mod acks;
mod audit;
mod bodies;
mod connection;
mod gate;
mod json_members;
mod keys;
mod log_position;
mod names;
mod operate;
mod page;
mod query;
mod reads;
mod render;
mod reply;
mod room;
mod route;
mod server;
mod slots;
mod states;
mod stream;
mod tls;
mod trace;
mod view;
mod wire;
mod writes;

pub use audit::Audit;
pub use bodies::Bodies;
pub use keys::Keys;
pub use server::serve;
pub use tls::{NoTls, Tls, TlsFiles};
pub use wire::{is_name, NO_NAME};

use crate::config::Limits;
use crate::history::{self, Door, HistoryFile, HistoryReader};
use crate::log;
use crate::metrics::Metrics;
use crate::model::Job;
use crate::store::{DbError, Reader};
use crate::writer::{Board, Inbox, JobState, Message, NotSent, Read, MOST_JOBS};
use render::Metadata;
use reply::{error, HttpReply, Refusable};
use std::error::Error;
use std::sync::Arc;
use std::time::Duration;
use tokio::sync::{oneshot, watch, Mutex, Semaphore};

/// The unit in which room for answers is counted, in bytes.
pub const UNIT: usize = 1024;
/// How long a read may wait for those before it.
const READ_WITHIN: Duration = Duration::from_secs(20);
/// How long a request waits for the replay of its job, before it is answered how far the replay is.
const REPLAY_WITHIN: Duration = Duration::from_millis(500);

/// What all requests share.
pub struct App {
    pub board: Arc<Board>,
    pub metrics: Arc<Metrics>,
    pub inbox: Inbox,
    /// Reads of the log. Each connection to a database has one reader at a time; the others wait without a thread.
    pub reader: Arc<Mutex<Box<dyn Reader>>>,
    /// Reads of events, which do not wait for those of the log.
    pub events: Arc<Mutex<Box<dyn Reader>>>,
    pub history: Arc<Mutex<Door>>,
    pub history_file: Arc<HistoryFile>,
    pub keys: Arc<Keys>,
    pub audit: Audit,
    /// Room for the bodies of all requests.
    pub bodies: Arc<Bodies>,
    /// Room for large answers that were not sent yet, in units of [`UNIT`] bytes.
    pub answers: Arc<Semaphore>,
    pub limits: Limits,
}

/// Room for this many bytes.
pub fn room(bytes: usize) -> Arc<Semaphore> {
    Arc::new(Semaphore::new(bytes.div_ceil(UNIT)))
}

/// How many units of room these bytes take.
fn units(bytes: usize) -> u32 {
    u32::try_from(bytes.div_ceil(UNIT)).unwrap_or(u32::MAX)
}

impl App {
    /// Puts a message into the writer's queue, and waits for its answer.
    async fn ask<T>(&self, message: impl FnOnce(oneshot::Sender<T>) -> Message) -> Refusable<T> {
        let (reply, answer) = oneshot::channel();
        match self.inbox.try_send(message(reply)) {
            Ok(()) => answer.await.map_err(|_| gate::busy("the service is stopping").into()),
            Err(NotSent::Full) => Err(gate::busy("too many requests wait").into()),
            Err(NotSent::Ended) => Err(gate::busy("the service is stopping").into()),
        }
    }

    /// Looks at a job, by the writer; `None` if there is none.
    async fn look<T: Send + 'static>(
        &self,
        job: &str,
        look: impl FnOnce(&mut Job) -> T + Send + 'static,
    ) -> Refusable<Option<T>> {
        self.ask(|reply| {
            let look = Box::new(move |job: Option<&mut Job>| drop(reply.send(job.map(look))));
            Message::Read(Read::Look(job.to_string(), look))
        })
        .await
    }

    /// The state of a job.
    async fn state(&self, job: &str) -> Refusable<Box<JobState>> {
        let told = self.ask(|reply| Message::Read(Read::Job(job.to_string(), reply))).await?;
        told.ok_or_else(|| no_job(job).into())
    }

    /// The metadata of a live record; `None` if none has the number.
    async fn record(&self, job: &str, id: u64) -> Refusable<Option<Metadata>> {
        let shown = self.look(job, move |job| job.live().contains_key(&id).then(|| job.engine().show(id))).await?;
        let Some(text) = shown.flatten() else { return Ok(None) };
        let read = text.and_then(|text| Metadata::of(&text));
        Ok(Some(read.ok_or_else(no_memory)?))
    }

    /// The jobs in the order of their numbers. The writer makes calls between two pieces.
    async fn jobs(&self) -> Refusable<Vec<JobState>> {
        let mut all = Vec::<JobState>::new();
        loop {
            let after = all.last().map_or(i64::MIN, |job| job.opening.number);
            let read = |reply| Message::Read(Read::Jobs { after, most: MOST_JOBS, reply });
            let mut piece = self.ask(read).await?;
            let is_last = piece.len() < MOST_JOBS;
            all.append(&mut piece);
            if is_last {
                return Ok(all);
            }
        }
    }

    /// Waits until a job is replayed, which then goes before others. Nothing is answered of it before.
    async fn replayed(&self, job: &str) -> Refusable<()> {
        self.until(self.board.replay.of(job), &format!("job {job} is not replayed yet")).await
    }

    /// Waits until all jobs are replayed.
    async fn all_replayed(&self) -> Refusable<()> {
        self.until(self.board.replay.of_all(), "not all jobs are replayed yet").await
    }

    /// Waits until something is replayed, but for so long that a client learns how far it is.
    async fn until(&self, done: Option<watch::Receiver<()>>, why: &str) -> Refusable<()> {
        let Some(mut done) = done else {
            return Ok(());
        };
        tokio::select! {
            // an error: what told of it has gone
            _ = done.changed() => Ok(()),
            () = tokio::time::sleep(REPLAY_WITHIN) => Err(reply::replaying(why, self.board.replay.progress()).into()),
            () = self.board.stopping() => Err(gate::busy("the service is stopping").into()),
        }
    }

    /// The number of a job in the database.
    fn number(&self, job: &str) -> Refusable<i64> {
        self.board.number(job).ok_or_else(|| no_job(job).into())
    }

    /// Reads the log on a thread that may wait for the database.
    async fn read_log<T: Send + 'static>(
        &self,
        read: impl FnOnce(&mut dyn Reader) -> Result<T, DbError> + Send + 'static,
    ) -> Refusable<T> {
        waited(&self.reader, move |reader| read(reader.as_mut())).await
    }

    /// Reads events likewise.
    async fn read_events<T: Send + 'static>(
        &self,
        read: impl FnOnce(&mut dyn Reader) -> Result<T, DbError> + Send + 'static,
    ) -> Refusable<T> {
        waited(&self.events, move |reader| read(reader.as_mut())).await
    }

    /// Reads the history likewise.
    async fn read_history<T: Send + 'static>(
        &self,
        read: impl FnOnce(&HistoryReader) -> Result<T, history::Error> + Send + 'static,
    ) -> Refusable<T> {
        waited(&self.history, move |door| read(door.reader()?)).await
    }
}

/// Reads on a thread of its own, once no other request reads from there. What a database said of a failure is for the log alone.
async fn waited<R: Send + 'static, T: Send + 'static, E: Error + Send + 'static>(
    from: &Arc<Mutex<R>>,
    read: impl FnOnce(&mut R) -> Result<T, E> + Send + 'static,
) -> Refusable<T> {
    let turn = tokio::time::timeout(READ_WITHIN, Arc::clone(from).lock_owned());
    let mut reader = turn.await.map_err(|_| gate::busy("other reads take too long"))?;
    match tokio::task::spawn_blocking(move || read(&mut reader)).await {
        Ok(Ok(found)) => Ok(found),
        Ok(Err(why)) => {
            log::warn(&format!("a read failed: {why}"));
            Err(gate::busy("the database can't be read now").into())
        }
        Err(_) => Err(error(500, "the read was ended").into()),
    }
}

fn no_memory() -> HttpReply {
    error(507, "memory ran out")
}

fn no_job(job: &str) -> HttpReply {
    error(404, &format!("there is no job {job}"))
}
