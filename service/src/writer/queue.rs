//! The queue of messages to the writer, which knows its length and how long each waited.
use super::message::Message;
use crate::metrics::Metrics;
use std::sync::atomic::{AtomicUsize, Ordering};
use std::sync::mpsc::{sync_channel, Receiver, RecvTimeoutError, SyncSender, TrySendError};
use std::sync::Arc;
use std::time::{Duration, Instant};

/// Where messages are put in.
#[derive(Clone)]
pub struct Inbox {
    to: SyncSender<(Instant, Message)>,
    length: Arc<AtomicUsize>,
}

/// Where the writer takes them out.
pub struct Messages {
    from: Receiver<(Instant, Message)>,
    length: Arc<AtomicUsize>,
    metrics: Arc<Metrics>,
}

/// Why a message was not put in.
#[derive(Clone, Copy, Debug, PartialEq, Eq)]
pub enum NotSent {
    Full,
    /// The writer has ended.
    Ended,
}

/// A queue of at most so many messages.
pub fn queue(most: usize, metrics: &Arc<Metrics>) -> (Inbox, Messages) {
    let (to, from) = sync_channel(most);
    let length = Arc::new(AtomicUsize::new(0));
    (Inbox { to, length: Arc::clone(&length) }, Messages { from, length, metrics: Arc::clone(metrics) })
}

impl Inbox {
    pub fn try_send(&self, message: Message) -> Result<(), NotSent> {
        // counted before, since the writer may take it at once
        self.length.fetch_add(1, Ordering::SeqCst);
        self.to.try_send((Instant::now(), message)).map_err(|error| {
            self.length.fetch_sub(1, Ordering::SeqCst);
            match error {
                TrySendError::Full(_) => NotSent::Full,
                TrySendError::Disconnected(_) => NotSent::Ended,
            }
        })
    }

    /// Puts a message in once there is room; none is there for it if the writer has ended.
    pub fn send(&self, message: Message) -> Result<(), NotSent> {
        self.length.fetch_add(1, Ordering::SeqCst);
        self.to.send((Instant::now(), message)).map_err(|_| NotSent::Ended)
    }

    pub fn len(&self) -> usize {
        self.length.load(Ordering::SeqCst)
    }
}

impl Messages {
    pub fn recv_timeout(&self, time: Duration) -> Result<Message, RecvTimeoutError> {
        self.from.recv_timeout(time).map(|taken| self.taken(taken))
    }

    pub fn try_recv(&self) -> Option<Message> {
        self.from.try_recv().ok().map(|taken| self.taken(taken))
    }

    fn taken(&self, (since, message): (Instant, Message)) -> Message {
        self.length.fetch_sub(1, Ordering::SeqCst);
        self.metrics.queue.waited(since.elapsed());
        message
    }
}

#[cfg(test)]
mod tests {
    use super::*;

    #[test]
    fn a_queue_knows_its_length() -> Result<(), prometheus::Error> {
        let metrics = Arc::new(Metrics::new()?);
        let (inbox, messages) = queue(2, &metrics);
        let other = inbox.clone();
        assert_eq!([&inbox, &other, &inbox].map(|it| it.try_send(Message::Stop)), [Ok(()), Ok(()), Err(NotSent::Full)]);
        assert_eq!((inbox.len(), messages.try_recv().is_some(), other.len()), (2, true, 1));
        assert!(messages.recv_timeout(Duration::ZERO).is_ok() && messages.try_recv().is_none() && inbox.len() == 0);
        drop(messages);
        assert_eq!((inbox.try_send(Message::Stop), inbox.len()), (Err(NotSent::Ended), 0));
        Ok(())
    }
}
