//! Makes images of jobs in a thread beside the writer's, which lends it a coordinator at a time. So no call of another job waits.
use super::message::Message;
use super::queue::Inbox;
use crate::model::{Engine, Image};
use crate::process;
use crate::store::SavedImage;
use std::sync::mpsc::{channel, Sender};
use std::time::{Duration, Instant};

/// A job at its place, with its coordinator, and its image without the text.
struct Order {
    place: usize,
    engine: Engine,
    image: Image,
}

/// A coordinator that was lent.
pub struct Returned {
    pub place: usize,
    pub engine: Engine,
    /// How long it was away.
    pub took: Duration,
}

/// The image of a job, or `None` if memory ran out.
pub struct Imaged {
    pub place: usize,
    pub saved: Option<SavedImage>,
}

pub struct Imager(Sender<Order>);

impl Imager {
    /// Starts the thread, which answers into the writer's queue.
    pub fn start(inbox: Inbox) -> Imager {
        let (to, orders) = channel::<Order>();
        process::thread("imager", move || {
            for Order { place, engine, mut image } in orders {
                let since = Instant::now();
                let text = engine.image();
                let is_over = inbox.send(Message::Returned(Returned { place, engine, took: since.elapsed() })).is_err();
                let saved = text.map(|text| {
                    image.text = text;
                    SavedImage { digest: image.digest(), image }
                });
                if is_over || inbox.send(Message::Imaged(Imaged { place, saved })).is_err() {
                    return;
                }
            }
        });
        Imager(to)
    }

    /// Makes an image. The thread lives as long as the writer.
    pub fn make(&self, place: usize, engine: Engine, image: Image) {
        let _ = self.0.send(Order { place, engine, image });
    }
}
