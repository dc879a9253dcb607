//! The job whose coordinator is lent for an image: its state, which does not change meanwhile, and the requests that wait for it.
use super::message::{Message, Read};
use super::state::JobState;

pub struct Lent {
    pub state: JobState,
    held: Vec<Message>,
}

impl Lent {
    pub fn new(state: JobState) -> Lent {
        Lent { state, held: Vec::new() }
    }

    /// Keeps a message that may need the coordinator; gives back any other.
    pub fn hold(&mut self, message: Message) -> Option<Message> {
        if needs(&message) != Some(&self.state.opening.name) {
            return Some(message);
        }
        self.held.push(message);
        None
    }

    /// The messages that waited, in their order.
    pub fn into_held(self) -> Vec<Message> {
        self.held
    }
}

/// The job whose coordinator a message may need. The state of a job is there without it.
fn needs(message: &Message) -> Option<&String> {
    match message {
        Message::Calls { job, .. } | Message::Configure { job, .. } | Message::Create { name: job, .. } => Some(job),
        // the state that is there meanwhile has the storage too
        Message::Locate { job, .. } => Some(job),
        Message::Delete(delete) => Some(&delete.job),
        Message::Read(Read::Look(job, _)) => Some(job),
        Message::Read(Read::Jobs { .. } | Read::Job(..))
        | Message::Keep(..)
        | Message::Returned(_)
        | Message::Imaged(_)
        | Message::Replayed(_)
        | Message::Stop => None,
    }
}
