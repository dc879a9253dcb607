//! The calls that change a job.
use super::states::Given;
use serde::Deserialize;
use std::fmt;
use std::num::NonZeroU64;
use std::str::FromStr;

/// A parallel subtask of a job, written `vertex.index`.
#[derive(Clone, Copy, Debug, PartialEq, Eq, PartialOrd, Ord, Hash, Deserialize)]
pub struct Subtask {
    pub vertex: u16,
    pub index: u16,
}

impl fmt::Display for Subtask {
    fn fmt(&self, f: &mut fmt::Formatter<'_>) -> fmt::Result {
        write!(f, "{}.{}", self.vertex, self.index)
    }
}

impl FromStr for Subtask {
    type Err = ();

    /// Reads `vertex.index`: two numbers of at most 65535, in digits only.
    fn from_str(text: &str) -> Result<Subtask, ()> {
        let (vertex, index) = text.split_once('.').ok_or(())?;
        let half = |text: &str| {
            let number = text.bytes().all(|byte| byte.is_ascii_digit()).then_some(text);
            number.and_then(|digits| digits.parse().ok()).ok_or(())
        };
        Ok(Subtask { vertex: half(vertex)?, index: half(index)? })
    }
}

/// As the library has it.
impl From<&Subtask> for (u16, u16) {
    fn from(subtask: &Subtask) -> (u16, u16) {
        (subtask.vertex, subtask.index)
    }
}

impl From<(u16, u16)> for Subtask {
    fn from((vertex, index): (u16, u16)) -> Subtask {
        Subtask { vertex, index }
    }
}

/// What a restore begins from.
#[derive(Clone, Copy, Debug, PartialEq, Eq)]
pub enum Target {
    Latest,
    Savepoint(u64),
    /// An older checkpoint that is retained. The job makes several calls of it ([`Job::operate`](super::job::Job::operate)).
    Checkpoint(u64),
}

impl Target {
    /// The savepoint, as the library has it; `None` for the latest record. It refuses a checkpoint, which is no savepoint.
    pub fn savepoint(self) -> Option<NonZeroU64> {
        match self {
            Target::Latest => None,
            Target::Savepoint(id) | Target::Checkpoint(id) => NonZeroU64::new(id),
        }
    }
}

/// A call, without the moment that the writer gives it. The term is 0 if the call names no term.
#[derive(Clone, Debug, PartialEq, Eq)]
pub enum Call {
    // bindings/generate makes the calls of one number
    Tick,
    Savepoint,
    Dispose {
        id: u64,
    },
    Cancel,
    Deleted {
        file: u64,
    },
    Undeleted {
        file: u64,
    },
    Trigger,
    // bindings/generate: end
    /// `bytes` are those of each fresh file, or none. The log's line does not have them, nor what is given beside.
    Ack {
        term: u64,
        id: u64,
        subtask: Subtask,
        fresh: Vec<u64>,
        reused: Vec<u64>,
        bytes: Vec<u64>,
        given: Option<Box<Given>>,
    },
    Decline {
        term: u64,
        id: u64,
        subtask: Subtask,
        reason: Option<String>,
    },
    Restore {
        target: Target,
        shape: Option<Vec<u64>>,
    },
    Take {
        most: u64,
    },
    /// A trigger whose barrier names no base, so tasks write everything anew. Its line is that of a trigger.
    TriggerFull,
    /// Restores a job that has stopped, which stays stopped: it begins from there, in this shape.
    RestoreStopped {
        target: Target,
        shape: Option<Vec<u64>>,
    },
    /// Triggers the savepoint with which the job stops. The job makes several calls of it ([`Job::operate`](super::job::Job::operate)).
    Stop,
    /// Begins the job again where it has stopped.
    Begin,
    /// From here on the job has these settings, as [`Settings::numbers`](relkvanu::Settings::numbers) gives them.
    Configure {
        numbers: [u64; 7],
    },
    /// From here on the job gives out names, from this one on.
    Fence {
        first_name: u64,
    },
    /// The job goes on from an older copy of its log: it begins again in a term above this one, and gives out names from this one on.
    Advance {
        term: u64,
        first_name: u64,
    },
    /// A task of this term reserves so many names.
    Reserve {
        term: u64,
        count: u64,
    },
    /// A task of this term gives up names.
    Forfeit {
        term: u64,
        names: Vec<u64>,
    },
}

impl Call {
    /// The first word of the call's line, after its term, and the `call` of a request.
    pub fn name(&self) -> &'static str {
        match self {
            // bindings/generate makes the names of calls of one number
            Call::Tick => "tick",
            Call::Savepoint => "savepoint",
            Call::Dispose { .. } => "dispose",
            Call::Cancel => "cancel",
            Call::Deleted { .. } => "deleted",
            Call::Undeleted { .. } => "undeleted",
            Call::Trigger => "trigger",
            // bindings/generate: end
            Call::Ack { .. } => "ack",
            Call::Decline { .. } => "decline",
            Call::TriggerFull => "trigger",
            Call::Restore { .. } | Call::RestoreStopped { .. } => "restore",
            Call::Take { .. } => "take",
            Call::Stop => "stop",
            Call::Begin => "begin",
            Call::Configure { .. } => "configure",
            Call::Fence { .. } => "fence",
            Call::Advance { .. } => "advance",
            Call::Reserve { .. } => "reserve",
            Call::Forfeit { .. } => "forfeit",
        }
    }

    /// The record that it names.
    pub fn record(&self) -> Option<u64> {
        match self {
            Call::Ack { id, .. } | Call::Decline { id, .. } | Call::Dispose { id } => Some(*id),
            _ => None,
        }
    }

    /// Whether a repeat of this call does its work a second time. Then its request needs a key.
    pub fn wants_key(&self) -> bool {
        matches!(self, Call::Savepoint | Call::Take { .. })
    }
}
