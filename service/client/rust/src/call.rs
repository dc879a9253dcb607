//! Calls and their answers.
use crate::Error;
use openssl::base64::encode_block;
use serde_json::{json, Value};

const NO_MEMORY: u16 = 507;

/// What an acknowledgement has beside its files.
#[derive(Clone, Debug, Default, PartialEq, Eq)]
pub struct Beside {
    /// The state of the task, if it is small: at most 4096 bytes. It is committed with the acknowledgement, and [`Job::load`](crate::Job::load) gives
    /// it back as long as the record is there.
    pub payload: Vec<u8>,
    /// The bytes of the task's snapshot, and how many milliseconds it took, for [`Job::history`](crate::Job::history).
    pub bytes: u64,
    pub millis: u64,
}

/// A call. A subtask is a vertex and an index.
#[derive(Clone, Debug, PartialEq, Eq)]
pub enum Call {
    // bindings/generate makes the calls of one number
    Tick,
    Savepoint,
    Dispose {
        id: u64,
    },
    Cancel,
    Deleted {
        file: u64,
    },
    Undeleted {
        file: u64,
    },
    Trigger,
    // bindings/generate: end
    Ack {
        id: u64,
        subtask: (u16, u16),
        fresh: Vec<u64>,
        reused: Vec<u64>,
    },
    /// An acknowledgement that says the bytes of each fresh file. A service of an earlier version refuses it.
    SizedAck {
        id: u64,
        subtask: (u16, u16),
        fresh: Vec<(u64, u64)>,
        reused: Vec<u64>,
    },
    /// An acknowledgement with more than files. The record keeps these in the order given here, the fresh ones first.
    AckWith {
        id: u64,
        subtask: (u16, u16),
        fresh: Vec<u64>,
        reused: Vec<u64>,
        beside: Beside,
    },
    Decline {
        id: u64,
        subtask: (u16, u16),
    },
    /// A decline with a reason of at most 200 bytes, for [`Job::history`](crate::Job::history).
    DeclineWith {
        id: u64,
        subtask: (u16, u16),
        reason: String,
    },
    /// From a savepoint, or the latest; in a new shape if one is given.
    Restore {
        savepoint: Option<u64>,
        shape: Option<Vec<u64>>,
    },
    /// From an older checkpoint that is retained, by a savepoint that the service makes of its files. What sinks published for records
    /// after it is not taken back: this call accepts that.
    GoBack {
        checkpoint: u64,
        shape: Option<Vec<u64>>,
    },
    /// The same of a job that has stopped, which stays stopped.
    RestoreStopped {
        savepoint: Option<u64>,
        shape: Option<Vec<u64>>,
    },
    Take {
        most: u64,
    },
    /// A task of this term reserves so many names for new files, at most 65,536.
    Reserve {
        term: u64,
        count: u64,
    },
    /// A task of this term gives up names that it will not acknowledge, at most 4096.
    Forfeit {
        term: u64,
        names: Vec<u64>,
    },
    /// An acknowledgement or a decline of a task of this term.
    In {
        term: u64,
        call: Box<Call>,
    },
}

impl Call {
    /// The call of a task of this term: an acknowledgement or a decline.
    #[must_use]
    pub fn in_term(self, term: u64) -> Call {
        Call::In { term, call: Box::new(self) }
    }

    /// Calls as a request has them.
    pub(crate) fn list(calls: &[Call]) -> Vec<Value> {
        calls.iter().map(Call::json).collect()
    }

    fn json(&self) -> Value {
        let subtask = |(vertex, index): &(u16, u16)| format!("{vertex}.{index}");
        let from = |savepoint: Option<u64>| savepoint.map_or(json!("latest"), |id| json!(id));
        match self {
            // bindings/generate makes the requests of calls of one number
            Call::Tick => json!({"call": "tick"}),
            Call::Savepoint => json!({"call": "savepoint"}),
            Call::Dispose { id } => json!({"call": "dispose", "id": id}),
            Call::Cancel => json!({"call": "cancel"}),
            Call::Deleted { file } => json!({"call": "deleted", "file": file.to_string()}),
            Call::Undeleted { file } => json!({"call": "undeleted", "file": file.to_string()}),
            Call::Trigger => json!({"call": "trigger"}),
            // bindings/generate: end
            Call::Ack { id, subtask: of, fresh, reused } => {
                json!({"call": "ack", "id": id, "subtask": subtask(of), "fresh": texts(fresh), "reused": texts(reused)})
            }
            Call::SizedAck { id, subtask: of, fresh, reused } => {
                let (fresh, bytes): (Vec<u64>, Vec<u64>) = fresh.iter().copied().unzip();
                let (fresh, reused) = (texts(&fresh), texts(reused));
                json!({"call": "ack", "id": id, "subtask": subtask(of), "fresh": fresh, "reused": reused, "bytes": bytes})
            }
            Call::AckWith { id, subtask: of, fresh, reused, beside: Beside { payload, bytes, millis } } => {
                let (fresh, reused, payload) = (texts(fresh), texts(reused), encode_block(payload));
                json!({"call": "ack", "id": id, "subtask": subtask(of), "fresh": fresh, "reused": reused, "payload": payload,
                    "bytes": bytes, "millis": millis})
            }
            Call::DeclineWith { id, subtask: of, reason } => {
                json!({"call": "decline", "id": id, "subtask": subtask(of), "reason": reason})
            }
            Call::Decline { id, subtask: of } => json!({"call": "decline", "id": id, "subtask": subtask(of)}),
            Call::GoBack { checkpoint, shape } => {
                json!({"call": "restore", "from": {"checkpoint": checkpoint}, "accept_published": true, "shape": shape})
            }
            Call::RestoreStopped { savepoint, shape } => {
                json!({"call": "restore", "from": from(*savepoint), "shape": shape, "stopped": true})
            }
            Call::Restore { savepoint, shape } => json!({"call": "restore", "from": from(*savepoint), "shape": shape}),
            Call::Take { most } => json!({"call": "take", "most": most}),
            Call::Reserve { term, count } => json!({"call": "reserve", "term": term, "count": count}),
            Call::Forfeit { term, names } => json!({"call": "forfeit", "term": term, "names": texts(names)}),
            Call::In { term, call } => {
                let mut told = call.json();
                told["term"] = json!(term);
                told
            }
        }
    }
}

/// Files as the API has them: JSON readers lose the digits of large numbers.
pub(crate) fn texts(files: &[u64]) -> Vec<String> {
    files.iter().map(u64::to_string).collect()
}

/// Reads a list of files.
pub(crate) fn numbers(files: &Value) -> Option<Vec<u64>> {
    files.as_array()?.iter().map(|file| file.as_str()?.parse().ok()).collect()
}

/// The outcome of a call.
#[derive(Clone, Debug, PartialEq)]
pub enum Answer {
    /// The call was made. The reply is the API's, as `{"ack": "pending", "missing": 2}`.
    Made { seq: Option<u64>, reply: Value },
    /// The coordinator refused the call, which changed nothing.
    Refused { name: String, file: Option<u64> },
    /// The term or the names refused the call, which changed nothing.
    Fenced { name: String, file: Option<u64> },
    /// Memory ran out: nothing changed.
    NoMemory,
    /// A call before it in the same request found no memory.
    NotMade,
}

impl Answer {
    pub(crate) fn of(told: &Value) -> Answer {
        let file = || told["file"].as_str().and_then(|digits| digits.parse().ok());
        if let Some(name) = told["refused"].as_str() {
            return Answer::Refused { name: name.to_string(), file: file() };
        }
        if let Some(name) = told["fenced"].as_str() {
            return Answer::Fenced { name: name.to_string(), file: file() };
        }
        if told["no_memory"] == true {
            return Answer::NoMemory;
        }
        if told["not_made"] == true {
            return Answer::NotMade;
        }
        Answer::Made { seq: told["seq"].as_u64(), reply: told.clone() }
    }

    /// The reply of a call that was made, or why it was not.
    pub(crate) fn reply(self) -> Result<Value, Error> {
        match self {
            Answer::Made { reply, .. } => Ok(reply),
            Answer::Refused { name, .. } => Err(Error::Refused(name)),
            Answer::Fenced { name, file } => Err(Error::fenced(&name, file)),
            Answer::NoMemory | Answer::NotMade => {
                Err(Error::Status { status: NO_MEMORY, text: "memory ran out".to_string(), field: None })
            }
        }
    }

    /// The files of a take.
    #[must_use]
    pub fn files(&self) -> Option<Vec<u64>> {
        let Answer::Made { reply, .. } = self else {
            return None;
        };
        numbers(&reply["files"])
    }

    /// Whether the call completed a record.
    #[must_use]
    pub fn is_completed(&self) -> bool {
        matches!(self, Answer::Made { reply, .. } if reply["ack"] == "completed")
    }
}

#[cfg(test)]
mod tests {
    use super::*;

    #[test]
    fn calls_are_written() {
        let (id, subtask, beside) = (7, (1, 0), Beside { payload: b"x".to_vec(), bytes: 7, millis: 8 });
        for (call, wanted) in [
            (
                Call::SizedAck { id, subtask, fresh: vec![(31, 5), (u64::MAX, 0)], reused: vec![11] },
                json!({"call": "ack", "id": 7, "subtask": "1.0", "fresh": ["31", "18446744073709551615"], "reused": ["11"], "bytes": [5, 0]}),
            ),
            (
                Call::AckWith { id, subtask, fresh: vec![31, 30], reused: vec![], beside }.in_term(3),
                json!({"call": "ack", "term": 3, "id": 7, "subtask": "1.0", "fresh": ["31", "30"], "reused": [], "payload": "eA==", "bytes": 7,
                    "millis": 8}),
            ),
            (
                Call::DeclineWith { id, subtask, reason: "no disk".to_string() },
                json!({"call": "decline", "id": 7, "subtask": "1.0", "reason": "no disk"}),
            ),
            (Call::Forfeit { term: 3, names: vec![31] }, json!({"call": "forfeit", "term": 3, "names": ["31"]})),
        ] {
            assert_eq!(call.json(), wanted);
        }
    }

    #[test]
    fn what_the_term_refuses_is_an_error_of_its_own() {
        let error = |told: Value| Answer::of(&told).reply().err().map(|error| format!("{error:?}"));
        assert_eq!(error(json!({"fenced": "OldTerm"})).as_deref(), Some("OldTerm"));
        let spent = Some("Fenced { name: \"Spent\", file: Some(7) }");
        assert_eq!(error(json!({"fenced": "Spent", "file": "7"})).as_deref(), spent);
        assert_eq!(error(json!({"refused": "InUse"})).as_deref(), Some("Refused(\"InUse\")"));
        assert_eq!(error(json!({"ack": "late", "handed_out": 0, "seq": 4})), None);
    }
}
