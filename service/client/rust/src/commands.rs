//! A running job of the durable coordinator listens: the routes of the service that a single job has, over HTTP on a unix socket that its user alone can
//! open. Bodies and answers are those of `service/web/openapi.json`.
mod reads;
mod server;
mod writes;

use hyper::Method;
use relkvanu::runner::{Engine, Runner, SavepointFault};
use relkvanu::store::{CallError, StoreError, StoreErrorKind};
use relkvanu::Fault;
use serde_json::{json, Map, Value};
use std::collections::{HashMap, VecDeque};
use std::sync::{Arc, Mutex, PoisonError};

pub use server::Commands;

const MOST_NUMBER: u64 = 1 << 62;
/// Keys whose answers are kept.
const MOST_KEYS: usize = 1000;

/// An answer that is an error.
#[derive(Debug)]
struct Problem {
    status: u16,
    body: Value,
}

impl Problem {
    fn new(status: u16, text: impl Into<String>) -> Problem {
        Problem { status, body: json!({"error": text.into()}) }
    }

    fn field(name: &str, text: impl Into<String>) -> Problem {
        Problem { status: 400, body: json!({"error": text.into(), "field": name}) }
    }

    fn refused(name: &str) -> Problem {
        Problem { status: 409, body: json!({"error": format!("the coordinator refuses it: {name}"), "refused": name}) }
    }
}

impl From<CallError> for Problem {
    fn from(why: CallError) -> Problem {
        match why {
            CallError::Fault(Fault::Refused(why)) => Problem::refused(&why.name()),
            CallError::Fault(Fault::Fenced(why)) => {
                Problem { status: 409, body: json!({"error": why.to_string(), "fenced": why.name()}) }
            }
            CallError::Fault(Fault::Memory) => Problem::new(507, "memory ran out: nothing has changed"),
            CallError::Fault(why) => Problem::new(400, why.to_string()),
            CallError::Store(why) => why.into(),
        }
    }
}

impl From<StoreError> for Problem {
    fn from(why: StoreError) -> Problem {
        let status = match why.kind {
            StoreErrorKind::BadArgument => 400,
            StoreErrorKind::Absent => 404,
            StoreErrorKind::NotNow | StoreErrorKind::FileLost => 409,
            StoreErrorKind::NoMemory => 507,
            _ => 503, // the job ends, or the call was not made
        };
        Problem::new(status, why.to_string())
    }
}

impl From<SavepointFault> for Problem {
    fn from(why: SavepointFault) -> Problem {
        match why {
            SavepointFault::Call(why) => why.into(),
            why => Problem::new(503, why.to_string()),
        }
    }
}

type Told = Result<Value, Problem>;

/// A request that has come whole.
struct Asked {
    method: Method,
    path: String,
    query: HashMap<String, String>,
    body: Map<String, Value>,
    key: Option<String>,
}

impl Asked {
    /// A number of the query.
    fn number(&self, name: &str, default: u64, most: u64) -> Result<u64, Problem> {
        self.query.get(name).map_or(Ok(default), |text| whole(&json!(text), name, 0, most))
    }
}

/// A whole number, as such or as its digits.
fn whole(of: &Value, name: &str, least: u64, most: u64) -> Result<u64, Problem> {
    let number =
        of.as_u64().or_else(|| of.as_str().filter(|it| it.bytes().all(|byte| byte.is_ascii_digit()))?.parse().ok());
    let is_within = |it: &u64| (least..=most).contains(it);
    number
        .filter(is_within)
        .ok_or_else(|| Problem::field(name, format!("{name} is no whole number from {least} to {most}")))
}

/// The job of a runner, as the routes tell it.
struct Served<E> {
    runner: Arc<Runner<E>>,
    name: String,
    opened: u64, // milliseconds of Unix time
    keys: Mutex<Keys>,
}

/// The answers of requests under a key, in this process.
#[derive(Default)]
struct Keys {
    answers: HashMap<String, (String, Value)>, // with what was asked
    order: VecDeque<String>,
}

impl<E: Engine> Served<E> {
    fn answer(&self, asked: &Asked) -> Told {
        let parts: Vec<&str> = asked.path.split('/').skip(1).collect();
        let (name, rest) = match &parts[..] {
            ["v1", "jobs"] if asked.method == Method::GET => return self.jobs(),
            ["v1", "jobs", name, rest @ ..] => (*name, rest),
            ["v1", "jobs"] => return Err(Problem::new(405, "this path takes GET alone")),
            _ => return Err(Problem::new(404, "there is no such path")),
        };
        if name != self.name {
            return Err(Problem::new(404, format!("there is no job {name}")));
        }
        if asked.method == Method::GET {
            return self.read(rest, asked);
        }
        match (asked.method.as_str(), rest) {
            ("POST", ["checkpoints" | "stop" | "begin" | "calls"]) | ("PATCH", ["settings"]) => {
                self.once(rest[0], asked)
            }
            (_, ["checkpoints" | "stop" | "begin" | "calls" | "settings"]) => {
                Err(Problem::new(405, "this path takes another method"))
            }
            (_, [] | ["history" | "records" | "files"] | ["records" | "files", _] | ["records", _, "states"]) => {
                Err(Problem::new(405, "this path takes GET alone"))
            }
            _ => Err(Problem::new(404, "there is no such path")),
        }
    }

    /// A request that comes again under its key is answered as the first time, and waits for that.
    fn once(&self, verb: &str, asked: &Asked) -> Told {
        let Some(key) = &asked.key else {
            let is_savepoint = |it: &Value| it["call"] == "savepoint";
            if asked.body.get("calls").and_then(Value::as_array).is_some_and(|all| all.iter().any(is_savepoint)) {
                let text = "Idempotency-Key is missing: without it, a savepoint whose answer is lost is made twice";
                return Err(Problem::field("Idempotency-Key", text));
            }
            return self.write(verb, &asked.body);
        };
        let whole = format!("{} {}", asked.path, Value::Object(asked.body.clone()));
        let mut keys = self.keys.lock().unwrap_or_else(PoisonError::into_inner);
        match keys.answers.get(key) {
            Some((before, answer)) if *before == whole => return Ok(answer.clone()),
            Some(_) => {
                let body =
                    json!({"error": "the Idempotency-Key was used with another body", "field": "Idempotency-Key"});
                return Err(Problem { status: 422, body });
            }
            None => {}
        }
        let answer = self.write(verb, &asked.body)?;
        keys.answers.insert(key.clone(), (whole, answer.clone()));
        keys.order.push_back(key.clone());
        if keys.order.len() > MOST_KEYS {
            let oldest = keys.order.pop_front();
            oldest.map(|it| keys.answers.remove(&it));
        }
        Ok(answer)
    }
}
