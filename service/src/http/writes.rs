//! Requests that change something: a new job, and calls.
use super::audit::Did;
use super::bodies::BodyRoom;
use super::json_members::Checked;
use super::query::{numbers, Parameter};
use super::reply::{
    bad_field, bad_key, body, damaged, error, json_reply, refusal, with_header, Answered, HttpReply, Refusable,
};
use super::{gate, no_job, wire, App};
use crate::auth::Caller;
use crate::model::{settings_json, Call};
use crate::writer::{CallsDone, Created, Delete, Deletion, Key, Message};
use hyper::body::HttpBody;
use hyper::header::{HeaderMap, LOCATION};
use hyper::{Body, Request};
use serde_json::json;
use sha2::{Digest, Sha256};
use std::time::Duration;

const KEY: &str = "idempotency-key";
const LONGEST_KEY: usize = 255;
/// 1: though files of the job are left.
const ABANDON: Parameter = Parameter { name: "abandon", most: 1, default: 0 };
/// How long a body may still take when the service stops.
const STOP_BODIES: Duration = Duration::from_secs(5);

/// A request that may be made, who makes it, and the job that its path names.
pub struct Given<'a> {
    pub app: &'a App,
    pub caller: Caller,
    pub job: String,
    pub request: Request<Body>,
}

impl<'a> Given<'a> {
    pub fn query(&self) -> &str {
        self.request.uri().query().unwrap_or("")
    }

    /// What its body says of the job, and the room of the body, which is kept until the request is answered.
    pub async fn said<T>(&mut self, read: impl Fn(&[u8]) -> Checked<T>) -> Refusable<(T, BodyRoom)> {
        self.app.number(&self.job)?;
        let (bytes, room) = self.read_body().await?;
        Ok((read(&bytes)?, room))
    }

    /// A request that makes calls of the job.
    pub async fn asked(mut self) -> Refusable<Asked<'a>> {
        self.app.number(&self.job)?;
        let key = key_name(self.request.headers())?;
        let (bytes, room) = self.read_body().await?;
        Ok(Asked { app: self.app, job: self.job, key, bytes, _room: room })
    }
}

pub async fn new_job(mut given: Given<'_>) -> Answered {
    let (bytes, _room) = given.read_body().await?;
    let (app, wire::NewJob { name, settings, shape, first, storage }) = (given.app, wire::new_job(&bytes)?);
    if !given.caller.may_see(&name) {
        return Err(gate::not_for(&name).into());
    }
    app.replayed(&name).await?;
    let mut told = json!({"name": name, "settings": settings_json(&settings), "shape": shape, "storage": storage});
    let wanted = (settings, shape.clone());
    let place = format!("/v1/jobs/{name}");
    if let Some(why) = app.board.damage(&name) {
        return Err(damaged(&name, &why).into());
    }
    let at = name.clone();
    let created = app.ask(|reply| Message::Create { name, settings, shape, first, storage, reply }).await?;
    Ok(match created {
        Created::New => with_header(json_reply(201, &told), LOCATION, &place),
        // its settings and its shape are the operator's since it was opened
        Created::Found { settings, shape, storage } => {
            let differ = (settings, &shape) != (wanted.0, &wanted.1);
            (told["settings"], told["storage"]) = (settings_json(&settings), json!(storage.as_deref()));
            (told["shape"], told["settings_differ"]) = (json!(shape), json!(differ));
            json_reply(200, &told)
        }
        Created::Making => making(&at),
        Created::NotOpened(why) => error(507, &format!("the job was not opened: {why}")),
        Created::Damaged(why) => damaged(&at, &why),
    })
}

fn making(job: &str) -> HttpReply {
    let why = format!("name: the job {job} is being recovered or imported, and is not whole: give that command again");
    refusal(409, json!({"error": why, "field": "name"}))
}

/// Deletes a job with its log and its history.
pub async fn delete_job(given: Given<'_>) -> Answered {
    let [abandon] = numbers(given.query(), [ABANDON])?;
    let name = given.job.clone();
    let told = given.app.ask(|reply| Message::Delete(Delete { job: given.job, abandon: abandon == 1, reply })).await?;
    Ok(match told {
        Deletion::Done => json_reply(200, &json!({"deleted": name})),
        Deletion::NoJob => no_job(&name),
        Deletion::Refused(why) => refusal(409, json!({"error": why.to_string(), "reason": why.word()})),
        Deletion::Busy => gate::busy("the database does not take it now"),
    })
}

pub async fn calls(given: Given<'_>) -> Answered {
    let asked = given.asked().await?;
    let (calls, tells) = wire::calls(&asked.bytes, asked.app.limits.calls)?;
    if let Some(call) = calls.iter().find(|call| call.wants_key()).filter(|_| asked.key.is_none()) {
        return Err(key_is_missing(call).into());
    }
    asked.make(calls, tells, "", |answers| body(200, answers)).await
}

/// A request that makes calls of a job: its key, if it has one, and its body, which keeps its room.
pub struct Asked<'a> {
    app: &'a App,
    job: String,
    key: Option<String>,
    pub bytes: Vec<u8>,
    _room: BodyRoom,
}

impl Asked<'_> {
    /// Makes the calls, once under the key, and `told` makes the reply of their answers. Paths may have the same body, so each has its `word`: a
    /// key of one makes nothing for another.
    pub async fn make(
        self,
        calls: Vec<Call>,
        tells: bool,
        word: &str,
        told: impl FnOnce(String) -> HttpReply,
    ) -> Answered {
        let Asked { app, job, bytes, .. } = &self;
        let digest = || format!("{:x}", Sha256::new().chain_update(word).chain_update(bytes).finalize());
        let key = self.key.as_ref().map(|name| Key { name: name.clone(), digest: digest() });
        let did = Did::of(&calls);
        let done = app.ask(|reply| Message::Calls { job: job.clone(), calls, tells, key, reply }).await?;
        Ok(answered(app, job, done, did, told))
    }
}

/// The reply to calls that were made or refused, beside which stays what a user did.
pub(super) fn answered(
    app: &App,
    job: &str,
    done: CallsDone,
    did: Option<Did>,
    told: impl FnOnce(String) -> HttpReply,
) -> HttpReply {
    let mut reply = match done {
        CallsDone::Made(outcomes) => told(app.board.answers(&outcomes)),
        CallsDone::Known(answers) => told(answers),
        CallsDone::KeyUsed => key_used(),
        CallsDone::BadKey(why) => bad_key(&why),
        CallsDone::NoJob => no_job(job),
    };
    if let Some(did) = did {
        reply.extensions_mut().insert(did);
    }
    reply
}

fn key_used() -> HttpReply {
    refusal(422, json!({"error": "Idempotency-Key was used with another body", "field": "Idempotency-Key"}))
}

fn key_is_missing(call: &Call) -> HttpReply {
    bad_field(
        "Idempotency-Key",
        &format!("is missing: without it, a {} whose answer is lost is made twice", call.name()),
    )
}

/// The request's key: 1 to 255 visible characters of ASCII.
fn key_name(headers: &HeaderMap) -> Refusable<Option<String>> {
    let Some(value) = headers.get(KEY) else {
        return Ok(None);
    };
    match value.to_str() {
        Ok(name) if (1..=LONGEST_KEY).contains(&name.len()) => Ok(Some(name.to_string())),
        _ => Err(bad_field("Idempotency-Key", &format!("has not 1 to {LONGEST_KEY} characters of ASCII")).into()),
    }
}

impl Given<'_> {
    /// The whole body, within its limits of bytes and time, and its room, which is kept until the request is answered.
    pub async fn read_body(&mut self) -> Refusable<(Vec<u8>, BodyRoom)> {
        let (app, body) = (self.app, std::mem::take(self.request.body_mut()));
        let most = app.limits.body_bytes;
        let length = body.size_hint().upper().and_then(|length| usize::try_from(length).ok());
        let time = Duration::from_secs(app.limits.body_seconds);
        if length.is_some_and(|length| length > most) {
            return Err(too_long(most).into());
        }
        let (mut bytes, mut room) = (Vec::new(), BodyRoom::new(&app.bodies, app.keys.token_of(&self.caller)));
        tokio::select! {
            // most bodies are there at once, and need no timer
            biased;
            read = tokio::time::timeout(time, read_whole(body, most, &mut bytes, &mut room)) => match read {
                Ok(read) => read?,
                Err(_) => return Err(error(408, &format!("the body did not come within {} s", time.as_secs())).into()),
            },
            () = stops(app) => return Err(gate::busy("the service is stopping").into()),
        }
        Ok((bytes, room))
    }
}

async fn read_whole(mut body: Body, most: usize, bytes: &mut Vec<u8>, room: &mut BodyRoom) -> Refusable<()> {
    while let Some(part) = body.data().await {
        let part = part.map_err(|_| error(400, "the body ended early"))?;
        let length = bytes.len() + part.len();
        if length > most {
            return Err(too_long(most).into());
        }
        if !room.grow(length) {
            return Err(gate::busy("the bodies of other requests take all room").into());
        }
        bytes.extend_from_slice(&part);
    }
    Ok(())
}

/// Ends some time after the service was told to stop.
async fn stops(app: &App) {
    app.board.stopping().await;
    tokio::time::sleep(STOP_BODIES).await;
}

fn too_long(most: usize) -> HttpReply {
    error(413, &format!("the body has more than {most} bytes"))
}
