//! Answers: JSON bodies, and errors that name the field.
use super::json_members::Invalid;
use crate::writer::Progress;
use hyper::header::{
    HeaderMap, HeaderName, HeaderValue, ACCEPT, CONTENT_TYPE, REFERRER_POLICY, RETRY_AFTER, X_CONTENT_TYPE_OPTIONS,
    X_FRAME_OPTIONS,
};
use hyper::{Body, Response, StatusCode};
use serde_json::{json, Value};

pub type HttpReply = Response<Body>;

/// What a request needs, or the answer that refuses it.
pub type Refusable<T> = Result<T, Box<HttpReply>>;

/// The answer to a request.
pub type Answered = Refusable<HttpReply>;

/// How many headers most answers have at most.
const HEADERS: usize = 6;

/// An answer of this type, with the headers that every answer has.
pub fn with_type(status: u16, kind: &'static str, body: impl Into<Body>) -> HttpReply {
    let mut reply = Response::new(body.into());
    *reply.status_mut() = StatusCode::from_u16(status).unwrap_or(StatusCode::INTERNAL_SERVER_ERROR);
    *reply.headers_mut() = HeaderMap::with_capacity(HEADERS);
    let headers = reply.headers_mut();
    headers.insert(CONTENT_TYPE, HeaderValue::from_static(kind));
    headers.insert(X_CONTENT_TYPE_OPTIONS, HeaderValue::from_static("nosniff"));
    headers.insert(X_FRAME_OPTIONS, HeaderValue::from_static("DENY"));
    headers.insert(REFERRER_POLICY, HeaderValue::from_static("no-referrer"));
    reply
}

pub fn body(status: u16, text: String) -> HttpReply {
    with_type(status, "application/json", text)
}

pub fn json_reply(status: u16, value: &Value) -> HttpReply {
    body(status, value.to_string())
}

pub fn text(status: u16, text: &'static str) -> HttpReply {
    with_type(status, "text/plain; charset=utf-8", text)
}

pub fn error(status: u16, why: &str) -> HttpReply {
    refusal(status, json!({"error": why}))
}

/// An error's JSON, which the answer keeps beside its body for [`as_problem`].
struct ErrorMembers(Value);

/// An error of these members, of which `error` is the text.
pub fn refusal(status: u16, members: Value) -> HttpReply {
    let mut reply = json_reply(status, &members);
    reply.extensions_mut().insert(ErrorMembers(members));
    reply
}

const PROBLEM: &str = "application/problem+json";
/// The type of a problem that a term or the names of a job are.
const FENCED: &str = "urn:relkvanu:problem:fenced";

/// Whether a client asks for errors as RFC 9457 describes them.
pub fn wants_problems(headers: &HeaderMap) -> bool {
    let accepted = headers.get_all(ACCEPT).iter().filter_map(|value| value.to_str().ok());
    let mut kinds = accepted.flat_map(|text| text.split(',')).filter_map(|kind| kind.split(';').next());
    kinds.any(|kind| kind.trim().eq_ignore_ascii_case(PROBLEM))
}

/// The same answer, whose error is one of RFC 9457: its members, and the standard ones.
pub fn as_problem(mut reply: HttpReply) -> HttpReply {
    let Some(ErrorMembers(mut members)) = reply.extensions_mut().remove::<ErrorMembers>() else {
        return reply;
    };
    let status = reply.status();
    members["type"] = json!(if members["fenced"].is_null() { "about:blank" } else { FENCED });
    members["title"] = json!(status.canonical_reason());
    members["status"] = json!(status.as_u16());
    members["detail"] = members["error"].clone();
    *reply.body_mut() = Body::from(members.to_string());
    reply.headers_mut().insert(CONTENT_TYPE, HeaderValue::from_static(PROBLEM));
    reply
}

/// A job that is kept out, since its log can't be replayed. Once it is mended and the service has started again, the request can be made.
pub fn damaged(job: &str, why: &str) -> HttpReply {
    let why = format!("job {job} is damaged, and is kept out: {why}");
    with_header(refusal(503, json!({"error": why, "reason": "damaged"})), RETRY_AFTER, "10")
}

/// A job that is not replayed yet. A client makes the request again, for as long as more jobs or calls are replayed each time.
pub fn replaying(why: &str, progress: Progress) -> HttpReply {
    let why = format!("{why}: the service has started, and {} of {} jobs are", progress.replayed, progress.jobs);
    refusal(503, json!({"error": why, "reason": "replaying", "replay": replay(progress)}))
}

/// How far the replay is.
pub fn replay(Progress { jobs, replayed, calls }: Progress) -> Value {
    json!({"jobs": jobs, "replayed": replayed, "calls": calls})
}

/// The answer that was given under a key is damaged. Nothing is made under it again.
pub fn bad_key(why: &str) -> HttpReply {
    let why = format!("what was answered under this Idempotency-Key is damaged: {why}");
    with_header(refusal(503, json!({"error": why, "reason": "damaged"})), RETRY_AFTER, "10")
}

/// A bad request: the field, and what is wrong with it.
pub fn bad_field(field: &str, why: &str) -> HttpReply {
    refusal(400, json!({"error": format!("{field} {why}"), "field": field}))
}

impl From<Invalid> for Box<HttpReply> {
    fn from(Invalid { field, why }: Invalid) -> Box<HttpReply> {
        bad_field(&field, &why).into()
    }
}

pub fn with_header(mut reply: HttpReply, name: HeaderName, value: &str) -> HttpReply {
    if let Ok(value) = HeaderValue::from_str(value) {
        reply.headers_mut().insert(name, value);
    }
    reply
}
