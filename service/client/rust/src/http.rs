//! Requests over HTTP, which are made again until they are answered.
use crate::addresses::{jittered, Addresses};
use crate::sockets::{is_socket, url_of, Sockets};
use hyper::body::HttpBody;
use hyper::client::HttpConnector;
use hyper::header::{HeaderMap, HeaderValue, AUTHORIZATION, CONTENT_TYPE, HOST, RETRY_AFTER};
use hyper::{Body, Client, Method, Request, Uri};
use hyper_tls::HttpsConnector;
use serde_json::Value;
use std::collections::hash_map::RandomState;
use std::fmt;
use std::future::Future;
use std::hash::BuildHasher;
use std::sync::Arc;
use std::time::{Duration, SystemTime};
use tokio::time::Instant;

/// For how long a request is made again, if nothing else is said.
const PATIENCE: Duration = Duration::from_secs(60);
/// In what time a machine that is there takes a connection.
const CONNECT: Duration = Duration::from_secs(2);
/// In what time an address has to answer, besides the wait of a poll, and a second for this many bytes of the request.
const ONE_TRY: Duration = Duration::from_secs(10);
const BYTES_EACH_SECOND: usize = 256 << 10;
const FIRST_PAUSE: Duration = Duration::from_millis(50);
const LONGEST_PAUSE: Duration = Duration::from_secs(1);
/// The longest Retry-After that is believed.
const LONGEST_LATER: Duration = Duration::from_secs(60);
const LEADER: &str = "relkvanu-leader";
/// What an error of TLS says if the certificate can't be verified.
const UNVERIFIED: &str = "certificate verify failed";

#[derive(Debug, thiserror::Error)]
pub enum Error {
    /// The address or the token can't be used, or the certificate could not be verified until the patience ended.
    #[error("address or token: {0}")]
    Address(String),
    /// The service was not reached, or did not answer.
    #[error("the service was not reached: {0}")]
    Unreached(String),
    /// The service answered with an error: its status, its text and the field that it names.
    #[error("the service answered {status}: {text}")]
    Status { status: u16, text: String, field: Option<String> },
    /// The answer is not as the API says.
    #[error("the service's answer {0}")]
    Answer(String),
    /// The coordinator refused a call, which changed nothing.
    #[error("the coordinator refuses it: {0}")]
    Refused(String),
    /// The term or the names of the job refused a call, which changed nothing. After `Spent` the file may be in use: nobody deletes it for
    /// that answer.
    #[error("the term or the names refuse it: {name}{}", .file.map_or(String::new(), |file| format!(" {file}")))]
    Fenced { name: String, file: Option<u64> },
    /// The term of the task has ended: the job was restored or cancelled since the task was started. The task ends, and deletes nothing.
    #[error("the term of this task has ended")]
    OldTerm,
    /// The log never had the place that an engine knows: a backup of the service was restored, or another service answers. The job must not
    /// go on by itself, since files of the records that the service has may be deleted. The engine ends, and somebody restores the job to
    /// a record whose files are all there.
    #[error("{0}")]
    OtherLog(String),
}

impl Error {
    /// Whether the same request may be answered otherwise later, without anybody's doing: the service was not reached, or it or a proxy
    /// is busy, starts or stops. The client has tried again for as long as it may.
    #[must_use]
    pub fn may_pass(&self) -> bool {
        match self {
            Error::Unreached(_) => true,
            Error::Status { status, .. } => is_passing(*status),
            Error::Address(_) | Error::Answer(_) | Error::Refused(_) | Error::OtherLog(_) => false,
            Error::Fenced { .. } | Error::OldTerm => false,
        }
    }

    /// Whether another try may reach the service. A certificate that can't be verified may be renewed meanwhile.
    fn is_tried_again(&self) -> bool {
        match self {
            Error::Unreached(_) => true,
            Error::Address(why) => why.contains(UNVERIFIED),
            _ => false,
        }
    }

    /// What the term or the names refuse.
    pub(crate) fn fenced(name: &str, file: Option<u64>) -> Error {
        match name {
            "OldTerm" => Error::OldTerm,
            name => Error::Fenced { name: name.to_string(), file },
        }
    }
}

/// Whether a proxy, a standby or a service that starts answers with this status.
fn is_passing(status: u16) -> bool {
    matches!(status, 429 | 502 | 503 | 504)
}

/// Is told of each try that failed and is made again.
pub type Notice = Arc<dyn Fn(&Error) + Send + Sync>;

/// For how long requests are made again, and who is told.
#[derive(Clone)]
pub struct Manner {
    /// `None`: for ever.
    pub patience: Option<Duration>,
    pub notice: Option<Notice>,
}

impl Default for Manner {
    fn default() -> Manner {
        Manner { patience: Some(PATIENCE), notice: None }
    }
}

pub struct Requests {
    client: Client<HttpsConnector<Sockets>>,
    addresses: Addresses,
    token: Option<HeaderValue>,
}

/// A request, without the address.
pub struct ApiRequest {
    method: Method,
    path: String,
    body: Option<String>,
    key: Option<String>,
    /// How long the service may wait with its answer.
    wait: Duration,
}

impl ApiRequest {
    pub fn new(method: Method, path: String) -> ApiRequest {
        ApiRequest { method, path, body: None, key: None, wait: Duration::ZERO }
    }

    pub fn with(self, body: &Value) -> ApiRequest {
        ApiRequest { body: Some(body.to_string()), ..self }
    }

    pub fn under(self, key: Option<&str>) -> ApiRequest {
        ApiRequest { key: key.map(str::to_string), ..self }
    }

    pub fn waiting(self, seconds: u64) -> ApiRequest {
        ApiRequest { wait: Duration::from_secs(seconds), ..self }
    }
}

/// An answer of any status.
pub struct ApiAnswer {
    pub status: u16,
    bytes: Vec<u8>,
    headers: HeaderMap,
}

/// A new Idempotency-Key, from the system's random numbers, as std has them for its maps.
#[must_use]
pub fn new_key() -> String {
    let words = RandomState::new();
    format!("{:016x}{:016x}", words.hash_one(0), words.hash_one(1))
}

impl Requests {
    pub fn new(urls: &[&str], token: Option<&str>) -> Result<Requests, Error> {
        let bad = |why: &dyn fmt::Display| Error::Address(why.to_string());
        let urls: Vec<String> = urls.iter().map(|url| url_of(url.trim_end_matches('/'))).collect();
        if urls.is_empty() {
            return Err(bad(&"there is none"));
        }
        for url in &urls {
            let uri = url.parse::<Uri>().map_err(|error| bad(&format!("{url}: {error}")))?;
            if !matches!(uri.scheme_str(), Some("http" | "https")) || uri.host().is_none() {
                return Err(bad(&format!("{url}: is no address such as http://127.0.0.1:7780 or unix:job.sock")));
            }
        }
        let token = token.map(|token| HeaderValue::from_str(&format!("Bearer {token}")).map_err(|error| bad(&error)));
        let mut connector = HttpConnector::new();
        connector.set_connect_timeout(Some(CONNECT));
        connector.enforce_http(false);
        let tls = native_tls::TlsConnector::new().map_err(|error| bad(&error))?;
        let client = Client::builder().build(HttpsConnector::from((Sockets { tcp: connector }, tls.into())));
        Ok(Requests { client, addresses: Addresses::new(urls), token: token.transpose()? })
    }

    /// Makes a request until it is answered.
    pub async fn ask(&self, manner: &Manner, asked: ApiRequest) -> Result<ApiAnswer, Error> {
        let patience_ends = || Instant::now().checked_add(manner.patience? + asked.wait);
        let (mut until, mut pause, mut replayed) = (patience_ends(), FIRST_PAUSE, None);
        loop {
            let (place, url) = self.addresses.current();
            let told = self.once(&asked, url, self.one_try(manner, &asked)).await;
            let (error, later, leader) = match told {
                Ok(told) if !told.is_passing(&asked.method) => {
                    self.addresses.answered(place);
                    return Ok(told);
                }
                Ok(told) => {
                    // a service that starts is waited for while it replays more
                    let more = told.replayed();
                    if more > replayed {
                        (replayed, until) = (more, patience_ends());
                    }
                    (told.error(), told.later(), told.leader())
                }
                Err(error) if error.is_tried_again() => (error, Duration::ZERO, None),
                Err(error) => return Err(error),
            };
            let rest = self.addresses.after(place, later.max(jittered(pause)), leader.as_deref());
            if until.is_some_and(|until| Instant::now() + rest >= until) {
                return Err(error);
            }
            if let Some(notice) = &manner.notice {
                notice(&error);
            }
            tokio::time::sleep(rest).await;
            pause = (pause * 2).min(LONGEST_PAUSE);
        }
    }

    /// How long one try may take. There is time for each address, and for the first again.
    fn one_try(&self, manner: &Manner, asked: &ApiRequest) -> Duration {
        let tries = u32::try_from(self.addresses.len() + 1).unwrap_or(u32::MAX);
        let share = manner.patience.map_or(ONE_TRY, |patience| patience / tries);
        let sending = asked.body.as_ref().map_or(0, |body| body.len() / BYTES_EACH_SECOND);
        share.min(ONE_TRY) + asked.wait + Duration::from_secs(sending as u64)
    }

    /// One try, whose head and each part of whose body come within a time.
    async fn once(&self, asked: &ApiRequest, url: &str, most: Duration) -> Result<ApiAnswer, Error> {
        let answer = within(most, self.client.request(self.request(asked, url)?)).await?;
        let (head, mut body) = answer.into_parts();
        let mut bytes = Vec::new();
        while let Some(part) = within(most, async { body.data().await.transpose() }).await? {
            bytes.extend_from_slice(&part);
        }
        Ok(ApiAnswer { status: head.status.as_u16(), bytes, headers: head.headers })
    }

    fn request(&self, asked: &ApiRequest, url: &str) -> Result<Request<Body>, Error> {
        let mut request = Request::builder().method(&asked.method).uri(format!("{url}{}", asked.path));
        request = request.header(CONTENT_TYPE, "application/json");
        if is_socket(url) {
            request = request.header(HOST, "localhost");
        }
        if let Some(token) = &self.token {
            request = request.header(AUTHORIZATION, token);
        }
        if let Some(key) = &asked.key {
            request = request.header("idempotency-key", key);
        }
        let body = asked.body.clone().map_or_else(Body::empty, Body::from);
        request.body(body).map_err(|error| Error::Address(error.to_string()))
    }
}

async fn within<T>(most: Duration, work: impl Future<Output = Result<T, hyper::Error>>) -> Result<T, Error> {
    match tokio::time::timeout(most, work).await {
        Ok(Ok(done)) => Ok(done),
        Ok(Err(error)) => {
            let why = error.to_string();
            let is_bad = why.contains(UNVERIFIED);
            Err(if is_bad { Error::Address(why) } else { Error::Unreached(why) })
        }
        Err(_) => Err(Error::Unreached(format!("it did not answer within {:.1} s", most.as_secs_f64()))),
    }
}

impl ApiAnswer {
    /// Whether another try may be answered otherwise.
    fn is_passing(&self, method: &Method) -> bool {
        is_passing(self.status) || self.status == 500 && method == Method::GET
    }

    /// How long the answer asks to wait: a number of seconds, or a moment.
    fn later(&self) -> Duration {
        let text = self.headers.get(RETRY_AFTER).and_then(|value| value.to_str().ok()).unwrap_or("");
        let seconds = text.parse().ok().map(Duration::from_secs);
        let moment = || httpdate::parse_http_date(text).ok()?.duration_since(SystemTime::now()).ok();
        seconds.or_else(moment).unwrap_or(Duration::ZERO).min(LONGEST_LATER)
    }

    /// How much a service that starts has replayed, of jobs and of calls.
    fn replayed(&self) -> Option<u64> {
        let value: Value = serde_json::from_slice(&self.bytes).ok()?;
        Some(value["replay"]["replayed"].as_u64()? + value["replay"]["calls"].as_u64()?)
    }

    fn leader(&self) -> Option<String> {
        let named = self.headers.get(LEADER)?.to_str().ok()?;
        Some(named.trim_end_matches('/').to_string())
    }

    fn error(&self) -> Error {
        let value: Value = serde_json::from_slice(&self.bytes).unwrap_or(Value::Null);
        let text = |name: &str| value[name].as_str().map(str::to_string);
        if let Some(name) = text("fenced") {
            return Error::fenced(&name, None);
        }
        if let Some(name) = text("refused") {
            return Error::Refused(name);
        }
        let whole = || String::from_utf8_lossy(&self.bytes).into_owned();
        Error::Status { status: self.status, text: text("error").unwrap_or_else(whole), field: text("field") }
    }

    /// The body of an answer that is no error.
    pub fn body(self) -> Result<Value, Error> {
        if self.status >= 300 {
            return Err(self.error());
        }
        self.value()
    }

    /// The body of any answer.
    pub fn value(&self) -> Result<Value, Error> {
        serde_json::from_slice(&self.bytes).map_err(|error| Error::Answer(format!("is no JSON: {error}")))
    }
}
