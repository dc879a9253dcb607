//! The checks that every request passes: its route, its token, its origin, and whether this process leads.
use super::audit::RequestLine;
use super::json_members::PATH;
use super::reply::{
    as_problem, bad_field, damaged, error, text, wants_problems, with_header, Answered, HttpReply, Refusable,
};
use super::route::{NoRoute, Route, To};
use super::slots::{Kind, Slot};
use super::writes::Given;
use super::{names, operate, page, reads, room, stream, trace, view, wire, writes, App};
use crate::auth::Caller;
use crate::log;
use crate::model::Call;
use hyper::header::{HeaderMap, HeaderName, ALLOW, CONNECTION, CONTENT_TYPE, HOST, RETRY_AFTER, WWW_AUTHENTICATE};
use hyper::{Body, Request};
use std::net::IpAddr;
use std::sync::Arc;
use std::time::{Duration, Instant, SystemTime};

/// The header that names the leader's address.
const LEADER: &str = "relkvanu-leader";
/// The header that has the log's identity, in each answer of a leader.
const LOG: &str = "relkvanu-log";
/// How long the writer may be silent before the process counts as stuck.
const STUCK: Duration = Duration::from_secs(20);
/// How long a commit may take before the process counts as not ready.
const SLOW_COMMIT: Duration = Duration::from_secs(3);
/// How long to look for the leader's address.
const FIND_LEADER: Duration = Duration::from_secs(1);

/// Answers a request, once its connection has a slot for it.
pub async fn answer(app: Arc<App>, slot: &Arc<Slot>, request: Request<Body>) -> HttpReply {
    let trace = trace::of(request.headers());
    log::traced(trace, answered(app, slot, request)).await
}

async fn answered(app: Arc<App>, slot: &Arc<Slot>, request: Request<Body>) -> HttpReply {
    let route = Route::of(request.method(), request.uri().path());
    let name = route.as_ref().map_or("none", |route| route.name);
    let asked =
        RequestLine { method: request.method().clone(), path: shortened(request.uri().path()), since: Instant::now() };
    let to = route.as_ref().ok().map(|route| route.to);
    let (kind, checked) = checked(&app, route, request.headers());
    let by = checked.as_ref().ok().and_then(|(_, caller)| caller.as_ref()).map(|caller| caller.name.clone());
    let wants_problems = wants_problems(request.headers());
    let mut reply = match (slot.begin(kind), checked) {
        (None, _) => crowded(),
        (Some(_), Err(refused)) => *refused,
        // the page's files are a part of the program
        (Some(_), Ok((route @ Route { to: To::Asset(_), .. }, _))) => dispatched(&app, route, None, request).await,
        (Some(turn), Ok((route, caller))) => {
            room::keep_room(&app, turn, dispatched(&app, route, caller, request).await).await
        }
    };
    app.metrics.request(name, reply.status().as_str());
    app.audit.answered(&asked, to, by.as_deref(), &mut reply);
    let reply = if wants_problems { as_problem(reply) } else { reply };
    match app.board.log() {
        "" => reply,
        log => with_header(reply, HeaderName::from_static(LOG), log),
    }
}

fn shortened(path: &str) -> String {
    if path.len() <= PATH {
        path.to_string()
    } else {
        path.chars().take(PATH).collect()
    }
}

/// A route, and who asks for it, if it needs a token.
type Admitted = (Route, Option<Caller>);

/// The route of a request that may be made, and the kind of slot that it needs.
fn checked(app: &App, route: Result<Route, NoRoute>, headers: &HeaderMap) -> (Kind, Refusable<Admitted>) {
    match route {
        Err(none) => (Kind::Stranger, Err(no_route(&none).into())),
        Ok(route) => match admitted(app, &route, headers) {
            Ok(caller) => (route.kind(), Ok((route, caller))),
            Err(refused) => (Kind::Stranger, Err(refused)),
        },
    }
}

/// All slots of the request's kind are taken. The connection ends.
fn crowded() -> HttpReply {
    with_header(busy("too many connections do this"), CONNECTION, "close")
}

async fn dispatched(app: &Arc<App>, route: Route, caller: Option<Caller>, request: Request<Body>) -> HttpReply {
    let caller = caller.unwrap_or_else(Caller::local);
    dispatch(app, route, caller, request).await.unwrap_or_else(|refused| *refused)
}

async fn dispatch(app: &Arc<App>, route: Route, caller: Caller, request: Request<Body>) -> Answered {
    if route.needs_leader() && !app.board.is_ready() {
        return Err(standby(app).await.into());
    }
    if let Some(job) = &route.job {
        app.replayed(job).await?;
        // the page's view of a job has the names of all jobs too; of another job nothing is served, so that it is never served in part
        if let Some(why) = app.board.damage(job).filter(|_| route.to != To::View) {
            return Err(damaged(job, &why).into());
        }
    }
    let given = Given { app, caller, job: route.job.clone().unwrap_or_default(), request };
    match route.to {
        To::Jobs => reads::jobs(app, &given.caller, given.query()).await,
        To::View => view::answer(app, route.job.as_ref(), &given.caller, given.query()).await,
        To::Asset(asset) => Ok(page::answer(asset)),
        To::Health => Ok(health(app)),
        To::Ready => Ok(ready(app).await),
        To::NewJob => writes::new_job(given).await,
        To::DeleteJob => writes::delete_job(given).await,
        To::Calls => writes::calls(given).await,
        To::Fence => names::fence(given).await,
        To::Garbage => names::garbage(given).await,
        To::Checkpoint => operate::one(given, wire::checkpoint).await,
        To::Stop => operate::one(given, |it| wire::nothing(it).map(|()| Call::Stop)).await,
        To::Begin => operate::one(given, |it| wire::nothing(it).map(|()| Call::Begin)).await,
        To::Advance => operate::one(given, wire::advance).await,
        To::Settings => operate::settings(given).await,
        To::Storage => operate::storage(given).await,
        To::Stream => stream::answer(app, given.job, &given.caller, &given.request).await,
        _ => reads::answer(app, &route, &given.caller, given.query()).await,
    }
}

fn no_route(none: &NoRoute) -> HttpReply {
    match none {
        NoRoute::Path => error(404, "there is no such path"),
        NoRoute::Method(has) => with_header(error(405, &format!("this path takes {has} alone")), ALLOW, has),
        NoRoute::Part("job") => bad_field("job", wire::NO_NAME),
        NoRoute::Part(part) => bad_field(part, "is no whole number from 0 to 2^64 - 1"),
    }
}

/// Whether a request may be made. It has a token, or, if there are no tokens, comes from a program of this machine and names
/// this machine. A page of another site can do neither, because it can't set this type of content.
fn admitted(app: &App, route: &Route, headers: &HeaderMap) -> Refusable<Option<Caller>> {
    let Some(access) = route.access else {
        return Ok(None);
    };
    let caller = match app.keys.tokens().as_deref() {
        Some(tokens) => tokens.caller(headers, access, SystemTime::now()).cloned().ok_or_else(|| {
            let refused = error(401, "Authorization: a token for this is needed, as 'Bearer TOKEN'");
            with_header(refused, WWW_AUTHENTICATE, "Bearer")
        })?,
        None if names_loopback(headers) => Caller::local(),
        None => return Err(error(403, "Host: names another machine, and there are no tokens").into()),
    };
    match &route.job {
        Some(job) if !caller.may_see(job) => return Err(not_for(job).into()),
        None if route.to == To::Metrics && !caller.may_see_all() => {
            return Err(error(403, "Authorization: this token is for some jobs, and the metrics are of all").into());
        }
        _ => {}
    }
    if route.has_body && !is_json(headers) {
        return Err(error(415, "Content-Type: is not application/json").into());
    }
    Ok(Some(caller))
}

/// The token is for other jobs. Whether there is such a job is not told.
pub fn not_for(job: &str) -> HttpReply {
    error(403, &format!("Authorization: this token is not for the job {job}"))
}

fn is_json(headers: &HeaderMap) -> bool {
    let kind = headers.get(CONTENT_TYPE).and_then(|value| value.to_str().ok()).unwrap_or("");
    kind.split(';').next().unwrap_or("").trim().eq_ignore_ascii_case("application/json")
}

fn names_loopback(headers: &HeaderMap) -> bool {
    let Some(host) = headers.get(HOST).and_then(|value| value.to_str().ok()) else {
        return true;
    };
    let name = match host.rsplit_once(':') {
        Some((name, port)) if port.bytes().all(|byte| byte.is_ascii_digit()) => name,
        _ => host,
    };
    let address = name.trim_start_matches('[').trim_end_matches(']');
    name == "localhost" || address.parse::<IpAddr>().is_ok_and(|address| address.is_loopback())
}

fn health(app: &App) -> HttpReply {
    match app.board.silence() {
        silence if silence < STUCK && app.history_file.works() => text(200, "ok\n"),
        // calls go on, so a start of the process would do harm and no good
        silence if silence < STUCK => text(200, "ok, but the history is broken: the service's log says why\n"),
        _ => text(503, "the writer is stuck\n"),
    }
}

async fn ready(app: &App) -> HttpReply {
    match app.board.commit_takes() {
        _ if app.board.is_stopping() => busy("the service is stopping"),
        takes if takes >= SLOW_COMMIT => {
            busy(&format!("no commit is possible: the database has not taken one for {} s", takes.as_secs()))
        }
        _ if app.board.is_ready() => text(200, "ready\n"),
        _ => standby(app).await,
    }
}

/// The request can be made again soon.
pub fn busy(why: &str) -> HttpReply {
    with_header(error(503, why), RETRY_AFTER, "1")
}

/// Names the leader. Where there is none, this process may lead in far less than the second that `Retry-After` says at least, so
/// clients pause as they do by themselves.
pub async fn standby(app: &App) -> HttpReply {
    let refused = error(503, "this process does not lead");
    let found = app.read_events(|reader| Ok(reader.leader()));
    match tokio::time::timeout(FIND_LEADER, found).await {
        Ok(Ok(Some(leader))) => {
            with_header(busy("this process does not lead"), HeaderName::from_static(LEADER), &leader)
        }
        _ => refused,
    }
}
