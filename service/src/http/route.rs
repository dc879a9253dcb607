//! The routes: which paths there are, and what each needs.
use super::page::{self, Asset};
use super::slots::Kind;
use super::wire::{is_name, parse_file};
use crate::auth::Access;
use hyper::Method;

/// What a request asks for.
#[derive(Clone, Debug, PartialEq, Eq)]
pub struct Route {
    pub to: To,
    /// Its name in the metrics.
    pub name: &'static str,
    /// The access that a request needs a token for, or `None` if it needs none.
    pub access: Option<Access>,
    /// Whether it has a body of JSON. A page of another site can't send that type, nor a DELETE.
    pub has_body: bool,
    /// The job that the path names.
    pub job: Option<String>,
    /// The number of the record or of the file that it names.
    pub number: u64,
}

/// Where a request goes.
#[derive(Clone, Copy, Debug, PartialEq, Eq)]
pub enum To {
    Asset(&'static Asset),
    Health,
    Ready,
    Metrics,
    Jobs,
    NewJob,
    Job,
    DeleteJob,
    Calls,
    /// Gives the job names, at a restart of its tasks.
    Fence,
    /// The term that runs, for whoever starts tasks.
    Term,
    /// Which of some files may be deleted.
    Garbage,
    /// A checkpoint now.
    Checkpoint,
    /// Other settings of a job that is open.
    Settings,
    /// Where the job's files are.
    Storage,
    /// The job stops with a savepoint.
    Stop,
    /// A job that has stopped begins again.
    Begin,
    /// A job goes on from an older copy of its log, above the terms and names that it lost.
    Advance,
    Records,
    /// The last records that are complete or have failed, with figures.
    History,
    Record,
    /// When each subtask acknowledged a record.
    Acks,
    /// What the subtasks of a complete record have.
    States,
    Files,
    File,
    Log,
    Events,
    /// The events as one answer that does not end.
    Stream,
    Samples,
    /// All that the page shows of a job, or of the first one.
    View,
}

/// Why a path has no route.
#[derive(Debug, PartialEq, Eq)]
pub enum NoRoute {
    /// There is no such path.
    Path,
    /// The path exists, but only with these methods.
    Method(String),
    /// A part of the path has not the form that it needs.
    Part(&'static str),
}

const GET: &str = "GET";
const READ: Option<Access> = Some(Access::Read);
const WRITE: Option<Access> = Some(Access::Write);

/// All routes but those of the page's files: the method, the path, the name in the metrics, and the access. The description must have each.
const API: [(&str, &str, &str, Option<Access>, To); 30] = [
    (GET, "/healthz", "healthz", None, To::Health),
    (GET, "/readyz", "readyz", None, To::Ready),
    (GET, "/metrics", "metrics", READ, To::Metrics),
    (GET, "/v1/jobs", "jobs", READ, To::Jobs),
    ("POST", "/v1/jobs", "new_job", WRITE, To::NewJob),
    (GET, "/v1/jobs/{job}", "job", READ, To::Job),
    ("DELETE", "/v1/jobs/{job}", "delete_job", WRITE, To::DeleteJob),
    ("POST", "/v1/jobs/{job}/calls", "calls", WRITE, To::Calls),
    ("POST", "/v1/jobs/{job}/fence", "fence", WRITE, To::Fence),
    (GET, "/v1/jobs/{job}/term", "term", WRITE, To::Term),
    ("POST", "/v1/jobs/{job}/garbage", "garbage", WRITE, To::Garbage),
    ("POST", "/v1/jobs/{job}/checkpoints", "checkpoint", WRITE, To::Checkpoint),
    ("PATCH", "/v1/jobs/{job}/settings", "settings", WRITE, To::Settings),
    ("PUT", "/v1/jobs/{job}/storage", "storage", WRITE, To::Storage),
    ("POST", "/v1/jobs/{job}/stop", "stop", WRITE, To::Stop),
    ("POST", "/v1/jobs/{job}/begin", "begin", WRITE, To::Begin),
    ("POST", "/v1/jobs/{job}/advance", "advance", WRITE, To::Advance),
    (GET, "/v1/jobs/{job}/records", "records", READ, To::Records),
    (GET, "/v1/jobs/{job}/history", "history", READ, To::History),
    (GET, "/v1/jobs/{job}/records/{id}", "record", READ, To::Record),
    (GET, "/v1/jobs/{job}/records/{id}/acks", "acks", READ, To::Acks),
    (GET, "/v1/jobs/{job}/records/{id}/states", "states", READ, To::States),
    (GET, "/v1/jobs/{job}/files", "files", READ, To::Files),
    (GET, "/v1/jobs/{job}/files/{file}", "file", READ, To::File),
    (GET, "/v1/jobs/{job}/log", "log", READ, To::Log),
    (GET, "/v1/jobs/{job}/events", "events", READ, To::Events),
    (GET, "/v1/jobs/{job}/stream", "stream", READ, To::Stream),
    (GET, "/v1/jobs/{job}/samples", "samples", READ, To::Samples),
    (GET, "/v1/view", "view", READ, To::View),
    (GET, "/v1/view/{job}", "view", READ, To::View),
];

/// Whether a path has the form of a route's: as many parts, and those that name nothing are the same.
fn is_of(path: &str, form: &str) -> bool {
    let (mut parts, mut forms) = (path.split('/'), form.split('/'));
    forms.all(|form| parts.next().is_some_and(|part| part == form || form.starts_with('{'))) && parts.next().is_none()
}

impl Route {
    pub fn of(method: &Method, path: &str) -> Result<Route, NoRoute> {
        let method = if method == Method::HEAD { GET } else { method.as_str() };
        if let Some(asset) = page::asset(path) {
            let (to, job) = (To::Asset(asset), None);
            let route = Route { to, name: "page", access: None, has_body: false, job, number: 0 };
            return if method == GET { Ok(route) } else { Err(NoRoute::Method(GET.to_string())) };
        }
        let mut parts = path.split('/').skip(1);
        match (parts.next(), parts.next(), parts.next()) {
            (Some("v1"), Some("jobs"), Some(name)) if !is_name(name) => return Err(NoRoute::Part("job")),
            (Some("v1"), Some("view"), _) if method != GET => return Err(NoRoute::Method(GET.to_string())),
            _ => {}
        }
        let rows = || API.into_iter().filter(|(_, form, ..)| is_of(path, form));
        let (_, form, ..) = rows().next().ok_or(NoRoute::Path)?;
        let (job, number) = named(path, form)?;
        match rows().find(|(of, ..)| *of == method) {
            Some((_, _, name, access, to)) => {
                Ok(Route { to, name, access, has_body: !matches!(method, GET | "DELETE"), job, number })
            }
            None => Err(NoRoute::Method(rows().map(|(of, ..)| of).collect::<Vec<_>>().join(", "))),
        }
    }

    /// The kind of place that its connection takes.
    pub fn kind(&self) -> Kind {
        match self.to {
            To::Asset(_) => Kind::Stranger,
            To::Health | To::Ready => Kind::Health,
            To::Events | To::Stream => Kind::Poll,
            _ => Kind::Client,
        }
    }

    /// Whether only a leader can answer.
    pub fn needs_leader(&self) -> bool {
        !matches!(self.to, To::Asset(_) | To::Health | To::Ready | To::Metrics)
    }
}

/// The job, and the number of a record or of a file, that a path of this form names.
fn named(path: &str, form: &str) -> Result<(Option<String>, u64), NoRoute> {
    let (mut job, mut number) = (None, 0);
    for (part, form) in path.split('/').zip(form.split('/')) {
        match form {
            "{job}" if is_name(part) => job = Some(part.to_string()),
            "{job}" => return Err(NoRoute::Part("job")),
            "{id}" => number = part.parse().map_err(|_| NoRoute::Part("id"))?,
            "{file}" => number = parse_file(part).ok_or(NoRoute::Part("file"))?,
            _ => {}
        }
    }
    Ok((job, number))
}

#[cfg(test)]
mod tests {
    use super::*;
    use serde_json::Value;
    use std::collections::BTreeSet;

    #[test]
    fn each_route_of_the_api_is_found() {
        for (method, path, name, ..) in API {
            let path = path.replace("{job}", "orders").replace("{id}", "12").replace("{file}", "31");
            let found = Method::from_bytes(method.as_bytes()).ok().map(|method| Route::of(&method, &path));
            assert!(matches!(&found, Some(Ok(route)) if route.name == name), "{method} {path}: {found:?}");
        }
    }

    #[test]
    fn the_description_has_each_route_and_no_other() -> Result<(), serde_json::Error> {
        let described: Value = serde_json::from_str(include_str!("../../web/openapi.json"))?;
        let (mut found, mut names) = (BTreeSet::new(), BTreeSet::new());
        for (path, item) in described["paths"].as_object().into_iter().flatten() {
            for (method, operation) in item.as_object().into_iter().flatten() {
                found.insert((method.to_uppercase(), path.as_str()));
                names.extend(operation["operationId"].as_str());
            }
        }
        let api = API.iter().map(|(method, path, ..)| (*method, *path)).chain([(GET, "/openapi.json")]);
        assert_eq!(found, api.map(|(method, path)| (method.to_string(), path)).collect());
        // each operation has a name of its own
        assert_eq!(names.len(), found.len(), "{names:?}");
        Ok(())
    }

    #[test]
    fn other_paths_are_none() {
        let of = |path: &str| Route::of(&Method::GET, path);
        for path in ["", "/x", "/v1", "/v1/jobs/a/b", "/v1/jobs/a/records/1/2", "/v1/view/a/b", "/../etc/passwd", "//"]
        {
            assert_eq!(of(path), Err(NoRoute::Path), "{path}");
        }
        assert_eq!((of("/v1/jobs/"), of("/v1/jobs/a/")), (Err(NoRoute::Part("job")), Err(NoRoute::Path)));
        assert_eq!(of("/v1/jobs/..%2f/log"), Err(NoRoute::Part("job")));
        assert_eq!(of("/v1/jobs/a/records/x"), Err(NoRoute::Part("id")));
        assert_eq!(of("/v1/jobs/a/files/+1"), Err(NoRoute::Part("file")));
        for (method, path, has) in [
            (Method::PUT, "", "GET, POST"),
            (Method::PUT, "/a", "GET, DELETE"),
            (Method::DELETE, "/a/log", "GET"),
            (Method::POST, "/a/term", "GET"),
            (Method::GET, "/a/settings", "PATCH"),
            (Method::POST, "/a/storage", "PUT"),
        ] {
            assert_eq!(Route::of(&method, &format!("/v1/jobs{path}")), Err(NoRoute::Method(has.to_string())), "{path}");
        }
        for path in ["calls", "fence", "garbage", "checkpoints", "stop", "begin", "advance"] {
            assert_eq!(of(&format!("/v1/jobs/a/{path}")), Err(NoRoute::Method("POST".to_string())));
        }
    }
}
