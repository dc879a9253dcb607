//! What the job is, as the routes tell it.
use super::{whole, Asked, Problem, Served, Told, MOST_NUMBER};
use crate::runner::{choice_json, settings_json};
use openssl::base64::encode_block;
use relkvanu::job::Job;
use relkvanu::runner::Engine;
use relkvanu::store::{Ending, Made, Past, Phase, StopFailed, StoreErrorKind};
use relkvanu::{Answer, Mode};
use serde_json::{json, Value};
use std::num::NonZeroU64;
use std::time::{SystemTime, UNIX_EPOCH};

const MOST_HISTORY: usize = 1000;

/// Milliseconds of Unix time.
pub(super) fn unix_now() -> u64 {
    SystemTime::now().duration_since(UNIX_EPOCH).map_or(0, |it| it.as_millis() as u64)
}

fn how(ending: Ending) -> &'static str {
    match ending {
        Ending::Completed => "completed",
        Ending::Declined => "declined",
        Ending::Expired => "expired",
        _ => "restored",
    }
}

impl<E: Engine> Served<E> {
    /// A moment of the store's clock.
    fn unix(&self, moment: u64) -> u64 {
        (unix_now() + moment).saturating_sub(self.runner.store().now())
    }

    pub(super) fn seq(&self) -> u64 {
        self.runner.store().measures().log_rows
    }

    pub(super) fn log(&self) -> String {
        self.runner.store().identity()
    }

    pub(super) fn placed(&self, mut told: Value, made: Option<&Made>) -> Value {
        told["seq"] = json!(made.map_or_else(|| self.seq(), |made| made.place));
        told["epoch"] = json!(self.runner.store().report().epoch);
        told["log"] = json!(self.log());
        told
    }

    pub(super) fn read(&self, path: &[&str], asked: &Asked) -> Told {
        match path {
            [] => self.state(),
            ["history"] => self.history(asked),
            ["records"] => self.records(asked),
            ["records", id] => self.record(whole(&json!(id), "id", 1, MOST_NUMBER)?),
            ["records", id, "states"] => self.states(whole(&json!(id), "id", 1, MOST_NUMBER)?),
            ["files"] => self.files(asked),
            ["files", file] => self.file(whole(&json!(file), "file", 0, u64::MAX)?),
            ["checkpoints" | "stop" | "begin" | "calls" | "settings"] => {
                Err(Problem::new(405, "this path takes no GET"))
            }
            _ => Err(Problem::new(404, "there is no such path")),
        }
    }

    pub(super) fn jobs(&self) -> Told {
        let epoch = self.runner.store().report().epoch;
        Ok(json!({"damaged": [], "epoch": epoch, "jobs": [self.state()?], "log": self.log(), "next": null}))
    }

    fn state(&self) -> Told {
        let store = self.runner.store();
        let ((settings, shape), counts) = (store.job()?, store.file_counts()?);
        let (due, expiry) = store.read(|job| (job.due(), job.oldest_expiry()))?;
        let past = store.history(MOST_HISTORY)?;
        let last = past.iter().filter(|it| it.ending == Ending::Completed).map(|it| self.unix(it.ended)).max();
        let (seq, files) =
            (self.seq(), json!({"in_use": counts.in_use, "waiting": counts.waiting, "taken": counts.taken}));
        let phase = match store.phase()?.phase {
            Phase::Stopping => "stopping",
            Phase::Stopped => "stopped",
            _ => "running",
        };
        let mode = match store.mode()? {
            Mode::Running => "running",
            Mode::Cancelled => "cancelled",
            _ => "failed",
        };
        Ok(json!({
            "name": self.name, "settings": settings_json(&settings), "shape": shape, "opened": self.opened, "mode": mode, "phase": phase,
            "stop": self.stop(&past)?, "seq": seq, "now": unix_now(), "due": self.unix(due), "oldest_expiry": expiry.map(|it| self.unix(it)),
            "files": files, "bytes": {"in_use": 0, "waiting": 0, "taken": 0, "files": 0}, "choice": choice_json(store.choice()?),
            "last_completed": last, "last_event": seq, "first": 1, "image": null, "live": self.live()?, "log": self.log(),
            "next_name": store.term()?.next_name.to_string(), "storage": null,
        }))
    }

    fn stop(&self, past: &[Past]) -> Told {
        let phase = self.runner.store().phase()?;
        let Some(savepoint) = phase.savepoint else { return Ok(Value::Null) };
        let at = past.iter().find(|it| it.id == savepoint).map_or_else(unix_now, |it| self.unix(it.triggered));
        let failed = phase.stop_failed.map(|why| match why {
            StopFailed::Expired => "expired",
            StopFailed::Declined => "declined",
            StopFailed::Restored => "restored",
            StopFailed::Cancelled => "cancelled",
            _ => "failed",
        });
        Ok(json!({"savepoint": savepoint, "at": at, "failed": failed}))
    }

    fn live(&self) -> Told {
        Ok(self.runner.store().read(|job| {
            let live = (0..).map_while(|place| job.live(place));
            let told = |it: relkvanu::Live| json!({"id": it.id, "kind": it.kind.to_string(), "done": it.done, "missing": job.missing(it.id).unwrap_or(0)});
            live.map(told).collect::<Vec<Value>>()
        })?.into())
    }

    fn history(&self, asked: &Asked) -> Told {
        let last = asked.number("last", 100, 1000)? as usize;
        let records: Vec<Value> = self.runner.store().history(last)?.iter().map(|it| self.figures(it)).collect();
        Ok(json!({"records": records, "upto": self.seq()}))
    }

    fn figures(&self, it: &Past) -> Value {
        let seen = |millis: u64| (it.acks > 0).then_some(millis);
        json!({
            "id": it.id, "kind": it.kind.to_string(), "how": how(it.ending), "triggered": self.unix(it.triggered), "ended": self.unix(it.ended),
            "acks": it.acks, "first": seen(it.first), "median": seen(it.median), "p99": seen(it.p99), "slowest": seen(it.slowest),
            "bytes": it.bytes, "millis": it.millis, "reason": (!it.reason.is_empty()).then_some(&it.reason),
        })
    }

    /// A live record, with the numbers of files as texts.
    fn shown(&self, id: u64) -> Result<Option<Value>, Problem> {
        let Ok(text) = self.runner.store().read(|job| job.show(id))? else { return Ok(None) };
        let mut shown: Value = serde_json::from_str(&text).map_err(|why| Problem::new(503, why.to_string()))?;
        shown["started"] = json!(self.unix(shown["started"].as_u64().unwrap_or(0)));
        for ack in shown["acks"].as_array_mut().into_iter().flatten() {
            let files: Vec<String> = ack["files"].as_array().into_iter().flatten().map(Value::to_string).collect();
            ack["files"] = json!(files);
        }
        Ok(Some(shown))
    }

    fn records(&self, asked: &Asked) -> Told {
        let (limit, before) =
            (asked.number("limit", 100, 1000)? as usize, asked.number("before", MOST_NUMBER, MOST_NUMBER)?);
        let past = self.runner.store().history(MOST_HISTORY)?;
        let live = self.live()?;
        let mut ids: Vec<u64> = live.as_array().into_iter().flatten().filter_map(|it| it["id"].as_u64()).collect();
        ids.extend(past.iter().map(|it| it.id));
        ids.sort_unstable();
        ids.dedup();
        let told = ids.into_iter().rev().filter(|id| *id < before).map(|id| {
            let shown = self.shown(id)?;
            Ok(self.metadata(id, past.iter().find(|it| it.id == id), shown.as_ref()))
        });
        let is_wanted = |it: &Result<Value, Problem>| {
            let is = |name: &str, it: &Value| !asked.query.get(name).is_some_and(|wanted| it[name] != **wanted);
            it.as_ref().map_or(true, |it| is("how", it) && is("kind", it))
        };
        let records = told.filter(is_wanted).take(limit).collect::<Result<Vec<Value>, Problem>>()?;
        Ok(json!({"records": records, "upto": self.seq()}))
    }

    fn record(&self, id: u64) -> Told {
        let live = self.shown(id)?; // first: one that ends meanwhile is in the history
        let past = self.runner.store().history(MOST_HISTORY)?;
        let past = past.iter().find(|it| it.id == id);
        if past.is_none() && live.is_none() {
            let text = format!("job {} has no record {id}, or its history does not reach back to it", self.name);
            return Err(Problem::new(404, text));
        }
        let missing = live.as_ref().map(missing);
        Ok(json!({"id": id, "history": self.metadata(id, past, live.as_ref()), "missing": missing, "live": live}))
    }

    /// What became of a record, of the history or of what is live.
    fn metadata(&self, id: u64, past: Option<&Past>, live: Option<&Value>) -> Value {
        let figures = past.map_or(Value::Null, |it| self.figures(it));
        let text = |name: &str| live.map_or(Value::Null, |it| it[name].clone());
        let is_done = live.is_some_and(|it| it["state"] == "done");
        let started = past.map_or_else(|| text("started").as_u64().unwrap_or(0), |it| self.unix(it.triggered));
        let after = |name: &str| figures[name].as_u64().map(|millis| started + millis);
        let pending = if is_done { "completed" } else { "pending" };
        json!({
            "id": id, "kind": past.map_or_else(|| text("kind"), |it| json!(it.kind.to_string())),
            "shape": live.map_or_else(|| json!(self.runner.store().job().map_or(Vec::new(), |it| it.1)), |it| it["shape"].clone()),
            "started": started, "finished": figures["ended"], "how": past.map_or(pending, |it| how(it.ending)),
            "gone": if live.is_some() { &Value::Null } else { &figures["ended"] }, "why": null,
            "first_ack": after("first"), "last_ack": after("slowest"), "slowest": null,
            "acks": past.map_or_else(|| text("acks").as_array().map_or(0, Vec::len) as u64, |it| it.acks),
            "missing": live.map(missing).unwrap_or_default(), "more_missing": 0, "fresh_bytes": null, "full_bytes": null,
            "median": figures["median"], "p99": figures["p99"], "bytes": figures["bytes"], "millis": figures["millis"], "reason": figures["reason"],
        })
    }

    fn states(&self, id: u64) -> Told {
        let found = match self.runner.store().load(NonZeroU64::new(id)) {
            Err(why) if why.kind == StoreErrorKind::Absent => None,
            told => told?,
        };
        let found = found.ok_or_else(|| Problem::new(404, format!("job {} has no complete record {id}", self.name)))?;
        let part = |it: &relkvanu::store::Part| {
            let files: Vec<String> = it.files.iter().map(u64::to_string).collect();
            json!({
                "subtask": format!("{}.{}", it.subtask.0, it.subtask.1), "sizes": vec![Value::Null; files.len()], "files": files,
                "payload": encode_block(&it.payload), "bytes": it.bytes, "millis": it.millis,
            })
        };
        let parts: Vec<Value> = found.parts.iter().map(part).collect();
        Ok(json!({"id": id, "kind": found.kind.to_string(), "shape": found.shape, "subtasks": parts}))
    }

    fn files(&self, asked: &Asked) -> Told {
        let limit = asked.number("limit", 100, 1000)? as usize;
        let taken = self.runner.store().read(relkvanu::Coordinator::taken_files)?.unwrap_or_default();
        let row = |file: &u64| json!({"file": file.to_string(), "born": null, "bytes": null, "deleted": null, "released": null, "taken": null});
        let rows: Vec<Value> = taken.iter().take(limit).map(row).collect();
        Ok(json!({"deleted": [], "taken": rows, "upto": self.seq()}))
    }

    fn file(&self, file: u64) -> Told {
        let (name, mut users, mut pins) = (json!(file.to_string()), Vec::new(), 0);
        for it in self.live()?.as_array().into_iter().flatten() {
            let id = it["id"].as_u64().unwrap_or(0);
            let shown = self.shown(id)?.unwrap_or_default();
            let acks = shown["acks"].as_array().into_iter().flatten();
            let named = acks.filter(|ack| ack["files"].as_array().is_some_and(|all| all.contains(&name)));
            users.extend(named.map(|ack| json!({"record": id, "subtask": ack["subtask"]})));
            if it["done"] == false {
                pins +=
                    u64::from(self.runner.store().read(|job| job.pins_of(id))?.is_ok_and(|all| all.contains(&file)));
            }
        }
        let count = match self.runner.store().read(|job| job.count(file))? {
            Ok(Answer::Counted { uses, .. }) => Some(uses),
            _ => None,
        };
        Ok(json!({"bytes": null, "file": name, "history": null, "pins": pins, "used_by": users, "uses": count}))
    }
}

/// The subtasks that have not acknowledged a record that is pending.
fn missing(shown: &Value) -> Vec<String> {
    if shown["state"] == "done" {
        return Vec::new();
    }
    let has =
        |name: &String| shown["acks"].as_array().is_some_and(|all| all.iter().any(|ack| ack["subtask"] == **name));
    let counts = shown["shape"].as_array().into_iter().flatten().filter_map(Value::as_u64);
    let all = counts.enumerate().flat_map(|(vertex, count)| (0..count).map(move |index| format!("{vertex}.{index}")));
    all.filter(|name| !has(name)).collect()
}
