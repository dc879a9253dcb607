//! The commands of an operator.
use super::{whole, Problem, Served, Told, MOST_NUMBER};
use crate::runner::{choice_json, settings_json};
use relkvanu::runner::Engine;
use relkvanu::store::{CallError, Made, Phase, StoreErrorKind, NOW};
use relkvanu::{Answer, Call, Settings};
use serde_json::{json, Map, Value};
use std::num::NonZeroU64;

const LIMITS: [(&str, u64, u64); 6] = [
    ("interval", 10, 1 << 40),
    ("pause", 0, 1 << 40),
    ("at_once", 1, 64),
    ("timeout", 1, 1 << 40),
    ("tolerable", 0, 1000),
    ("retained", 1, 1000),
];

fn only(body: &Map<String, Value>, names: &[&str]) -> Result<(), Problem> {
    match body.keys().find(|name| !names.contains(&name.as_str())) {
        Some(name) => Err(Problem::field(name, format!("{name} is no field here"))),
        None => Ok(()),
    }
}

fn flag(body: &Map<String, Value>, name: &str) -> Result<bool, Problem> {
    let is_set = body.get(name).map_or(Some(false), Value::as_bool);
    is_set.ok_or_else(|| Problem::field(name, format!("{name} is not true or false")))
}

impl<E: Engine> Served<E> {
    pub(super) fn write(&self, verb: &str, body: &Map<String, Value>) -> Told {
        match verb {
            "checkpoints" => {
                only(body, &["full"])?;
                let id = self.runner.checkpoint(flag(body, "full")?)?;
                Ok(self.placed(json!({"tick": "triggered", "expired": 0, "id": id}), None))
            }
            "settings" => self.configure(body),
            "stop" => {
                only(body, &[])?;
                let made = self.now(self.runner.store().stop_job())?;
                let Some(Answer::SavepointTriggered(id)) = made.called() else { return Err(unknown(&made)) };
                Ok(self.placed(json!({"savepoint": "triggered", "id": id}), Some(&made)))
            }
            "begin" => {
                only(body, &[])?;
                let made = self.now(self.runner.store().begin_job())?;
                Ok(self.placed(restored(&made)?, Some(&made)))
            }
            _ => self.calls(body),
        }
    }

    /// A refusal of the phase by its name.
    fn now(&self, told: Result<Made, CallError>) -> Result<Made, Problem> {
        match told {
            Err(CallError::Store(why)) if why.kind == StoreErrorKind::NotNow => {
                Err(Problem::refused(match self.runner.store().phase()?.phase {
                    Phase::Stopping => "Stopping",
                    Phase::Stopped => "Stopped",
                    _ => "NotStopped",
                }))
            }
            told => Ok(told?),
        }
    }

    fn configure(&self, body: &Map<String, Value>) -> Told {
        let names: Vec<&str> = LIMITS.iter().map(|it| it.0).chain(["keep_on_cancel"]).collect();
        only(body, &names)?;
        if body.is_empty() {
            return Err(Problem::field("body", "the body names no setting"));
        }
        let (mut settings, _) = self.runner.store().job()?;
        let mut numbers = settings.numbers(); // in the order of LIMITS
        for ((name, least, most), number) in LIMITS.into_iter().zip(&mut numbers) {
            let Some(value) = body.get(name) else { continue };
            *number = whole(value.as_u64().map_or(&Value::Null, |_| value), name, least, most)?;
        }
        settings = Settings::of_numbers(&numbers).unwrap_or(settings);
        if body.contains_key("keep_on_cancel") {
            settings.keep_on_cancel = flag(body, "keep_on_cancel")?;
        }
        let made = self.runner.store().configure(&settings)?;
        let Some(Answer::Configured { checkpoints, released }) = made.called() else { return Err(unknown(&made)) };
        let told = json!({"configure": "configured", "dropped": checkpoints, "released": released, "settings": settings_json(&settings)});
        Ok(self.placed(told, Some(&made)))
    }

    fn calls(&self, body: &Map<String, Value>) -> Told {
        only(body, &["calls", "term", "ended"])?;
        let calls = body.get("calls").and_then(Value::as_array).filter(|all| (1..=1000).contains(&all.len()));
        let calls = calls.ok_or_else(|| Problem::field("calls", "calls is no list of 1 to 1000 calls"))?;
        for (place, call) in calls.iter().enumerate() {
            check(place, call)?;
        }
        let answers = calls.iter().map(|call| match self.call(call) {
            Err(Problem { status: 400..=499, body }) if body["refused"].is_string() => {
                Ok(json!({"refused": body["refused"]}))
            }
            Err(Problem { status: 507, .. }) => Ok(json!({"no_memory": true})),
            told => told,
        });
        let answers = answers.collect::<Result<Vec<Value>, Problem>>()?;
        Ok(json!({"answers": answers, "epoch": self.runner.store().report().epoch, "log": self.log()}))
    }

    fn call(&self, call: &Value) -> Told {
        let (store, id) = (self.runner.store(), call["id"].as_u64().unwrap_or(0));
        let placed = |told: Value, made: &Made| {
            let mut told = told;
            told["seq"] = json!(made.place);
            Ok(told)
        };
        match call["call"].as_str().unwrap_or_default() {
            "savepoint" => {
                Ok(json!({"savepoint": "triggered", "id": self.runner.trigger_savepoint()?, "seq": self.seq()}))
            }
            "trigger" => {
                let id = self.runner.checkpoint(false)?;
                Ok(json!({"tick": "triggered", "expired": 0, "id": id, "seq": self.seq()}))
            }
            "dispose" => {
                let made = store.call(Call::Dispose { id })?;
                let Some(Answer::Disposed { released }) = made.called() else { return Err(unknown(&made)) };
                placed(json!({"dispose": "disposed", "released": released}), &made)
            }
            "cancel" => {
                let made = store.call(Call::Cancel { now: NOW })?;
                let Some(Answer::Cancelled { dropped, released }) = made.called() else { return Err(unknown(&made)) };
                placed(
                    json!({"cancel": "cancelled", "dropped": dropped, "released": released, "term": made.term}),
                    &made,
                )
            }
            _ => {
                let made = self.restore(call)?;
                placed(restored(&made)?, &made)
            }
        }
    }

    fn restore(&self, call: &Value) -> Result<Made, Problem> {
        let (store, from) = (self.runner.store(), &call["from"]);
        let is_stopped = store.phase()?.phase == Phase::Stopped;
        if is_stopped != (call["stopped"] == true) {
            return Err(Problem::refused(if is_stopped { "Stopped" } else { "NotStopped" }));
        }
        if from.is_object() {
            let id = whole(&from["checkpoint"], "checkpoint", 1, MOST_NUMBER)?;
            return Ok(store.go_back(id, call["accept_published"] == true)?);
        }
        let is_latest = from == "latest";
        let savepoint = if is_latest { None } else { NonZeroU64::new(whole(from, "from", 1, MOST_NUMBER)?) };
        let count = |it: &Value| whole(it, "shape", 1, 4096);
        let shape =
            call["shape"].as_array().map(|all| all.iter().map(count).collect::<Result<Vec<u64>, _>>()).transpose()?;
        if is_stopped {
            // no task starts in a job that stays stopped
            return Ok(store.call(Call::Restore { now: NOW, savepoint, shape: shape.as_deref() })?);
        }
        Ok(self.runner.restore(savepoint, shape.as_deref())?)
    }
}

fn check(place: usize, call: &Value) -> Result<(), Problem> {
    let names: &[&str] = match call["call"].as_str() {
        Some("savepoint" | "trigger" | "cancel") => &["call"],
        Some("dispose") => &["call", "id"],
        Some("restore") => &["call", "from", "shape", "accept_published", "stopped"],
        _ => {
            let field = format!("calls[{place}].call");
            let text = format!("{field} {} is no call of a running job", call["call"]);
            return Err(Problem::field(&field, text));
        }
    };
    only(call.as_object().unwrap_or(&Map::new()), names)?;
    if names.contains(&"id") {
        whole(&call["id"], &format!("calls[{place}].id"), 1, MOST_NUMBER)?;
    }
    if call["from"].is_object() && !call["shape"].is_null() {
        let field = format!("calls[{place}].shape");
        return Err(Problem::field(&field, format!("{field}: a job goes back in the shape that the checkpoint had")));
    }
    Ok(())
}

fn restored(made: &Made) -> Told {
    let Some(Answer::Restored { from, released }) = made.called() else { return Err(unknown(made)) };
    let from = choice_json(from);
    let mut told = json!({"restore": from["kind"], "released": released, "term": made.term});
    if from["id"].is_number() {
        told["id"] = from["id"].clone();
    }
    Ok(told)
}

fn unknown(made: &Made) -> Problem {
    Problem::new(503, format!("the library answers {made:?}"))
}
