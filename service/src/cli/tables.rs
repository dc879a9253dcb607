//! Answers of a service as text for people. Programs ask for the JSON.
use crate::model::shown;
use serde_json::Value;
use std::fmt::Write as _;
use std::io::Write as _;
use tabwriter::TabWriter;

/// How many absent files are named.
const MOST_NAMED: usize = 8;

/// Rows, whose cells have tabs between them, as a table.
pub fn table(rows: &[String]) -> String {
    let mut writer = TabWriter::new(Vec::new()).padding(2);
    // a write to memory does not fail
    for row in rows {
        let _ = writeln!(writer, "{row}");
    }
    let text = writer.into_inner().map(|bytes| String::from_utf8_lossy(&bytes).into_owned()).unwrap_or_default();
    // the padding of the last cell is of no use
    text.lines().flat_map(|line| [line.trim_end(), "\n"]).collect()
}

/// Jobs, as `GET /v1/jobs` has them.
pub fn jobs(jobs: &Value) -> String {
    let mut rows = vec!["JOB\tMODE\tCALLS\tPENDING\tIN USE\tWAITING\tTAKEN\tLAST COMPLETED".to_string()];
    for job in items(jobs) {
        let pending = items(&job["live"]).iter().filter(|record| record["done"] == false).count();
        let files = ["in_use", "waiting", "taken"].map(|name| cell(&job["files"][name])).join("\t");
        let (name, calls, last) = (cell(&job["name"]), cell(&job["seq"]), at(&job["last_completed"]));
        let mode = mode(job);
        rows.push(format!("{name}\t{mode}\t{calls}\t{pending}\t{files}\t{last}"));
    }
    table(&rows)
}

/// The state of a job, and its live records.
pub fn job(job: &Value) -> String {
    let files = &job["files"];
    let choice = &job["choice"];
    let mut rows = vec![
        format!("job\t{}", cell(&job["name"])),
        format!("mode\t{}", mode(job)),
        format!("shape\t{}", list(&job["shape"])),
        format!("settings\t{}", settings(&job["settings"])),
        format!("opened\t{}", at(&job["opened"])),
        format!("next checkpoint\t{}", at(&job["due"])),
        format!("last completed\t{}", at(&job["last_completed"])),
        format!("a restore begins from\t{} {}", cell(&choice["kind"]), cell(&choice["id"])),
        format!(
            "files\t{} in use, {} waiting, {} taken",
            cell(&files["in_use"]),
            cell(&files["waiting"]),
            cell(&files["taken"])
        ),
        format!("calls\t{}, of which the log has those from {} on", cell(&job["seq"]), cell(&job["first"])),
        format!("next name\t{}", cell(&job["next_name"])),
    ];
    let bytes = &job["bytes"];
    if bytes["files"].as_u64() > Some(0) {
        let [in_use, waiting, taken] = ["in_use", "waiting", "taken"].map(|name| cell(&bytes[name]));
        let of = cell(&bytes["files"]);
        rows.push(format!("bytes of {of} files\t{in_use} in use, {waiting} waiting, {taken} taken"));
    }
    if let Some(image) = job["image"].as_object() {
        rows.push(format!("image\tafter call {}, {} bytes", cell(&image["seq"]), cell(&image["bytes"])));
    }
    let mut records = vec!["RECORD\tKIND\tSTATE\tMISSING".to_string()];
    for record in items(&job["live"]) {
        let state = if record["done"] == true { "done" } else { "pending" };
        records.push(format!(
            "{}\t{}\t{state}\t{}",
            cell(&record["id"]),
            cell(&record["kind"]),
            cell(&record["missing"])
        ));
    }
    format!("{}\n{}", table(&rows), table(&records))
}

/// What a job is doing. One that stops or has stopped runs as far as the coordinator knows.
fn mode(job: &Value) -> String {
    let stop = &job["stop"];
    match job["phase"].as_str() {
        Some(phase @ ("stopping" | "stopped")) => format!("{phase}, savepoint {}", cell(&stop["savepoint"])),
        _ if stop["failed"].is_string() => {
            format!("{}; its last stop failed: {}", cell(&job["mode"]), cell(&stop["failed"]))
        }
        _ => cell(&job["mode"]),
    }
}

/// A job that stops from here on.
pub fn stopping(told: &Value) -> String {
    format!("the job stops: savepoint {} is triggered\n", cell(&told["id"]))
}

/// A record, and what is known of it.
pub fn record(record: &Value) -> String {
    let (live, history) = (&record["live"], &record["history"]);
    let kind = if live.is_null() { &history["kind"] } else { &live["kind"] };
    let mut rows = vec![format!("record\t{}", cell(&record["id"])), format!("kind\t{}", cell(kind))];
    if !live.is_null() {
        rows.push(format!("state\t{}", cell(&live["state"])));
    }
    // of a record that has ended its history knows who was missing
    let (missing, shape) =
        if live.is_null() { (&history["missing"], &history["shape"]) } else { (&record["missing"], &live["shape"]) };
    if !items(missing).is_empty() {
        rows.push(format!("missing\t{} of {}: {}", items(missing).len(), count(shape), list(missing)));
    }
    if !history.is_null() {
        rows.push(format!("triggered\t{}", at(&history["started"])));
        rows.push(format!("acknowledgements\t{}", cell(&history["acks"])));
        // while one is missing, the last of those that came is not what it waits for
        if items(missing).is_empty() {
            rows.push(format!("slowest\t{}", cell(&history["slowest"])));
        }
        if !history["full_bytes"].is_null() {
            rows.push(format!("bytes\t{}", cell(&history["full_bytes"])));
            rows.push(format!("bytes of new files\t{}", cell(&history["fresh_bytes"])));
        }
        if !history["finished"].is_null() {
            rows.push(format!("{}\t{}", cell(&history["how"]), at(&history["finished"])));
        }
        if !history["gone"].is_null() {
            rows.push(format!("no longer live\t{}: {}", at(&history["gone"]), cell(&history["why"])));
        }
    }
    table(&rows)
}

/// Records that have ended, the last one first.
pub fn history(records: &Value) -> String {
    let mut rows = vec!["RECORD\tKIND\tENDED\tHOW\tACKS\tMEDIAN MS\tSLOWEST MS\tBYTES\tREASON".to_string()];
    for record in items(records) {
        let [id, kind] = ["id", "kind"].map(|name| cell(&record[name]));
        let rest = ["how", "acks", "median", "slowest", "bytes", "reason"].map(|name| cell(&record[name])).join("\t");
        rows.push(format!("{id}\t{kind}\t{}\t{rest}", at(&record["ended"])));
    }
    table(&rows)
}

/// Files that were taken and not reported, and those that were deleted last.
pub fn files(files: &Value) -> String {
    let mut rows = vec!["FILE\tSTATE\tWRITTEN BY CALL\tRELEASED BY\tTAKEN BY\tDELETED BY\tBYTES".to_string()];
    for (list, state) in [("taken", "taken"), ("deleted", "deleted")] {
        for file in items(&files[list]) {
            let calls = ["born", "released", "taken", "deleted", "bytes"].map(|name| cell(&file[name])).join("\t");
            rows.push(format!("{}\t{state}\t{calls}", cell(&file["file"])));
        }
    }
    table(&rows)
}

/// The records that a restore may begin from, and which of their files a folder lacks.
pub fn savepoints(records: &Value) -> String {
    let mut rows = vec!["RECORD\tKIND\tTRIGGERED\tFILES\tABSENT".to_string()];
    for record in items(records) {
        let latest = if record["latest"] == true { ", the latest" } else { "" };
        let named = items(&record["absent"]).iter().take(MOST_NAMED).map(cell).collect::<Vec<_>>().join(" ");
        let absent = record["absent"].as_array().map(|absent| match absent.len() {
            0 => "none".to_string(),
            count if count > MOST_NAMED => format!("{count}: {named} .."),
            count => format!("{count}: {named}"),
        });
        let (id, kind, files) = (cell(&record["id"]), cell(&record["kind"]), cell(&record["files"]));
        rows.push(format!(
            "{id}\t{kind}{latest}\t{}\t{files}\t{}",
            at(&record["triggered"]),
            absent.unwrap_or_default()
        ));
    }
    table(&rows)
}

/// Who uses a file, and what became of it.
pub fn file(file: &Value) -> String {
    let history = &file["history"];
    let mut rows = vec![format!("file\t{}", cell(&file["file"])), format!("uses\t{}", cell(&file["uses"]))];
    if !file["bytes"].is_null() {
        rows.push(format!("bytes\t{}", cell(&file["bytes"])));
    }
    for user in items(&file["used_by"]) {
        rows.push(format!("used by\trecord {}, subtask {}", cell(&user["record"]), cell(&user["subtask"])));
    }
    for (name, title) in [("born", "written"), ("released", "released"), ("taken", "taken"), ("deleted", "deleted")] {
        let made = &history[name];
        if !made.is_null() {
            rows.push(format!("{title}\t{}, by call {}: {}", at(&made["at"]), cell(&made["seq"]), cell(&made["line"])));
        }
    }
    if !history["why"].is_null() {
        rows.push(format!("released because\t{}", cell(&history["why"])));
    }
    table(&rows)
}

/// A call of the log.
pub fn call(call: &Value) -> String {
    let (seq, line, answer) = (cell(&call["seq"]), cell(&call["line"]), cell(&call["answer"]));
    format!("{seq:>8}  {}  {line}  ->  {answer}\n", at(&call["at"]))
}

/// The term that runs.
pub fn term(told: &Value) -> String {
    table(&[format!("term\t{}", cell(&told["term"])), format!("next name\t{}", cell(&told["next_name"]))])
}

/// The settings that a job has now.
pub fn set(told: &Value) -> String {
    let mut text = format!("the job has these settings now: {}", settings(&told["settings"]));
    if told["dropped"].as_u64() > Some(0) {
        let (dropped, released) = (cell(&told["dropped"]), cell(&told["released"]));
        let _ = write!(text, "; dropped checkpoints: {dropped}; files that wait for deletion now: {released} more");
    }
    text + "\n"
}

fn settings(settings: &Value) -> String {
    let settings = settings.as_object().into_iter().flatten();
    settings.map(|(name, value)| format!("{name} {}", cell(value))).collect::<Vec<_>>().join(", ")
}

/// What a call did that a user made.
pub fn action(reply: &Value) -> String {
    let of = |name: &str| cell(&reply[name]);
    let mut text = match reply.as_object().and_then(|members| {
        ["savepoint", "dispose", "restore", "cancel"]
            .into_iter()
            .find(|name| members.contains_key(*name) && reply[*name].is_string())
    }) {
        Some("savepoint") => format!("savepoint {} is triggered", of("id")),
        Some("dispose") => "the savepoint is disposed of".to_string(),
        Some("restore") if reply["id"].is_null() => "the job begins again, from nothing".to_string(),
        Some("restore") => format!("the job begins again, from {} {}", of("restore"), of("id")),
        Some("cancel") => format!("the job is cancelled; dropped records: {}", of("dropped")),
        _ => reply.to_string(),
    };
    if !reply["released"].is_null() {
        let _ = write!(text, "; files that wait for deletion now: {} more", of("released"));
    }
    if !reply["term"].is_null() {
        let _ = write!(text, "; the term is {}", of("term"));
    }
    text + "\n"
}

/// A restore of a job that has stopped.
pub fn stays_stopped(reply: &Value) -> String {
    action(reply).replacen("the job begins again,", "the job stays stopped, and begins", 1)
}

/// What a list has.
pub fn items(value: &Value) -> &[Value] {
    value.as_array().map(Vec::as_slice).unwrap_or_default()
}

/// A value without quotes; nothing for null.
fn cell(value: &Value) -> String {
    match value {
        Value::Null => String::new(),
        Value::String(text) => text.clone(),
        other => other.to_string(),
    }
}

fn list(value: &Value) -> String {
    items(value).iter().map(cell).collect::<Vec<_>>().join(" ")
}

/// How many subtasks a shape has.
fn count(shape: &Value) -> u64 {
    items(shape).iter().filter_map(Value::as_u64).sum()
}

/// A moment as text; nothing for null.
fn at(value: &Value) -> String {
    value.as_u64().map(shown).unwrap_or_default()
}
