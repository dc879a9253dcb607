//! The service's own log, on standard error: one line for each event, as text or as JSON.
use serde_json::{json, Map, Value};
use std::fmt::Write as _;
use std::future::Future;
use std::io::Write;
use std::sync::atomic::{AtomicBool, Ordering};
use std::time::SystemTime;
use tokio::task::futures::TaskLocalFuture;

static IS_JSON: AtomicBool = AtomicBool::new(false);

tokio::task_local! {
    /// The trace that the request belongs to which this task answers.
    static TRACE: Option<String>;
}

/// From now on each line is an object of JSON.
pub fn use_json() {
    IS_JSON.store(true, Ordering::SeqCst);
}

/// Does some work, whose lines name this trace.
pub fn traced<F: Future>(trace: Option<String>, work: F) -> TaskLocalFuture<Option<String>, F> {
    TRACE.scope(trace, work)
}

pub fn info(text: &str) {
    line("info", text, &[]);
}

pub fn warn(text: &str) {
    line("warn", text, &[]);
}

pub fn error(text: &str) {
    line("error", text, &[]);
}

/// An event with fields.
pub fn event(text: &str, fields: &[(&str, Value)]) {
    line("info", text, fields);
}

/// Writes one line, whatever bytes the text has. If standard error is closed, the line is lost.
fn line(level: &str, text: &str, fields: &[(&str, Value)]) {
    let at = humantime::format_rfc3339_millis(SystemTime::now()).to_string();
    let trace = TRACE.try_with(Clone::clone).ok().flatten().map(|trace| ("trace_id", Value::from(trace)));
    let fields = fields.iter().cloned().chain(trace);
    let text = if IS_JSON.load(Ordering::SeqCst) {
        as_json(&at, level, text, fields)
    } else {
        as_text(&at, level, text, fields)
    };
    let _ = writeln!(std::io::stderr(), "{text}");
}

fn as_json<'a>(at: &str, level: &str, text: &str, fields: impl Iterator<Item = (&'a str, Value)>) -> String {
    let mut members = Map::new();
    for (name, value) in
        [("time", json!(at)), ("level", json!(level)), ("message", json!(text))].into_iter().chain(fields)
    {
        members.insert(name.to_string(), value);
    }
    Value::Object(members).to_string()
}

fn as_text<'a>(at: &str, level: &str, text: &str, fields: impl Iterator<Item = (&'a str, Value)>) -> String {
    let mut line = format!("{at} {level} {text}");
    for (name, value) in fields {
        let is_word = |text: &str| !text.is_empty() && text.bytes().all(|byte| byte.is_ascii_graphic() && byte != b'"');
        // a write to a text does not fail
        let _ = match value.as_str().filter(|text| is_word(text)) {
            Some(word) => write!(line, " {name}={word}"),
            None => write!(line, " {name}={value}"),
        };
    }
    line.chars().map(|c| if c.is_control() { ' ' } else { c }).collect()
}

#[cfg(test)]
mod tests {
    use super::*;

    #[test]
    fn a_line_is_one_line() {
        let fields =
            || vec![("path", json!("/v1/jobs")), ("by", json!("a \"b\"\nc")), ("status", json!(200))].into_iter();
        let text = as_text("T", "info", "two\nlines", fields());
        assert_eq!(text, r#"T info two lines path=/v1/jobs by="a \"b\"\nc" status=200"#);
        let told: Value = serde_json::from_str(&as_json("T", "warn", "two\nlines", fields())).unwrap_or_default();
        assert_eq!(
            (told["message"].as_str(), told["level"].as_str(), told["time"].as_str()),
            (Some("two\nlines"), Some("warn"), Some("T"))
        );
        assert_eq!((&told["by"], &told["status"]), (&json!("a \"b\"\nc"), &json!(200)));
        assert!(!as_json("T", "warn", "two\nlines", fields()).contains('\n'));
    }
}
