//! A job's settings and shape, and their limits, which are those of docs/RULES.md.
use relkvanu::{Line, Settings};
use serde_json::{json, Value};
use std::fmt::Write;
use thiserror::Error;

const LONGEST: u64 = 1 << 40;

/// A number of the settings: its name, its limits, and Flink's default if there is one.
pub struct Field {
    pub name: &'static str,
    pub least: u64,
    pub most: u64,
    pub default: Option<u64>,
}

/// The numbers of the settings, in the order of the `config` line.
pub const FIELDS: [Field; 6] = [
    Field { name: "interval", least: 10, most: LONGEST, default: None },
    Field { name: "pause", least: 0, most: LONGEST, default: Some(0) },
    Field { name: "at_once", least: 1, most: 64, default: Some(1) },
    Field { name: "timeout", least: 1, most: LONGEST, default: Some(600_000) },
    Field { name: "tolerable", least: 0, most: 1000, default: Some(0) },
    Field { name: "retained", least: 1, most: 1000, default: Some(1) },
];

/// The settings of a job that a recovery has not made whole: nothing is due and nothing expires. The Python package gives them to it.
pub const MAKING: Settings = settings_of([LONGEST - 77, LONGEST - 77, 1, LONGEST - 77, 1000, 1], true);

/// The settings of six numbers, in the order of [`FIELDS`].
pub const fn settings_of(numbers: [u64; 6], keep_on_cancel: bool) -> Settings {
    let [interval, pause, at_once, timeout, tolerable, retained] = numbers;
    Settings { interval, pause, at_once, timeout, tolerable, retained, keep_on_cancel }
}

fn numbers(it: &Settings) -> [u64; 6] {
    [it.interval, it.pause, it.at_once, it.timeout, it.tolerable, it.retained]
}

/// Other values of some settings.
#[derive(Clone, Copy, Debug, Default, PartialEq, Eq)]
pub struct Change {
    /// In the order of [`FIELDS`].
    pub numbers: [Option<u64>; 6],
    pub keep_on_cancel: Option<bool>,
}

impl Change {
    pub fn is_none(&self) -> bool {
        self.keep_on_cancel.is_none() && self.numbers.iter().all(Option::is_none)
    }

    /// The settings that a job has after it.
    pub fn of(&self, before: &Settings) -> Settings {
        let mut after = numbers(before);
        for (after, changed) in after.iter_mut().zip(self.numbers) {
            *after = changed.unwrap_or(*after);
        }
        settings_of(after, self.keep_on_cancel.unwrap_or(before.keep_on_cancel))
    }
}

/// The script's `config` line.
pub fn config_line(settings: &Settings) -> String {
    let mut line = "config".to_string();
    for number in numbers(settings) {
        let _ = write!(line, " {number}");
    }
    line + if settings.keep_on_cancel { " keep" } else { " delete" }
}

/// Reads a `config` line.
pub fn parse_config(line: &str) -> Option<Settings> {
    match Line::of(line.as_bytes()) {
        Ok(Line::Config(settings)) => Some(settings),
        _ => None,
    }
}

pub fn settings_json(settings: &Settings) -> Value {
    let mut object = serde_json::Map::new();
    for (field, number) in FIELDS.iter().zip(numbers(settings)) {
        object.insert(field.name.to_string(), json!(number));
    }
    object.insert("keep_on_cancel".to_string(), json!(settings.keep_on_cancel));
    Value::Object(object)
}

/// How many checkpoints may be pending at once: one if there is a pause.
pub fn pending_limit(settings: &Settings) -> usize {
    match settings.pause {
        0 => usize::try_from(settings.at_once).unwrap_or(usize::MAX),
        _ => 1,
    }
}

/// What is wrong with the numbers of a shape.
#[derive(Clone, Copy, Debug, PartialEq, Eq, Error)]
pub enum BadShape {
    #[error("has {0} vertices, not 1 to {MOST_VERTICES}")]
    Vertices(usize),
    #[error("has a parallelism of 0; each is at least 1")]
    NoSubtask,
    #[error("has more than {MOST_SUBTASKS} subtasks")]
    Subtasks,
}

const MOST_VERTICES: usize = 256;
const MOST_SUBTASKS: u64 = 4096;

/// Refuses numbers that are no shape.
pub fn check_shape(shape: &[u64]) -> Result<(), BadShape> {
    if shape.is_empty() || shape.len() > MOST_VERTICES {
        return Err(BadShape::Vertices(shape.len()));
    }
    if shape.contains(&0) {
        return Err(BadShape::NoSubtask);
    }
    let subtasks = shape.iter().try_fold(0u64, |sum, parallelism| sum.checked_add(*parallelism));
    match subtasks {
        Some(1..=MOST_SUBTASKS) => Ok(()),
        _ => Err(BadShape::Subtasks),
    }
}

/// The parallelisms of a shape, with a space between them.
pub fn shape_words(shape: &[u64]) -> String {
    shape.iter().map(u64::to_string).collect::<Vec<_>>().join(" ")
}

#[cfg(test)]
mod tests {
    use super::*;

    #[test]
    fn the_library_reads_the_line() {
        let settings = settings_of([1000, 0, 1, 600_000, 0, 1], true);
        assert_eq!(config_line(&settings), "config 1000 0 1 600000 0 1 keep");
        assert_eq!(parse_config(&config_line(&settings)), Some(settings));
        assert_eq!(parse_config("job 1 2"), None);
    }

    #[test]
    fn shapes_have_limits() {
        assert!(check_shape(&[1, 2]).is_ok());
        assert!(check_shape(&[4096]).is_ok());
        for (shape, why) in [
            (&[][..], "has 0 vertices, not 1 to 256"),
            (&[1; 257], "has 257 vertices, not 1 to 256"),
            (&[0], "has a parallelism of 0; each is at least 1"),
            (&[4097], "has more than 4096 subtasks"),
            (&[u64::MAX, 1], "has more than 4096 subtasks"),
        ] {
            assert_eq!(check_shape(shape).map_err(|bad| bad.to_string()), Err(why.to_string()));
        }
    }
}
