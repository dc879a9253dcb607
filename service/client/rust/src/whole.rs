//! A complete record as a whole, with all that its tasks begin with after a restore.
use crate::call::numbers;
use crate::Error;
use openssl::base64::decode_block;
use serde_json::Value;

/// A complete record.
#[derive(Clone, Debug, PartialEq, Eq)]
pub struct Whole {
    pub id: u64,
    /// `checkpoint` or `savepoint`.
    pub kind: String,
    pub shape: Vec<u64>,
    /// In the order of the subtasks.
    pub parts: Vec<Part>,
}

/// What a subtask has in a record.
#[derive(Clone, Debug, PartialEq, Eq)]
pub struct Part {
    /// As `0.1`.
    pub subtask: String,
    /// In the order in which [`Call::AckWith`](crate::Call::AckWith) gave them; else ascending.
    pub files: Vec<u64>,
    /// The bytes of each file, as its task told them.
    pub sizes: Vec<Option<u64>>,
    pub payload: Vec<u8>,
    pub bytes: u64,
    pub millis: u64,
}

impl Whole {
    pub(crate) fn of(told: &Value) -> Result<Whole, Error> {
        Whole::read(told).ok_or_else(|| Error::Answer("is no record".to_string()))
    }

    fn read(told: &Value) -> Option<Whole> {
        let (id, kind) = (told["id"].as_u64()?, told["kind"].as_str()?.to_string());
        let shape = told["shape"].as_array()?.iter().map(Value::as_u64).collect::<Option<_>>()?;
        let parts = told["subtasks"].as_array()?.iter().map(Part::read).collect::<Option<_>>()?;
        Some(Whole { id, kind, shape, parts })
    }

    /// What a subtask has; `None` if the record has no such subtask, as after a restore in another shape.
    #[must_use]
    pub fn part(&self, subtask: (u16, u16)) -> Option<&Part> {
        let name = format!("{}.{}", subtask.0, subtask.1);
        self.parts.iter().find(|part| part.subtask == name)
    }
}

impl Part {
    fn read(told: &Value) -> Option<Part> {
        let files = numbers(&told["files"])?;
        let sizes = told["sizes"].as_array().map(|sizes| sizes.iter().map(Value::as_u64).collect());
        Some(Part {
            subtask: told["subtask"].as_str()?.to_string(),
            sizes: sizes.unwrap_or_else(|| vec![None; files.len()]),
            files,
            payload: decode_block(told["payload"].as_str()?).ok()?,
            bytes: told["bytes"].as_u64()?,
            millis: told["millis"].as_u64()?,
        })
    }
}

#[cfg(test)]
mod tests {
    use super::*;
    use serde_json::json;

    #[test]
    fn a_record_is_read() {
        let part = json!({"subtask": "0.1", "files": ["9", "18446744073709551615"], "sizes": [70, null], "payload": "eA==", "bytes": 7, "millis": 8});
        let told = json!({"id": 3, "kind": "savepoint", "shape": [2], "subtasks": [part]});
        let whole = Whole::of(&told).ok();
        let part = whole.as_ref().and_then(|whole| whole.part((0, 1)));
        let wanted = (vec![9, u64::MAX], vec![Some(70), None], b"x".to_vec(), 7, 8);
        assert_eq!(
            part.map(|it| (it.files.clone(), it.sizes.clone(), it.payload.clone(), it.bytes, it.millis)),
            Some(wanted)
        );
        assert_eq!(whole.as_ref().and_then(|whole| whole.part((0, 0))), None);
        assert!(matches!(Whole::of(&json!({"id": 3})), Err(Error::Answer(_))));
    }
}
