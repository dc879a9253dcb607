//! What a job begins from.
use crate::call::numbers;
use crate::{Answer, Error, Follower, Job};
use serde_json::Value;

/// What a job begins from.
pub struct Start {
    /// `checkpoint` or `savepoint`; `fresh` if there is no record.
    pub kind: String,
    pub id: Option<u64>,
    /// The files that each subtask loads.
    pub files: Vec<(String, Vec<u64>)>,
    /// For each task that is started from here, and for nobody else; `None` as long as a recovery makes the job.
    pub term: Option<u64>,
    /// The events after it.
    pub follower: Follower,
}

impl Start {
    /// By the body that answers a restore.
    pub(crate) async fn of(job: &Job, told: &Value) -> Result<Start, Error> {
        let reply = Answer::of(&told["answers"][0]).reply()?;
        let kind = reply["restore"]
            .as_str()
            .ok_or_else(|| Error::Answer("to restore has no member \"restore\"".to_string()))?
            .to_string();
        let (id, seq, log) = (reply["id"].as_u64(), reply["seq"].as_u64(), told["log"].as_str());
        let files = match id {
            Some(id) => held(&job.record(id).await?, id)?,
            None => Vec::new(),
        };
        let follower = Follower::new(job.clone(), seq, log.map(str::to_string));
        Ok(Start { kind, id, files, term: reply["term"].as_u64(), follower })
    }
}

/// The files of each subtask of a record, which has to be live.
fn held(record: &Value, id: u64) -> Result<Vec<(String, Vec<u64>)>, Error> {
    let why = || format!("says that record {id} has ended meanwhile: somebody else has restored or cancelled the job");
    let acks = record["live"]["acks"].as_array().ok_or_else(|| Error::Answer(why()))?;
    let files = |ack: &Value| -> Option<(String, Vec<u64>)> {
        Some((ack["subtask"].as_str()?.to_string(), numbers(&ack["files"])?))
    };
    acks.iter().map(files).collect::<Option<_>>().ok_or_else(|| Error::Answer(format!("has no files of record {id}")))
}

#[cfg(test)]
mod tests {
    use super::*;
    use serde_json::json;

    #[test]
    fn a_record_that_has_ended_holds_no_files() {
        let record = json!({"live": {"acks": [{"subtask": "0.1", "files": ["7", "18446744073709551615"]}]}});
        assert_eq!(held(&record, 3).ok(), Some(vec![("0.1".to_string(), vec![7, u64::MAX])]));
        for ended in [json!({"live": null}), json!({"live": {"acks": [{"subtask": "0.1", "files": [7]}]}})] {
            assert!(matches!(held(&ended, 3), Err(Error::Answer(_))), "{ended}");
        }
    }
}
