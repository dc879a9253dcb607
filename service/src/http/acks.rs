//! When each subtask acknowledged a record, as the log has it: who is slow.
use super::query::{numbers, Parameter};
use super::reply::{error, json_reply, Answered};
use super::App;
use crate::history::rank;
use crate::model::{parse_line, AckBytes, Answer, Call, Entry, Reply, Subtask};
use crate::store::{DbError, Reader};
use serde_json::{json, Value};

const LIMIT: Parameter = Parameter { name: "limit", most: 4096, default: 100 };
/// How many calls of a record are read at once.
const PAGE: u32 = 1000;

/// One acknowledgement of a record.
struct Ack {
    seq: u64,
    at: u64,
    subtask: Subtask,
    is_late: bool,
    fresh: usize,
    reused: usize,
}

impl Ack {
    /// `None` if the entry is not an acknowledgement.
    fn of(entry: &Entry) -> Option<Ack> {
        let (_, Call::Ack { subtask, fresh, reused, .. }) = parse_line(&entry.line)? else {
            return None;
        };
        let is_late = matches!(entry.reply()?, Reply::Answered(Answer::AckLate { .. }));
        let (fresh, reused) = (fresh.len(), reused.len());
        Some(Ack { seq: entry.seq, at: entry.at, subtask, is_late, fresh, reused })
    }

    fn json(&self, started: u64, said: &[AckBytes]) -> Value {
        let said = said.binary_search_by_key(&self.seq, |one| one.seq).ok().map(|place| &said[place]);
        json!({
            "subtask": self.subtask.to_string(),
            "seq": self.seq,
            "at": self.at,
            "took": self.at.saturating_sub(started),
            "fresh": self.fresh,
            "reused": self.reused,
            "fresh_bytes": said.map(AckBytes::fresh_bytes),
            "full_bytes": said.map(|said| said.full),
        })
    }
}

pub async fn answer(app: &App, job: &str, id: u64, query: &str) -> Answered {
    let [most] = numbers(query, [LIMIT])?;
    let number = app.number(job)?;
    let Some(record) = app.read_history(move |history| history.record(number, id)).await? else {
        return Err(error(404, &format!("job {job} has no record {id}, or the history has not read of it yet")).into());
    };
    let (acks, said) = app.read_log(move |reader| acks(reader, number, id)).await?;
    let started = u64::try_from(record.started).unwrap_or(0);
    let (late, mut acks): (Vec<Ack>, Vec<Ack>) = acks.into_iter().partition(|ack| ack.is_late);
    acks.sort_by_key(|ack| (ack.at, ack.seq));
    let took: Vec<u64> = acks.iter().map(|ack| ack.at.saturating_sub(started)).collect();
    let slowest = acks.iter().rev().take(usize::try_from(most).unwrap_or(usize::MAX));
    Ok(json_reply(
        200,
        &json!({
            "id": id,
            "started": started,
            "count": acks.len(),
            "late": late.len(),
            // calls of it may have been cut
            "are_all": acks.len() as u64 >= u64::try_from(record.acks).unwrap_or(0),
            "first": took.first(),
            "median": rank(&took, 50),
            "p99": rank(&took, 99),
            "slowest": took.last(),
            "acks": slowest.map(|ack| ack.json(started, &said)).collect::<Vec<_>>(),
        }),
    ))
}

/// The acknowledgements of a record that the log has, and what they said of sizes.
fn acks(reader: &mut dyn Reader, job: i64, id: u64) -> Result<(Vec<Ack>, Vec<AckBytes>), DbError> {
    let (mut found, mut after) = (Vec::new(), 0);
    loop {
        let page = reader.about(job, id, after, PAGE)?;
        let Some(last) = page.last() else {
            break;
        };
        after = last.seq;
        found.extend(page.iter().filter_map(Ack::of));
    }
    let (first, last) = (found.first().map_or(0, |ack| ack.seq), found.last().map_or(0, |ack| ack.seq));
    let said = reader.ack_bytes(job, first.saturating_sub(1), last)?;
    Ok((found, said))
}

#[cfg(test)]
mod tests {
    use super::*;
    use crate::model::AnswerRow;

    #[test]
    fn other_calls_are_no_acknowledgements() {
        let entry = |line: &str, answer: Answer| Entry {
            job: 1,
            seq: 4,
            at: 30,
            record: Some(1),
            line: line.to_string(),
            told: AnswerRow::of(&Reply::Answered(answer)),
            ended: None,
            waiting: 0,
        };
        let ack = Ack::of(&entry("ack 30 1 0.1 +5 +6 =2", Answer::AckPending { missing: 1 }));
        let told = ack.map(|ack| (ack.subtask.to_string(), ack.is_late, ack.fresh, ack.reused));
        assert_eq!(told, Some(("0.1".to_string(), false, 2, 1)));
        assert!(Ack::of(&entry("ack 30 1 0.1", Answer::AckLate { handed_out: 0 })).is_some_and(|ack| ack.is_late));
        assert!(Ack::of(&entry("decline 30 1 0.1", Answer::DeclineLate)).is_none());
    }
}
