//! A task of one start of a job that gives out names.
use crate::{Answer, Beside, Call, Error, Job};
use serde_json::Value;
use std::ops::Range;
use std::sync::atomic::{AtomicBool, Ordering};
use tokio::sync::Mutex;

/// How many names a task reserves at once, if nothing else is said.
const RESERVED: u64 = 1000;
/// How many names one call gives up.
const MOST_FORFEITED: usize = 4096;
const OLD_TERM: &str = "OldTerm";

/// A task of one start of a job, by the term that it was started with: its new files get names that no other file ever has, and its calls
/// carry the term. Once the job is restored or cancelled, each call fails with [`Error::OldTerm`], and the task ends: it changes nothing
/// any more, and deletes nothing.
pub struct Session {
    job: Job,
    term: u64,
    block: u64,
    names: Mutex<Range<u64>>,
    is_over: AtomicBool,
}

impl Session {
    pub(crate) fn new(job: Job, term: u64) -> Session {
        Session { job, term, block: RESERVED, names: Mutex::new(0..0), is_over: AtomicBool::new(false) }
    }

    /// The same, which reserves this many names at a time, 1 to 65,536.
    #[must_use]
    pub fn reserving(self, block: u64) -> Session {
        Session { block, ..self }
    }

    #[must_use]
    pub fn term(&self) -> u64 {
        self.term
    }

    /// The number of a new file. It was reserved before, durably.
    pub async fn name(&self) -> Result<u64, Error> {
        let mut names = self.names.lock().await;
        self.check()?;
        if names.is_empty() {
            *names = reserved(&self.call(Call::Reserve { term: self.term, count: self.block }).await?)?;
        }
        names.next().ok_or_else(|| Error::Answer("has no names".to_string()))
    }

    /// Acknowledges a record. If it is refused, the names of the new files are the task's still: it names the files in a later
    /// acknowledgement, or gives the names up.
    pub async fn ack(&self, id: u64, subtask: (u16, u16), fresh: &[u64], reused: &[u64]) -> Result<Value, Error> {
        self.call(Call::Ack { id, subtask, fresh: fresh.to_vec(), reused: reused.to_vec() }.in_term(self.term)).await
    }

    /// The same with the bytes of each new file.
    pub async fn sized_ack(
        &self,
        id: u64,
        subtask: (u16, u16),
        fresh: &[(u64, u64)],
        reused: &[u64],
    ) -> Result<Value, Error> {
        let ack = Call::SizedAck { id, subtask, fresh: fresh.to_vec(), reused: reused.to_vec() };
        self.call(ack.in_term(self.term)).await
    }

    /// The same with a payload and figures.
    pub async fn ack_with(
        &self,
        id: u64,
        subtask: (u16, u16),
        fresh: &[u64],
        reused: &[u64],
        beside: Beside,
    ) -> Result<Value, Error> {
        let ack = Call::AckWith { id, subtask, fresh: fresh.to_vec(), reused: reused.to_vec(), beside };
        self.call(ack.in_term(self.term)).await
    }

    /// Declines a record for a reason of at most 200 bytes.
    pub async fn decline_with(&self, id: u64, subtask: (u16, u16), reason: &str) -> Result<Value, Error> {
        self.call(Call::DeclineWith { id, subtask, reason: reason.to_string() }.in_term(self.term)).await
    }

    pub async fn decline(&self, id: u64, subtask: (u16, u16)) -> Result<Value, Error> {
        self.call(Call::Decline { id, subtask }.in_term(self.term)).await
    }

    /// Makes acknowledgements and declines of several subtasks in one request, each in the term. Returns the answer of each, a refusal too.
    pub async fn calls(&self, calls: &[Call]) -> Result<Vec<Answer>, Error> {
        self.check()?;
        let calls: Vec<Call> = calls.iter().map(|call| call.clone().in_term(self.term)).collect();
        let answers = self.job.calls(&calls).await?;
        let is_old = |answer: &Answer| matches!(answer, Answer::Fenced { name, .. } if name == OLD_TERM);
        if answers.iter().any(is_old) {
            self.is_over.store(true, Ordering::SeqCst);
            return Err(Error::OldTerm);
        }
        Ok(answers)
    }

    /// Gives up names that the task will not acknowledge, such as those of a failed upload: their files are garbage then.
    pub async fn forfeit(&self, names: &[u64]) -> Result<(), Error> {
        for names in names.chunks(MOST_FORFEITED) {
            self.call(Call::Forfeit { term: self.term, names: names.to_vec() }).await?;
        }
        Ok(())
    }

    fn check(&self) -> Result<(), Error> {
        if self.is_over.load(Ordering::SeqCst) {
            return Err(Error::OldTerm);
        }
        Ok(())
    }

    async fn call(&self, call: Call) -> Result<Value, Error> {
        self.check()?;
        let answer = self.job.calls(&[call]).await?.pop();
        let told = answer.map_or_else(|| Err(Error::Answer("has no answer of the call".to_string())), Answer::reply);
        if matches!(told, Err(Error::OldTerm)) {
            self.is_over.store(true, Ordering::SeqCst);
        }
        told
    }
}

/// The names that an answer gives.
fn reserved(told: &Value) -> Result<Range<u64>, Error> {
    let first: Option<u64> = told["first"].as_str().and_then(|digits| digits.parse().ok());
    match (first, told["count"].as_u64()) {
        (Some(first), Some(count)) => Ok(first..first + count),
        _ => Err(Error::Answer(format!("to reserve is {told}"))),
    }
}

#[cfg(test)]
mod tests {
    use super::*;
    use serde_json::json;

    #[test]
    fn names_follow_the_first() {
        let told = json!({"reserve": "reserved", "first": "20", "count": 3, "seq": 7});
        assert_eq!(reserved(&told).ok(), Some(20..23));
        assert!(matches!(reserved(&json!({"first": 20, "count": 3})), Err(Error::Answer(_))));
    }
}
