//! Outcomes that nobody is told of before the commit of their calls: the library holds the answers back.
use super::outcome::{Outcome, Reply};
use relkvanu::{Receipt, Told};

/// What a call gave, for the log and the metrics, and the receipt by which the library tells its answer once the commit is synced.
#[derive(Debug)]
pub struct Held {
    pub outcome: Outcome,
    /// `None` of what tells nothing of the job: there was no memory for the call, or for one before it.
    pub receipt: Option<Receipt>,
}

impl Held {
    pub fn without_memory(outcome: Outcome) -> Held {
        Held { outcome, receipt: None }
    }

    /// The same with other words, of the same answer.
    pub fn map(self, words: impl FnOnce(Outcome) -> Outcome) -> Held {
        Held { outcome: words(self.outcome), receipt: self.receipt }
    }
}

impl Outcome {
    /// This outcome, with the answer that the library tells. The service's own refusals and the files of a take are not in it.
    pub(super) fn with_answer(self, told: Told) -> Outcome {
        match (self, told) {
            (Outcome::Made { seq, reply: Reply::Answered(_), beside }, Told::Answered(answer)) => {
                Outcome::Made { seq, reply: Reply::Answered(answer), beside }
            }
            (Outcome::Detailed { made, kind, ended }, told) => {
                Outcome::Detailed { made: Box::new(made.with_answer(told)), kind, ended }
            }
            (Outcome::Refused(_), Told::Fault(why)) => Outcome::Refused(why),
            (other, _) => other,
        }
    }
}

#[cfg(test)]
mod tests {
    use super::super::settings::settings_of;
    use super::super::{Call, Job, Logged, NoJob, Opening, Settings};
    use super::*;
    use relkvanu::Fault;
    use std::error::Error;

    const SETTINGS: Settings = settings_of([10, 0, 1, 5000, 0, 1], false);

    impl Job {
        /// One of these settings and this shape, which was opened at 0.
        pub fn tried(settings: Settings, shape: &[u64]) -> Result<Job, NoJob> {
            let (number, name, shape) = (1, "orders".to_string(), shape.to_vec());
            Job::open(Opening { number, name, settings, shape, started: 0, first: 1 })
        }

        /// Makes a call as the writer does, with a commit of its own.
        pub fn committed(&mut self, call: &Call, now: u64) -> (Outcome, Vec<Logged>) {
            let (held, made) = self.operate(call, now);
            self.synced().and_then(|()| self.tell(held)).map(|told| (told, made)).expect("it is told behind its commit")
        }
    }

    #[test]
    fn nothing_is_told_before_its_commit_or_behind_the_next_call() -> Result<(), Box<dyn Error>> {
        let mut job = Job::tried(SETTINGS, &[1])?;
        // one that is made, one that the library refuses, and one that the service does
        for call in [Call::Tick, Call::Dispose { id: 9 }, Call::Begin] {
            let (held, _) = job.operate(&call, 10);
            let (receipt, outcome) = (held.receipt, held.outcome.clone());
            let again = || Held { receipt, outcome: outcome.clone() };
            assert!(receipt.is_some(), "{call:?}");
            assert_eq!(job.tell(held), Err(Fault::BadReceipt), "{call:?}");
            job.synced()?;
            assert_eq!((job.tell(again()), job.tell(again())), (Ok(outcome.clone()), Ok(outcome.clone())));
            job.operate(&Call::Tick, 10);
            assert_eq!(job.tell(again()), Err(Fault::BadReceipt), "{call:?}");
            job.synced()?;
            assert_eq!(job.tell(again()), Err(Fault::BadReceipt), "{call:?}");
        }
        Ok(())
    }

    #[test]
    fn what_is_told_is_what_the_library_tells() {
        let made = Outcome::Made { seq: Some(1), reply: Reply::Taken(vec![7]), beside: super::super::Extra::Nothing };
        assert_eq!(made.clone().with_answer(Told::Taken(1)), made);
        let refused = Outcome::Refused(Fault::Memory).with_answer(Told::Fault(Fault::BadShape));
        assert_eq!(refused, Outcome::Refused(Fault::BadShape));
    }
}
