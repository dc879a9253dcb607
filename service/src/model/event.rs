//! Which answers are events for engines. An index of the log has their rows, and a test compares its condition with what is said here.
use super::outcome::Reply;
use relkvanu::{Answer, Choice};

#[derive(Clone, Copy, Debug, PartialEq, Eq)]
pub enum Event {
    Triggered,
    Expired,
    Completed,
    Declined,
    /// The job has failed: too many checkpoints failed in a row.
    Failed,
    Disposed,
    Restored,
    Cancelled,
}

impl Event {
    /// A record was triggered, completed or ended, or the job was restored or ended; else `None`.
    pub fn of(reply: &Reply) -> Option<Event> {
        let Reply::Answered(answer) = reply else {
            return None;
        };
        match answer {
            Answer::Triggered { .. } | Answer::SavepointTriggered(_) => Some(Event::Triggered),
            Answer::HeldInterval { expired } | Answer::HeldAtOnce { expired } | Answer::HeldPause { expired } => {
                (*expired > 0).then_some(Event::Expired)
            }
            Answer::AckCompleted { .. } => Some(Event::Completed),
            Answer::DeclineAborted { .. } => Some(Event::Declined),
            Answer::Failed { .. } | Answer::DeclineFailed { .. } => Some(Event::Failed),
            Answer::Disposed { .. } => Some(Event::Disposed),
            Answer::Restored { .. } => Some(Event::Restored),
            Answer::Cancelled { .. } => Some(Event::Cancelled),
            Answer::AckPending { .. } | Answer::AckLate { .. } | Answer::DeclineLate => None,
            Answer::Deleted(_) | Answer::Undeleted(_) | Answer::Counted { .. } => None,
            Answer::Named | Answer::Reserved(_) | Answer::Forfeited => None,
            _ => None,
        }
    }

    /// Its word in the API.
    pub fn word(self) -> &'static str {
        match self {
            Event::Triggered => "triggered",
            Event::Expired => "expired",
            Event::Completed => "completed",
            Event::Declined => "declined",
            Event::Failed => "failed",
            Event::Disposed => "disposed",
            Event::Restored => "restored",
            Event::Cancelled => "cancelled",
        }
    }
}

/// The kind of the record that an answer names, if it tells it.
pub fn kind(reply: &Reply) -> Option<&'static str> {
    match reply {
        Reply::Answered(Answer::Triggered { .. }) => Some("checkpoint"),
        Reply::Answered(Answer::SavepointTriggered(_)) => Some("savepoint"),
        Reply::Answered(Answer::Restored { from, .. }) => Some(match from {
            Choice::Checkpoint(_) => "checkpoint",
            Choice::Savepoint(_) => "savepoint",
            Choice::Fresh => "fresh",
            _ => return None,
        }),
        _ => None,
    }
}

#[cfg(test)]
mod tests {
    use super::super::answer_row::AnswerRow;
    use super::*;
    use crate::store::{IS_EVENT, TABLES};
    use rusqlite::Connection;
    use Answer as A;

    const fn answered(answer: Answer) -> Reply {
        Reply::Answered(answer)
    }

    /// Answers, as docs/RULES.md says; the event that each is, by docs/SERVICE-ENGINE.md. None is left out.
    fn answers() -> Vec<(Reply, Option<&'static str>)> {
        let restored = |from| answered(A::Restored { from, released: 3 });
        vec![
            (answered(A::Triggered { expired: 0, id: 1 }), Some("triggered")),
            (answered(A::Triggered { expired: 2, id: 3 }), Some("triggered")),
            (answered(A::HeldInterval { expired: 0 }), None),
            (answered(A::HeldInterval { expired: 1 }), Some("expired")),
            (answered(A::HeldAtOnce { expired: 0 }), None),
            (answered(A::HeldAtOnce { expired: 1 }), Some("expired")),
            (answered(A::HeldPause { expired: 0 }), None),
            (answered(A::HeldPause { expired: 3 }), Some("expired")),
            (answered(A::Failed { expired: 0 }), Some("failed")),
            (answered(A::Failed { expired: 1 }), Some("failed")),
            (answered(A::SavepointTriggered(4)), Some("triggered")),
            (answered(A::AckPending { missing: 2 }), None),
            (answered(A::AckCompleted { dropped: 0, released: 0 }), Some("completed")),
            (answered(A::AckCompleted { dropped: 1, released: 2 }), Some("completed")),
            (answered(A::AckLate { handed_out: 1 }), None),
            (answered(A::DeclineAborted { released: 0 }), Some("declined")),
            (answered(A::DeclineFailed { released: 2 }), Some("failed")),
            (answered(A::DeclineLate), None),
            (answered(A::Disposed { released: 0 }), Some("disposed")),
            (restored(Choice::Checkpoint(1)), Some("restored")),
            (restored(Choice::Savepoint(4)), Some("restored")),
            (restored(Choice::Fresh), Some("restored")),
            (answered(A::Cancelled { dropped: 0, released: 0 }), Some("cancelled")),
            (answered(A::Cancelled { dropped: 1, released: 2 }), Some("cancelled")),
            (answered(A::Configured { checkpoints: 1, released: 2 }), None),
            (answered(A::Deleted(u64::MAX)), None),
            (answered(A::Undeleted(7)), None),
            (answered(A::Counted { file: 7, uses: 1 }), None),
            (answered(A::Named), None),
            (answered(A::Reserved(20)), None),
            (answered(A::Forfeited), None),
            (Reply::Taken(vec![7, 8, 9]), None),
        ]
    }

    #[test]
    fn each_answer_is_the_event_that_it_should_be() {
        for (reply, word) in answers() {
            assert_eq!(Event::of(&reply).map(Event::word), word, "{reply:?}");
        }
        let listed: Vec<u32> = answers().iter().map(|(reply, _)| AnswerRow::of(reply).what).collect();
        let left_out = (0..200).find(|what| Answer::of_numbers(*what, 0, 0).is_some() && !listed.contains(what));
        assert_eq!(left_out, None);
    }

    /// The index has the rows that are events, by the condition that the statements have.
    #[test]
    fn the_databases_have_the_same_events() -> rusqlite::Result<()> {
        assert!(TABLES.contains(IS_EVENT));
        let base = Connection::open_in_memory()?;
        for (reply, word) in answers() {
            let [what, a, _] = AnswerRow::of(&reply).numbers();
            let sql = format!("select {IS_EVENT} from (select ?1 as what, ?2 as a)");
            let is_event: bool = base.query_row(&sql, [what, a], |row| row.get(0))?;
            assert_eq!(is_event, word.is_some(), "{reply:?}");
        }
        Ok(())
    }
}
