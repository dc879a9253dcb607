//! Whether the log has the events after a place that an engine knows. If it does not, the answer is 410.
use super::query::Parameter;
use super::reply::{refusal, HttpReply, Refusable};
use super::{gate, no_job, App};
use crate::model::length_in;
use serde_json::json;

/// The answer to an engine whose place was never in this log.
const OTHER_LOG: &str =
    "is no place of this log: a backup was restored, or another service answers. End the engine and its tasks, and \
    restore the job to a record whose files are all there, which relkvanu savepoints finds";

/// The parameter `after`; its default stands for no place.
pub const AFTER: Parameter = Parameter { name: "after", most: u64::MAX - 1, default: u64::MAX };

/// The place of the parameter, if one was given.
pub fn given(after: u64) -> Option<u64> {
    Some(after).filter(|after| *after != AFTER.default)
}

/// A place in a job's log. `None`: before the first call that the log has.
pub struct LogPosition<'a> {
    pub job: &'a str,
    pub number: i64,
    pub after: Option<u64>,
}

impl<'a> LogPosition<'a> {
    pub fn of(app: &App, job: &'a str, after: Option<u64>) -> Refusable<LogPosition<'a>> {
        Ok(LogPosition { job, number: app.number(job)?, after })
    }

    /// Refuses what was read while another process may have led, with another identity of the log.
    pub async fn check_leads(&self, app: &App) -> Refusable<()> {
        if app.board.is_ready() {
            return Ok(());
        }
        Err(gate::standby(app).await.into())
    }

    /// Whether this log has the place, or had it when the identity `known` of the log ended.
    pub async fn check_log(&self, app: &App, known: Option<&str>) -> Refusable<()> {
        let after = self.after.unwrap_or(0);
        let length = match known.filter(|known| *known != app.board.log()) {
            None => app.board.length(self.job),
            Some(known) => {
                let known = known.to_string();
                let ended = app.read_log(move |reader| reader.lengths_after(&known)).await?;
                ended.map_or(0, |lengths| length_in(&lengths, self.number)).min(app.board.length(self.job))
            }
        };
        self.check_leads(app).await?;
        if after > length {
            return Err(self.gone(app, "other_log", OTHER_LOG).into());
        }
        Ok(())
    }

    /// Whether all events after the place are in the log. Returns the first call that it has.
    pub fn check_cut(&self, app: &App) -> Refusable<u64> {
        let first = app.board.first(self.job);
        let last = *app.board.events(self.job).ok_or_else(|| no_job(self.job))?.borrow();
        match self.after {
            // if there is no event after the place, none was cut
            Some(after) if after + 1 < first && after < last => {
                let why = format!("is before the log's calls, which begin with {first}; go on from the job's state");
                Err(self.gone(app, "cut", &why).into())
            }
            _ => Ok(first),
        }
    }

    fn gone(&self, app: &App, reason: &str, why: &str) -> HttpReply {
        let first = app.board.first(self.job);
        let error = format!("after {why}");
        refusal(
            410,
            json!({"error": error, "field": "after", "reason": reason, "first": first, "log": app.board.log()}),
        )
    }
}
