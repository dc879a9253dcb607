//! The jobs of a service as it lists them, and what a cleaner knows of each between two turns.
use super::deletions::Deletions;
use super::Kind;
use crate::files::JobStorage;
use serde_json::Value;
use std::time::{Duration, Instant};

/// How long it waits after a turn that failed: the first time, and at most.
const FIRST_PAUSE: Duration = Duration::from_millis(500);
const LONGEST_PAUSE: Duration = Duration::from_secs(60);
/// The same if somebody has to look.
const FIRST_LOOK: Duration = Duration::from_secs(5);
const LONGEST_LOOK: Duration = Duration::from_secs(600);
/// How often files are looked for that were taken and not reported, as by a process that was killed.
const LOOK_EACH: Duration = Duration::from_secs(60);
/// After what time without a turn a place is closed.
const CLOSE_AFTER: Duration = Duration::from_secs(60);

/// A job in the list of the service.
#[derive(Clone, Debug, PartialEq, Eq)]
pub struct Listed {
    pub name: String,
    pub opened: u64,
    /// Files that wait for deletion, and those that were taken and not reported.
    pub waiting: u64,
    pub taken: u64,
    pub storage: Option<JobStorage>,
}

impl Listed {
    /// A row of the list; `None` if it is none.
    pub fn of(told: &Value) -> Option<Listed> {
        Some(Listed {
            name: told["name"].as_str()?.to_string(),
            opened: told["opened"].as_u64()?,
            waiting: told["files"]["waiting"].as_u64()?,
            taken: told["files"]["taken"].as_u64()?,
            storage: serde_json::from_value(told["storage"].clone()).ok(),
        })
    }
}

/// The turns of one kind of a job.
#[derive(Debug)]
pub struct Turns {
    /// Since when one runs.
    pub since: Option<Instant>,
    /// When the next one may begin.
    pub due: Instant,
    pause: Option<Duration>,
    /// Whether one came to its end, and why the last one failed.
    pub has_ended: bool,
    pub stopped: Option<&'static str>,
    /// Whether it was told that the one that runs hangs.
    pub is_told: bool,
}

impl Turns {
    fn new(now: Instant) -> Turns {
        Turns { since: None, due: now, pause: None, has_ended: false, stopped: None, is_told: false }
    }

    pub fn may_begin(&self, now: Instant) -> bool {
        self.since.is_none() && now >= self.due
    }

    pub fn begin(&mut self, now: Instant) {
        (self.since, self.is_told) = (Some(now), false);
    }

    /// One has ended; the next one may begin at this moment.
    pub fn end(&mut self, due: Instant) {
        (self.since, self.due, self.pause, self.stopped) = (None, due, None, None);
        self.has_ended = true;
    }

    /// One has failed, or a part of what it should do. Pauses grow.
    pub fn fail(&mut self, now: Instant, stopped: Option<&'static str>, needs_look: bool) {
        let (first, longest) = if needs_look { (FIRST_LOOK, LONGEST_LOOK) } else { (FIRST_PAUSE, LONGEST_PAUSE) };
        let pause = self.pause.map_or(first, |pause| (pause * 2).clamp(first, longest));
        self.end(now + pause);
        (self.pause, self.stopped) = (Some(pause), stopped);
    }
}

/// What is known of a job.
pub struct Known {
    /// Tells turns of this job from those of an earlier one of the same name, or in another storage.
    pub number: u64,
    pub listed: Listed,
    /// Of each kind.
    turns: [Turns; 2],
    /// The place of the files, kept open between two turns, and when it was used last.
    pub deletions: Option<Deletions>,
    used: Instant,
    /// When files were looked for that were taken and not reported.
    looked: Option<Instant>,
    /// Files of which all were absent: none is taken again before one of these is there.
    pub absent: Vec<u64>,
    /// Why the metrics say that it is not cleaned.
    pub shown: Option<&'static str>,
}

impl Known {
    pub fn new(number: u64, listed: Listed, now: Instant) -> Known {
        let turns = [Turns::new(now), Turns::new(now)];
        Known { number, listed, turns, deletions: None, used: now, looked: None, absent: Vec::new(), shown: None }
    }

    pub fn turns(&mut self, kind: Kind) -> &mut Turns {
        &mut self.turns[kind as usize]
    }

    pub fn of(&self, kind: Kind) -> &Turns {
        &self.turns[kind as usize]
    }

    /// Whether files that were taken and not reported are to be looked for.
    pub fn wants_look(&self, now: Instant) -> bool {
        self.looked.is_none_or(|looked| self.listed.taken > 0 && now >= looked + LOOK_EACH)
    }

    /// Whether a turn of this kind is to begin. The first one of a job makes sure of its place, also if no file waits, and comes before
    /// garbage is looked for.
    pub fn wants(&self, kind: Kind, now: Instant) -> bool {
        let has_some = kind == Kind::Garbage || self.listed.waiting > 0 || self.wants_look(now);
        self.of(kind).may_begin(now) && has_some
    }

    /// Files were looked for that were taken and not reported, or have to be looked for anew.
    pub fn look(&mut self, now: Option<Instant>) {
        self.looked = now;
    }

    /// Whether its place is known to be good.
    pub fn works(&self) -> bool {
        self.stopped().is_none() && self.turns.iter().any(|turns| turns.has_ended)
    }

    /// Why it is not cleaned.
    pub fn stopped(&self) -> Option<&'static str> {
        self.turns.iter().find_map(|turns| turns.stopped)
    }

    /// Whether nothing of this kind is left for a run that ends.
    pub fn is_over(&self, kind: Kind) -> bool {
        let turns = self.of(kind);
        turns.has_ended && (kind == Kind::Garbage || self.listed.waiting == 0 || turns.stopped.is_some())
    }

    /// Keeps a place open for the next turn.
    pub fn keep(&mut self, deletions: Option<Deletions>, now: Instant) {
        (self.deletions, self.used) = (deletions, now);
    }

    /// Closes a place that was not used for a while.
    pub fn close_unused(&mut self, now: Instant) {
        if now >= self.used + CLOSE_AFTER {
            self.deletions = None;
        }
    }
}

#[cfg(test)]
mod tests {
    use super::*;

    #[test]
    fn pauses_grow_until_a_turn_ends() {
        let now = Instant::now();
        let mut turns = Turns::new(now);
        let mut failed = |needs_look| {
            turns.begin(now);
            turns.fail(now, Some("storage"), needs_look);
            turns.due - now
        };
        let pauses: Vec<u64> = (0..9).map(|_| failed(false).as_millis() as u64).collect();
        assert_eq!(pauses, [500, 1000, 2000, 4000, 8000, 16000, 32000, 60000, 60000]);
        assert_eq!((failed(true).as_secs(), (0..4).map(|_| failed(true).as_secs()).max()), (120, Some(600)));
        turns.end(now);
        assert!(turns.may_begin(now) && turns.stopped.is_none() && turns.has_ended);
        turns.fail(now, None, true);
        assert_eq!((turns.due - now).as_secs(), 5);
    }

    #[test]
    fn a_turn_begins_if_there_is_something_to_do() {
        let now = Instant::now();
        let listed = Listed { name: "a".to_string(), opened: 7, waiting: 0, taken: 0, storage: None };
        let mut known = Known::new(1, listed, now);
        assert!(known.wants(Kind::Released, now) && known.wants(Kind::Garbage, now));
        known.look(Some(now));
        assert!(!known.wants(Kind::Released, now));
        known.listed.taken = 2;
        assert!(!known.wants(Kind::Released, now) && known.wants(Kind::Released, now + LOOK_EACH));
        known.listed.waiting = 1;
        assert!(known.wants(Kind::Released, now));
        known.turns(Kind::Released).begin(now);
        assert!(!known.wants(Kind::Released, now));
    }
}
