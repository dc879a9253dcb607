//! Deletion of answers under old keys, in pieces between two commits.
use crate::log;
use crate::metrics::Metrics;
use crate::store::Store;
use std::time::{Duration, Instant};

/// How long answers are kept under their key, in milliseconds.
const KEEP: u64 = 24 * 3_600_000;
/// How many keys a piece has, beside as many as came since the last one. So they go at least as fast as they come.
const PIECE: u64 = 1000;
/// From a piece that found no more old keys to the next.
const EACH: Duration = Duration::from_secs(1);
/// From a piece that failed to the next.
const REST: Duration = Duration::from_secs(60);

pub struct OldKeys {
    next: Instant,
    came: u64,
    /// Since when there were always more old keys than a piece has.
    behind: Option<Instant>,
}

impl OldKeys {
    pub fn new() -> OldKeys {
        OldKeys { next: Instant::now(), came: 0, behind: None }
    }

    /// How long until the next piece is due.
    pub fn wait(&self) -> Duration {
        self.next.saturating_duration_since(Instant::now())
    }

    /// Deletes a piece if one is due. `came` keys were committed since the last call, and `now` is the moment.
    pub fn work(&mut self, store: &mut dyn Store, metrics: &Metrics, came: usize, now: u64) {
        self.came += came as u64;
        if !self.wait().is_zero() {
            return;
        }
        let (asked, most) = (Instant::now(), PIECE + self.came);
        let rest = match store.forget_keys(now.saturating_sub(KEEP), most) {
            Ok(may_be_more) => {
                self.came = 0;
                if may_be_more {
                    Duration::ZERO
                } else {
                    EACH
                }
            }
            Err(why) => {
                log::warn(&format!("old keys stay: {why}"));
                REST
            }
        };
        self.next = Instant::now() + rest;
        self.behind = (rest != EACH).then(|| self.behind.unwrap_or(asked));
        metrics.upkeep.keys_behind(self.behind.map_or(Duration::ZERO, |since| since.elapsed()));
    }
}
