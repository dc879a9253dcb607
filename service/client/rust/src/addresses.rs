//! Which address of a service is asked next, and after what time.
use std::collections::hash_map::RandomState;
use std::hash::BuildHasher;
use std::sync::{Mutex, MutexGuard, PoisonError};
use std::time::Duration;
use tokio::time::Instant;

/// The addresses of a service, at which place is the one that is asked next, and when each may be asked again.
pub struct Addresses {
    urls: Vec<String>,
    now: Mutex<Now>,
}

struct Now {
    current: usize,
    not_before: Vec<Option<Instant>>,
}

impl Addresses {
    pub fn new(urls: Vec<String>) -> Addresses {
        let not_before = vec![None; urls.len()];
        Addresses { urls, now: Mutex::new(Now { current: 0, not_before }) }
    }

    pub fn len(&self) -> usize {
        self.urls.len()
    }

    /// The address that is asked next, and its place.
    pub fn current(&self) -> (usize, &str) {
        let place = self.lock().current;
        (place, &self.urls[place])
    }

    /// The address at this place has answered.
    pub fn answered(&self, place: usize) {
        self.lock().current = place;
    }

    /// Chooses the address after a try at `place` that failed: the leader, if it is one of these, or the next. The one
    /// that failed is not asked again before `pause` is over. Returns how long to wait.
    pub fn after(&self, place: usize, pause: Duration, leader: Option<&str>) -> Duration {
        let (count, at) = (self.urls.len(), Instant::now());
        let leads = self.urls.iter().position(|url| Some(url.as_str()) == leader);
        let mut now = self.lock();
        now.not_before[place] = at.checked_add(pause);
        let rest = |now: &Now, place: usize| {
            now.not_before[place].map_or(Duration::ZERO, |moment| moment.saturating_duration_since(at))
        };
        let next = (1..=count).map(|step| (place + step) % count).min_by_key(|place| rest(&now, *place));
        let leads = leads.filter(|place| rest(&now, *place).is_zero());
        now.current = leads.or(next).unwrap_or(place);
        rest(&now, now.current)
    }

    fn lock(&self) -> MutexGuard<'_, Now> {
        self.now.lock().unwrap_or_else(PoisonError::into_inner)
    }
}

/// A part of a pause between a half and the whole, so that clients that failed together do not come back together.
pub fn jittered(pause: Duration) -> Duration {
    let half = pause / 2;
    let parts = u32::try_from(RandomState::new().hash_one(0) % 1024).unwrap_or(0);
    half + half * parts / 1024
}

#[cfg(test)]
mod tests {
    use super::*;

    const PAUSE: Duration = Duration::from_secs(5);

    fn three() -> Addresses {
        Addresses::new(["http://a", "http://b", "http://c"].map(str::to_string).to_vec())
    }

    #[test]
    fn the_leader_is_asked_first() {
        let all = three();
        assert_eq!((all.after(0, PAUSE, Some("http://c")), all.current().0), (Duration::ZERO, 2));
        // unless it has just failed, or is none of these
        assert_eq!((all.after(2, PAUSE, Some("http://c")), all.current().0), (Duration::ZERO, 1));
        all.answered(2);
        assert_eq!((all.after(2, PAUSE, Some("http://d")), all.current().0), (Duration::ZERO, 1));
    }

    #[test]
    fn a_jittered_pause_is_within_it() {
        for _ in 0..100 {
            let pause = jittered(PAUSE);
            assert!(pause >= PAUSE / 2 && pause <= PAUSE, "{pause:?}");
        }
    }
}
