//! For how long a job's history has not read what was committed.
use std::sync::{Mutex, PoisonError};
use std::time::{Duration, Instant};

/// A place of the log that the history has not reached, and when it was first seen to be committed.
#[derive(Default)]
pub struct Lag(Mutex<Option<(u64, Instant)>>);

impl Lag {
    /// The log has `length` calls, and the history has read `read` of them.
    pub fn note(&self, length: u64, read: u64) {
        let mut behind = self.0.lock().unwrap_or_else(PoisonError::into_inner);
        *behind = match *behind {
            _ if read >= length => None,
            Some((place, since)) if read < place => Some((place, since)),
            _ => Some((length, Instant::now())),
        };
    }

    pub fn time(&self) -> Duration {
        let behind = self.0.lock().unwrap_or_else(PoisonError::into_inner);
        behind.map_or(Duration::ZERO, |(_, since)| since.elapsed())
    }
}

#[cfg(test)]
mod tests {
    use super::*;

    #[test]
    fn grows_until_the_place_is_read() {
        let (lag, pause) = (Lag::default(), Duration::from_millis(20));
        lag.note(10, 0);
        std::thread::sleep(pause);
        lag.note(20, 9);
        assert!(lag.time() >= pause);
        // from here on it is behind with another place
        let now = Instant::now();
        lag.note(20, 10);
        assert!(lag.0.lock().is_ok_and(|behind| behind.is_some_and(|(place, since)| place == 20 && since >= now)));
        lag.note(20, 20);
        assert_eq!(lag.time(), Duration::ZERO);
    }
}
