//! When each job has to be ticked.
use std::collections::{BTreeSet, HashMap};

/// The moments of jobs, which are named by their places.
#[derive(Default)]
pub struct Timer {
    queue: BTreeSet<(u64, usize)>,
    moments: HashMap<usize, u64>,
}

impl Timer {
    /// Sets or clears a job's moment.
    pub fn set(&mut self, place: usize, moment: Option<u64>) {
        if let Some(old) = self.moments.remove(&place) {
            self.queue.remove(&(old, place));
        }
        if let Some(moment) = moment {
            self.moments.insert(place, moment);
            self.queue.insert((moment, place));
        }
    }

    /// The next moment of all.
    pub fn next(&self) -> Option<u64> {
        self.queue.first().map(|(moment, _)| *moment)
    }

    /// Takes out the jobs whose moment has come, each with that moment.
    pub fn take_due(&mut self, now: u64) -> Vec<(u64, usize)> {
        let due: Vec<(u64, usize)> = self.queue.range(..=(now, usize::MAX)).copied().collect();
        for (_, place) in &due {
            self.set(*place, None);
        }
        due
    }
}

#[cfg(test)]
mod tests {
    use super::*;

    #[test]
    fn takes_what_is_due_once() {
        let mut timer = Timer::default();
        timer.set(0, Some(30));
        timer.set(1, Some(10));
        timer.set(2, Some(20));
        timer.set(2, Some(40));
        timer.set(3, Some(5));
        timer.set(3, None);
        assert_eq!(timer.next(), Some(10));
        assert_eq!(timer.take_due(30), vec![(10, 1), (30, 0)]);
        assert_eq!(timer.take_due(30), vec![]);
        assert_eq!(timer.next(), Some(40));
    }
}
