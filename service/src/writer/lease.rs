//! How long this process surely leads.
use crate::model::Moment;
use crate::store::{Committed, Failure, Group, Store};
use std::time::Duration;

/// A leader takes this part of its lease as over before it is: clocks are not equally fast, and an answer needs time to be sent.
const MARGIN: u32 = 3;

/// A lease counts from when it was asked for, which is before the database wrote it. A standby counts from when it saw it.
pub struct Lease {
    /// `None`: nobody else can lead.
    length: Option<Duration>,
    since: Moment,
}

impl Lease {
    /// The lease of a store that leads since it was asked then.
    pub fn of(length: Option<Duration>, asked: Moment) -> Lease {
        Lease { length, since: asked }
    }

    /// Commits a group. A commit that renews the lease counts from before the database wrote it.
    pub fn commit(&mut self, store: &mut dyn Store, group: &Group) -> Result<(), Failure> {
        let since = Moment::now();
        let committed = store.commit(group)?;
        self.committed(committed, since);
        Ok(())
    }

    /// A commit that began then was made.
    fn committed(&mut self, committed: Committed, since: Moment) {
        if committed.renews {
            self.since = since;
        }
    }

    /// How long ago it was renewed.
    pub fn age(&self) -> Duration {
        self.since.elapsed()
    }

    /// Whether nobody else leads while an answer is sent.
    pub fn is_sure(&self) -> bool {
        self.length.is_none_or(|length| self.age() < length.saturating_sub(length / MARGIN))
    }

    /// When it ends, in milliseconds since the machine's start.
    pub fn until(&self) -> u64 {
        self.length.map_or(u64::MAX, |length| self.since.millis().saturating_add(crate::model::millis(length)))
    }

    /// Whether it is renewed now, by a store that renews its own after so long.
    pub fn is_due(&self, beat: Duration) -> bool {
        self.age() >= beat
    }

    /// Renews it if that is due.
    pub fn keep(&mut self, store: &mut dyn Store) -> Result<(), Failure> {
        if self.is_due(store.beat()) {
            self.renew(store)?;
        }
        Ok(())
    }

    /// Renews it by an empty commit.
    pub fn renew(&mut self, store: &mut dyn Store) -> Result<(), Failure> {
        self.commit(store, &Group::default())
    }
}

#[cfg(test)]
mod tests {
    use super::*;

    /// Renewed at the machine's start, and so many tenths as long as the time since. So no pause of a busy machine matters.
    fn renewed_long_ago(tenths: u32) -> Lease {
        let since = Moment::first();
        Lease { length: Some(since.elapsed() * tenths / 10), since }
    }

    #[test]
    fn a_leader_is_sure_for_two_thirds_of_its_lease() {
        assert!(renewed_long_ago(16).is_sure());
        assert!(!renewed_long_ago(14).is_sure());
        assert!(!renewed_long_ago(9).is_sure());
        assert!(Lease { length: None, since: Moment::first() }.is_sure());
    }

    #[test]
    fn only_a_commit_that_renews_the_lease_counts() {
        let mut lease = renewed_long_ago(14);
        lease.committed(Committed { renews: false }, Moment::now());
        assert!(!lease.is_sure());
        lease.committed(Committed { renews: true }, Moment::now());
        assert!(lease.is_sure());
    }

    /// Its first commit may be long after another process could lead.
    #[test]
    fn a_lease_counts_from_when_it_was_asked_for() {
        assert_eq!(Lease::of(None, Moment::first()).since, Moment::first());
    }

    #[test]
    fn a_lease_is_renewed_once_it_is_as_old_as_a_beat() {
        let lease = renewed_long_ago(14);
        assert!(lease.is_due(lease.age()) && !lease.is_due(lease.age() * 2));
    }
}
