//! Time: lengths that count a suspension of the machine, and the moments that calls are given, which never go back.
use std::time::{Duration, SystemTime, UNIX_EPOCH};
use thiserror::Error;

/// How far the moments may be from the system's clock and still follow it.
pub const FOLLOWED: Duration = Duration::from_secs(24 * 3600);
/// Moments this near the system's clock count as equal to it, in milliseconds.
const NEAR: u64 = 20;
/// While moments follow the system's clock, they are this part faster or slower than it.
const PART: u64 = 10;

/// A point in time for lengths. It goes on while the machine is suspended, unlike `Instant`: a lease does not wait.
#[derive(Clone, Copy, Debug, PartialEq, Eq, PartialOrd, Ord)]
pub struct Moment(Duration);

impl Moment {
    pub fn now() -> Moment {
        let mut time = libc::timespec { tv_sec: 0, tv_nsec: 0 };
        // SAFETY: the call writes one timespec, to a place that is ours.
        let is_read = unsafe { libc::clock_gettime(libc::CLOCK_BOOTTIME, &raw mut time) } == 0;
        assert!(is_read, "Linux has had CLOCK_BOOTTIME since 2.6.39");
        let seconds = u64::try_from(time.tv_sec).unwrap_or(0);
        Moment(Duration::new(seconds, u32::try_from(time.tv_nsec).unwrap_or(0)))
    }

    /// The machine's start.
    #[cfg(test)]
    pub fn first() -> Moment {
        Moment(Duration::ZERO)
    }

    pub fn elapsed(self) -> Duration {
        Moment::now().0.saturating_sub(self.0)
    }

    /// Milliseconds since the machine's start.
    pub fn millis(self) -> u64 {
        millis(self.0)
    }
}

/// The system's clock, in milliseconds of Unix time.
pub fn wall() -> u64 {
    millis(SystemTime::now().duration_since(UNIX_EPOCH).unwrap_or(Duration::ZERO))
}

/// How fast moments go.
#[derive(Clone, Copy, Debug, PartialEq, Eq)]
enum Pace {
    Slow,
    Even,
    Fast,
}

/// Counts milliseconds of Unix time on from its start. It follows a system's clock that was set by going a tenth faster or slower: so
/// no step of that clock expires a record, or stops checkpoints.
pub struct Clock {
    base: u64,
    since: Moment,
    pace: Pace,
}

impl Clock {
    /// Starts at the system's time, or at `floor`, the last moment of the log, if that is later.
    pub fn starting_after(floor: u64) -> Clock {
        Clock { base: wall().max(floor), since: Moment::now(), pace: Pace::Even }
    }

    pub fn now(&self) -> u64 {
        self.base.saturating_add(self.pace.of(millis(self.since.elapsed())))
    }

    /// Follows the system's clock, unless that is more than a day away. Returns how many milliseconds the moments are ahead of it.
    pub fn follow(&mut self) -> i64 {
        let (now, wall) = (self.now(), wall());
        let pace = Pace::towards(now, wall);
        // each new base would lose a part of a millisecond
        if pace != self.pace {
            *self = Clock { base: now, since: Moment::now(), pace };
        }
        signed(now).saturating_sub(signed(wall))
    }
}

impl Pace {
    fn towards(now: u64, wall: u64) -> Pace {
        match now.abs_diff(wall) {
            apart if apart <= NEAR || apart > millis(FOLLOWED) => Pace::Even,
            _ if now > wall => Pace::Slow,
            _ => Pace::Fast,
        }
    }

    fn of(self, elapsed: u64) -> u64 {
        match self {
            Pace::Slow => elapsed - elapsed / PART,
            Pace::Even => elapsed,
            Pace::Fast => elapsed + elapsed / PART,
        }
    }
}

/// The system's clock is more than a day ahead of the last moment that the database has.
#[derive(Debug, PartialEq, Eq, Error)]
#[error(
    "the clock of this machine says {}, and the service last ran at {}, more than a day before: if the clock is right, start with --accept-clock",
    shown(*.now),
    shown(*.last)
)]
pub struct FarAhead {
    now: u64,
    last: u64,
}

/// Refuses such a clock: what it would give to calls is kept for good.
pub fn check(last: u64) -> Result<(), FarAhead> {
    let now = wall();
    if last == 0 || now <= last.saturating_add(millis(FOLLOWED)) {
        return Ok(());
    }
    Err(FarAhead { now, last })
}

/// A moment as text.
pub fn shown(moment: u64) -> String {
    UNIX_EPOCH
        .checked_add(Duration::from_millis(moment))
        .filter(|_| moment < LAST_SHOWN)
        .map_or_else(|| format!("{moment} ms"), |time| humantime::format_rfc3339_seconds(time).to_string())
}

/// The first moment of the year 10000, which has no such text.
const LAST_SHOWN: u64 = 253_402_300_800_000;

fn signed(number: u64) -> i64 {
    i64::try_from(number).unwrap_or(i64::MAX)
}

pub fn millis(time: Duration) -> u64 {
    u64::try_from(time.as_millis()).unwrap_or(u64::MAX)
}

#[cfg(test)]
mod tests {
    use super::*;

    #[test]
    fn moments_follow_a_clock_that_is_near() {
        let day = millis(FOLLOWED);
        assert_eq!(Pace::towards(1000, 1000), Pace::Even);
        assert_eq!(Pace::towards(5000, 1000), Pace::Slow);
        assert_eq!(Pace::towards(1000, 5000), Pace::Fast);
        assert_eq!(Pace::towards(1000, 1001 + day), Pace::Even);
        assert_eq!(Pace::towards(1001 + day, 1000), Pace::Even);
        assert_eq!([Pace::Slow, Pace::Even, Pace::Fast].map(|pace| pace.of(100)), [90, 100, 110]);
    }

    #[test]
    fn moments_never_go_back_and_a_pace_that_goes_on_has_its_base() {
        let mut clock = Clock::starting_after(wall() + 10_000);
        for _ in 0..50 {
            let before = (clock.now(), clock.pace, clock.since);
            assert!(clock.follow() > 0 && clock.now() >= before.0);
            assert!(clock.pace != before.1 || clock.since == before.2);
        }
        assert_eq!(clock.pace, Pace::Slow);
    }

    #[test]
    fn a_clock_that_is_ahead_by_more_than_a_day_is_refused() {
        let day = millis(FOLLOWED);
        assert!(check(0).is_ok() && check(wall()).is_ok() && check(wall() + 400 * day).is_ok());
        assert!(check(wall() - day + 60_000).is_ok());
        let last = wall() - day - 1000;
        assert!(check(last).is_err_and(|far| far.last == last && far.now >= last + day));
        let told = FarAhead { now: 1_700_000_000_000, last: 1_600_000_000_000 }.to_string();
        let wanted = "the clock of this machine says 2023-11-14T22:13:20Z, and the service last ran at 2020-09-13T12:26:40Z, more than a day before";
        assert_eq!(told, format!("{wanted}: if the clock is right, start with --accept-clock"));
        assert_eq!(shown(1_000), "1970-01-01T00:00:01Z");
        assert_eq!(shown(u64::MAX), format!("{} ms", u64::MAX));
    }
}
