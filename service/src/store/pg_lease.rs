//! The lease of a database of PostgreSQL: which process leads, in which epoch, and since when it has not renewed its lease. A leader that does
//! not renew it for as long as it lasts leads no more: another process takes its place, and no commit of it succeeds.
use super::error::DbError;
use super::pq::{Connection, Failed};
use super::rows::MOST_STARTS;
use crate::model::{lengths_text, Moment};
use std::time::Duration;

const LEADER: &str = "select name, beat, lease from leader";
/// One statement, so a process that is suspended meanwhile holds no lock. It passes over a leader whose commit is under way, which holds the
/// row's lock, and over one that has renewed its lease since it was seen.
const TAKE: &str = "with silent as (select from leader where name = $1 and beat = $2::bigint for update skip locked)
    update leader set name = $3, address = $4, epoch = epoch + 1, beat = beat + 1, lease = $5::float8,
        until = clock_timestamp() + $5::float8 * interval '1 s'
    from silent returning epoch";
const LEAVE: &str = "update leader set name = '', until = '-infinity' where name = $1";
/// A process that leads no more writes none. Parts of images are deleted once in an epoch: one that comes late deletes none that this process
/// has written since.
const BEGIN: &str = "with l as (select epoch from leader where name = $1 for no key update),
    d as (delete from log_start using l where log_start.number <= l.epoch - $4::bigint),
    p as (delete from image_part using l where not exists (select from image where image.job = image_part.job and image.seq = image_part.seq)
        and not exists (select from log_start where log_start.number = l.epoch))
    insert into log_start(number, name, lengths) select epoch, $2, $3 from l
    on conflict (number) do update set name = excluded.name, lengths = excluded.lengths returning 1";

/// The process that leads. Its name is empty if none does.
#[derive(Clone, Debug, PartialEq, Eq)]
pub struct Leader {
    pub name: String,
    beat: i64,
    lease: Duration,
}

impl Leader {
    pub fn read(connection: &mut Connection) -> Result<Leader, DbError> {
        let row: Option<[_; 3]> = connection.run(LEADER)?.pop().and_then(|row| row.try_into().ok());
        let Some([Some(name), Some(beat), Some(lease)]) = row else {
            return Err(DbError::Odd("the table leader has no row"));
        };
        let (beat, lease) = (beat.parse().ok(), lease.parse().ok().and_then(|it| Duration::try_from_secs_f64(it).ok()));
        let (Some(beat), Some(lease)) = (beat, lease) else {
            return Err(DbError::Odd("the row of leader has no number"));
        };
        Ok(Leader { name, beat, lease })
    }

    pub fn is_none(&self) -> bool {
        self.name.is_empty()
    }
}

/// The leader as it was seen last, and since when it has not renewed its lease: by the clock of this machine, since that of the database may
/// be set while it serves.
#[derive(Default)]
pub struct Watch(Option<(Leader, Moment)>);

impl Watch {
    /// Notes the leader as it is now. Returns whether it has renewed its lease since it was noted last, or is another one.
    pub fn note(&mut self, leader: &Leader) -> bool {
        if self.0.as_ref().is_some_and(|(seen, _)| seen == leader) {
            return false;
        }
        self.lives(leader);
        true
    }

    /// Counts anew for a leader whose place could not be taken: it commits at this moment, or has just done so.
    pub fn lives(&mut self, leader: &Leader) {
        self.0 = Some((leader.clone(), Moment::now()));
    }

    /// Whether a leader has not renewed its lease for the length of it, and of this one.
    pub fn is_over(&self, leader: &Leader, lease: Duration) -> bool {
        let is_silent = |(seen, since): &(Leader, Moment)| seen == leader && since.elapsed() >= leader.lease.max(lease);
        leader.is_none() || self.0.as_ref().is_some_and(is_silent)
    }
}

/// Takes the place of a leader that is as it was seen, and commits nothing now. Returns the new epoch; `None` if that fails. The name is one
/// that no other process ever had.
pub fn take(
    connection: &mut Connection,
    seen: &Leader,
    [name, address, lease]: [&str; 3],
) -> Result<Option<u64>, DbError> {
    let rows = connection.query(TAKE, &[&seen.name, &seen.beat.to_string(), name, address, lease])?;
    let Some(row) = rows.into_iter().next() else {
        return Ok(None);
    };
    let epoch = row.into_iter().next().flatten().and_then(|epoch| epoch.parse().ok());
    epoch.map(Some).ok_or(DbError::Odd("the row of leader has no epoch"))
}

/// Leads no more, so that another process may lead at once.
pub fn leave(connection: &mut Connection, name: &str) -> Result<(), Failed> {
    connection.query(LEAVE, &[name]).map(|_| ())
}

/// See [`Store::begin`](super::Store::begin).
pub fn begin(connection: &mut Connection, name: &str, log: &str, lengths: &[(i64, u64)]) -> Result<(), DbError> {
    match connection.query(BEGIN, &[name, log, &lengths_text(lengths), &MOST_STARTS.to_string()])?.len() {
        1 => Ok(()),
        _ => Err(DbError::NotLeading),
    }
}

#[cfg(test)]
mod tests {
    use super::*;

    fn leader(name: &str, beat: i64) -> Leader {
        Leader { name: name.to_string(), beat, lease: Duration::from_millis(30) }
    }

    #[test]
    fn a_leader_that_commits_stays() {
        let (mut watch, hour) = (Watch::default(), Duration::from_secs(3600));
        assert!(!watch.is_over(&leader("a", 7), Duration::ZERO));
        assert!(watch.note(&leader("a", 7)) && !watch.note(&leader("a", 7)));
        std::thread::sleep(Duration::from_millis(40));
        assert!(watch.is_over(&leader("a", 7), Duration::ZERO) && !watch.is_over(&leader("a", 7), hour));
        assert!(watch.note(&leader("a", 8)) && !watch.is_over(&leader("a", 8), Duration::ZERO));
        // another one, or one whose commit is under way, counts anew
        std::thread::sleep(Duration::from_millis(40));
        assert!(watch.note(&leader("b", 8)) && !watch.is_over(&leader("b", 8), Duration::ZERO));
        std::thread::sleep(Duration::from_millis(40));
        watch.lives(&leader("b", 8));
        assert!(!watch.is_over(&leader("b", 8), Duration::ZERO));
    }

    #[test]
    fn nobody_leads_after_a_leader_has_left() {
        assert!(Watch::default().is_over(&leader("", 9), Duration::from_secs(3600)));
    }
}
