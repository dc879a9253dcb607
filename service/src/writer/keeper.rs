//! Images and cuts of the log, which each round writes beside its calls.
use super::board::Board;
use super::imager::Imaged;
use super::images::Images;
use super::jobs::Jobs;
use super::round::Round;
use crate::log;
use crate::metrics::Metrics;
use crate::model::{Job, Keeping, Moment, Retention};
use std::collections::{BTreeMap, BTreeSet};
use std::time::Duration;

/// How many old calls a round deletes, beside as many as it adds.
const CUT_CALLS: u64 = 1000;

/// After an image or a cut could not be written, none is tried for this time, and that of the same job for twice as long as before.
const PAUSE: Duration = Duration::from_secs(2);
const LONGEST_PAUSE: Duration = Duration::from_secs(256);

pub struct Keeper {
    keeping: Keeping,
    /// The places of jobs that may need an image or a cut.
    attend: BTreeSet<usize>,
    /// The jobs whose last image or cut could not be written.
    failing: BTreeMap<usize, Pause>,
    last_failure: Option<Moment>,
    images: Images,
    /// How many bytes the log of each job may take, and when that was reckoned.
    level: u64,
    reckoned: Option<Moment>,
}

/// How often it looks how many bytes the logs take.
const LOOK_EACH: Duration = Duration::from_secs(1);

/// An image or a cut that is put off.
struct Pause {
    since: Moment,
    length: Duration,
}

/// What a round writes for one job beside calls, and what the database has of its log if that can't be written.
pub struct Upkeep {
    pub place: usize,
    pub before: Retention,
    /// The place of a long image, of which the database may have parts if this can't be written.
    pub long: Option<u64>,
    /// Whether it is no part of an image before the last.
    pub is_whole: bool,
}

impl Keeper {
    pub fn new(keeping: Keeping) -> Keeper {
        let (attend, failing) = (BTreeSet::new(), BTreeMap::new());
        let (last_failure, images, reckoned) = (None, Images::default(), None);
        Keeper { keeping, attend, failing, last_failure, images, level: u64::MAX, reckoned }
    }

    /// How many records of a job are kept once they have ended.
    pub fn keep_records(&self) -> u64 {
        self.keeping.keep_records
    }

    /// What is kept of a job: fewer calls if the logs of all jobs take too many bytes.
    pub fn keeping(&self, job: &Job) -> Keeping {
        let calls = self.keeping.keep_calls.min(job.retention.calls_in(self.level));
        Keeping { keep_calls: calls, ..self.keeping }
    }

    /// Whether it can tell what is kept of a job: that may depend on the logs of all jobs, which are not all replayed at first.
    pub fn can_tell(&self) -> bool {
        self.keeping.keep_bytes == 0 || self.reckoned.is_some()
    }

    /// Reckons how many bytes the log of each job may take, and attends to those that take more.
    fn reckon(&mut self, jobs: &mut Jobs) {
        let is_fresh = self.reckoned.is_some_and(|at| at.elapsed() < LOOK_EACH);
        if self.keeping.keep_bytes == 0 || is_fresh {
            return;
        }
        self.reckoned = Some(Moment::now());
        let places = jobs.places();
        let taken: Vec<u64> = places.iter().map(|place| bytes_of(jobs.at(*place))).collect();
        let level = level(taken.clone(), self.keeping.keep_bytes);
        self.level = level;
        for (place, _) in places.into_iter().zip(taken).filter(|(_, bytes)| *bytes > level) {
            let job = jobs.at(place);
            let keeping = self.keeping(job);
            job.retention.set_limits(keeping);
            self.attend.insert(place);
        }
    }

    /// These jobs were called, or are new here.
    pub fn called(&mut self, places: &BTreeSet<usize>) {
        self.attend.extend(places);
    }

    /// A round that writes a part of one image at most, or deletes a piece of a log. Between two rounds a job is as the log says. `added`
    /// calls were written in the last one.
    pub fn work(&mut self, jobs: &mut Jobs, board: &Board, added: usize) -> Round {
        let mut round = Round::default();
        if self.keeping.keep_bytes > 0 && board.replay.of_all().is_some() {
            return round;
        }
        self.reckon(jobs);
        if self.last_failure.is_some_and(|at| at.elapsed() < PAUSE) || self.work_on_image(jobs, &mut round) {
            return round;
        }
        let mut later = BTreeSet::new();
        while let Some(place) = self.attend.pop_first() {
            if is_put_off(&self.failing, place) || self.images.is_of(place) {
                later.insert(place);
                continue;
            }
            let job = jobs.at(place);
            if job.is_deleted {
                continue;
            }
            if job.retention.wants_image(job.seq, self.keeping(job)) {
                later.insert(place);
                if self.images.begin(place) {
                    continue;
                }
                break;
            }
            let before = job.retention.clone();
            let (number, most) = (job.opening.number, CUT_CALLS + added as u64);
            let (images, summaries) = job.retention.take_old();
            round.group.dropped.extend(images.into_iter().map(|seq| (number, seq)));
            round.group.dropped_summaries.extend(summaries.into_iter().map(|seq| (number, seq)));
            round.group.cuts.extend(job.retention.cut(number, most, board.history(&job.opening.name)));
            if !round.group.is_empty() {
                round.upkeep = Some(Upkeep { place, before, long: None, is_whole: true });
                round.touched.insert(place);
                later.insert(place);
                break;
            }
            // the history has to read calls before they are deleted
            later.extend(job.retention.is_cutting().then_some(place));
        }
        self.attend.append(&mut later);
        round
    }

    /// Adds to a round what is to be written or deleted of an image. Returns whether there is something.
    fn work_on_image(&mut self, jobs: &mut Jobs, round: &mut Round) -> bool {
        let given_up = self.images.given_up().find(|place| !is_put_off(&self.failing, *place));
        if let Some(place) = given_up {
            self.images.forget(place, jobs, round);
        } else if let Some(place) = self.images.to_write() {
            let keeping = self.keeping(jobs.at(place));
            self.images.write(jobs, keeping, round);
        }
        round.upkeep.is_some()
    }

    /// The job at a place was deleted, or given up.
    pub fn forget(&mut self, place: usize) {
        self.images.forget_job(place);
        self.attend.remove(&place);
        self.failing.remove(&place);
    }

    /// The place of the job whose image is to be made. It is told once.
    pub fn wanted(&mut self) -> Option<usize> {
        self.images.wanted()
    }

    /// An image was made, or memory ran out.
    pub fn image_made(&mut self, jobs: &mut Jobs, imaged: Imaged, metrics: &Metrics) {
        let number = jobs.at(imaged.place).opening.number;
        if imaged.saved.as_ref().is_some_and(|saved| saved.image.job != number) {
            // the job was given up meanwhile, and another one has its place
            return;
        }
        if let Some(place) = self.images.image_made(imaged) {
            let job = jobs.at(place);
            log::warn(&format!("image job={} calls={}: memory ran out; the log grows", job.opening.name, job.seq));
            metrics.image_fails(&job.opening.name, true);
            job.retention.postpone(job.seq);
        }
    }

    /// The database rolled a round back: takes the image or the cut out of it, so its calls are written without.
    pub fn put_off(&mut self, jobs: &mut Jobs, round: &mut Round, metrics: &Metrics, why: &str) {
        let Some(Upkeep { place, before, long, .. }) = round.upkeep.take() else {
            return;
        };
        let group = &mut round.group;
        let is_image = long.is_some() || !group.images.is_empty();
        group.images.clear();
        group.image_parts.clear();
        group.dropped.clear();
        group.dropped_summaries.clear();
        group.cuts.clear();
        if let Some(long) = long {
            self.images.give_up(place, long);
        }
        let job = jobs.at(place);
        job.retention = before;
        let length = self.failing.get(&place).map_or(PAUSE, |pause| (pause.length * 2).min(LONGEST_PAUSE));
        self.failing.insert(place, Pause { since: Moment::now(), length });
        self.last_failure = Some(Moment::now());
        let (name, what) = (&job.opening.name, if is_image { "an image" } else { "a cut" });
        log::warn(&format!("{what} of job {name} is put off for {} s, and calls go on: {why}", length.as_secs()));
        metrics.image_fails(name, true);
    }

    /// A round was written.
    pub fn written(&mut self, round: &Round, jobs: &Jobs, metrics: &Metrics) {
        if let Some(Upkeep { place, is_whole: true, .. }) = &round.upkeep {
            self.failing.remove(place);
            metrics.image_fails(jobs.name(*place), false);
        }
    }
}

fn is_put_off(failing: &BTreeMap<usize, Pause>, place: usize) -> bool {
    failing.get(&place).is_some_and(|pause| pause.since.elapsed() < pause.length)
}

fn bytes_of(job: &Job) -> u64 {
    job.retention.bytes(job.seq)
}

/// The greatest number that each of these may have so that all have no more than `most` together; the smaller ones stay as they are.
fn level(mut taken: Vec<u64>, most: u64) -> u64 {
    taken.sort_unstable();
    let (mut rest, mut left) = (most, taken.len() as u64);
    for bytes in taken {
        if bytes.saturating_mul(left) > rest {
            return rest / left;
        }
        rest -= bytes;
        left -= 1;
    }
    u64::MAX
}

#[cfg(test)]
mod tests {
    use super::level;

    #[test]
    fn large_logs_are_cut_and_small_ones_are_not() {
        assert_eq!(level(vec![], 10), u64::MAX);
        assert_eq!(level(vec![5, 5], 10), u64::MAX);
        assert_eq!(level(vec![100, 1, 200], 61), 30);
        assert_eq!(level(vec![100, 200], 100), 50);
        assert_eq!(level(vec![100, 60, 200], 240), 90);
        assert_eq!(level(vec![u64::MAX, u64::MAX], 3), 1);
    }
}
