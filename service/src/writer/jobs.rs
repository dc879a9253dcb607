//! The jobs of the service, brought up to date with the log.
mod catch_up;

use super::damaged::KeptOut;
use super::message::ForKeeping;
use super::replay::StartError;
use crate::model::{Job, NoJob, Opening};
use crate::store::Reader;
use std::collections::{BTreeMap, HashMap, HashSet};
use std::ops::Bound;

/// Reports that the work goes on. An error ends it.
pub type Beat<'a> = &'a mut dyn FnMut() -> Result<(), StartError>;

/// The jobs, each at its place, with their names and numbers.
#[derive(Default)]
pub struct Jobs {
    jobs: Vec<Job>,
    places: HashMap<String, usize>,
    numbers: BTreeMap<i64, usize>,
    /// Places of jobs that were deleted, which others may get.
    empty: Vec<usize>,
    /// How many calls of logs were made again.
    pub made: u64,
    last_number: i64,
    last_moment: u64,
    /// The last moment of the logs when they were read.
    read_to: Option<u64>,
    /// The greatest number of a job that was deleted, and those jobs of which the database has something left.
    last_gone: i64,
    leftovers: Vec<i64>,
    /// Jobs whose logs can't be replayed. They have no place.
    kept_out: KeptOut,
}

impl Jobs {
    pub fn len(&self) -> usize {
        self.jobs.len()
    }

    /// The jobs that are kept out.
    pub fn kept_out(&self) -> &KeptOut {
        &self.kept_out
    }

    /// Why none of the jobs can be replayed, if there is any. Then this program, or the database, is the wrong one.
    pub fn take_hopeless(&mut self) -> Option<StartError> {
        self.places.is_empty().then(|| std::mem::take(&mut self.kept_out).into_first()).flatten()
    }

    /// Keeps a job out whose log can't be replayed.
    pub fn keep_out_job(&mut self, number: i64, name: String, why: StartError) {
        self.kept_out.add(number, name, why);
    }

    /// Keeps a job out, of which nothing is served or written then. An error that is not of one job alone ends the start.
    fn keep_out(&mut self, place: usize, why: StartError) -> Result<(), StartError> {
        if !why.is_of_one_job() {
            return Err(why);
        }
        let (number, name) = (self.number_at(place), self.jobs[place].opening.name.clone());
        self.keep_out_job(number, name, why);
        self.unopen(place);
        Ok(())
    }

    fn number_at(&self, place: usize) -> i64 {
        self.jobs[place].opening.number
    }

    /// Adds a job that is as its log says, and returns its place.
    pub fn add(&mut self, job: Job) -> usize {
        let (name, number) = (job.opening.name.clone(), job.opening.number);
        self.last_moment = self.last_moment.max(job.at);
        self.last_number = self.last_number.max(number);
        let place = self.empty.pop().unwrap_or(self.jobs.len());
        match self.jobs.get_mut(place) {
            Some(empty) => *empty = job,
            None => self.jobs.push(job),
        }
        self.places.insert(name, place);
        self.numbers.insert(number, place);
        place
    }

    pub fn at(&mut self, place: usize) -> &mut Job {
        &mut self.jobs[place]
    }

    pub fn name(&self, place: usize) -> &str {
        &self.jobs[place].opening.name
    }

    pub fn place(&self, name: &str) -> Option<usize> {
        self.places.get(name).copied()
    }

    /// The places of all jobs that are not deleted.
    pub fn places(&self) -> Vec<usize> {
        (0..self.jobs.len()).filter(|place| !self.jobs[*place].is_deleted).collect()
    }

    /// The places of at most so many jobs with numbers above this one, in the order of their numbers.
    pub fn places_after(&self, number: i64, most: usize) -> Vec<usize> {
        let after = (Bound::Excluded(number), Bound::Unbounded);
        self.numbers.range(after).take(most).map(|(_, place)| *place).collect()
    }

    /// Jobs that were deleted, of which the database has something left.
    pub fn leftovers(&self) -> Vec<i64> {
        self.leftovers.clone()
    }

    /// Whether the jobs that this is of are there.
    pub fn has(&self, given: &ForKeeping) -> bool {
        match given {
            ForKeeping::Summary(part) => self.place_of(part.job).is_some(),
            ForKeeping::Past(past) => past.iter().all(|record| self.place_of(record.job).is_some()),
        }
    }

    /// Forgets a job that was deleted. Another one may get its place.
    pub fn delete(&mut self, place: usize) {
        self.last_gone = self.last_gone.max(self.number_at(place));
        self.unopen(place);
    }

    /// Forgets the jobs that the database has as deleted. Returns whether there was one.
    fn delete_gone(&mut self, reader: &mut dyn Reader) -> Result<bool, StartError> {
        let gone = reader.gone()?;
        for (job, _) in &gone {
            self.kept_out.forget(*job);
        }
        self.leftovers = gone.iter().filter(|(_, is_empty)| *is_empty == 0).map(|(job, _)| *job).collect();
        self.last_gone = gone.iter().map(|(job, _)| *job).max().unwrap_or(0).max(self.last_gone);
        let places: Vec<usize> = gone.iter().filter_map(|(job, _)| self.place_of(*job)).collect();
        for place in &places {
            self.delete(*place);
        }
        Ok(!places.is_empty())
    }

    /// Forgets the jobs that are none of these: they were deleted, and the database need not know that any more.
    fn delete_all_but(&mut self, there: &HashSet<i64>) {
        self.kept_out.retain(there);
        let gone = self.numbers.iter().filter(|(number, _)| !there.contains(number)).map(|(_, place)| *place);
        for place in gone.collect::<Vec<_>>() {
            self.delete(place);
        }
    }

    /// A job's number in the database.
    pub fn number(&self, name: &str) -> Option<i64> {
        Some(self.jobs[self.place(name)?].opening.number)
    }

    /// The last moment of the log.
    pub fn last_moment(&self) -> u64 {
        self.last_moment
    }

    /// The number that a new job gets.
    pub fn next_number(&self) -> i64 {
        self.last_number.max(self.last_gone) + 1
    }

    /// Forgets a job that was opened, as if it had not been. Its number is passed over.
    pub fn unopen(&mut self, place: usize) {
        let job = &mut self.jobs[place];
        job.close();
        self.places.remove(&job.opening.name);
        self.numbers.remove(&job.opening.number);
        self.empty.push(place);
    }

    /// Opens a job, and returns its place.
    pub fn open(&mut self, opening: Opening) -> Result<usize, NoJob> {
        Job::open(opening).map(|job| self.add(job))
    }
}
