//! The image that is under way: it is made beside the writer, and then written. A long one is written in parts, each in a round of its own,
//! so calls wait for a part at most.
use super::imager::Imaged;
use super::jobs::Jobs;
use super::keeper::Upkeep;
use super::round::Round;
use crate::model::Keeping;
use crate::store::SavedImage;
use std::collections::BTreeMap;

#[derive(Default)]
pub struct Images {
    state: State,
    /// Images that were given up and of which the database has parts, by the places of their jobs.
    given_up: BTreeMap<usize, u64>,
}

/// One image is under way at a time, of the job at this place.
#[derive(Default)]
enum State {
    #[default]
    Idle,
    Wanted(usize),
    Made(usize),
    /// It is written, from this part on.
    Written(usize, Box<SavedImage>, usize),
}

impl Images {
    pub fn is_of(&self, place: usize) -> bool {
        matches!(&self.state, State::Wanted(its) | State::Made(its) | State::Written(its, ..) if *its == place)
    }

    /// Begins an image of the job at a place, unless another one is under way.
    pub fn begin(&mut self, place: usize) -> bool {
        let is_idle = matches!(self.state, State::Idle);
        if is_idle {
            self.state = State::Wanted(place);
        }
        is_idle
    }

    /// The place of the job whose image is to be made. It is told once.
    pub fn wanted(&mut self) -> Option<usize> {
        let State::Wanted(place) = self.state else {
            return None;
        };
        self.state = State::Made(place);
        Some(place)
    }

    /// An image was made. Returns the place of its job if memory ran out. The job may have been deleted meanwhile.
    pub fn image_made(&mut self, imaged: Imaged) -> Option<usize> {
        let Imaged { place, saved } = imaged;
        if !matches!(self.state, State::Made(its) if its == place) {
            return None;
        }
        self.state = saved.map_or(State::Idle, |saved| State::Written(place, Box::new(saved), 0));
        matches!(self.state, State::Idle).then_some(place)
    }

    /// The place of the job whose image was made and is to be written.
    pub fn to_write(&self) -> Option<usize> {
        match self.state {
            State::Written(place, ..) => Some(place),
            _ => None,
        }
    }

    /// Adds to a round what is to be written next of the image that was made. With its last part it counts.
    pub fn write(&mut self, jobs: &mut Jobs, keeping: Keeping, round: &mut Round) {
        let State::Written(place, saved, part) = std::mem::take(&mut self.state) else {
            return;
        };
        let (job, long) = (jobs.at(place), saved.image.is_long().then_some(saved.image.seq));
        let text = long.and_then(|_| saved.image.part(part));
        let is_whole = text.as_ref().is_none_or(|(_, is_last)| *is_last);
        round.upkeep = Some(Upkeep { place, before: job.retention.clone(), long, is_whole });
        round.touched.insert(place);
        round.group.image_parts.extend(text.map(|(text, _)| text));
        if is_whole {
            let gone = job.retention.add(&saved.image, keeping);
            round.group.dropped.extend(gone.into_iter().map(|seq| (saved.image.job, seq)));
            round.group.images.push(*saved);
        } else {
            self.state = State::Written(place, saved, part + 1);
        }
    }

    /// The job at a place was deleted, with all parts of its images.
    pub fn forget_job(&mut self, place: usize) {
        if self.is_of(place) {
            self.state = State::Idle;
        }
        self.given_up.remove(&place);
    }

    /// The parts of a long image can't be written, or can't be deleted.
    pub fn give_up(&mut self, place: usize, long: u64) {
        if self.is_of(place) {
            self.state = State::Idle;
        }
        self.given_up.insert(place, long);
    }

    /// Adds to a round the deletion of what was written of an image that was given up, if there is one of the job at a place.
    pub fn forget(&mut self, place: usize, jobs: &mut Jobs, round: &mut Round) {
        if let Some(long) = self.given_up.remove(&place) {
            let job = jobs.at(place);
            round.group.dropped.push((job.opening.number, long));
            round.upkeep = Some(Upkeep { place, before: job.retention.clone(), long: Some(long), is_whole: false });
            round.touched.insert(place);
        }
    }

    /// The places of jobs with an image that was given up.
    pub fn given_up(&self) -> impl Iterator<Item = usize> + '_ {
        self.given_up.keys().copied()
    }
}
