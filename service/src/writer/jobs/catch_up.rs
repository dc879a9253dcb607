//! How jobs are brought up to date with the log, in a number of statements that does not depend on that of the jobs.
use super::super::replay::{missing, repeat, resume, StartError};
use super::{Beat, Jobs};
use crate::log;
use crate::model::{Entry, Job, KeptImage};
use crate::store::{DbError, Listed, Reader};
use std::collections::{BTreeMap, BTreeSet};
use std::sync::Arc;

const PAGE: u32 = 10_000;
/// From which job on: all.
const ALL: i64 = i64::MIN;
/// How many calls are made between two reports that the work goes on.
const BEAT_EACH: usize = 256;
/// How many bytes of images are read at once, unless one alone has more.
const BATCH_BYTES: u64 = 16 << 20;

impl Jobs {
    /// Makes the calls of the log that these jobs have not made. Compares each answer.
    /// The number of statements does not depend on that of the jobs. Calls `beat` between them and between calls, and ends if that fails.
    pub fn catch_up(&mut self, reader: &mut dyn Reader, beat: Beat) -> Result<(), StartError> {
        let after = if self.read_to.is_some() { self.last_number } else { 0 };
        let changed = self.changed(reader)?;
        beat()?;
        let opened = self.open_new(reader, after)?;
        self.resume_all(opened.iter().copied(), reader, beat)?;
        // the place of a job that was deleted may be that of a new one
        let behind: BTreeSet<usize> = changed.into_iter().chain(opened).collect();
        self.read_logs(behind.into_iter().collect(), reader, beat)?;
        if !self.kept_out.is_empty() {
            // standbys look for calls from the last moment on, of whichever job it is
            self.last_moment = self.last_moment.max(self.read_to.unwrap_or(0));
        }
        Ok(())
    }

    /// Opens the jobs with numbers above this one that the database has and that are not there, and forgets those that were deleted. Returns
    /// the places of the former.
    fn open_new(&mut self, reader: &mut dyn Reader, after: i64) -> Result<Vec<usize>, StartError> {
        let openings = reader.jobs_after(after)?;
        if after == 0 {
            self.delete_all_but(&openings.iter().map(|opening| opening.number).collect());
        }
        let mut opened = Vec::new();
        for listed in openings {
            if !self.numbers.contains_key(&listed.number) && !self.kept_out.has(listed.number) {
                opened.extend(self.open_listed(listed)?);
            }
        }
        self.delete_gone(reader)?;
        opened.retain(|place| !self.jobs[*place].is_deleted);
        Ok(opened)
    }

    /// This process leads from now on, and nobody else writes. Takes out all jobs, those too that were kept out: each is brought up to date
    /// before it comes [back](Jobs::add). Only what few statements tell of all jobs is read here.
    pub fn take_over(&mut self, reader: &mut dyn Reader, beat: Beat) -> Result<Vec<Job>, StartError> {
        self.kept_out.clear();
        self.open_new(reader, 0)?;
        beat()?;
        self.take_phases(reader)?;
        self.take_storages(reader)?;
        beat()?;
        self.last_moment = self.last_moment.max(reader.last_moment()?);
        (self.places, self.numbers, self.empty) = Default::default();
        Ok(std::mem::take(&mut self.jobs).into_iter().filter(|job| !job.is_deleted).collect())
    }

    /// Opens a job that the database has, and returns its place; `None` if it is kept out.
    fn open_listed(&mut self, Listed { number, name, opening }: Listed) -> Result<Option<usize>, StartError> {
        let opened = opening
            .map_err(StartError::Unread)
            .and_then(|opening| self.open(opening).map_err(|why| StartError::NotOpened { job: name.clone(), why }));
        match opened {
            Ok(place) => Ok(Some(place)),
            Err(why) if why.is_of_one_job() => {
                self.last_number = self.last_number.max(number);
                self.kept_out.add(number, name, why);
                Ok(None)
            }
            Err(why) => Err(why),
        }
    }

    /// Reads the phases of jobs, whose calls have all been made here.
    fn take_phases(&mut self, reader: &mut dyn Reader) -> Result<(), StartError> {
        for (number, phase) in reader.phases()? {
            if let Some(place) = self.place_of(number) {
                match phase {
                    Ok(phase) => self.jobs[place].phase = phase,
                    Err(why) => self.keep_out(place, why.into())?,
                }
            }
        }
        Ok(())
    }

    /// Reads where the files of jobs are. A row that can't be read is as none: an operator says it again, and the job goes on.
    fn take_storages(&mut self, reader: &mut dyn Reader) -> Result<(), StartError> {
        for (number, storage) in reader.storages()? {
            let Some(place) = self.place_of(number) else { continue };
            let said = storage.map_err(|why| log::warn(&format!("job {}: {why}", self.jobs[place].opening.name)));
            self.jobs[place].storage = said.ok().map(Arc::new);
        }
        Ok(())
    }

    /// Reads rows of several jobs. A job whose row is bad is kept out, and those of the others are read again.
    fn read_of<T>(
        &mut self,
        reader: &mut dyn Reader,
        mut read: impl FnMut(&Jobs, &mut dyn Reader) -> Result<T, DbError>,
    ) -> Result<T, StartError> {
        loop {
            let why = match read(self, reader) {
                Ok(found) => return Ok(found),
                Err(why) => why,
            };
            match why.bad_job().and_then(|job| self.place_of(job)) {
                Some(place) => self.keep_out(place, why.into())?,
                None => return Err(why.into()),
            }
        }
    }

    /// The places of jobs that may have calls which were not made here.
    fn changed(&mut self, reader: &mut dyn Reader) -> Result<Vec<usize>, StartError> {
        let Some(since) = self.read_to else {
            self.read_to = Some(reader.last_moment()?);
            return Ok((0..self.jobs.len()).collect());
        };
        let Some(changed) = reader.changed(since)? else {
            return Ok((0..self.jobs.len()).collect());
        };
        // calls that are committed later have this moment or a later one
        self.read_to = changed.iter().map(|(_, at)| *at).max().max(Some(since));
        Ok(changed.iter().filter_map(|(job, _)| self.place_of(*job)).collect())
    }

    /// The place of a job by its number.
    pub fn place_of(&self, number: i64) -> Option<usize> {
        self.numbers.get(&number).copied()
    }

    /// Makes the calls of several jobs, and goes on from images where calls were cut.
    fn read_logs(&mut self, mut behind: Vec<usize>, reader: &mut dyn Reader, beat: Beat) -> Result<(), StartError> {
        while !behind.is_empty() {
            behind.retain(|place| !self.jobs[*place].is_deleted);
            let stopped = self.read_pages(&behind, reader, beat)?;
            // the leader may have cut faster than this process reads
            behind = self.resume_all(stopped.keys().copied(), reader, beat)?;
            let gaps = stopped.iter().filter_map(|(place, found)| Some((*place, (*found)?)));
            let gaps: Vec<(usize, u64)> = gaps.filter(|(place, _)| !behind.contains(place)).collect();
            self.keep_out_gaps(&gaps, reader)?;
        }
        Ok(())
    }

    /// Keeps jobs out whose next call is missing, though the log has a later one.
    fn keep_out_gaps(&mut self, gaps: &[(usize, u64)], reader: &mut dyn Reader) -> Result<(), StartError> {
        if !gaps.is_empty() {
            // a job may have been deleted meanwhile, whose calls then go
            self.delete_gone(reader)?;
        }
        for (place, seq) in gaps.iter().copied().filter(|(place, _)| !self.jobs[*place].is_deleted).collect::<Vec<_>>()
        {
            let (job, why) = (self.jobs[place].opening.name.clone(), missing(self.jobs[place].seq));
            self.keep_out(place, StartError::Damaged { job, seq, why })?;
        }
        Ok(())
    }

    /// Makes the calls that follow in the logs of several jobs. Returns the places of those jobs that have none, or that have a later one,
    /// and which.
    fn read_pages(
        &mut self,
        places: &[usize],
        reader: &mut dyn Reader,
        beat: Beat,
    ) -> Result<BTreeMap<usize, Option<u64>>, StartError> {
        let mut behind: BTreeMap<i64, usize> =
            places.iter().map(|place| (self.jobs[*place].opening.number, *place)).collect();
        let mut stopped: BTreeMap<usize, Option<u64>> = places.iter().map(|place| (*place, None)).collect();
        let mut from = ALL;
        loop {
            beat()?;
            let page = self.read_of(reader, |jobs, reader| {
                let there = behind.range(from..).filter(|(job, _)| jobs.numbers.contains_key(job));
                let asked = there.map(|(job, place)| (*job, jobs.jobs[*place].seq));
                reader.logs(&asked.collect::<Vec<_>>(), PAGE)
            })?;
            behind.retain(|job, place| {
                let is_there = self.numbers.contains_key(job);
                if !is_there {
                    stopped.remove(place);
                }
                is_there
            });
            match page.last() {
                // the jobs before it have been read, if the rows came in order: then the last page, of all jobs, has none
                Some(entry) => from = entry.job,
                None if from == ALL => return Ok(stopped),
                None => from = ALL,
            }
            for entries in page.chunk_by(|one, next| one.job == next.job) {
                let (number, first) = (entries[0].job, entries[0].seq);
                let Some(place) = behind.get(&number).copied() else {
                    continue;
                };
                if first != self.jobs[place].seq + 1 {
                    behind.remove(&number);
                    stopped.insert(place, Some(first));
                    continue;
                }
                if let Err(why) = self.make_all(place, entries, beat) {
                    behind.remove(&number);
                    self.keep_out(place, why)?;
                }
                stopped.remove(&place);
            }
        }
    }

    fn make_all(&mut self, place: usize, entries: &[Entry], beat: Beat) -> Result<(), StartError> {
        let job = &mut self.jobs[place];
        for piece in entries.chunks(BEAT_EACH) {
            beat()?;
            piece.iter().try_for_each(|entry| repeat(job, entry))?;
            self.made += piece.len() as u64;
        }
        self.last_moment = self.last_moment.max(job.at);
        Ok(())
    }

    /// Goes on from the last images of jobs that are after the calls which these have. Returns the places of those jobs. If the leader
    /// has deleted an image meanwhile, its job stays as it is: there is a later one.
    fn resume_all(
        &mut self,
        places: impl Iterator<Item = usize>,
        reader: &mut dyn Reader,
        beat: Beat,
    ) -> Result<Vec<usize>, StartError> {
        let numbers: BTreeSet<i64> = places.map(|place| self.jobs[place].opening.number).collect();
        if numbers.is_empty() {
            return Ok(Vec::new());
        }
        let images = self.read_of(reader, |jobs, reader| {
            reader.images_of(&numbers.iter().copied().filter(|job| jobs.numbers.contains_key(job)).collect::<Vec<_>>())
        })?;
        // of each job the last one stays
        let mut newest: BTreeMap<i64, KeptImage> = images.into_iter().collect();
        newest.retain(|job, image| self.place_of(*job).is_some_and(|place| image.seq > self.jobs[place].seq));
        for batch in batches(&newest) {
            self.resume_batch(&batch, reader, beat)?;
        }
        Ok(newest.keys().filter_map(|job| self.place_of(*job)).collect())
    }

    /// Goes on from the images at these places.
    fn resume_batch(&mut self, batch: &[(i64, u64)], reader: &mut dyn Reader, beat: Beat) -> Result<(), StartError> {
        let images = self.read_of(reader, |jobs, reader| {
            let there = batch.iter().copied().filter(|(job, _)| jobs.numbers.contains_key(job));
            reader.images_at(&there.collect::<Vec<_>>())
        })?;
        for saved in images {
            beat()?;
            let Some(place) = self.place_of(saved.image.job) else { continue };
            match resume(&mut self.jobs[place], &saved) {
                Ok(()) => self.last_moment = self.last_moment.max(saved.image.at),
                Err(why) => self.keep_out(place, why)?,
            }
        }
        Ok(())
    }
}

/// Places of images, in groups whose texts have some megabytes.
fn batches(images: &BTreeMap<i64, KeptImage>) -> Vec<Vec<(i64, u64)>> {
    let (mut batches, mut bytes) = (Vec::<Vec<(i64, u64)>>::new(), 0);
    for (job, image) in images {
        bytes += image.bytes;
        match batches.last_mut() {
            Some(batch) if bytes <= BATCH_BYTES => batch.push((*job, image.seq)),
            _ => {
                batches.push(vec![(*job, image.seq)]);
                bytes = image.bytes;
            }
        }
    }
    batches
}
