//! A turn that finds the garbage of a folder or a bucket, and deletes it. Garbage has a name that the job gave out, and nobody will ever use it. So
//! it may run at any time, beside the job's tasks, beside another one, and late.
use super::discard::away;
use super::Shared;
use crate::files::{self, FileNames, Found, Gone, JobStorage, Marked, Need, Owner, Stop};
use crate::log;
use relkvanu_client::Job;
use std::collections::BTreeMap;
use std::fmt;
use std::io::Write;
use std::time::Instant;

/// How many files one request asks of.
const PAGE: usize = 10_000;

/// Files by their numbers: one that is being written has another name.
type Page = BTreeMap<u64, Vec<Found>>;

/// The sums of a sweep.
#[derive(Debug, Default)]
pub struct Swept {
    listed: u64,
    pub garbage: u64,
    bytes: u64,
    deleted: u64,
    pub failed: u64,
    pub unissued: u64,
}

impl fmt::Display for Swept {
    fn fmt(&self, f: &mut fmt::Formatter) -> fmt::Result {
        let Swept { listed, garbage, bytes, deleted, failed, unissued } = self;
        write!(
            f,
            "listed={listed} garbage={garbage} bytes={bytes} deleted={deleted} failed={failed} unissued={unissued}"
        )
    }
}

/// Looks through the place of a job's files, which is opened anew, so a disk that is mounted again is found.
pub async fn sweep(shared: &Shared, name: &str, job: &Job, storage: &JobStorage) -> Result<Swept, Stop> {
    let began = Instant::now();
    let owner = Owner::of(name, &job.state().await.map_err(away)?);
    let place = Marked::open(storage.open(&owner)?, &owner)?;
    let names = storage.names();
    files::check(&*place, place.marker(), &names, Need::Prefix)?;
    let mut sweep = Sweep { shared, name, job, names: &names, place: &place, swept: Swept::default() };
    let told = sweep.pages().await;
    let sums = format!("{} seconds={:.1}", sweep.swept, began.elapsed().as_secs_f64());
    if shared.is_one {
        say(&[sums])?;
    } else if sweep.swept.garbage + sweep.swept.unissued > 0 {
        log::info(&format!("job {name}: {sums}"));
    }
    told?;
    shared.metrics.swept(name, &sweep.swept);
    Ok(sweep.swept)
}

/// A sweep of a place.
struct Sweep<'a> {
    shared: &'a Shared,
    name: &'a str,
    job: &'a Job,
    names: &'a FileNames,
    place: &'a Marked,
    swept: Swept,
}

impl Sweep<'_> {
    async fn pages(&mut self) -> Result<(), Stop> {
        let place = self.place;
        let mut listing = place.pages(&self.names.prefix)?;
        loop {
            let found = listing.next(PAGE)?;
            if found.is_empty() {
                return Ok(());
            }
            let page = self.numbered(found);
            if !page.is_empty() {
                self.page(&page).await?;
            }
        }
    }

    /// In a bucket no file is being written under another name.
    fn numbered(&self, found: Vec<Found>) -> Page {
        let mut page = Page::new();
        for found in found {
            let is_bucket = self.place.is_bucket();
            let number =
                if is_bucket { self.names.number(&found.name) } else { self.names.number_or_part(&found.name) };
            if let Some(number) = number {
                page.entry(number).or_default().push(found);
            }
        }
        page
    }

    async fn page(&mut self, page: &Page) -> Result<(), Stop> {
        let numbers: Vec<u64> = page.keys().copied().collect();
        let (garbage, unissued) = self.job.garbage(&numbers).await.map_err(away)?;
        let (garbage, unissued) = (named(page, &garbage)?, named(page, &unissued)?);
        self.swept.listed += page.values().map(Vec::len).sum::<usize>() as u64;
        let mut lines = self.garbage(&garbage)?;
        lines.extend(unissued.iter().map(|found| {
            self.swept.unissued += 1;
            format!("unissued {} {}", self.place.title_of(&found.name), self.bytes(found).unwrap_or_default())
        }));
        if self.shared.is_one {
            say(&lines)?;
        }
        Ok(())
    }

    /// Of a file that is there.
    fn bytes(&self, found: &Found) -> Option<u64> {
        found.bytes.or_else(|| self.place.bytes(&found.name))
    }

    /// Deletes garbage, if that is asked for. Returns a line for each file but those that another sweep has deleted.
    fn garbage(&mut self, garbage: &[&Found]) -> Result<Vec<String>, Stop> {
        let sized = garbage.iter().filter_map(|found| Some((found.name.clone(), self.bytes(found)?)));
        let (names, bytes): (Vec<String>, Vec<u64>) = sized.unzip();
        self.swept.garbage += names.len() as u64;
        self.swept.bytes += bytes.iter().sum::<u64>();
        if !self.shared.deletes || names.is_empty() {
            let line = |(name, bytes): (&String, &u64)| format!("garbage {} {bytes}", self.place.title_of(name));
            return Ok(names.iter().zip(&bytes).map(line).collect());
        }
        self.place.check()?;
        let gone = self.place.delete(&names)?;
        self.place.check()?;
        let each = names.iter().zip(&bytes).zip(&gone);
        Ok(each.map(|((name, bytes), gone)| self.deleted(name, *bytes, gone)).collect())
    }

    /// The line of a file after its deletion. One that another sweep has deleted meanwhile is gone too.
    fn deleted(&mut self, name: &str, bytes: u64, gone: &Gone) -> String {
        let name = self.place.title_of(name);
        if let Gone::Failed(why) = gone {
            self.swept.failed += 1;
            self.shared.metrics.garbage_failed(self.name);
            return format!("failed {name} {bytes} {why}");
        }
        self.swept.deleted += 1;
        self.shared.metrics.garbage_deleted(self.name, bytes);
        format!("deleted {name} {bytes}")
    }
}

/// These files, which are on the page.
fn named<'a>(page: &'a Page, files: &[u64]) -> Result<Vec<&'a Found>, Stop> {
    let found = files.iter().map(|file| page.get(file)).collect::<Option<Vec<_>>>();
    let strange = || Stop::Again("the service's answer has a file that was not in the question".to_string());
    found.map(|found| found.into_iter().flatten().collect()).ok_or_else(strange)
}

/// Writes lines to the standard output.
fn say(lines: &[String]) -> Result<(), Stop> {
    let mut out = std::io::stdout().lock();
    let written = lines.iter().try_for_each(|line| writeln!(out, "{line}")).and_then(|()| out.flush());
    written.map_err(|error| Stop::Again(format!("the output: {error}")))
}
