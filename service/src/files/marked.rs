//! The marker of a job: the file that says whose files a place has.
use super::{Refusal, Stop, Storage};
use serde_json::Value;
use std::ops::Deref;

/// Whose files a place has.
#[derive(Clone)]
pub struct Owner {
    pub job: String,
    /// When the job was opened: another service may have a job of the same name.
    pub opened: u64,
}

impl Owner {
    /// Of a job, by its state.
    pub fn of(job: &str, state: &Value) -> Owner {
        Owner { job: job.to_string(), opened: state["opened"].as_u64().unwrap_or_default() }
    }

    /// The marker's name.
    pub fn marker(&self) -> String {
        format!(".relkvanu-{}", self.job)
    }

    /// What the marker says.
    pub fn text(&self) -> String {
        format!("{}{}, from this folder.\n", begins(&self.job), self.opened)
    }
}

/// How the marker of a job begins.
pub fn begins(job: &str) -> String {
    format!("relkvanu discard deletes files of the job {job}, opened at ")
}

/// A place that has the marker of a job.
pub struct Marked {
    place: Box<dyn Storage>,
    marker: String,
}

impl Marked {
    /// Holds the marker of this job. Fails if there is none, or it is that of another job.
    pub fn open(mut place: Box<dyn Storage>, owner: &Owner) -> Result<Marked, Stop> {
        let marker = owner.marker();
        match place.hold(&marker)? {
            Some(text) if text == owner.text() => Ok(Marked { place, marker }),
            Some(_) => Err(Stop::Never(Refusal::OtherMarker, other_marker(&*place, &marker))),
            None => Err(Stop::Never(Refusal::NoMarker, no_marker(&*place, &marker))),
        }
    }

    pub fn marker(&self) -> &str {
        &self.marker
    }

    /// It still has its marker.
    pub fn check(&self) -> Result<(), Stop> {
        if self.place.is_marked()? {
            return Ok(());
        }
        Err(Stop::Never(Refusal::NoMarker, no_marker(&*self.place, &self.marker)))
    }
}

impl Deref for Marked {
    type Target = dyn Storage;

    fn deref(&self) -> &Self::Target {
        &*self.place
    }
}

/// What is said of a place that is not marked.
pub fn no_marker(place: &dyn Storage, name: &str) -> String {
    let may_be = if place.is_bucket() {
        "it may be the wrong bucket, or --prefix is wrong"
    } else {
        "it may be the wrong folder, or its disk is not mounted"
    };
    format!(
        "{} has no file {name}: {may_be}. If it is the job's, run relkvanu clean --job NAME --once --init",
        place.title()
    )
}

fn other_marker(place: &dyn Storage, name: &str) -> String {
    format!(
        "{}/{name} names another job, or a job of this name of another service: its files have other numbers. If the folder is of \
         this one, run relkvanu clean --job NAME --once --init",
        place.title()
    )
}
