//! What a job knows of the files in a folder or a bucket: which records have all theirs there, and which files no record needs.
use super::commands::{OfJob, Restore, Savepoints};
use super::ended::Ended;
use super::run::print_answer;
use super::tables::{self, items};
use crate::files::{no_marker, FileNames, Owner, Stop, Storage, Where};
use crate::log;
use relkvanu_client::{Error, Job, Whole};
use serde_json::{json, Value};
use std::collections::{BTreeMap, BTreeSet};

/// Where the files are looked for.
struct Looked {
    place: Box<dyn Storage>,
    names: FileNames,
    /// Those that are there. The place is listed before the job is asked for its records.
    there: BTreeSet<u64>,
}

/// Lists the records that a restore may begin from: the complete ones. If a place is given, one of them has all its files there, or the
/// answer is no.
pub async fn savepoints(job: &Job, given: &Savepoints) -> Result<(), Ended> {
    let said_place = Some(&given.place).filter(|place| place.is_said());
    let looked = match said_place {
        Some(place) => Some(looked(job, &given.of, place, &given.names).await?),
        None => None,
    };
    let rows = rows(job, looked.as_ref()).await?;
    print_answer(given.of.at.json, &json!(rows), tables::savepoints)?;
    looked.map_or(Ok(()), |looked| looked.verdict(&rows))
}

/// Looks whether a record has all its files, before a restore to it drops all records behind it.
pub async fn look(job: &Job, given: &Restore, id: u64) -> Result<(), Ended> {
    let record = match job.record(id).await {
        // the answer to the restore says so
        Err(Error::Status { status: 404, .. }) => return Ok(()),
        told => told?,
    };
    // a record that no acknowledgement has given a file needs none
    if given.without_look || items(&record["live"]["acks"]).iter().all(|ack| items(&ack["files"]).is_empty()) {
        return Ok(());
    }
    if !given.place.is_said() {
        return Err(Ended::NotLooked(id));
    }
    let looked = looked(job, &given.of, &given.place, &given.names).await?;
    match &looked.lost(&job.load(id).await?)[..] {
        [] => Ok(()),
        lost => Err(Ended::Lost { id, files: lost.join(" "), place: looked.place.title() }),
    }
}

/// The last of these records that has all its files.
pub async fn last_whole(job: &Job, given: &Restore) -> Result<u64, Ended> {
    let looked = looked(job, &given.of, &given.place, &given.names).await?;
    let rows = rows(job, Some(&looked)).await?;
    looked.verdict(&rows)?;
    let whole = rows.iter().filter(|row| is_whole(row)).filter_map(|row| row["id"].as_u64());
    whole.max().ok_or(Ended::NoneWhole(looked.kind()))
}

/// The records that a restore may begin from, whole or not.
async fn rows(job: &Job, looked: Option<&Looked>) -> Result<Vec<Value>, Ended> {
    let state = job.state().await?;
    let latest = state["choice"]["id"].as_u64();
    let mut rows = Vec::new();
    for record in done(&state) {
        let id = record["id"].as_u64().unwrap_or_default();
        let told = job.record(id).await?;
        // one that has ended meanwhile can't be restored
        let whole = match job.load(id).await {
            Err(Error::Status { status: 404, .. }) => continue,
            whole => whole?,
        };
        rows.push(json!({
            "id": id, "kind": record["kind"], "latest": Some(id) == latest, "triggered": told["live"]["started"],
            "files": files_in(&whole).len(), "absent": looked.map(|it| it.lost(&whole)),
        }));
    }
    Ok(rows)
}

/// The files of a record, and how many bytes each has, if its task told them.
fn files_in(record: &Whole) -> BTreeMap<u64, Option<u64>> {
    record.parts.iter().flat_map(|part| part.files.iter().copied().zip(part.sizes.iter().copied())).collect()
}

fn is_whole(row: &Value) -> bool {
    row["absent"].as_array().is_some_and(Vec::is_empty)
}

/// Opens the place and lists it. A folder that has lost its marker is looked at all the same. That of a job which is asked over its socket has another one.
async fn looked(job: &Job, of: &OfJob, place: &Where, given: &FileNames) -> Result<Looked, Ended> {
    let storage = place.storage(given).map_err(Ended::Word)?.unwrap_or_default();
    let (names, is_bucket) = (storage.names(), storage.bucket.is_some());
    let ended = |stop: Stop| match stop {
        Stop::Again(why) if is_bucket => Ended::Away(why),
        stop => Ended::Place(stop.to_string()),
    };
    let owner = Owner::of(&of.job, &job.state().await?);
    let mut place = storage.open(&owner).map_err(ended)?;
    if !of.at.is_socket() && place.hold(&owner.marker()).map_err(ended)? != Some(owner.text()) {
        if is_bucket {
            return Err(Ended::Place(no_marker(&*place, &owner.marker())));
        }
        log::warn(&format!("{} has no marker of this job, {}", place.title(), owner.marker()));
    }
    let there = listed(&*place, &names).map_err(ended)?;
    Ok(Looked { place, names, there })
}

impl Looked {
    /// The files of a record that are not there, or have another length than their task told. An object of a bucket is whole, or not there.
    fn lost(&self, record: &Whole) -> Vec<String> {
        let files = files_in(record);
        let is_there = |file: u64, told: Option<u64>| {
            let has_length = || told.is_none() || self.place.bytes(&self.names.of(file)) == told;
            self.there.contains(&file) && (self.place.is_bucket() || has_length())
        };
        files.into_iter().filter(|(file, told)| !is_there(*file, *told)).map(|(file, _)| file.to_string()).collect()
    }

    fn kind(&self) -> &'static str {
        if self.place.is_bucket() {
            "bucket"
        } else {
            "folder"
        }
    }

    /// Whether a record has all its files.
    fn verdict(&self, rows: &[Value]) -> Result<(), Ended> {
        let kind = self.kind();
        if let Some(file) = none_there(rows) {
            log::warn(&format!(
                "no file of these records is in {}, as {}: most likely --{kind}, --prefix or --suffix is wrong, or the disk of the \
                 folder is not mounted. So cancel nothing before you have looked",
                self.place.title(),
                self.names.of(file)
            ));
        }
        if rows.iter().any(is_whole) {
            return Ok(());
        }
        Err(Ended::NoneWhole(kind))
    }
}

/// One of the files of these records, if they have some and all are absent.
fn none_there(rows: &[Value]) -> Option<u64> {
    let is_there = |row: &Value| row["files"].as_u64() > Some(items(&row["absent"]).len() as u64);
    let absent = rows.iter().find_map(|row| items(&row["absent"]).first());
    absent.filter(|_| !rows.iter().any(is_there))?.as_str()?.parse().ok()
}

/// The numbers of the files that are whole.
fn listed(place: &dyn Storage, names: &FileNames) -> Result<BTreeSet<u64>, Stop> {
    let found = place.beginning(&names.prefix)?;
    Ok(found.iter().filter_map(|name| names.number(name)).collect())
}

fn done(state: &Value) -> impl Iterator<Item = &Value> {
    items(&state["live"]).iter().filter(|record| record["done"] == true)
}

#[cfg(test)]
mod tests {
    use super::*;

    #[test]
    fn none_is_there_if_records_have_files_and_all_are_absent() {
        let row = |files: u64, absent: &[&str]| json!({"files": files, "absent": absent});
        for (rows, file) in [
            (vec![], None),
            (vec![row(0, &[])], None),
            (vec![row(2, &["4", "5"])], Some(4)),
            (vec![row(0, &[]), row(2, &["4", "5"]), row(1, &["4"])], Some(4)),
            (vec![row(2, &["4"])], None),
            (vec![row(2, &["4", "5"]), row(1, &[])], None),
            (vec![json!({"files": 2, "absent": null})], None),
        ] {
            assert_eq!(none_there(&rows), file, "{rows:?}");
        }
    }
}
