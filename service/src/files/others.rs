//! Other jobs whose files are in the same place. Each job that gives out names begins with 1, so two of them need names that differ.
use super::marked::begins;
use super::{FileNames, Refusal, Stop, Storage};
use crate::http::is_name;
use serde_json::{json, Value};
use std::collections::BTreeSet;

/// How the name of each marker begins.
pub const MARK: &str = ".relkvanu-";
/// What follows a marker's name in the names of the files beside it.
const BESIDE: [&str; 2] = [NAMES, BEGUN];
/// The marker that an engine's storage has by itself, and how it says whose it is.
const STORAGE: &str = ".relkvanu-storage";
const STORAGE_OF: &str = "relkvanu: state files of the job ";
/// The file in which a cleaner says how the files are named.
const NAMES: &str = ".names";
/// The file in which it says which files it deletes now.
pub const BEGUN: &str = ".begun";

/// What a job needs if another job in the folder has not written down how its files are named.
#[derive(Clone, Copy, Debug, PartialEq, Eq)]
pub enum Need {
    /// A prefix or a suffix.
    Prefix,
    /// That somebody looks, since this is the first run in the folder.
    Look,
}

/// Refuses a folder with the marker of a job that is named as a file beside this job's marker is, or the other way round. Each of the two
/// would overwrite what the other one wrote.
fn check_markers(place: &dyn Storage, own: &str) -> Result<(), Stop> {
    let clash = |one: &str, other: &str| [NAMES, BEGUN].iter().any(|end| one.strip_suffix(end) == Some(other));
    let Some(other) = others(place, own)?.into_iter().find(|other| clash(other, own) || clash(own, other)) else {
        return Ok(());
    };
    Err(Stop::Never(Refusal::Names, format!(
        "another job has files in {}, as {other} says: one of the two jobs needs a folder of its own, since the marker of one is named \
         as a file beside the marker of the other",
        place.title()
    )))
}

/// Refuses a folder in which another job may have files of the same names.
pub fn check(place: &dyn Storage, own: &str, names: &FileNames, need: Need) -> Result<(), Stop> {
    check_markers(place, own)?;
    for other in others(place, own)? {
        let why = match names_of(place, &other)? {
            Some(others) if names.may_be_those_of(&others) => "so --prefix or --suffix is needed that differs from its own",
            Some(_) => continue,
            None if names.prefix.is_empty() && names.suffix.is_empty() => "so --prefix or --suffix is needed",
            None if need == Need::Look => {
                "so --prefix or --suffix is needed that differs from its own. If it does, run relkvanu clean --job NAME --once --init"
            }
            None => continue,
        };
        let path = place.title();
        return Err(Stop::Never(Refusal::Names, format!(
            "another job has files in {path}, as {other} says: {why}. If that job was deleted, delete {other} and {other}{NAMES}"
        )));
    }
    Ok(())
}

/// Refuses other names than those that the job's files have had here: none of its files would be found, and another job could take the
/// names that they have.
pub fn check_own(place: &dyn Storage, own: &str, names: &FileNames) -> Result<(), Stop> {
    match names_of(place, own)? {
        Some(FileNames { prefix, suffix }) if prefix != names.prefix || suffix != names.suffix => Err(Stop::Never(Refusal::Names, format!(
            "{}/{own}{NAMES} says that the files of this job are named {prefix}NUMBER{suffix}: is --prefix or --suffix wrong? If the \
             files have other names now, run relkvanu clean --job NAME --once --init",
            place.title()
        ))),
        _ => Ok(()),
    }
}

/// Writes down how the files of the job are named, for cleaners of other jobs. What is known stays, unless it is to be said
/// `anew`. Returns whether it was not known.
pub fn say(place: &dyn Storage, own: &str, names: &FileNames, anew: bool) -> Result<bool, Stop> {
    if names_of(place, own)?.is_some() && !anew {
        return Ok(false);
    }
    let text = json!({"prefix": names.prefix, "suffix": names.suffix});
    place.write(&format!("{own}{NAMES}"), &format!("{text}\n"))?;
    Ok(true)
}

/// Forgets how they are named: no file was there.
pub fn forget(place: &dyn Storage, own: &str) -> Result<(), Stop> {
    place.remove(&format!("{own}{NAMES}"))
}

fn names_of(place: &dyn Storage, marker: &str) -> Result<Option<FileNames>, Stop> {
    let text = place.read(&format!("{marker}{NAMES}"))?.unwrap_or_default();
    let said: Value = serde_json::from_str(&text).unwrap_or_default();
    let named = said["prefix"].as_str().zip(said["suffix"].as_str());
    Ok(named.map(|(prefix, suffix)| FileNames { prefix: prefix.to_string(), suffix: suffix.to_string() }))
}

/// The markers of other jobs.
fn others(place: &dyn Storage, own: &str) -> Result<Vec<String>, Stop> {
    let names = place.beginning(MARK)?.into_iter();
    let known: BTreeSet<String> = names.filter(|name| name.strip_prefix(MARK).is_some_and(is_name)).collect();
    let mut found = Vec::new();
    for name in known.iter().filter(|name| *name != own) {
        if !(is_beside(name, own, &known) || is_own_storage(place, name, own)?) || is_marker(place, name)? {
            found.push(name.clone());
        }
    }
    Ok(found)
}

/// Whether a file is the marker of the storage of this job's engine.
fn is_own_storage(place: &dyn Storage, name: &str, own: &str) -> Result<bool, Stop> {
    let job = own.strip_prefix(MARK).unwrap_or_default();
    Ok(name == STORAGE
        && place.read(name)?.is_some_and(|text| text.strip_prefix(STORAGE_OF) == Some(&format!("{job}\n"))))
}

/// Whether a file says that it is the marker of the job by which it is named. A job may be named as a file beside another one's marker is.
fn is_marker(place: &dyn Storage, name: &str) -> Result<bool, Stop> {
    let job = name.strip_prefix(MARK).unwrap_or_default();
    Ok(place.read(name)?.is_some_and(|text| text.starts_with(&begins(job))))
}

/// Whether a file is one of those beside a marker, or one of them that is being written.
fn is_beside(name: &str, own: &str, found: &BTreeSet<String>) -> bool {
    let shorter = BESIDE.iter().find_map(|end| name.strip_suffix(end));
    shorter.is_some_and(|name| name == own || found.contains(name) || is_beside(name, own, found))
}
