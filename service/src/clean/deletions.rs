//! Deletions in the place of a job's files: what is made sure of first, and what is written down of them.
use super::Shared;
use crate::files::{self, FileNames, Gone, Marked, Need, Owner, Refusal, Stop, Storage, BEGUN};
use crate::log;
use std::collections::HashSet;

/// The place that a cleaner works in. Its marker is locked, which keeps other cleaners out.
pub struct Deletions {
    marked: Marked,
    owner: Owner,
    names: FileNames,
    allow_absent: bool,
    /// Whether this run wrote down first how the files are named.
    says_first: bool,
}

impl Deletions {
    /// Begins in a place, and checks its marker, which says this. Makes the marker in the first run for a job, of which no file was taken before,
    /// or with `--init`.
    pub fn begin(
        place: Box<dyn Storage>,
        found: Option<String>,
        shared: &Shared,
        names: &FileNames,
        owner: &Owner,
        is_first: bool,
    ) -> Result<Deletions, Stop> {
        let (name, text) = (owner.marker(), owner.text());
        let is_ours = found.as_ref() == Some(&text);
        files::check(&*place, &name, names, if is_ours || shared.accepted.init { Need::Prefix } else { Need::Look })?;
        if !is_ours && (shared.accepted.init || found.is_none() && is_first) {
            place.write(&name, &text)?;
            log::info(&format!("{} is marked as the folder of the job {}", place.title(), owner.job));
        }
        let marked = Marked::open(place, owner)?;
        if !marked.lock()? {
            return Err(Stop::Busy(format!("another cleaner works in {}", marked.title())));
        }
        if !shared.accepted.init {
            files::check_own(&*marked, &name, names)?;
        }
        // on a full disk deletions matter most
        let says_first = files::say(&*marked, &name, names, shared.accepted.init).unwrap_or_else(|error| {
            log::warn(&format!("how the files are named can't be written: {error}"));
            false
        });
        // another cleaner may have begun meanwhile
        files::check(&*marked, &name, names, Need::Prefix)?;
        let (owner, names) = (owner.clone(), names.clone());
        Ok(Deletions { marked, owner, names, allow_absent: shared.accepted.allow_absent, says_first })
    }

    /// Whose place it is.
    pub fn owner(&self) -> &Owner {
        &self.owner
    }

    /// Refuses files of which none is there, as before.
    pub fn check_any(&self, files: &[u64]) -> Result<(), Stop> {
        let names: Vec<String> = files.iter().map(|file| self.names.of(*file)).collect();
        if self.allow_absent || self.marked.has_any(&names)? {
            return Ok(());
        }
        Err(Stop::Never(Refusal::AllAbsent, self.all_absent(&names)))
    }

    /// Deletes files for good. Deletes none if all are absent, unless an earlier run began with these, or it is allowed.
    pub fn delete(&self, files: &[u64]) -> Result<Vec<Gone>, Stop> {
        if files.is_empty() {
            return Ok(Vec::new());
        }
        let names: Vec<String> = files.iter().map(|file| self.names.of(*file)).collect();
        self.marked.check()?;
        if self.marked.has_any(&names)? {
            self.note(files);
        } else if !self.allow_absent && !self.has_begun(files)? {
            // the next run may have the right names
            if self.says_first {
                let _ = files::forget(&*self.marked, self.marked.marker());
            }
            return Err(Stop::Never(Refusal::AllAbsent, self.all_absent(&names)));
        }
        let gone = self.marked.delete(&names)?;
        // without the marker it may have been another place
        self.marked.check()?;
        for (name, gone) in names.iter().zip(&gone) {
            if let Gone::Failed(why) = gone {
                log::warn(&format!("{}/{name}: {why}", self.marked.title()));
            }
        }
        Ok(gone)
    }

    fn all_absent(&self, names: &[String]) -> String {
        let (count, place, name) = (names.len(), self.marked.title(), &names[0]);
        format!(
            "none of {count} files is in {place}, as {name}: is it the wrong folder, --prefix or --suffix? They wait for \
             deletion again. If they were deleted by others, run it once with --allow-absent"
        )
    }

    /// Writes down which files it deletes now. If it is killed before it reports, the next run finds them absent, and
    /// knows why.
    fn note(&self, files: &[u64]) {
        let text = files.iter().map(u64::to_string).collect::<Vec<_>>().join(" ");
        // on a full disk deletions matter most
        if let Err(error) = self.marked.note(&self.begun(), &format!("{text}\n")) {
            log::warn(&format!("{}: {error}", self.begun()));
        }
    }

    /// Whether an earlier run wrote down all these files.
    fn has_begun(&self, files: &[u64]) -> Result<bool, Stop> {
        let text = self.marked.read(&self.begun())?.unwrap_or_default();
        let begun: HashSet<u64> = text.split_whitespace().filter_map(|word| word.parse().ok()).collect();
        Ok(text.ends_with('\n') && files.iter().all(|file| begun.contains(file)))
    }

    fn begun(&self) -> String {
        format!("{}{BEGUN}", self.marked.marker())
    }
}

#[cfg(test)]
mod tests {
    use super::*;
    use crate::files::Folder;
    use std::fs;
    use std::path::PathBuf;

    /// A folder of the test's own with these files, which goes with it.
    struct Own(PathBuf);

    impl Own {
        fn new(test: &str, files: &[&str]) -> Own {
            let own = Own(std::env::temp_dir().join(format!("relkvanu-deletions-{test}-{}", std::process::id())));
            fs::create_dir(&own.0).expect("a folder");
            for name in files {
                fs::write(own.0.join(name), "state").expect("a file");
            }
            own
        }

        /// The deletions of a job there, which has its marker.
        fn of(&self, job: &str, prefix: &str) -> Result<Deletions, Stop> {
            let owner = Owner { job: job.to_string(), opened: 7 };
            let (place, names) =
                (Folder::open(&self.0)?, FileNames { prefix: prefix.to_string(), suffix: String::new() });
            place.write(&owner.marker(), &owner.text())?;
            let marked = Marked::open(Box::new(place), &owner)?;
            Ok(Deletions { marked, owner, names, allow_absent: false, says_first: false })
        }
    }

    impl Drop for Own {
        fn drop(&mut self) {
            let _ = fs::remove_dir_all(&self.0);
        }
    }

    /// The marker has the name of a file that is deleted.
    #[test]
    fn a_marker_that_goes_during_deletions_is_noticed() -> Result<(), Stop> {
        let own = Own::new("marker", &[".relkvanu-1", ".relkvanu-2", ".relkvanu-4"]);
        let deletions = own.of("3", ".relkvanu-")?;
        assert_eq!(deletions.delete(&[1, 9])?, [Gone::Deleted, Gone::Absent]);
        let is_noticed =
            |told| matches!(told, Err(Stop::Never(Refusal::NoMarker, why)) if why.contains("has no file .relkvanu-3"));
        assert!(is_noticed(deletions.delete(&[2, 3])));
        // none goes any more
        assert!(is_noticed(deletions.delete(&[4])) && own.0.join(".relkvanu-4").exists());
        Ok(())
    }

    #[test]
    fn files_that_are_all_absent_were_begun_with_or_are_refused() -> Result<(), Stop> {
        let own = Own::new("absent", &["s-1"]);
        let deletions = own.of("a", "s-")?;
        assert_eq!(deletions.delete(&[1, 2])?, [Gone::Deleted, Gone::Absent]);
        // as by a process that was killed before it reported
        assert_eq!(deletions.delete(&[2, 1])?, [Gone::Absent, Gone::Absent]);
        let wanted = format!("none of 2 files is in {}, as s-1", own.0.display());
        let told = deletions.delete(&[1, 3]);
        assert!(matches!(told, Err(Stop::Never(Refusal::AllAbsent, why)) if why.starts_with(&wanted)));
        Ok(())
    }
}
