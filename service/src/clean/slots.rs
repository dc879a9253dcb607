//! How many turns may run at once: in all, and in one storage, so that one that hangs does not take all threads.
use super::Kind;
use crate::files::JobStorage;
use std::collections::HashMap;
use std::path::{Path, PathBuf};

/// What the system says of its mounts. To read it asks no file system.
const MOUNTS: &str = "/proc/self/mountinfo";
/// Which word of a line is the place of a mount.
const PLACE: usize = 4;

/// A storage as a whole: a file system by its mount, or a server.
#[derive(Clone, Debug, PartialEq, Eq, Hash)]
pub struct Storage(String);

pub struct Slots {
    free: usize,
    /// Of one storage, and how many of these may look for garbage, which takes long.
    of_storage: usize,
    taken: HashMap<(Storage, Kind), usize>,
}

impl Slots {
    pub fn new(threads: usize) -> Slots {
        Slots { free: threads, of_storage: (threads / 10).max(2), taken: HashMap::new() }
    }

    /// Takes a slot if there is one.
    pub fn take(&mut self, storage: &Storage, kind: Kind) -> bool {
        let of = |kind| self.taken.get(&(storage.clone(), kind)).copied().unwrap_or(0);
        let is_room = of(Kind::Released) + of(Kind::Garbage) < self.of_storage;
        let may_sweep = kind == Kind::Released || of(Kind::Garbage) < self.of_storage / 2;
        if self.free == 0 || !is_room || !may_sweep {
            return false;
        }
        self.free -= 1;
        *self.taken.entry((storage.clone(), kind)).or_default() += 1;
        true
    }

    pub fn give_back(&mut self, storage: Storage, kind: Kind) {
        self.free += 1;
        if let Some(taken) = self.taken.get_mut(&(storage, kind)) {
            *taken -= 1;
        }
    }
}

/// The mounts of the system, as they are now.
pub struct Mounts(Vec<PathBuf>);

impl Mounts {
    pub fn now() -> Mounts {
        Mounts::of(&std::fs::read_to_string(MOUNTS).unwrap_or_default())
    }

    fn of(text: &str) -> Mounts {
        let places = text.lines().filter_map(|line| line.split(' ').nth(PLACE));
        // spaces, and three others, are told by their numbers
        let plain = |place: &str| {
            [("\\040", " "), ("\\011", "\t"), ("\\012", "\n"), ("\\134", "\\")]
                .iter()
                .fold(place.to_string(), |text, (told, is)| text.replace(told, is))
        };
        Mounts(places.map(|place| PathBuf::from(plain(place))).collect())
    }

    /// The storage in which a job's files are.
    pub fn storage(&self, of: &JobStorage) -> Storage {
        let Some(folder) = &of.folder else {
            let server = of.endpoint.as_deref().or(of.region.as_deref());
            return Storage(server.unwrap_or("S3").to_string());
        };
        let above = self.0.iter().filter(|mount| Path::new(folder).starts_with(mount));
        let mount = above.max_by_key(|mount| mount.components().count());
        Storage(mount.map_or_else(|| "/".to_string(), |mount| mount.display().to_string()))
    }
}

#[cfg(test)]
mod tests {
    use super::*;

    const TEXT: &str = "22 1 8:1 / / rw,relatime shared:1 - ext4 /dev/sda1 rw
30 22 0:26 / /srv/one rw shared:5 - nfs4 a:/one rw
31 22 0:27 / /srv/one\\040two rw shared:6 - nfs4 a:/two rw
";

    fn folder(path: &str) -> JobStorage {
        JobStorage { folder: Some(path.to_string()), ..JobStorage::default() }
    }

    #[test]
    fn a_storage_is_the_mount_of_a_folder_or_a_server() {
        let mounts = Mounts::of(TEXT);
        for (path, mount) in [
            ("/srv/one", "/srv/one"),
            ("/srv/one/a", "/srv/one"),
            ("/srv/one two/a", "/srv/one two"),
            ("/srv/onetwo", "/"),
            ("/home", "/"),
        ] {
            assert_eq!(mounts.storage(&folder(path)), Storage(mount.to_string()), "{path}");
        }
        let bucket = JobStorage { bucket: Some("b".to_string()), ..JobStorage::default() };
        assert_eq!(mounts.storage(&bucket), Storage("S3".to_string()));
        let own = JobStorage { endpoint: Some("http://a".to_string()), ..bucket };
        assert_eq!(mounts.storage(&own), Storage("http://a".to_string()));
    }

    #[test]
    fn a_storage_takes_a_tenth_of_the_threads() {
        let (mut slots, [one, other]) = (Slots::new(40), ["a", "b"].map(|name| Storage(name.to_string())));
        let taken = |slots: &mut Slots, storage: &Storage, kind| (0..50).filter(|_| slots.take(storage, kind)).count();
        assert_eq!(taken(&mut slots, &one, Kind::Garbage), 2);
        assert_eq!(taken(&mut slots, &one, Kind::Released), 2);
        assert_eq!(taken(&mut slots, &other, Kind::Released), 4);
        slots.give_back(one.clone(), Kind::Garbage);
        assert_eq!(taken(&mut slots, &one, Kind::Garbage), 1);
        let many: usize = (0..20).map(|number| taken(&mut slots, &Storage(number.to_string()), Kind::Released)).sum();
        assert_eq!(many, 32);
    }
}
