//! The bytes of a job's files, as its acknowledgements said them. The coordinator does not know sizes, so they are kept beside it.
use super::call::Call;
use super::outcome::Reply;
use relkvanu::Answer;
use std::collections::HashMap;
use std::fmt::Write;

/// A file and its bytes.
pub type FileBytes = (u64, u64);

/// What a file is for its job.
#[derive(Clone, Copy, Debug, PartialEq, Eq)]
pub enum Use {
    /// In use.
    Needed,
    Waiting,
    Taken,
}

/// The bytes of a job's files, and how many files these are. A sum is right if it is below 2^64.
#[derive(Clone, Copy, Debug, Default, PartialEq, Eq)]
pub struct Bytes {
    pub in_use: u64,
    pub waiting: u64,
    pub taken: u64,
    pub files: u64,
}

impl Bytes {
    fn of(&mut self, it: Use) -> &mut u64 {
        match it {
            Use::Needed => &mut self.in_use,
            Use::Waiting => &mut self.waiting,
            Use::Taken => &mut self.taken,
        }
    }
}

/// What one acknowledgement said. A late one says it of the files that it handed out.
#[derive(Clone, Debug, Default, PartialEq, Eq)]
pub struct AckBytes {
    pub job: i64,
    pub seq: u64,
    /// Its new files.
    pub fresh: Vec<FileBytes>,
    /// The bytes of all files that it names.
    pub full: u64,
}

impl AckBytes {
    /// The bytes of its new files.
    pub fn fresh_bytes(&self) -> u64 {
        self.fresh.iter().fold(0, |sum, (_, bytes)| sum.wrapping_add(*bytes))
    }

    pub fn bytes_of(&self, file: u64) -> Option<u64> {
        self.fresh.iter().find(|(one, _)| *one == file).map(|(_, bytes)| *bytes)
    }
}

/// The text of files with their bytes: `FILE:BYTES` of each, with a space between.
pub fn sizes_text(sizes: &[FileBytes]) -> String {
    let mut text = String::new();
    for (file, bytes) in sizes {
        let between = if text.is_empty() { "" } else { " " };
        // a write to a text does not fail
        let _ = write!(text, "{between}{file}:{bytes}");
    }
    text
}

/// Reads what [`sizes_text`] writes.
pub fn parse_sizes(text: &str) -> Option<Vec<FileBytes>> {
    let of = |word: &str| {
        let (file, bytes) = word.split_once(':')?;
        Some((file.parse().ok()?, bytes.parse().ok()?))
    };
    text.split(' ').filter(|word| !word.is_empty()).map(of).collect()
}

/// What a call changed of the sizes that the database has.
#[derive(Debug, Default, PartialEq, Eq)]
pub struct SizeChange {
    /// What an acknowledgement said.
    pub said: Option<AckBytes>,
    /// The new size of a file, or none if it is deleted.
    pub files: Vec<(u64, Option<u64>)>,
}

/// The files of a job whose bytes are known.
#[derive(Default)]
pub struct Sizes {
    known: HashMap<u64, (u64, Use)>,
    sum: Bytes,
}

impl Sizes {
    /// These files, as far as the coordinator still has them: `place` says as what.
    pub fn of(sizes: &[FileBytes], place: impl Fn(u64) -> Option<Use>) -> Sizes {
        let mut all = Sizes::default();
        for (file, bytes) in sizes {
            if let Some(is) = place(*file) {
                all.add(*file, *bytes, is);
            }
        }
        all
    }

    pub fn sum(&self) -> Bytes {
        Bytes { files: self.known.len() as u64, ..self.sum }
    }

    pub fn bytes_of(&self, file: u64) -> Option<u64> {
        self.known.get(&file).map(|(bytes, _)| *bytes)
    }

    fn add(&mut self, file: u64, bytes: u64, is: Use) {
        self.remove(file);
        self.known.insert(file, (bytes, is));
        let sum = self.sum.of(is);
        *sum = sum.wrapping_add(bytes);
    }

    fn remove(&mut self, file: u64) -> Option<u64> {
        let (bytes, was) = self.known.remove(&file)?;
        let sum = self.sum.of(was);
        *sum = sum.wrapping_sub(bytes);
        Some(bytes)
    }

    fn set(&mut self, file: u64, is: Use) {
        if let Some(bytes) = self.remove(file) {
            self.add(file, bytes, is);
        }
    }

    /// Whether this call says or changes no size, as each does of a job that never said one.
    pub fn ignores(&self, call: &Call) -> bool {
        self.known.is_empty() && !matches!(call, Call::Ack { bytes, .. } if !bytes.is_empty())
    }

    /// Takes in a call that was made, by which the files `released` wait for deletion now.
    pub fn follow(&mut self, call: &Call, reply: &Reply, released: &[u64]) -> SizeChange {
        let mut change = SizeChange::default();
        match (call, reply) {
            (Call::Ack { fresh, bytes, .. }, Reply::Answered(Answer::AckLate { .. })) => {
                // only what it handed out is registered
                let handed_out = fresh.iter().zip(bytes).filter(|(file, _)| released.contains(file));
                let fresh: Vec<FileBytes> = handed_out.map(|(file, bytes)| (*file, *bytes)).collect();
                for (file, bytes) in &fresh {
                    self.tell(*file, *bytes, Use::Waiting, &mut change);
                }
                change.said = (!fresh.is_empty()).then(|| AckBytes { fresh, ..AckBytes::default() });
            }
            (Call::Ack { fresh, reused, bytes, .. }, _) => {
                for (file, bytes) in fresh.iter().zip(bytes) {
                    self.tell(*file, *bytes, Use::Needed, &mut change);
                }
                change.said = self.ack_bytes(fresh, reused);
            }
            (_, Reply::Taken(files)) => files.iter().for_each(|file| self.set(*file, Use::Taken)),
            (Call::Deleted { file }, _) => {
                change.files.extend(self.remove(*file).map(|_| (*file, None)));
            }
            _ => {}
        }
        for file in released {
            self.set(*file, Use::Waiting);
        }
        change
    }

    fn tell(&mut self, file: u64, bytes: u64, is: Use, change: &mut SizeChange) {
        self.add(file, bytes, is);
        change.files.push((file, Some(bytes)));
    }

    /// What an acknowledgement of these files said, if the bytes of one of them are known.
    fn ack_bytes(&self, fresh: &[u64], reused: &[u64]) -> Option<AckBytes> {
        let known = |file: &u64| Some((*file, self.bytes_of(*file)?));
        let fresh: Vec<FileBytes> = fresh.iter().filter_map(known).collect();
        let reused: Vec<FileBytes> = reused.iter().filter_map(known).collect();
        let full = fresh.iter().chain(&reused).fold(0, |sum: u64, (_, bytes)| sum.wrapping_add(*bytes));
        (!fresh.is_empty() || !reused.is_empty()).then(|| AckBytes { fresh, full, ..AckBytes::default() })
    }
}

#[cfg(test)]
mod tests {
    use super::super::call::Subtask;
    use super::*;

    #[test]
    fn a_late_acknowledgement_tells_only_what_it_handed_out() {
        let mut sizes = Sizes::of(&[(1, 10)], |_| Some(Use::Needed));
        let (subtask, fresh, bytes) = (Subtask { vertex: 0, index: 0 }, vec![1, 2], vec![99, 5]);
        let ack = Call::Ack { term: 0, id: 1, subtask, fresh, reused: vec![], bytes, given: None };
        let change = sizes.follow(&ack, &Reply::Answered(Answer::AckLate { handed_out: 1 }), &[2]);
        let said = AckBytes { fresh: vec![(2, 5)], ..AckBytes::default() };
        assert_eq!((change.files, change.said), (vec![(2, Some(5))], Some(said)));
        assert_eq!(sizes.sum(), Bytes { in_use: 10, waiting: 5, taken: 0, files: 2 });
    }

    #[test]
    fn a_start_drops_files_that_are_gone() {
        let place = |file| [Some(Use::Needed), Some(Use::Waiting), Some(Use::Taken), None][file as usize];
        let sizes = Sizes::of(&[(0, 1), (1, 10), (2, 100), (3, 1000)], place);
        assert_eq!(sizes.sum(), Bytes { in_use: 1, waiting: 10, taken: 100, files: 3 });
        assert_eq!((sizes.bytes_of(2), sizes.bytes_of(3)), (Some(100), None));
    }

    #[test]
    fn texts_are_read_again() {
        let sizes = vec![(u64::MAX, 0), (1, 1 << 53)];
        assert_eq!(sizes_text(&sizes), "18446744073709551615:0 1:9007199254740992");
        assert_eq!(parse_sizes(&sizes_text(&sizes)), Some(sizes));
        assert_eq!((parse_sizes(""), parse_sizes("1"), parse_sizes("1:x")), (Some(vec![]), None, None));
    }
}
