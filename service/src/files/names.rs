//! How the files of a job are named: a number between a prefix and a suffix.
use super::others::MARK;
use clap::Args;

/// How files are named. In a bucket the prefix begins with the folder of the files.
#[derive(Args, Clone)]
pub struct FileNames {
    /// The part of a file's name before its number
    #[arg(long, default_value = "")]
    pub prefix: String,
    /// The part of a file's name after its number
    #[arg(long, default_value = "")]
    pub suffix: String,
}

/// A file's name while it is written.
const PART: &str = ".part";

impl FileNames {
    pub fn of(&self, file: u64) -> String {
        format!("{}{file}{}", self.prefix, self.suffix)
    }

    /// The number in a name, if it is one of these.
    pub fn number(&self, name: &str) -> Option<u64> {
        let digits = name.strip_prefix(&self.prefix)?.strip_suffix(&self.suffix)?;
        digits.parse().ok().filter(|number: &u64| number.to_string() == digits)
    }

    /// The number in a name, also of a file that is not whole yet.
    pub fn number_or_part(&self, name: &str) -> Option<u64> {
        self.number(name).or_else(|| self.number(name.strip_suffix(PART)?))
    }

    /// The folder of a bucket where the files are, with a slash behind it, and their names there.
    pub fn in_bucket(&self) -> (&str, FileNames) {
        let (folder, prefix) = self.prefix.split_at(self.prefix.rfind('/').map_or(0, |slash| slash + 1));
        (folder, FileNames { prefix: prefix.to_string(), suffix: self.suffix.clone() })
    }

    /// Whether a file of these names, or a part of one, may have a name of the others too.
    pub fn may_be_those_of(&self, other: &FileNames) -> bool {
        let are_digits = |rest: Option<&str>| rest.is_some_and(|rest| rest.bytes().all(|byte| byte.is_ascii_digit()));
        let begin = |one: &str, other: &str| are_digits(one.strip_prefix(other)) || are_digits(other.strip_prefix(one));
        let end = |one: &str, other: &str| are_digits(one.strip_suffix(other)) || are_digits(other.strip_suffix(one));
        let (part, others_part) = (format!("{}{PART}", self.suffix), format!("{}{PART}", other.suffix));
        begin(&self.prefix, &other.prefix)
            && [(&self.suffix, &other.suffix), (&part, &other.suffix), (&self.suffix, &others_part)]
                .into_iter()
                .any(|(one, other)| end(one, other))
    }

    /// Refuses what would name files of another folder.
    pub fn check(&self) -> Result<(), String> {
        if self.prefix.contains('/') || self.suffix.contains('/') {
            return Err("--prefix and --suffix: a '/' would name another folder".to_string());
        }
        if self.prefix.starts_with(MARK) {
            return Err(format!("--prefix: files that begin with {MARK} say whose folder it is"));
        }
        Ok(())
    }
}

#[cfg(test)]
mod tests {
    use super::*;

    #[test]
    fn names_of_two_jobs_may_be_the_same() {
        let of = |(prefix, suffix): (&str, &str)| FileNames { prefix: prefix.to_string(), suffix: suffix.to_string() };
        for (one, other, may_be) in [
            (("", ""), ("", ""), true),
            (("s-", ".bin"), ("s-", ".bin"), true),
            (("s-", ".bin"), ("t-", ".bin"), false),
            (("s-", ".bin"), ("s-", ".txt"), false),
            (("s-", ".bin"), ("s-", ".bin.part"), true),
            (("a", ""), ("a1", ""), true),
            (("", "2"), ("1", ""), true),
            (("a", ""), ("ab", ""), false),
            (("s-", ""), ("", ""), false),
            (("a", ""), ("a\u{661}", ""), false),
        ] {
            let (one, other) = (of(one), of(other));
            assert_eq!((one.may_be_those_of(&other), other.may_be_those_of(&one)), (may_be, may_be));
        }
    }

    #[test]
    fn a_name_has_one_number() {
        let names = FileNames { prefix: "state-".to_string(), suffix: ".bin".to_string() };
        assert_eq!(names.number(&names.of(u64::MAX)), Some(u64::MAX));
        for name in [
            "state-.bin",
            "state-07.bin",
            "state-+7.bin",
            "state-7",
            "7.bin",
            "state-18446744073709551616.bin",
            "state-7.bin~",
            "state-7.bin.part",
        ] {
            assert_eq!(names.number(name), None, "{name}");
        }
    }

    #[test]
    fn a_file_that_is_not_whole_has_a_number_too() {
        let names = FileNames { prefix: "state-".to_string(), suffix: ".bin".to_string() };
        let found = ["state-7.bin", "state-7.bin.part", "state-7.bin.part.part", "state-07.bin.part", ".part"];
        assert_eq!(found.map(|name| names.number_or_part(name)), [Some(7), Some(7), None, None, None]);
        let plain = FileNames { prefix: String::new(), suffix: String::new() };
        assert_eq!(["7", "7.part", "7.bin"].map(|name| plain.number_or_part(name)), [Some(7), Some(7), None]);
    }

    #[test]
    fn a_prefix_of_a_bucket_begins_with_a_folder() {
        for (prefix, folder, base) in [
            ("", "", ""),
            ("state-", "", "state-"),
            ("a/b/state-", "a/b/", "state-"),
            ("a/", "a/", ""),
            ("/s", "/", "s"),
        ] {
            let names = FileNames { prefix: prefix.to_string(), suffix: ".sst".to_string() };
            let (found, there) = names.in_bucket();
            assert_eq!((found, there.of(7)), (folder, format!("{base}7.sst")));
        }
    }
}
