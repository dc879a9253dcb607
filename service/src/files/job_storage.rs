//! Where the files of a job are, as its opening or an operator said. The service keeps it for those who delete them, and never looks there.
use super::{Bucket, FileNames, Folder, Owner, Refusal, Stop, Storage};
use serde::{Deserialize, Serialize};
use std::path::Path;

/// The most bytes of a path, and of another member.
const LONGEST_PATH: usize = 4096;
const LONGEST: usize = 255;

/// A folder, or a bucket of S3, with the names of the files there.
#[derive(Clone, Debug, Default, PartialEq, Eq, Deserialize, Serialize)]
#[serde(default, deny_unknown_fields)]
pub struct JobStorage {
    #[serde(skip_serializing_if = "Option::is_none")]
    pub folder: Option<String>,
    #[serde(skip_serializing_if = "Option::is_none")]
    pub bucket: Option<String>,
    /// The parts of a file's name before its number and after it. In a bucket the first begins with the folder of the files.
    pub prefix: String,
    pub suffix: String,
    /// Another S3 server than that of AWS.
    #[serde(skip_serializing_if = "Option::is_none")]
    pub endpoint: Option<String>,
    #[serde(skip_serializing_if = "Option::is_none")]
    pub region: Option<String>,
    /// Whether the bucket keeps versions, which its lifecycle rules delete.
    #[serde(skip_serializing_if = "std::ops::Not::not")]
    pub keeps_versions: bool,
}

impl JobStorage {
    /// The names of the files where they are.
    pub fn names(&self) -> FileNames {
        let names = FileNames { prefix: self.prefix.clone(), suffix: self.suffix.clone() };
        if self.bucket.is_some() {
            names.in_bucket().1
        } else {
            names
        }
    }

    /// Opens it for a job.
    pub fn open(&self, owner: &Owner) -> Result<Box<dyn Storage>, Stop> {
        match (&self.folder, &self.bucket) {
            (Some(path), _) => Ok(Box::new(Folder::open(Path::new(path))?)),
            (None, Some(bucket)) => Ok(Box::new(Bucket::open(self, bucket, owner)?)),
            (None, None) => Err(Stop::Never(Refusal::NoPlace, "nobody has said where the files are".to_string())),
        }
    }

    /// It as the database has it.
    pub fn text(&self) -> String {
        serde_json::to_string(self).unwrap_or_default()
    }

    /// Which member can't be as it is, and why.
    pub fn wrong(&self) -> Option<(&'static str, String)> {
        let is_text = |text: &str| !text.is_empty() && text.len() <= LONGEST && !text.contains(char::is_control);
        let is_url = |url: &str| is_text(url) && (url.starts_with("http://") || url.starts_with("https://"));
        let is_path = |path: &str| path.starts_with('/') && path.len() <= LONGEST_PATH && !path.contains('\0');
        let said = |member: &Option<String>, fits: &dyn Fn(&str) -> bool| member.as_deref().is_none_or(fits);
        let of_bucket = self.endpoint.is_some() || self.region.is_some() || self.keeps_versions;
        let is_part = |text: &str| text.is_empty() || is_text(text);
        match () {
            () if self.folder.is_some() == self.bucket.is_some() => Some(("folder", "or bucket is said, and not both")),
            () if self.folder.is_some() && of_bucket => Some(("folder", "has no endpoint, region or versions")),
            () if !said(&self.folder, &is_path) => Some(("folder", "is no absolute path")),
            () if !said(&self.bucket, &|name| is_text(name) && !name.contains('/')) => Some(("bucket", "is no name")),
            () if !said(&self.endpoint, &is_url) => Some(("endpoint", "is no address such as https://s3.example")),
            () if !said(&self.region, &is_text) => Some(("region", "is no name")),
            () if !is_part(&self.prefix) => Some(("prefix", "has more than 255 bytes, or a control character")),
            () if !is_part(&self.suffix) => Some(("suffix", "has more than 255 bytes, or a control character")),
            () => None,
        }
        .map(|(member, why)| (member, why.to_string()))
        .or_else(|| self.names().check().err().map(|why| ("prefix", why)))
    }
}

#[cfg(test)]
mod tests {
    use super::*;

    fn of(text: &str) -> Result<JobStorage, serde_json::Error> {
        serde_json::from_str(text)
    }

    #[test]
    fn what_is_wrong_has_a_member() -> Result<(), serde_json::Error> {
        for (text, member) in [
            ("{}", "folder"),
            (r#"{"folder":"/a","bucket":"b"}"#, "folder"),
            (r#"{"folder":"a"}"#, "folder"),
            (r#"{"folder":"/a","region":"eu"}"#, "folder"),
            (r#"{"bucket":""}"#, "bucket"),
            (r#"{"bucket":"a/b"}"#, "bucket"),
            (r#"{"bucket":"b","endpoint":"ftp://x"}"#, "endpoint"),
            (r#"{"bucket":"b","region":""}"#, "region"),
            (r#"{"folder":"/a","prefix":"s/"}"#, "prefix"),
            (r#"{"folder":"/a","prefix":".relkvanu-"}"#, "prefix"),
            (r#"{"folder":"/a","suffix":"\n"}"#, "suffix"),
        ] {
            assert_eq!(of(text)?.wrong().map(|(member, _)| member), Some(member), "{text}");
        }
        assert!(of(r#"{"folder":"/a","other":1}"#).is_err());
        Ok(())
    }
}
