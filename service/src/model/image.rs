//! Images of a job: its whole state at a place in its log. A start does not make the calls up to there again.
use super::call::Subtask;
use super::parts::{parts, PART_BYTES};
use super::settings::shape_words;
use relkvanu::{Kind, Settings};
use serde::de::IgnoredAny;
use serde::Deserialize;
use sha2::{Digest, Sha256};

#[derive(Clone, Debug, PartialEq, Eq)]
pub struct Image {
    pub job: i64,
    /// The last call that it includes.
    pub seq: u64,
    /// The moment of that call.
    pub at: u64,
    pub shape: Vec<u64>,
    pub last_completed: Option<u64>,
    pub last_event: u64,
    /// The coordinator's image, as docs/LOGS.md has it.
    pub text: String,
}

/// A part of the text of a long image.
#[derive(Clone, Debug, PartialEq, Eq)]
pub struct ImagePart {
    pub job: i64,
    pub seq: u64,
    pub part: u64,
    pub text: String,
}

/// A live record of an image.
#[derive(Deserialize)]
pub struct SavedRecord {
    pub id: u64,
    kind: String,
    state: String,
    pub shape: Vec<u64>,
    pub started: u64,
    #[serde(rename = "acks")]
    pub acked: Vec<Subtask>,
}

impl SavedRecord {
    pub fn kind(&self) -> Kind {
        kind_of(&self.kind)
    }

    pub fn is_done(&self) -> bool {
        self.state == "done"
    }
}

/// What the history reads of an image, as the library writes it, without the numbers of files: there may be millions.
#[derive(Deserialize)]
pub struct Contents {
    pub records: Vec<SavedRecord>,
    outbox: Outbox,
}

impl Contents {
    /// How many files wait for deletion.
    pub fn waiting(&self) -> u64 {
        self.outbox.waiting.len() as u64
    }
}

#[derive(Deserialize)]
struct Outbox {
    waiting: Vec<IgnoredAny>,
}

impl Image {
    /// Whether the database has its text in parts.
    pub fn is_long(&self) -> bool {
        self.text.len() > PART_BYTES
    }

    /// The text that the image's own row has.
    pub fn row_text(&self) -> &str {
        if self.is_long() {
            ""
        } else {
            &self.text
        }
    }

    /// The part of a long image with this number, and whether it is the last one.
    pub fn part(&self, number: usize) -> Option<(ImagePart, bool)> {
        let texts = parts(&self.text);
        let text = texts.get(number)?;
        let part = ImagePart { job: self.job, seq: self.seq, part: number as u64, text: (*text).to_string() };
        Some((part, number + 1 == texts.len()))
    }

    /// SHA-256 of its content, in hexadecimal digits. Without it a changed digit could give the image of another state. Databases have
    /// digests of this text, so it stays as it is: an image that has another one counts as damaged.
    pub fn digest(&self) -> String {
        let Image { job, seq, at, shape, last_completed, last_event, text } = self;
        let shape = shape_words(shape);
        // a number alone could be one more of the shape
        let completed = last_completed.map_or("None".to_string(), |at| format!("Some({at})"));
        let mut hash = Sha256::new();
        hash.update(format!("{job} {seq} {at} {shape} {completed} {last_event} "));
        hash.update(text);
        format!("{:x}", hash.finalize())
    }

    /// The settings that the job had then; `None` if it is no image.
    pub fn settings(&self) -> Option<Settings> {
        let Head { opening } = serde_json::from_str(&self.text).ok()?;
        Some(opening.config)
    }

    /// `None` if it is no image.
    pub fn contents(&self) -> Option<Contents> {
        serde_json::from_str(&self.text).ok()
    }
}

/// What an image says of the job's opening. Its settings are those of now.
#[derive(Deserialize)]
struct Head {
    opening: Begun,
}

#[derive(Deserialize)]
struct Begun {
    #[serde(with = "Config")]
    config: Settings,
}

#[derive(Deserialize)]
#[serde(remote = "Settings")]
struct Config {
    interval: u64,
    pause: u64,
    at_once: u64,
    timeout: u64,
    tolerable: u64,
    retained: u64,
    keep_on_cancel: bool,
}

/// The kind of this name.
pub fn kind_of(name: &str) -> Kind {
    match name {
        "savepoint" => Kind::Savepoint,
        _ => Kind::Checkpoint,
    }
}

#[cfg(test)]
mod tests {
    use super::super::Engine;
    use super::*;

    /// The example of docs/LOGS.md.
    const TEXT: &str = r#"{"outbox":{"taken":[12],"waiting":[21]},"records":[
        {"acks":[{"files":[11,13],"index":0,"vertex":0},{"files":[22],"index":1,"vertex":0}],
         "id":2,"kind":"checkpoint","pins":[],"shape":[2],"started":2000,"state":"done"},
        {"acks":[{"files":[11,14],"index":0,"vertex":0}],
         "id":3,"kind":"checkpoint","pins":[11,13,22],"shape":[2],"started":3000,"state":"pending"}]}"#;

    fn example() -> Image {
        let text = TEXT.to_string();
        Image { job: 1, seq: 9, at: 3010, shape: vec![2], last_completed: Some(2020), last_event: 8, text }
    }

    #[test]
    fn tells_the_settings_of_its_job() -> Result<(), Box<dyn std::error::Error>> {
        let settings = Settings {
            interval: 1000,
            pause: 0,
            at_once: 1,
            timeout: 600_000,
            tolerable: 0,
            retained: 1,
            keep_on_cancel: true,
        };
        let text = Engine::open(&settings, &[1], 5, 1)?.image().ok_or("no memory")?;
        assert_eq!(Image { text, ..example() }.settings(), Some(settings));
        assert_eq!(Image { text: "{}".to_string(), ..example() }.settings(), None);
        Ok(())
    }

    #[test]
    fn tells_what_the_history_needs() {
        let contents = example().contents().expect("it is an image");
        let told: Vec<_> =
            contents.records.iter().map(|it| (it.id, it.is_done(), it.started, it.acked.len())).collect();
        assert_eq!(told, [(2, true, 2000, 2), (3, false, 3000, 1)]);
        assert_eq!((contents.waiting(), contents.records[1].acked[0]), (1, Subtask { vertex: 0, index: 0 }));
        assert!(Image { text: "{}".to_string(), ..example() }.contents().is_none());
    }

    /// What sha256sum says of `1 9 3010 2 3 Some(2020) 8 {}` and of `1 9 3010 2 3 None 8 {}`.
    #[test]
    fn digests_of_earlier_versions_stay() {
        let of =
            |last_completed| Image { shape: vec![2, 3], last_completed, text: "{}".to_string(), ..example() }.digest();
        assert_eq!(of(Some(2020)), "2d36fcb456b3a9592919b546e5da8b9a8fc755b8b1b4af2cb6e47d15e07e6d94");
        assert_eq!(of(None), "38de8717a43c79727cf334126e5d58985fa7f1801cded62419d145feac1489d1");
    }

    #[test]
    fn each_change_changes_the_digest() {
        let digest = example().digest();
        assert_eq!(digest.len(), 64);
        let others = [
            Image { job: 2, ..example() },
            Image { seq: 10, ..example() },
            Image { at: 3011, ..example() },
            Image { shape: vec![3], ..example() },
            Image { last_completed: None, ..example() },
            Image { last_event: 9, ..example() },
            Image { text: TEXT.replace("21", "23"), ..example() },
        ];
        assert!(others.iter().all(|other| other.digest() != digest));
    }
}
