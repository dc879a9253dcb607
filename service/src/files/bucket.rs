//! A bucket of S3, which a program in Python reaches for this one, `python3 -m relkvanu.bucket`: Debian has no library of S3 for Rust. One process is
//! there for all buckets. It is told a line of JSON for each thing to do, answers with a line that has the same number, and decides nothing.
use super::{FileNames, Found, Gone, JobStorage, Owner, Pages, Refusal, Stop, Storage};
use serde_json::{json, Value};
use std::collections::HashMap;
use std::io::{BufRead, BufReader, Write};
use std::process::{Child, ChildStdin, ChildStdout, Command, Stdio};
use std::sync::atomic::{AtomicU64, Ordering::Relaxed};
use std::sync::mpsc::{sync_channel, SyncSender};
use std::sync::{Arc, Mutex, MutexGuard, PoisonError};
use std::time::{Duration, Instant};

/// How long an answer may take. The program itself waits less for a server. If it gives no answer at all for so long, it is ended.
const LONGEST: Duration = Duration::from_secs(600);

/// The program, once it was needed.
static HELPER: Mutex<Option<Arc<Helper>>> = Mutex::new(None);
/// How many buckets were opened.
static OPENED: AtomicU64 = AtomicU64::new(0);

pub struct Bucket {
    helper: Arc<Helper>,
    /// Its number there.
    place: u64,
    bucket: String,
    /// The folder of the bucket, with a slash behind it, and the names there.
    folder: String,
    names: FileNames,
}

impl Bucket {
    pub fn open(given: &JobStorage, bucket: &str, owner: &Owner) -> Result<Bucket, Stop> {
        let (names, helper) =
            (FileNames { prefix: given.prefix.clone(), suffix: given.suffix.clone() }, Helper::running()?);
        let (folder, base) = names.in_bucket();
        let (folder, place) = (folder.to_string(), OPENED.fetch_add(1, Relaxed));
        let opened = Bucket { helper, place, bucket: bucket.to_string(), folder, names: base };
        opened.ask(json!({
            "do": "open", "bucket": bucket, "job": owner.job, "prefix": given.prefix, "suffix": given.suffix, "endpoint": given.endpoint,
            "region": given.region, "keeps_versions": given.keeps_versions, "marker": [owner.marker(), owner.text()],
        }))?;
        Ok(opened)
    }

    fn ask(&self, what: Value) -> Result<Value, Stop> {
        self.helper.ask(self.place, what)
    }

    /// The numbers of files, which the helper is told.
    fn numbers(&self, names: &[String]) -> Vec<u64> {
        names.iter().filter_map(|name| self.names.number(name)).collect()
    }
}

impl Drop for Bucket {
    fn drop(&mut self) {
        // one that has ended has forgotten it
        let _ = self.ask(json!({"do": "close"}));
    }
}

impl Storage for Bucket {
    fn title(&self) -> String {
        format!("s3://{}/{}", self.bucket, self.folder.trim_end_matches('/'))
    }

    fn title_of(&self, name: &str) -> String {
        format!("{}{name}", self.folder)
    }

    fn is_bucket(&self) -> bool {
        true
    }

    fn beginning(&self, with: &str) -> Result<Vec<String>, Stop> {
        let told = self.ask(json!({"do": "beside", "start": with}))?;
        Ok(told["names"]
            .as_array()
            .into_iter()
            .flatten()
            .filter_map(|name| name.as_str().map(str::to_string))
            .collect())
    }

    fn read(&self, name: &str) -> Result<Option<String>, Stop> {
        Ok(self.ask(json!({"do": "read", "name": name}))?["text"].as_str().map(str::to_string))
    }

    fn write(&self, name: &str, text: &str) -> Result<(), Stop> {
        self.ask(json!({"do": "write", "name": name, "text": text})).map(|_| ())
    }

    fn note(&self, name: &str, text: &str) -> Result<(), Stop> {
        self.write(name, text)
    }

    fn remove(&self, name: &str) -> Result<(), Stop> {
        self.ask(json!({"do": "remove", "name": name})).map(|_| ())
    }

    /// From here on the helper too looks at it before and after each deletion.
    fn hold(&mut self, marker: &str) -> Result<Option<String>, Stop> {
        let text = self.read(marker)?;
        self.ask(json!({"do": "hold"}))?;
        Ok(text)
    }

    /// A bucket has no locks. What two cleaners do in one is done once: each file is handed out to one of them.
    fn lock(&self) -> Result<bool, Stop> {
        Ok(true)
    }

    fn is_marked(&self) -> Result<bool, Stop> {
        Ok(self.ask(json!({"do": "is marked"}))?["is"] == true)
    }

    fn has_any(&self, names: &[String]) -> Result<bool, Stop> {
        Ok(self.ask(json!({"do": "has any", "files": self.numbers(names)}))?["has"] == true)
    }

    fn bytes(&self, _: &str) -> Option<u64> {
        None
    }

    fn delete(&self, names: &[String]) -> Result<Vec<Gone>, Stop> {
        let told = self.ask(json!({"do": "delete", "files": self.numbers(names)}))?;
        let failed = told["failed"].as_object().ok_or_else(|| strange(&told))?;
        let gone = |name: &String| {
            let number = self.names.number(name)?;
            let why = failed.get(&number.to_string()).map(|why| why.as_str().unwrap_or_default().to_string());
            Some(why.map_or(Gone::Deleted, Gone::Failed))
        };
        Ok(names
            .iter()
            .map(|name| gone(name).unwrap_or_else(|| Gone::Failed("it has no number".to_string())))
            .collect())
    }

    fn pages<'a>(&'a self, _: &'a str) -> Result<Box<dyn Pages + 'a>, Stop> {
        self.ask(json!({"do": "sizes"}))?;
        Ok(Box::new(Objects(self)))
    }
}

/// The listing of a bucket.
struct Objects<'a>(&'a Bucket);

impl Pages for Objects<'_> {
    /// The helper has the size of a page.
    fn next(&mut self, _: usize) -> Result<Vec<Found>, Stop> {
        let told = self.0.ask(json!({"do": "page"}))?;
        let files: Vec<(u64, u64)> = serde_json::from_value(told["files"].clone()).map_err(|_| strange(&told))?;
        Ok(files.into_iter().map(|(file, bytes)| Found { name: self.0.names.of(file), bytes: Some(bytes) }).collect())
    }
}

/// The program in Python. It ends with the end of what it is told, so also with this process.
struct Helper {
    process: Mutex<Child>,
    to: Mutex<ChildStdin>,
    asked: Mutex<Asked>,
}

/// What was asked and not answered.
struct Asked {
    last: u64,
    waiting: HashMap<u64, SyncSender<Value>>,
    /// When it answered last; `None`: it has ended.
    answered: Option<Instant>,
}

impl Helper {
    /// The one that runs; a new one if none does.
    fn running() -> Result<Arc<Helper>, Stop> {
        let mut kept = locked(&HELPER);
        match kept.as_ref().filter(|helper| locked(&helper.asked).answered.is_some()) {
            Some(helper) => Ok(Arc::clone(helper)),
            None => Ok(Arc::clone(kept.insert(Helper::start()?))),
        }
    }

    fn start() -> Result<Arc<Helper>, Stop> {
        let mut command = Command::new("python3");
        command.args(["-m", "relkvanu.bucket"]).stdin(Stdio::piped()).stdout(Stdio::piped());
        let mut process = command.spawn().map_err(|error| Stop::Again(needs(&format!("python3: {error}"))))?;
        let ends = process.stdin.take().zip(process.stdout.take());
        let (to, from) = ends.ok_or_else(|| Stop::Again(needs("it has no output")))?;
        let asked = Asked { last: 0, waiting: HashMap::new(), answered: Some(Instant::now()) };
        let (process, to, asked) = (Mutex::new(process), Mutex::new(to), Mutex::new(asked));
        let helper = Arc::new(Helper { process, to, asked });
        let reading = Arc::clone(&helper);
        crate::process::thread("buckets", move || reading.read(from));
        Ok(helper)
    }

    /// Gives each answer to who asked, until the program ends.
    fn read(&self, from: ChildStdout) {
        for line in BufReader::new(from).lines().map_while(Result::ok) {
            let told: Value = serde_json::from_str(&line).unwrap_or_default();
            let mut asked = locked(&self.asked);
            asked.answered = Some(Instant::now());
            let waits = told["id"].as_u64().and_then(|id| asked.waiting.remove(&id));
            // who asked may have gone
            let _ = waits.map(|waits| waits.send(told));
        }
        let mut asked = locked(&self.asked);
        asked.answered = None;
        asked.waiting.clear();
        drop(asked);
        let _ = locked(&self.process).wait();
    }

    /// Its answer.
    fn ask(&self, place: u64, mut what: Value) -> Result<Value, Stop> {
        let ended = || Stop::Again(needs("it has ended"));
        let (answer, told) = sync_channel(1);
        let mut asked = locked(&self.asked);
        asked.answered.ok_or_else(ended)?;
        asked.last += 1;
        let id = asked.last;
        asked.waiting.insert(id, answer);
        drop(asked);
        (what["id"], what["place"]) = (json!(id), json!(place));
        let mut to = locked(&self.to);
        writeln!(to, "{what}").and_then(|()| to.flush()).map_err(|error| Stop::Again(needs(&error.to_string())))?;
        drop(to);
        let Ok(told) = told.recv_timeout(LONGEST) else {
            return Err(self.late(id).unwrap_or_else(ended));
        };
        match (told["error"].as_str(), told["look"].as_str().and_then(Refusal::of)) {
            (None, _) => Ok(told),
            (Some(why), Some(refusal)) => Err(Stop::Never(refusal, why.to_string())),
            (Some(why), None) => Err(Stop::Again(why.to_string())),
        }
    }

    /// No answer has come in time. Ends the program if it gives none at all; `None` if it has ended.
    fn late(&self, id: u64) -> Option<Stop> {
        let mut asked = locked(&self.asked);
        asked.waiting.remove(&id);
        if asked.answered?.elapsed() >= LONGEST {
            let _ = locked(&self.process).kill();
        }
        Some(Stop::Again(needs(&format!("it has not answered for {} s", LONGEST.as_secs()))))
    }
}

fn locked<T>(lock: &Mutex<T>) -> MutexGuard<'_, T> {
    lock.lock().unwrap_or_else(PoisonError::into_inner)
}

fn needs(why: &str) -> String {
    format!("a bucket needs python3-relkvanu and python3-boto3, for python3 -m relkvanu.bucket: {why}")
}

fn strange(told: &Value) -> Stop {
    Stop::Again(format!("python3 -m relkvanu.bucket answers {told}"))
}
