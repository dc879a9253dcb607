//! Reads the bodies of requests. An error names the place of the bad value, such as `calls[3].fresh[0]`.
use super::json_members::{each, invalid, items, read, shown, text, Checked, Members};
use crate::files::JobStorage;
use crate::model::{
    check_shape, settings_of, Call, Change, Given, Settings, Subtask, Target, FIELDS, MOST_PAYLOAD, MOST_REASON,
};
use openssl::base64::{decode_block, encode_block};
use serde_json::value::RawValue;
use std::borrow::Cow;

/// The greatest number that every JSON reader keeps exactly.
const GREATEST: u64 = 1 << 53;
const MOST_TAKEN: u64 = 65_536;
const LONGEST_NAME: usize = 64;
/// How many parts of a shape are read. A list that is too long is refused by its length.
const MOST_VERTICES: usize = 1 << 16;
pub const NO_NAME: &str = "is no name: 1 to 64 of a-z, A-Z, 0-9, '-', '_' and '.', and a letter or digit first";
// bindings/generate makes the names of calls
const CALLS: &str =
    "ack, decline, tick, savepoint, dispose, restore, cancel, take, deleted, undeleted, reserve, forfeit and trigger";
// bindings/generate: end
/// How many names a task reserves at once, and gives up.
const MOST_RESERVED: u64 = 65_536;
const MOST_FORFEITED: usize = 4096;
/// The first name is at most this.
const LAST_NAME: u64 = 1 << 62;
/// Of how many files a request asks which may be deleted.
pub const MOST_GARBAGE: usize = 10_000;

/// The members that calls have.
impl Members<'_> {
    fn id(&mut self) -> Checked<u64> {
        self.number("id", 0, GREATEST)
    }

    fn subtask(&mut self) -> Checked<Subtask> {
        let text = self.text("subtask")?;
        text.parse().map_err(|()| self.wrong("subtask", "is no subtask, as \"1.0\""))
    }

    fn first_name(&mut self) -> Checked<u64> {
        let value = self.wanted("first_name")?;
        let number =
            text(value).map_or_else(|| read::<u64>(value).filter(|it| *it <= GREATEST), |text| parse_file(&text));
        let wrong = || self.wrong("first_name", "is no whole number from 1 to 2^62, which above 2^53 is a string");
        number.filter(|number| (1..=LAST_NAME).contains(number)).ok_or_else(wrong)
    }

    fn file(&mut self) -> Checked<u64> {
        let value = self.wanted("file")?;
        file(value, || self.field("file"))
    }

    /// A list of files, which is empty if there is no such member.
    fn files(&mut self, name: &str) -> Checked<Vec<u64>> {
        let Some(value) = self.take(name) else {
            return Ok(Vec::new());
        };
        let place = |at: usize| format!("{}[{at}]", self.field(name));
        let files = each(value, |at, item| file(item, || place(at)));
        files.unwrap_or_else(|| Err(self.wrong(name, "is no list of files")))
    }

    /// A list of at most so many files, which has to be there.
    fn some_files(&mut self, name: &str, most: usize) -> Checked<Vec<u64>> {
        if !self.has(name) {
            return Err(self.wrong(name, "is missing"));
        }
        let files = self.files(name)?;
        if files.len() > most {
            return Err(self.wrong(name, &format!("has {} files, and not at most {most}", files.len())));
        }
        Ok(files)
    }

    /// The term of the task, or what the request says of all its calls; 0: none.
    fn term(&mut self, of_all: u64) -> Checked<u64> {
        let Some(value) = self.take("term") else {
            return Ok(of_all);
        };
        let term = read::<u64>(value).filter(|term| (1..=GREATEST).contains(term));
        term.ok_or_else(|| self.wrong("term", "is no whole number from 1 to 2^53"))
    }

    /// Whether it is true; `None` if there is no such member.
    fn flag(&mut self, name: &str) -> Checked<Option<bool>> {
        let Some(value) = self.take(name) else {
            return Ok(None);
        };
        read(value).map(Some).ok_or_else(|| self.wrong(name, "is neither true nor false"))
    }

    /// The bytes of fresh files, which are none if there is no such member, or those of the whole snapshot.
    fn bytes(&mut self) -> Checked<(Vec<u64>, Option<u64>)> {
        let Some(value) = self.take("bytes") else {
            return Ok((Vec::new(), None));
        };
        if let Some(whole) = read::<u64>(value).filter(|it| *it <= GREATEST) {
            return Ok((Vec::new(), Some(whole)));
        }
        let wrong = |at: usize| invalid(&format!("{}[{at}]", self.field("bytes")), "is no whole number from 0 to 2^53");
        let number = |at, item: &RawValue| read::<u64>(item).filter(|it| *it <= GREATEST).ok_or_else(|| wrong(at));
        let why = "is neither a list of numbers nor a whole number from 0 to 2^53";
        each(value, number).map_or_else(|| Err(self.wrong("bytes", why)), |list| Ok((list?, None)))
    }

    /// The bytes of the whole snapshot, which may be said beside those of each fresh file.
    fn whole_snapshot(&mut self, whole: Option<u64>) -> Checked<Option<u64>> {
        const NAME: &str = "snapshot_bytes";
        if whole.is_some() && self.has(NAME) {
            return Err(self.wrong(NAME, "is said by bytes too, which is a list beside it"));
        }
        Ok(self.may(NAME, |it| it.number(NAME, 0, GREATEST))?.or(whole))
    }

    /// A payload in base64.
    fn payload(&mut self) -> Checked<String> {
        let given = self.text("payload")?.into_owned();
        let bytes = decode_block(&given).ok().filter(|bytes| encode_block(bytes) == given);
        let bytes = bytes.ok_or_else(|| self.wrong("payload", "is no base64 in one line, with its padding"))?;
        if bytes.len() > MOST_PAYLOAD {
            let why = format!("has {} bytes, and not at most {MOST_PAYLOAD}", bytes.len());
            return Err(self.wrong("payload", &why));
        }
        Ok(given)
    }

    /// Why a subtask declines.
    fn reason(&mut self) -> Checked<String> {
        let reason = self.text("reason")?.into_owned();
        if reason.len() > MOST_REASON {
            let why = format!("has {} bytes, and not at most {MOST_REASON}", reason.len());
            return Err(self.wrong("reason", &why));
        }
        if reason.contains('\0') {
            return Err(self.wrong("reason", "has a zero"));
        }
        Ok(reason)
    }

    /// What an acknowledgement gives beside its files, if it names one of it.
    fn given(&mut self, bytes: Option<u64>) -> Checked<Option<Box<Given>>> {
        if bytes.is_none() && self.are_taken() {
            return Ok(None);
        }
        let payload = self.may("payload", Members::payload)?;
        let millis = self.may("millis", |it| it.number("millis", 0, GREATEST))?;
        if payload.is_none() && bytes.is_none() && millis.is_none() {
            return Ok(None);
        }
        Ok(Some(Box::new(Given { payload: payload.unwrap_or_default(), bytes, millis })))
    }

    fn shape(&mut self) -> Checked<Option<Vec<u64>>> {
        let Some(value) = self.take("shape") else {
            return Ok(None);
        };
        let numbers = items(value, MOST_VERTICES)
            .and_then(|items| items.first.into_iter().map(read::<u64>).collect::<Option<Vec<u64>>>());
        let shape = numbers.ok_or_else(|| self.wrong("shape", "is no list of parallelisms"))?;
        check_shape(&shape).map_err(|why| self.wrong("shape", &why.to_string()))?;
        Ok(Some(shape))
    }
}

/// A file's number, which is a string, since JSON readers lose the digits of large numbers.
fn file(value: &RawValue, place: impl Fn() -> String) -> Checked<u64> {
    let wrong = |why: &str| invalid(&place(), why);
    match text(value) {
        Some(digits) => parse_file(&digits).ok_or_else(|| wrong("is no file number from 0 to 2^64 - 1")),
        None => Err(wrong("is no string; a file's number is one, as \"31\"")),
    }
}

/// A file's number in digits.
pub fn parse_file(digits: &str) -> Option<u64> {
    digits.bytes().all(|byte| byte.is_ascii_digit()).then(|| digits.parse().ok()).flatten()
}

/// The job that a request opens.
#[derive(Debug, PartialEq, Eq)]
pub struct NewJob {
    pub name: String,
    pub settings: Settings,
    pub shape: Vec<u64>,
    /// The number of its first record.
    pub first: u64,
    /// Where its files are, if that is said.
    pub storage: Option<JobStorage>,
}

/// Reads the body that opens a job.
pub fn new_job(bytes: &[u8]) -> Checked<NewJob> {
    let mut members = Members::of_body(bytes)?;
    let name = members.text("name")?.into_owned();
    if !is_name(&name) {
        return Err(members.wrong("name", NO_NAME));
    }
    let settings = settings(Members::of("settings", members.wanted("settings")?)?)?;
    let shape = members.shape()?.ok_or_else(|| members.wrong("shape", "is missing"))?;
    if members.has("names") {
        return Err(members.wrong("names", "is no field here: every job gives out the names of its files"));
    }
    let storage = members.take("storage").map(|value| storage_of(Members::of("storage", value)?)).transpose()?;
    let first = members.may("first", |it| it.number("first", 1, GREATEST))?.unwrap_or(1);
    members.finish()?;
    Ok(NewJob { name, settings, shape, first, storage })
}

/// Reads the body that says where a job's files are.
pub fn storage(bytes: &[u8]) -> Checked<JobStorage> {
    storage_of(Members::of_body(bytes)?)
}

fn storage_of(mut members: Members) -> Checked<JobStorage> {
    let mut text = |name: &str| members.may(name, |it| it.text(name).map(Cow::into_owned));
    let (folder, bucket, endpoint, region) = (text("folder")?, text("bucket")?, text("endpoint")?, text("region")?);
    let (prefix, suffix) = (text("prefix")?.unwrap_or_default(), text("suffix")?.unwrap_or_default());
    let keeps_versions = members.flag("keeps_versions")?.unwrap_or(false);
    let storage = JobStorage { folder, bucket, prefix, suffix, endpoint, region, keeps_versions };
    if let Some((member, why)) = storage.wrong() {
        return Err(members.wrong(member, &why));
    }
    members.finish()?;
    Ok(storage)
}

/// Reads the body that gives a job names: the first one, as a string or as a number.
pub fn first_name(bytes: &[u8]) -> Checked<u64> {
    Members::read(bytes, Members::first_name)
}

/// Reads the body of an advance: the greatest term that was told, and the first name that may be given out.
pub fn advance(bytes: &[u8]) -> Checked<Call> {
    Members::read(bytes, |it| Ok(Call::Advance { term: it.number("term", 0, GREATEST)?, first_name: it.first_name()? }))
}

/// Reads the body that asks which files may be deleted.
pub fn garbage(bytes: &[u8]) -> Checked<Vec<u64>> {
    Members::read(bytes, |it| it.some_files("files", MOST_GARBAGE))
}

/// Reads the body that changes settings of a job: those that it names, and at least one.
pub fn change(bytes: &[u8]) -> Checked<Change> {
    let change = Members::read(bytes, |members| {
        let mut change = Change::default();
        for (number, field) in change.numbers.iter_mut().zip(&FIELDS) {
            *number = members.may(field.name, |it| it.number(field.name, field.least, field.most))?;
        }
        change.keep_on_cancel = members.flag("keep_on_cancel")?;
        Ok(change)
    })?;
    if change.is_none() {
        return Err(invalid("body", "names no setting"));
    }
    Ok(change)
}

/// Reads what a checkpoint is to be: with `full` its barrier names no base.
pub fn checkpoint(bytes: &[u8]) -> Checked<Call> {
    let is_full = Members::read(bytes, |it| it.flag("full"))?.unwrap_or(false);
    Ok(if is_full { Call::TriggerFull } else { Call::Trigger })
}

/// Reads a body that says nothing.
pub fn nothing(bytes: &[u8]) -> Checked<()> {
    Members::read(bytes, |_| Ok(()))
}

fn settings(mut members: Members) -> Checked<Settings> {
    let mut numbers = [0; 6];
    for (number, field) in numbers.iter_mut().zip(&FIELDS) {
        *number = match field.default {
            Some(default) if !members.has(field.name) => default,
            _ => members.number(field.name, field.least, field.most)?,
        };
    }
    let keep_on_cancel = members.flag("keep_on_cancel")?.unwrap_or(false);
    members.finish()?;
    Ok(settings_of(numbers, keep_on_cancel))
}

/// Whether a text may name a job.
pub fn is_name(text: &str) -> bool {
    let may_stand = |byte: u8| byte.is_ascii_alphanumeric() || b"-_.".contains(&byte);
    let begins = text.bytes().next().is_some_and(|byte| byte.is_ascii_alphanumeric());
    begins && text.len() <= LONGEST_NAME && text.bytes().all(may_stand)
}

/// Reads the body of a request with calls, at most `most`. It may say the term of all that have none, and whether the answers tell which
/// records they have ended.
pub fn calls(bytes: &[u8], most: usize) -> Checked<(Vec<Call>, bool)> {
    let mut members = Members::of_body(bytes)?;
    let (term, tells) = (members.term(0)?, members.flag("ended")?.unwrap_or(false));
    let items = items(members.wanted("calls")?, most).ok_or_else(|| members.wrong("calls", "is no list"))?;
    members.finish()?;
    if items.count == 0 || items.count > most {
        return Err(invalid("calls", &format!("has {} calls, not 1 to {most}", items.count)));
    }
    let calls = items.first.into_iter().enumerate();
    let read = |(at, item)| Members::of(&format!("calls[{at}]"), item).and_then(|members| call(members, term));
    Ok((calls.map(read).collect::<Checked<_>>()?, tells))
}

fn call(mut members: Members, term: u64) -> Checked<Call> {
    let name = members.text("call")?;
    let call = match name.as_ref() {
        // bindings/generate makes the calls of one number
        "tick" => Call::Tick,
        "savepoint" => Call::Savepoint,
        "dispose" => Call::Dispose { id: members.id()? },
        "cancel" => Call::Cancel,
        "deleted" => Call::Deleted { file: members.file()? },
        "undeleted" => Call::Undeleted { file: members.file()? },
        "trigger" => Call::Trigger,
        // bindings/generate: end
        "ack" => ack(&mut members, term)?,
        "decline" => decline(&mut members, term)?,
        "restore" => restore(&mut members)?,
        "take" => Call::Take { most: members.number("most", 1, MOST_TAKEN)? },
        "reserve" => Call::Reserve { term: members.term(term)?, count: members.number("count", 1, MOST_RESERVED)? },
        "forfeit" => Call::Forfeit { term: members.term(term)?, names: members.some_files("names", MOST_FORFEITED)? },
        _ => return Err(members.wrong("call", &format!("{:?} is no call: there are {CALLS}", shown(&name)))),
    };
    members.finish()?;
    Ok(call)
}

fn ack(members: &mut Members, term: u64) -> Checked<Call> {
    let (term, id, subtask) = (members.term(term)?, members.id()?, members.subtask()?);
    let (fresh, reused, (bytes, whole)) = (members.files("fresh")?, members.files("reused")?, members.bytes()?);
    if !bytes.is_empty() && bytes.len() != fresh.len() {
        let why = format!("has {} numbers, and fresh has {} files", bytes.len(), fresh.len());
        return Err(members.wrong("bytes", &why));
    }
    let whole = members.whole_snapshot(whole)?;
    Ok(Call::Ack { term, id, subtask, fresh, reused, bytes, given: members.given(whole)? })
}

fn decline(members: &mut Members, term: u64) -> Checked<Call> {
    let (term, id, subtask) = (members.term(term)?, members.id()?, members.subtask()?);
    Ok(Call::Decline { term, id, subtask, reason: members.may("reason", Members::reason)?.filter(|it| !it.is_empty()) })
}

/// A restore. To an older checkpoint it needs the consent that what sinks published since then stays published.
fn restore(members: &mut Members) -> Checked<Call> {
    let (target, accepts) = (target(members)?, members.flag("accept_published")?);
    match (target, accepts) {
        (Target::Checkpoint(_), Some(true)) | (Target::Latest | Target::Savepoint(_), None) => {}
        (Target::Checkpoint(_), _) => {
            let why = "is not true: what sinks published for records after the checkpoint is not taken back";
            return Err(members.wrong("accept_published", why));
        }
        _ => return Err(members.wrong("accept_published", "is no field here")),
    }
    let (is_stopped, shape) = (members.flag("stopped")?.unwrap_or(false), members.shape()?);
    match target {
        Target::Checkpoint(_) if is_stopped => Err(members.wrong("stopped", "is no field here")),
        _ if is_stopped => Ok(Call::RestoreStopped { target, shape }),
        _ => Ok(Call::Restore { target, shape }),
    }
}

fn target(members: &mut Members) -> Checked<Target> {
    let value = members.wanted("from")?;
    if text(value).is_some_and(|text| text == "latest") {
        return Ok(Target::Latest);
    }
    if value.get().starts_with('{') {
        let mut from = Members::of(&members.field("from"), value)?;
        let id = from.number("checkpoint", 1, GREATEST)?;
        from.finish()?;
        return Ok(Target::Checkpoint(id));
    }
    let id = read::<u64>(value).filter(|id| (1..=GREATEST).contains(id));
    let wrong = || members.wrong("from", "is neither \"latest\" nor the number of a savepoint");
    id.map(Target::Savepoint).ok_or_else(wrong)
}

#[cfg(test)]
mod tests {
    use super::*;
    use crate::model::ack;

    /// Calls, without `{"call":` and `}`, and the field that is wrong in each, behind `calls[0]`. tests/test_api.py has more, and those of jobs.
    const WRONG: [(&str, &str); 35] = [
        (r#""show","id":1"#, ".call"),
        (r#""fence","first_name":"1""#, ".call"),
        (r#""tick","term":3"#, ".term"),
        (r#""take","most":0"#, ".most"),
        (r#""deleted","file":7"#, ".file"),
        (r#""reserve","count":0"#, ".count"),
        (r#""reserve","count":65537"#, ".count"),
        (r#""reserve","count":1,"term":0"#, ".term"),
        (r#""reserve","count":1,"term":"3""#, ".term"),
        (r#""forfeit","term":3"#, ".names"),
        (r#""forfeit","term":3,"names":[7]"#, ".names[0]"),
        (r#""restore","from":"last""#, ".from"),
        (r#""restore","from":"latest","shape":[0]"#, ".shape"),
        (r#""restore","from":{"checkpoint":3}"#, ".accept_published"),
        (r#""restore","from":{"checkpoint":3},"accept_published":false"#, ".accept_published"),
        (r#""restore","from":{"checkpoint":0},"accept_published":true"#, ".from.checkpoint"),
        (r#""restore","from":{"checkpoint":3,"term":1},"accept_published":true"#, ".from.term"),
        (r#""restore","from":3,"accept_published":true"#, ".accept_published"),
        (r#""restore","from":"latest","accept_published":true"#, ".accept_published"),
        (r#""ack","subtask":"1.0""#, ".id"),
        (r#""ack","id":1.5,"subtask":"1.0""#, ".id"),
        (r#""ack","id":-1,"subtask":"1.0""#, ".id"),
        (r#""ack","id":1,"subtask":"1""#, ".subtask"),
        (r#""ack","id":1,"subtask":"1.65536""#, ".subtask"),
        (r#""ack","id":1,"subtask":"+1.0""#, ".subtask"),
        (r#""ack","id":1,"subtask":"1.0","reused":["18446744073709551616"]"#, ".reused[0]"),
        (r#""ack","id":1,"subtask":"1.0","fresh":{}"#, ".fresh"),
        (r#""ack","id":1,"subtask":"1.0","bytes":[1]"#, ".bytes"),
        (r#""ack","id":1,"subtask":"1.0","fresh":["1"],"bytes":{}"#, ".bytes"),
        (r#""ack","id":1,"subtask":"1.0","fresh":["1"],"bytes":["1"]"#, ".bytes[0]"),
        (r#""ack","id":1,"subtask":"1.0","fresh":["1"],"bytes":[9007199254740993]"#, ".bytes[0]"),
        (r#""ack","id":1,"subtask":"1.0","millis":-1"#, ".millis"),
        (r#""ack","id":1,"subtask":"1.0","snapshot_bytes":-1"#, ".snapshot_bytes"),
        (r#""ack","id":1,"subtask":"1.0","snapshot_bytes":7,"bytes":7"#, ".snapshot_bytes"),
        (r#""ack","id":1,"subtask":"1.0","payload":7"#, ".payload"),
    ];

    fn calls(body: &str) -> Result<Vec<Call>, String> {
        super::calls(body.as_bytes(), 10).map(|(calls, _)| calls).map_err(|invalid| invalid.field)
    }

    /// The call of these members, as in [`WRONG`].
    fn one(members: &str) -> Result<Call, String> {
        calls(&format!(r#"{{"calls":[{{"call":{members}}}]}}"#)).map(|mut calls| calls.remove(0))
    }

    #[test]
    fn names_the_field() {
        for (members, field) in WRONG {
            assert_eq!(one(members), Err(format!("calls[0]{field}")), "{members}");
        }
        let many = vec![r#""7""#; MOST_FORFEITED + 1].join(",");
        assert_eq!(one(&format!(r#""forfeit","names":[{many}]"#)), Err("calls[0].names".to_string()));
        for (body, field) in [
            ("{", "body"),
            ("{}", "calls"),
            (r#"{"calls":[{"call":"tick"}],"key":1}"#, "key"),
            (r#"{"calls":[{"call":"tick"}],"ended":1}"#, "ended"),
            (r#"{"calls":[{"call":"tick"},7]}"#, "calls[1]"),
        ] {
            assert_eq!(calls(body), Err(field.to_string()));
        }
    }

    #[test]
    fn reads_calls() {
        let body = r#"{"term":5,"calls":[{"call":"ack","id":12,"subtask":"1.0","fresh":["31"],"reused":["18446744073709551615"]},
            {"call":"ack","term":3,"id":12,"subtask":"1.0","fresh":["32","30"],"bytes":[0,9007199254740992]},
            {"call":"take","most":64},{"call":"restore","from":3,"shape":[2]},{"call":"restore","from":"latest"},
            {"call":"restore","from":{"checkpoint":3},"accept_published":true},{"call":"decline","id":12,"subtask":"1.0"},
            {"call":"reserve","count":1000},{"call":"forfeit","term":3,"names":["31","32"]},{"call":"cancel"}]}"#;
        let (subtask, fresh, bytes) = (Subtask { vertex: 1, index: 0 }, vec![32, 30], vec![0, 1 << 53]);
        let wanted = vec![
            ack(5, 12, (1, 0), &[31], &[u64::MAX]),
            Call::Ack { term: 3, id: 12, subtask, fresh, reused: vec![], bytes, given: None },
            Call::Take { most: 64 },
            Call::Restore { target: Target::Savepoint(3), shape: Some(vec![2]) },
            Call::Restore { target: Target::Latest, shape: None },
            Call::Restore { target: Target::Checkpoint(3), shape: None },
            Call::Decline { term: 5, id: 12, subtask, reason: None },
            Call::Reserve { term: 5, count: 1000 },
            Call::Forfeit { term: 3, names: vec![31, 32] },
            Call::Cancel,
        ];
        assert_eq!(calls(body), Ok(wanted));
        assert_eq!(one(r#""reserve","count":1"#), Ok(Call::Reserve { term: 0, count: 1 }));
    }

    #[test]
    fn reads_a_first_name() {
        for body in [r#"{"first_name":"20"}"#, r#"{"first_name":20}"#] {
            assert_eq!(first_name(body.as_bytes()), Ok(20));
        }
        assert_eq!(first_name(br#"{"first_name":"4611686018427387904"}"#), Ok(LAST_NAME));
        for bad in ["0", r#""0""#, r#""4611686018427387905""#, "9007199254740993", "1.5", r#""x""#, "null", "[]"] {
            let body = format!(r#"{{"first_name":{bad}}}"#);
            assert_eq!(first_name(body.as_bytes()).err().map(|it| it.field).as_deref(), Some("first_name"), "{bad}");
        }
    }

    #[test]
    fn reads_what_is_given_beside_files() {
        let ack = |rest: &str| one(&format!(r#""ack","id":1,"subtask":"0.0"{rest}"#));
        let given = |rest: &str| match ack(rest) {
            Ok(Call::Ack { given, .. }) => given.map(|it| (it.payload, it.bytes, it.millis)),
            _ => None,
        };
        assert_eq!(given(""), None);
        assert_eq!(given(r#","payload":"""#), Some((String::new(), None, None)));
        assert_eq!(given(r#","payload":"eA==","bytes":7,"millis":8"#), Some(("eA==".to_string(), Some(7), Some(8))));
        assert_eq!(given(r#","millis":0"#), Some((String::new(), None, Some(0))));
        let beside_sizes = r#","fresh":["3"],"bytes":[5],"snapshot_bytes":7"#;
        assert_eq!(given(beside_sizes), Some((String::new(), Some(7), None)));
        assert_eq!(given(r#","snapshot_bytes":0"#), Some((String::new(), Some(0), None)));
        for other in [r#""x""#, r#""eA""#, r#"" eA==""#, r#""eB==""#, r#""eA==\n""#] {
            assert_eq!(ack(&format!(r#","payload":{other}"#)), Err("calls[0].payload".to_string()), "{other}");
        }
    }
}
