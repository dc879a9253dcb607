//! The logs of examples/logs and examples/reads, the example of docs/LOGS.md, and rows: how their calls are made, and what they print.
use crate::settings::SETTINGS;
use relkvanu::{Answer, Call, Coordinator, Fault, Fenced, Line, LineFault, Live, Said};

/// The lines of a log, and after each arrow what a line prints.
fn lines_of(log: &str) -> Vec<(String, Vec<String>)> {
    let mut lines: Vec<(String, Vec<String>)> = Vec::new();
    for row in log.lines() {
        let (line, told) = match row.split_once("-> ") {
            Some((line, told)) => (line.trim(), Some(told.to_string())),
            None => (row, None),
        };
        if !line.is_empty() {
            lines.push((line.to_string(), Vec::new()));
        }
        lines.last_mut().unwrap().1.extend(told);
    }
    lines
}

/// The example of the page, and the logs of `examples/logs` and `examples/reads`.
pub fn logs() -> Vec<String> {
    let top = concat!(env!("CARGO_MANIFEST_DIR"), "/../../..");
    let page = std::fs::read_to_string(format!("{top}/docs/LOGS.md")).unwrap();
    let example = page.split_once("## 5. An example").unwrap().1;
    let mut logs = vec![example.split("```\n").nth(1).unwrap().to_string()];
    for folder in ["logs", "reads"] {
        for entry in std::fs::read_dir(format!("{top}/examples/{folder}")).unwrap() {
            logs.push(std::fs::read_to_string(entry.unwrap().path()).unwrap());
        }
    }
    assert!(lines_of(&logs[0]).len() > 15, "the page has an example");
    assert!(logs.len() > 14, "there are logs");
    logs
}

/// How the call of a line is made.
pub type Make = for<'a> fn(&mut Coordinator, &[u8], &'a mut [u64]) -> Result<Said<'a>, Fault>;

/// The line of the call that it says says the same call.
fn by_call<'a>(job: &mut Coordinator, line: &[u8], files: &'a mut [u64]) -> Result<Said<'a>, Fault> {
    let (mut first, mut second) = (Vec::new(), Vec::new());
    let Some(call) = Call::of(line, &mut first, &mut second)? else { return Ok(Said::Skipped) };
    let (written, (mut first, mut second)) = (call.line()?, (Vec::new(), Vec::new()));
    assert_eq!(Call::of(written.as_bytes(), &mut first, &mut second), Ok(Some(call)));
    assert_eq!(Line::of(line), Ok(Line::Call));
    let waited = job.file_counts().waiting;
    let made = job.make(&call, files)?;
    assert_eq!((&made.line, made.waited, made.counts), (&written, waited, job.file_counts()));
    Ok(made.said)
}

/// By the method of the call.
fn by_method<'a>(job: &mut Coordinator, line: &[u8], files: &'a mut [u64]) -> Result<Said<'a>, Fault> {
    let (mut first, mut second) = (Vec::new(), Vec::new());
    let Some(call) = Call::of(line, &mut first, &mut second)? else { return Ok(Said::Skipped) };
    let answer = match call {
        Call::Tick { now } => job.tick(now)?,
        Call::Savepoint { now } => job.savepoint(now)?,
        Call::Ack { now, id, subtask, fresh, reused } => job.ack(now, id, subtask, fresh, reused)?,
        Call::Decline { now, id, subtask } => job.decline(now, id, subtask)?,
        Call::Restore { now, savepoint, shape } => job.restore(now, savepoint, shape)?,
        Call::Cancel { now } => job.cancel(now)?,
        Call::Deleted { file } => job.deleted(file)?,
        Call::Undeleted { file } => job.undeleted(file)?,
        Call::Count { file } => job.count(file)?,
        Call::Dispose { id } => job.dispose(id)?,
        Call::Show { id } => return job.show(id).map(Said::Shown),
        Call::Take { most } => {
            let most = files.len().min(usize::try_from(most).unwrap());
            return job.take(&mut files[..most]).map(Said::Taken);
        }
        Call::Fence { first_name } => job.fence(first_name).map(|()| Answer::Named)?,
        Call::Reserve { term, count } => job.reserve(term, count).map(|names| Answer::Reserved(names.start))?,
        Call::Forfeit { term, names } => job.forfeit(term, names).map(|()| Answer::Forfeited)?,
        Call::Advance { now, term, first_name } => job.advance(now, term, first_name)?,
        Call::AckIn { term, now, id, subtask, fresh, reused } => job.ack_in(term, now, id, subtask, fresh, reused)?,
        Call::DeclineIn { term, now, id, subtask } => job.decline_in(term, now, id, subtask)?,
        other => panic!("{other:?}"),
    };
    Ok(Said::Called(answer))
}

/// The numbers, or that there is none.
fn listed(numbers: &[u64]) -> String {
    let words: Vec<String> = numbers.iter().map(u64::to_string).collect();
    if words.is_empty() {
        "none".to_string()
    } else {
        words.join(" ")
    }
}

fn record(it: Live) -> String {
    format!("{} {} {}", it.kind, it.id, if it.done { "done" } else { "pending" })
}

/// What a line that begins with ? tells: a read with its numbers.
fn read(job: &Coordinator, line: &str) -> String {
    let mut words = line.split_whitespace();
    let name = words.next().unwrap();
    let given: Vec<u64> = words.map(|word| word.parse().unwrap()).collect();
    let number = |it: Option<u64>| it.map_or("none".to_string(), |it| it.to_string());
    let small = |place: usize| u16::try_from(given[place]).unwrap();
    match name {
        "mode" => format!("{:?}", job.mode()).to_lowercase(),
        "moment" => job.moment().to_string(),
        "due" => job.due().to_string(),
        "oldest_expiry" => number(job.oldest_expiry()),
        "choice" => job.choice().to_string(),
        "live" => match (0..).map_while(|place| job.live(place)).map(record).collect::<Vec<_>>() {
            none if none.is_empty() => "none".to_string(),
            some => some.join(" "),
        },
        "live_from" => job.live_from(given[0]).map_or("none".to_string(), record),
        "missing" => number(job.missing(given[0])),
        "standing" => format!("{:?}", job.standing(given[0])).replace("NotYet", "not yet").to_lowercase(),
        "waiting_file" => number(job.waiting_file(usize::try_from(given[0]).unwrap())),
        "file_counts" => {
            let counts = job.file_counts();
            format!("{} {} {}", counts.in_use, counts.waiting, counts.taken)
        }
        "files_of" => job.files_of(given[0], (small(1), small(2))).map_or("none".to_string(), |files| listed(&files)),
        "pins_of" => listed(&job.pins_of(given[0]).unwrap()),
        "taken_files" => listed(&job.taken_files().unwrap()),
        "term" => or_fenced(job.term().map(|it| format!("{} {}", it.term, it.next_name))),
        "garbage" => or_fenced(
            job.garbage(&given).map(|it| format!("garbage {} unissued {}", listed(&it.garbage), listed(&it.unissued))),
        ),
        other => panic!("{other}"),
    }
}

fn or_fenced(told: Result<String, Fault>) -> String {
    match told {
        Ok(text) => text,
        Err(Fault::Fenced(why)) => format!("fenced {why}"),
        Err(fault) => panic!("{fault}"),
    }
}

pub const WAYS: [Make; 3] = [|job, line, files| job.line(line, files), by_call, by_method];

/// What a line with this number prints: nothing, or a line.
pub fn told(job: &mut Coordinator, line: &[u8], number: usize, make: Make) -> Option<String> {
    let mut files = vec![0; 4096];
    Some(match make(job, line, &mut files) {
        Ok(Said::Skipped) | Err(Fault::BadLine(LineFault::NoCall)) => return None,
        Ok(Said::Called(answer)) => answer.to_string(),
        Ok(Said::Taken(files)) => format!("take {}", listed(files)),
        Ok(Said::Shown(json)) => json,
        // a fence that is refused is so as the line of a log, and a task by its term
        Err(Fault::Fenced(why @ (Fenced::NoNames | Fenced::HasNames | Fenced::NameInUse))) => format!("refused {why}"),
        Err(Fault::Fenced(why)) => format!("fenced {why}"),
        Err(Fault::Refused(why)) => format!("refused {why}"),
        Err(fault @ (Fault::BadName | Fault::BadShape)) => format!("refused {fault:?}"),
        Err(Fault::BadLine(why)) => format!("line {number} fault {why}"),
        Err(fault) => panic!("{fault}"),
    })
}

/// What a line of a log prints: a second line has the term that began.
fn told_in_log(job: &mut Coordinator, line: &str, make: Make) -> Vec<String> {
    let told = told(job, line.as_bytes(), 0, make).unwrap();
    let is_begun = told.starts_with("restored ") || told.starts_with("cancelled ");
    let term = if is_begun { job.term().ok() } else { None };
    std::iter::once(told).chain(term.map(|it| format!("term {}", it.term))).collect()
}

/// Makes the calls of a log so.
pub fn replay(log: &str, make: Make) {
    let (mut settings, mut shape, mut job) = (SETTINGS, vec![], None);
    for (line, wanted) in lines_of(log) {
        if let Some(words) = line.strip_prefix("? ") {
            assert_eq!([read(job.as_ref().unwrap(), words)][..], wanted, "{line}");
            continue;
        }
        match Line::of(line.as_bytes()).unwrap() {
            Line::Config(given) => settings = given,
            Line::Job(given) => shape = given,
            Line::Start(now) => job = Coordinator::open(&settings, &shape, now, 1).ok(),
            Line::Call => assert_eq!(told_in_log(job.as_mut().unwrap(), &line, make), wanted, "{line}"),
            other => assert_eq!(other, Line::Skip),
        }
    }
}
