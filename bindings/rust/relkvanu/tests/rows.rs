//! The rows of `examples/rows` that are lists of calls, and the logs, through the crate: by lines, by calls that are written again, and by methods. And calls that
//! none of them has.
mod logs;
mod settings;

use logs::WAYS;
use relkvanu::{opening_lines, Answer, Call, Coordinator, Fault, Line, LineFault, Refusal, Said, Settings};
use settings::SETTINGS;
use std::path::Path;

/// A row: the lines of its script, and what each one prints.
struct Row {
    lines: Vec<Vec<u8>>,
    wanted: String,
}

fn row(path: &Path) -> Row {
    let script = std::fs::read(path).unwrap();
    let ended = script.strip_suffix(b"\n").unwrap_or(&script);
    Row {
        lines: ended.split(|byte| *byte == b'\n').map(<[u8]>::to_vec).collect(),
        wanted: std::fs::read_to_string(path.with_extension("out")).unwrap(),
    }
}

/// Opens the job as the config, job and start lines of a row say. `None` if the row does not have one of each and then
/// only calls.
fn opened(lines: &[Vec<u8>]) -> Option<Coordinator> {
    let says: Vec<Line> =
        lines.iter().filter_map(|line| Line::of(line).ok()).filter(|line| *line != Line::Skip).collect();
    let (settings, shape) = match says.get(..2)? {
        [Line::Config(settings), Line::Job(shape)] | [Line::Job(shape), Line::Config(settings)] => (settings, shape),
        _ => return None,
    };
    match (says.get(2)?, &says[3..]) {
        (Line::Start(now), calls) if calls.iter().all(|line| *line == Line::Call) => {
            Some(Coordinator::open(settings, shape, *now, 1).unwrap())
        }
        _ => None,
    }
}

#[test]
fn rows() {
    let folder = Path::new(env!("CARGO_MANIFEST_DIR")).join("../../../examples/rows");
    let others = std::fs::read_to_string(folder.join("OTHERS")).unwrap();
    let mut run = 0;
    for entry in std::fs::read_dir(folder).unwrap() {
        let path = entry.unwrap().path();
        if path.extension().is_none_or(|extension| extension != "in") {
            continue;
        }
        let row = row(&path);
        let name = path.file_stem().unwrap().to_str().unwrap();
        assert_eq!(opened(&row.lines).is_none(), others.lines().any(|it| it == name), "{name}");
        for make in WAYS {
            let Some(mut job) = opened(&row.lines) else { continue };
            job.set_most_ahead(u64::MAX); // a line is not checked
            let told = row.lines.iter().zip(1..).filter_map(|(line, number)| logs::told(&mut job, line, number, make));
            assert_eq!(told.map(|it| it + "\n").collect::<String>(), row.wanted, "{}", path.display());
            run += 1;
        }
    }
    assert!(run > 0, "no row is a list of calls");
}

#[test]
fn a_call_that_is_refused_has_no_line() {
    let mut job = Coordinator::open(&SETTINGS, &[1], 0, 1).unwrap();
    let image = job.save();
    let many: Vec<u64> = (0..9000).map(|place| u64::MAX - place).collect();
    let ack = |fresh| Call::Ack { now: 5, id: 1, subtask: (0, 0), fresh, reused: &[] };
    let shape = Some([].as_slice());
    let savepoint = None;
    let restore = Call::Restore { now: 5, savepoint, shape };
    let far = Call::Tick { now: 1 << 40 };
    for (call, fault) in [
        (ack(&many), Fault::BadLine(LineFault::TooLong)),
        (ack(&many[..4097]), Refusal::TooManyFiles.into()),
        (ack(&many[..1]), Refusal::UnknownCheckpoint.into()),
        (restore, Fault::BadShape),
        (far, Refusal::MomentTooLarge.into()),
        (Call::Show { id: 7 }, Refusal::NoSuchRecord.into()),
    ] {
        assert_eq!(job.make(&call, &mut []), Err(fault));
        assert_eq!(job.save(), image);
    }
}

#[test]
fn a_log_is_made_again() {
    let settings = Settings { keep_on_cancel: true, ..SETTINGS };
    let lines = opening_lines(&settings, &[1, 2], 7).unwrap();
    assert_eq!(lines, "config 1000 0 1 5000 0 1 keep\njob 1 2\nstart 7\n");
    let says: Vec<Line> = lines.lines().map(|line| Line::of(line.as_bytes()).unwrap()).collect();
    assert_eq!(says, [Line::Config(settings), Line::Job(vec![1, 2]), Line::Start(7)]);
    let mut job = Coordinator::open(&settings, &[1, 2], 7, 1).unwrap();
    job.tick(2000).unwrap();
    job.ack(2000, 1, (0, 0), &[1, 2], &[]).unwrap();
    job.cancel(2000).unwrap();
    assert_eq!(job.line(b"take 9", &mut [0]), Err(Fault::TooShort { places: 2 }));
    assert_eq!(job.line(b"take 9", &mut [0, 0]), Ok(Said::Taken(&[1, 2])));
    let longer = [b"tick".as_slice(), &[b' '; 1 << 17]].concat();
    assert_eq!(job.line(&longer, &mut []), Err(Fault::BadLine(LineFault::TooLong)));
}

#[test]
fn logs_are_replayed_by_their_lines_by_calls_and_by_methods() {
    for log in logs::logs() {
        for make in WAYS {
            logs::replay(&log, make);
        }
    }
}

/// No row has such a call.
#[test]
fn other_settings_of_a_live_job() {
    let mut job = Coordinator::open(&SETTINGS, &[1], 0, 1).unwrap();
    let other =
        Settings { pause: 5, at_once: 3, timeout: 70, tolerable: 4, retained: 2, keep_on_cancel: true, ..SETTINGS };
    let numbers = other.numbers();
    let call = Call::Configure { now: 8, settings: &numbers };
    assert_eq!(call.line().unwrap(), "configure 8 1000 5 3 70 4 2 keep");
    let (mut first, mut second) = (Vec::new(), Vec::new());
    assert_eq!(Call::of(b"configure 8 1000 5 3 70 4 2 keep", &mut first, &mut second), Ok(Some(call)));
    let none = Answer::Configured { checkpoints: 0, released: 0 };
    assert_eq!(job.configure(8, &other), Ok(none));
    assert_eq!(job.trigger(9), Ok(Answer::Triggered { expired: 0, id: 1 }));
    let bad = Settings { interval: 9, ..SETTINGS };
    assert_eq!(job.configure(9, &bad), Err(Fault::BadConfig));
    assert_eq!(Call::Configure { now: 9, settings: &bad.numbers() }.line(), Err(Fault::BadConfig));
    assert_eq!(Settings::of_numbers(&numbers), Some(other));
    assert_eq!(Settings::of_numbers(&numbers[1..]), None);
    assert_eq!(Settings::of_numbers(&[10, 0, 1, 1, 0, 1, 2]), None);
}
