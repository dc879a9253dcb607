//! Lines of calls, which the log has: those of a script (docs/SCRIPT.md), which `ckpt_job` runs, and those with terms and names
//! (docs/LOGS.md), which `ckpt_log` runs. The library writes them, reads them, and makes their calls again.
use super::call::{Call, Target};
use relkvanu::Fault;
use std::alloc::Layout;
use std::borrow::Cow;
use std::thread;
use std::time::Duration;

impl Call {
    /// The line of this call at the moment `now`. The files of an acknowledgement ascend in it.
    #[cfg(test)]
    pub fn line(&self, now: u64) -> Result<String, Fault> {
        self.of_library(now).line()
    }

    /// The library's call at the moment `now`.
    pub fn of_library(&self, now: u64) -> relkvanu::Call<'_> {
        use relkvanu::Call as C;
        match self {
            // bindings/generate makes what writes the calls of one number
            Call::Tick => C::Tick { now },
            Call::Savepoint => C::Savepoint { now },
            Call::Dispose { id } => C::Dispose { id: *id },
            Call::Cancel => C::Cancel { now },
            Call::Deleted { file } => C::Deleted { file: *file },
            Call::Undeleted { file } => C::Undeleted { file: *file },
            Call::Trigger => C::Trigger { now },
            // bindings/generate: end
            Call::Ack { term: 0, id, subtask, fresh, reused, .. } => {
                C::Ack { now, id: *id, subtask: subtask.into(), fresh, reused }
            }
            Call::Ack { term, id, subtask, fresh, reused, .. } => {
                C::AckIn { term: *term, now, id: *id, subtask: subtask.into(), fresh, reused }
            }
            Call::Decline { term: 0, id, subtask, .. } => C::Decline { now, id: *id, subtask: subtask.into() },
            Call::Decline { term, id, subtask, .. } => {
                C::DeclineIn { term: *term, now, id: *id, subtask: subtask.into() }
            }
            Call::Restore { target, shape } | Call::RestoreStopped { target, shape } => {
                C::Restore { now, savepoint: target.savepoint(), shape: shape.as_deref() }
            }
            Call::Take { most } => C::Take { most: *most },
            // the first calls that are made of them
            Call::TriggerFull => C::Trigger { now },
            Call::Stop => C::Savepoint { now },
            Call::Begin => C::Restore { now, savepoint: None, shape: None },
            Call::Configure { numbers } => C::Configure { now, settings: numbers },
            Call::Fence { first_name } => C::Fence { first_name: *first_name },
            Call::Advance { term, first_name } => C::Advance { now, term: *term, first_name: *first_name },
            Call::Reserve { term, count } => C::Reserve { term: *term, count: *count },
            Call::Forfeit { term, names } => C::Forfeit { term: *term, names },
        }
    }
}

/// A line with `*` in place of its term, for whoever must not learn it there.
pub fn without_term(line: &str) -> Cow<'_, str> {
    let place = match line.split(' ').next() {
        Some("in" | "reserve" | "forfeit") => 1,
        // behind the moment
        Some("advance") => 2,
        _ => return Cow::Borrowed(line),
    };
    let words = line.split(' ').enumerate().map(|(at, word)| if at == place { "*" } else { word });
    Cow::Owned(words.collect::<Vec<_>>().join(" "))
}

/// How often a line is read again for which the library had no memory, and how long after the time before.
const ATTEMPTS: u32 = 10_000;
const PAUSE: Duration = Duration::from_millis(1);

/// Reads a line that [`Call::line`] wrote: its moment, which is 0 for calls without one, and the call. `None` for another line.
///
/// A line that was not read for want of memory must not pass for another one. If memory does not come back, the process ends, as it
/// does if there is none for a list of its own.
pub fn parse_line(line: &str) -> Option<(u64, Call)> {
    // room for each word, so that the library reads the line once
    let words = line.bytes().filter(|byte| *byte == b' ').count();
    for _ in 0..ATTEMPTS {
        match relkvanu::Call::of(line.as_bytes(), &mut vec![0; words], &mut vec![0; words]) {
            Ok(said) => return changing(said?),
            Err(Fault::Memory) => thread::sleep(PAUSE),
            Err(_) => return None,
        }
    }
    std::alloc::handle_alloc_error(Layout::for_value(line))
}

/// The call with its moment, if it changes a job.
fn changing(said: relkvanu::Call<'_>) -> Option<(u64, Call)> {
    use relkvanu::Call as C;
    Some(match said {
        // bindings/generate makes what reads the calls of one number
        C::Tick { now } => (now, Call::Tick),
        C::Savepoint { now } => (now, Call::Savepoint),
        C::Dispose { id } => (0, Call::Dispose { id }),
        C::Cancel { now } => (now, Call::Cancel),
        C::Deleted { file } => (0, Call::Deleted { file }),
        C::Undeleted { file } => (0, Call::Undeleted { file }),
        C::Trigger { now } => (now, Call::Trigger),
        // bindings/generate: end
        C::Ack { now, id, subtask, fresh, reused } => (now, ack(0, id, subtask, fresh, reused)),
        C::AckIn { term, now, id, subtask, fresh, reused } => (now, ack(term, id, subtask, fresh, reused)),
        C::Decline { now, id, subtask } => (now, decline(0, id, subtask)),
        C::DeclineIn { term, now, id, subtask } => (now, decline(term, id, subtask)),
        C::Restore { now, savepoint, shape } => {
            let target = savepoint.map_or(Target::Latest, |id| Target::Savepoint(id.get()));
            (now, Call::Restore { target, shape: shape.map(<[u64]>::to_vec) })
        }
        C::Take { most } => (0, Call::Take { most }),
        C::Configure { now, settings } => (now, Call::Configure { numbers: settings.try_into().ok()? }),
        C::Fence { first_name } => (0, Call::Fence { first_name }),
        C::Reserve { term, count } => (0, Call::Reserve { term, count }),
        C::Forfeit { term, names } => (0, Call::Forfeit { term, names: names.to_vec() }),
        C::Advance { now, term, first_name } => (now, Call::Advance { term, first_name }),
        C::Show { .. } | C::Count { .. } => return None,
    })
}

/// An acknowledgement with its files alone.
pub fn ack(term: u64, id: u64, subtask: (u16, u16), fresh: &[u64], reused: &[u64]) -> Call {
    let (fresh, reused) = (fresh.to_vec(), reused.to_vec());
    Call::Ack { term, id, subtask: subtask.into(), fresh, reused, bytes: vec![], given: None }
}

fn decline(term: u64, id: u64, subtask: (u16, u16)) -> Call {
    Call::Decline { term, id, subtask: subtask.into(), reason: None }
}

#[cfg(test)]
mod tests {
    use super::*;

    const SUBTASK: (u16, u16) = (1, 7);

    /// Calls at the moment 1234, and their lines.
    fn lines() -> Vec<(Call, &'static str)> {
        vec![
            (Call::Tick, "tick 1234"),
            (Call::Savepoint, "savepoint 1234"),
            (ack(0, 12, SUBTASK, &[31, u64::MAX], &[11]), "ack 1234 12 1.7 +31 +18446744073709551615 =11"),
            (ack(0, 12, SUBTASK, &[], &[]), "ack 1234 12 1.7"),
            (decline(0, 3, SUBTASK), "decline 1234 3 1.7"),
            (Call::Restore { target: Target::Latest, shape: None }, "restore 1234 latest"),
            (Call::Restore { target: Target::Savepoint(4), shape: Some(vec![2, 1]) }, "restore 1234 4 2 1"),
            (Call::Cancel, "cancel 1234"),
            (Call::Dispose { id: 4 }, "dispose 4"),
            (Call::Take { most: 64 }, "take 64"),
            (Call::Trigger, "trigger 1234"),
            (
                Call::Configure { numbers: [30_000, 0, 1, 600_000, 0, 1, 0] },
                "configure 1234 30000 0 1 600000 0 1 delete",
            ),
            (Call::Deleted { file: 9 }, "deleted 9"),
            (Call::Undeleted { file: 9 }, "undeleted 9"),
            (Call::Fence { first_name: 20 }, "fence 20"),
            (Call::Reserve { term: 3, count: 1000 }, "reserve 3 1000"),
            (Call::Advance { term: 9, first_name: 50 }, "advance 1234 9 50"),
            (Call::Forfeit { term: 3, names: vec![24, 26] }, "forfeit 3 24 26"),
            (Call::Forfeit { term: 3, names: vec![] }, "forfeit 3"),
            (ack(3, 12, SUBTASK, &[31], &[11]), "in 3 ack 1234 12 1.7 +31 =11"),
            (decline(3, 12, SUBTASK), "in 3 decline 1234 12 1.7"),
        ]
    }

    #[test]
    fn files_ascend_in_a_line() {
        let call = ack(0, 1, SUBTASK, &[31, 11], &[9, 8]);
        assert_eq!(call.line(5).as_deref(), Ok("ack 5 1 1.7 +11 +31 =8 =9"));
    }

    #[test]
    fn the_library_writes_and_reads_the_lines() {
        for (call, line) in lines() {
            assert_eq!(call.line(1234).as_deref(), Ok(line));
            let now = if line.contains("1234") { 1234 } else { 0 };
            assert_eq!(parse_line(line), Some((now, call)));
        }
    }

    #[test]
    fn refuses_other_lines() {
        let faulty = ["tick", "tick x", "ack 1 2", "ack 1 2 0", "restore 5 late", "restore 5 0", "take"];
        let none = ["", "# tick 5", "show 1", "count 1", "start 5", "in 3 tick 5", "in 3", "reserve 3", "fence"];
        for line in faulty.into_iter().chain(none) {
            assert_eq!(parse_line(line), None, "{line}");
        }
    }

    #[test]
    fn a_term_can_be_left_out() {
        for (line, told) in [
            ("in 3 ack 5 1 0.0 +20", "in * ack 5 1 0.0 +20"),
            ("in 3 decline 5 1 0.0", "in * decline 5 1 0.0"),
            ("reserve 3 1000", "reserve * 1000"),
            ("forfeit 3 20 21", "forfeit * 20 21"),
            ("forfeit 3", "forfeit *"),
            ("advance 5 9 50", "advance 5 * 50"),
            ("ack 5 1 0.0 +20", "ack 5 1 0.0 +20"),
            ("fence 20", "fence 20"),
            ("restore 5 latest", "restore 5 latest"),
        ] {
            assert_eq!(without_term(line), told);
        }
    }
}
