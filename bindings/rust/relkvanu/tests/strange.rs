//! Libraries that do not fit the crate (`bindings/build_odd_libraries`): of another version, and with answers that no header has. It is empty without
//! `--cfg other_version` or `--cfg unknown_answers`, since the library that is shipped fits.
#![cfg(any(other_version, unknown_answers))]
mod settings;

use relkvanu::{AlignFault, Aligner, Coordinator, Fault, Line};
use settings::SETTINGS;

#[cfg(other_version)]
#[test]
fn a_library_of_another_version_is_refused() {
    use relkvanu::{opening_lines, Call};

    let other = Fault::OtherLibrary { library: "0.99.0" };
    assert_eq!(Coordinator::open(&SETTINGS, &[1], 0, 1).err(), Some(other));
    assert_eq!(Coordinator::open_saved(b"{}").err(), Some(other));
    assert_eq!(Line::of(b"tick 1"), Err(other));
    assert_eq!(opening_lines(&SETTINGS, &[1], 0), Err(other));
    assert_eq!(Call::Tick { now: 1 }.line(), Err(other));
    let library = "0.99.0";
    assert_eq!(Aligner::new(1).err(), Some(AlignFault::OtherLibrary { library }));
    let text = other.to_string();
    assert!(text.contains("0.99.0") && text.contains(env!("CARGO_PKG_VERSION")), "{text}");
}

#[cfg(unknown_answers)]
#[test]
fn an_answer_that_nobody_knows_is_an_error_and_no_panic() {
    use relkvanu::{Choice, Fenced, Kind, LineFault, Mode, Refusal, Standing};

    let done = Fault::Unknown { code: 0, what: 999 };
    let mut job = Coordinator::open(&SETTINGS, &[1], 0, 1).unwrap();
    assert_eq!(job.tick(0), Err(done));
    assert_eq!(job.ack(0, 1, (0, 0), &[], &[]), Err(Fault::Refused(Refusal::Unknown(999))));
    assert_eq!(job.decline(0, 1, (0, 0)), Err(Fault::Unknown { code: 999, what: 7 }));
    assert_eq!(job.restore(0, None, None), Err(Fault::Unknown { code: 4, what: 999 }));
    assert_eq!(job.line(b"", &mut []), Err(done));
    assert_eq!(job.line(b"x", &mut []), Err(Fault::BadLine(LineFault::Unknown(999))));
    assert_eq!(Line::of(b""), Err(done));
    assert_eq!(job.mode(), Mode::Unknown(999));
    assert_eq!(job.choice(), Choice::Unknown(999));
    assert_eq!(job.standing(1), Standing::Unknown(999));
    assert_eq!(job.live(0).map(|it| it.kind), Some(Kind::Unknown(999)));
    assert_eq!(job.term(), Err(Fault::Fenced(Fenced::Unknown(999))));
    assert_eq!(job.reserve(1, 1), Err(done));
    assert_eq!(job.save(), Err(Fault::Memory));
    let task = Aligner::new(1).unwrap();
    assert_eq!(task.element(0), Err(AlignFault::Unknown(999)));
    assert_eq!(job.take(&mut []), Err(done));
    for told in [job.savepoint(0), job.dispose(1), job.cancel(0), job.deleted(1), job.undeleted(1), job.count(1)] {
        assert_eq!(told, Err(done));
    }
    assert!(done.to_string().contains("what 999"));
    assert_eq!(Fenced::Unknown(999).name(), "Unknown 999");
    assert_eq!(Refusal::Unknown(999).name(), "Unknown 999");
}
