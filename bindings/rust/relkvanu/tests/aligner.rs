//! The steps of `examples/alignment.rows` and `examples/unaligned.rows`, and an acknowledgement that takes a cut.
mod settings;

use relkvanu::{AlignFault, Aligner, Answer, Coordinator, Recorder, Step, MOST_INPUTS};
use settings::SETTINGS;

fn told(step: Result<Step, AlignFault>) -> String {
    match step {
        Ok(Step::Cut(cut)) => format!("cut {}", cut.id()),
        Ok(Step::Complete(cut)) => format!("complete {}", cut.id()),
        Ok(Step::Snap(id)) => format!("snap {id}"),
        Ok(Step::Abandon(id)) => format!("abandon {id}"),
        Ok(step) => format!("{step:?} 0").to_lowercase(),
        Err(AlignFault::UnknownInput) => "unknown_input 0".into(),
        Err(AlignFault::HeldInput) => "held_input 0".into(),
        Err(AlignFault::EndedInput) => "ended_input 0".into(),
        Err(AlignFault::BadInputs) => "bad_inputs 0".into(),
        Err(other) => other.to_string(),
    }
}

/// The alignment of a case, or its recorder.
enum Task {
    Aligned(Aligner),
    Recorded(Recorder),
}

impl Task {
    fn open(is_recorded: bool, inputs: usize) -> Result<Task, AlignFault> {
        match is_recorded {
            true => Recorder::new(inputs).map(Task::Recorded),
            false => Aligner::new(inputs).map(Task::Aligned),
        }
    }

    fn make(&mut self, event: &str, numbers: &[u64]) -> Result<Step, AlignFault> {
        let input = u32::try_from(numbers[0]);
        match (self, event) {
            (Task::Aligned(it), "element") => it.element(input.unwrap()),
            (Task::Aligned(it), "barrier") => it.barrier(input.unwrap(), numbers[1]),
            (Task::Aligned(it), "end") => it.end(input.unwrap()),
            (Task::Aligned(it), _) => it.give_up(numbers[0]),
            (Task::Recorded(it), "element") => it.element(input.unwrap()),
            (Task::Recorded(it), "barrier") => it.barrier(input.unwrap(), numbers[1]),
            (Task::Recorded(it), "end") => it.end(input.unwrap()),
            (Task::Recorded(it), "overtake") => it.overtake(numbers[0]),
            (Task::Recorded(it), _) => it.give_up(numbers[0]),
        }
    }
}

/// Makes the steps of rows. Returns how many there are.
fn makes(is_recorded: bool, rows: &str) -> usize {
    let (mut task, mut count) = (None, 0);
    for (asked, wanted) in rows.lines().filter_map(|row| row.split_once(" = ")) {
        let words: Vec<&str> = asked.split(' ').collect();
        let numbers: Vec<u64> = words[1..].iter().map(|it| it.parse().unwrap()).collect();
        let step = match words[0] {
            "open" => Task::open(is_recorded, numbers[0] as usize).map(|opened| {
                task = Some(opened);
                Step::Nothing
            }),
            event => task.as_mut().unwrap().make(event, &numbers),
        };
        assert_eq!(told(step), wanted, "{asked}");
        count += 1;
    }
    count
}

#[test]
fn steps_are_those_of_the_rows() {
    assert!(makes(false, include_str!("../../../../examples/alignment.rows")) > 80);
    assert!(makes(true, include_str!("../../../../examples/unaligned.rows")) > 60);
}

#[test]
fn an_acknowledgement_takes_a_cut() {
    let mut job = Coordinator::open(&SETTINGS, &[1], 0, 1).unwrap();
    job.tick(1000).unwrap();
    let mut task = Aligner::new(2).unwrap();
    assert_eq!(task.barrier(1, 1), Ok(Step::Wait));
    let Ok(Step::Cut(cut)) = task.barrier(0, 1) else {
        panic!("no cut");
    };
    let completed = Answer::AckCompleted { dropped: 0, released: 0 };
    assert_eq!(job.ack_cut(1100, &cut, (0, 0), &[7], &[]), Ok(completed));
    assert_eq!(job.file_counts().in_use, 1);
}

#[test]
fn an_acknowledgement_of_a_term_takes_a_cut() {
    let mut job = Coordinator::open_fenced(&SETTINGS, &[1], 0, 1, 5).unwrap();
    job.tick(1000).unwrap();
    let names = job.reserve(1, 1).unwrap();
    let Ok(Step::Cut(cut)) = Aligner::new(1).unwrap().barrier(0, 1) else {
        panic!("no cut");
    };
    assert!(job.ack_cut_in(2, 1100, &cut, (0, 0), &[names.start], &[]).is_err());
    assert!(job.ack_cut_in(1, 1100, &cut, (0, 0), &[names.start], &[]).is_ok());
}

#[test]
fn an_aligner_has_a_greatest_number_of_inputs() {
    assert_eq!(Aligner::new(usize::MAX).err(), Some(AlignFault::BadInputs));
    assert_eq!(Aligner::new(MOST_INPUTS).unwrap().inputs(), MOST_INPUTS);
}
