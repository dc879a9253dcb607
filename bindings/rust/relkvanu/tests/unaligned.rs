//! What a task takes from its inputs: the cases of `examples/inputs.rows`; and a job over the runner whose checkpoints overtake, which is killed.
#![cfg(feature = "store")]
mod common;

use common::{new_job, Place, SETTINGS};
use relkvanu::job::Job as JobOf;
use relkvanu::outputs::{Files, Sink};
use relkvanu::runner::{self, Ack, Barrier, Ended, Engine, Inputs, Record, RunFault, Runner, Told};
use relkvanu::store::{More, Store};
use relkvanu::unaligned::{check, elements_in, file_of, NotRescalable, Taken, UnalignedInputs};
use relkvanu::{AlignFault, Choice, Kind, Settings};
use std::collections::{BTreeMap, VecDeque};
use std::fs;
use std::io::{BufRead, BufReader};
use std::mem::ManuallyDrop;
use std::process::{Command, Stdio};
use std::sync::atomic::{AtomicUsize, Ordering::SeqCst};
use std::sync::{Arc, Mutex};
use std::thread;
use std::time::Duration;

fn barrier(id: u64) -> Barrier {
    Barrier { id, kind: Kind::Checkpoint, base: Choice::Fresh, term: 1, holds: false, drains: false }
}

/// The inputs of a case.
enum Case {
    Aligned(Inputs<String>),
    Overtaking(UnalignedInputs<String>),
}

impl Case {
    fn of(word: &str, words: &[&str]) -> Case {
        let (count, room) = (words[0].parse().unwrap(), if word == "full" { 1 } else { 100 });
        let element =
            |it: &&str| it.split_once(':').map(|(input, it)| (input.parse().unwrap(), it.to_owned())).unwrap();
        match word {
            "inputs" => Case::Aligned(Inputs::new(count, room).unwrap()),
            _ => {
                let recorded = words[1..].iter().map(element).collect();
                Case::Overtaking(UnalignedInputs::new(count, room, Duration::ZERO, recorded).unwrap())
            }
        }
    }

    fn put(&self, input: usize, item: &str) {
        let kind = if item.starts_with('/') { Kind::Savepoint } else { Kind::Checkpoint };
        let at = |id: &str| Barrier { kind, ..barrier(id.parse().unwrap()) };
        match (self, item.strip_prefix(['|', '/'])) {
            (Case::Aligned(it), Some(id)) => it.put_barrier(input, at(id)),
            (Case::Overtaking(it), Some(id)) => it.put_barrier(input, at(id)).unwrap(),
            (Case::Aligned(it), None) if item == "." => it.end(input),
            (Case::Overtaking(it), None) if item == "." => it.end(input).unwrap(),
            (Case::Aligned(it), None) => it.put(input, item.to_owned()),
            (Case::Overtaking(it), None) => it.put(input, item.to_owned()).unwrap(),
        }
    }

    fn taken(&self) -> String {
        let told = match self {
            Case::Overtaking(it) => it.take(),
            Case::Aligned(it) => it.take().map(|it| match it {
                runner::Taken::Element(input, it) => Taken::Element(input, it),
                runner::Taken::Cut(it) => Taken::Cut(it),
            }),
        };
        match told {
            Ok(Taken::Element(input, it)) => format!("{input}:{it}"),
            Ok(Taken::Cut(it)) => format!("cut{}", it.id),
            Ok(Taken::Snap(it)) => format!("snap{}", it.id),
            Ok(Taken::Recorded(it, elements)) => {
                let words: Vec<_> = elements.iter().map(|(input, it)| format!("{input}:{it}")).collect();
                format!("rec{}[{}]", it.id, words.join(","))
            }
            Err(AlignFault::EndedInput) => "end".into(),
            Err(AlignFault::TwoOrders) => "two-orders".into(),
            Err(other) => panic!("{other}"),
        }
    }

    fn give_up(&self, id: u64) -> bool {
        match self {
            Case::Aligned(it) => it.give_up(id).unwrap(),
            Case::Overtaking(it) => it.give_up(id).unwrap(),
        }
    }

    fn make(&self, word: &str, words: &[&str]) {
        match word {
            "put" => words[1..].iter().for_each(|it| self.put(words[0].parse().unwrap(), it)),
            "give_up" => assert_eq!(self.give_up(words[0].parse().unwrap()), words[1] == "yes", "{words:?}"),
            _ => {
                let (mut told, mut wanted): (Vec<_>, _) =
                    (words.iter().map(|_| self.taken()).collect(), words.to_vec());
                if word == "any" {
                    told.sort();
                    wanted.sort();
                }
                assert_eq!(told, wanted);
            }
        }
    }
}

#[test]
fn what_is_taken_is_that_of_the_rows() {
    let rows =
        include_str!("../../../../examples/inputs.rows").lines().filter(|it| !it.is_empty() && !it.starts_with('#'));
    let (mut case, mut count) = (None, 0);
    for row in rows {
        let (word, words) = row.split_once(' ').unwrap();
        let words: Vec<&str> = words.split(' ').collect();
        match word {
            "inputs" | "unaligned" | "full" => case = Some(Case::of(word, &words)),
            _ => case.as_ref().unwrap().make(word, &words),
        }
        count += 1;
    }
    assert!(count > 90);
}

fn inputs(count: usize, after: u64) -> UnalignedInputs<u32> {
    UnalignedInputs::new(count, 8, Duration::from_millis(after), Vec::new()).unwrap()
}

fn put(inputs: &UnalignedInputs<u32>, input: usize, elements: &[u32]) {
    elements.iter().for_each(|it| inputs.put(input, *it).unwrap());
}

fn takes(inputs: &UnalignedInputs<u32>, count: usize) -> Vec<(usize, u32)> {
    let mut taken: Vec<(usize, u32)> = (0..count)
        .map(|_| match inputs.take().unwrap() {
            Taken::Element(input, element) => (input, element),
            other => panic!("{other:?}"),
        })
        .collect();
    taken.sort_unstable();
    taken
}

/// A barrier that was taken makes room, also where the others have not delivered it.
#[test]
fn room_behind_a_barrier() {
    let inputs = Arc::new(UnalignedInputs::new(2, 1, Duration::from_secs(600), Vec::new()).unwrap());
    let puts = inputs.clone();
    let source = thread::spawn(move || {
        puts.put_barrier(0, barrier(1))?;
        puts.put(0, 7)?;
        puts.put_barrier(1, barrier(1))
    });
    thread::sleep(Duration::from_millis(100)); // the source waits for room
    assert_eq!(inputs.take(), Ok(Taken::Cut(barrier(1))));
    assert_eq!((source.join().unwrap(), inputs.take()), (Ok(()), Ok(Taken::Element(0, 7))));
}

#[test]
fn it_is_aligned_until_the_timeout() {
    let quick = inputs(2, 60_000);
    for input in 0..2 {
        put(&quick, input, &[1]);
        quick.put_barrier(input, barrier(7)).unwrap();
    }
    assert_eq!(takes(&quick, 2), [(0, 1), (1, 1)]);
    assert_eq!(quick.take(), Ok(Taken::Cut(barrier(7))));
    let slow = inputs(2, 20);
    slow.put_barrier(0, barrier(7)).unwrap();
    put(&slow, 0, &[1]);
    assert_eq!(slow.take(), Ok(Taken::Snap(barrier(7))));
    assert_eq!(takes(&slow, 1), [(0, 1)]);
    slow.end(1).unwrap();
    assert_eq!(slow.take(), Ok(Taken::Recorded(barrier(7), vec![])));
}

/// That it comes first, also where an input is full, is in the rows.
#[test]
fn what_was_recorded_is_of_an_input() {
    let told = UnalignedInputs::new(1, 1, Duration::ZERO, vec![(1, 1)]);
    assert_eq!(told.err(), Some(AlignFault::UnknownInput));
}

#[test]
fn a_file_of_recorded_elements_is_known_and_not_rescaled() {
    let file = file_of(7, b"[[0,1]]");
    assert_eq!(file, b"relkvanu recorded 7\n[[0,1]]");
    assert_eq!((elements_in(7, &file), elements_in(8, &file)), (Some(&b"[[0,1]]"[..]), None));
    assert_eq!(check(3, false, [(6, &b"state"[..]), (7, &file)]), Err(NotRescalable { id: 3 }));
    assert_eq!((check(3, true, [(7, &file[..])]), check(3, false, [(6, &b"state"[..])])), (Ok(()), Ok(())));
}

const SOURCES: usize = 6;
const SHAPE: [u64; 2] = [SOURCES as u64, 1];
const SINK: (u16, u16) = (1, 0);
const FIRST: u64 = 5; // elements of each source before its first barrier
const KILLS: u64 = 6; // 200 were tried by hand

type Job = Arc<Runner<Slow>>;
type Elements = Vec<(usize, u64)>;

/// Sources whose elements are their numbers, full channels, and a sink that takes a millisecond for each. In the first term the sink takes nothing before the
/// first barrier of each source was put.
struct Slow {
    sink: Sink<Files>,
    tasks: Mutex<Tasks>,
    sent: AtomicUsize,     // barriers
    recorded: AtomicUsize, // elements, with which the term began
}

/// Of a term.
#[derive(Default)]
struct Tasks {
    inputs: Option<Arc<UnalignedInputs<u64>>>,
    barriers: Vec<VecDeque<Barrier>>, // of each source
}

fn bytes_of(elements: &[(usize, u64)]) -> Vec<u8> {
    elements.iter().flat_map(|(input, it)| [(*input as u64).to_le_bytes(), it.to_le_bytes()].concat()).collect()
}

fn numbers(bytes: &[u8]) -> Vec<u64> {
    bytes.chunks_exact(8).map(|it| u64::from_le_bytes(it.try_into().unwrap())).collect()
}

fn elements_of(bytes: &[u8]) -> Elements {
    numbers(bytes).chunks_exact(2).map(|it| (it[0] as usize, it[1])).collect()
}

impl Slow {
    fn new(place: &Place, store: &Store) -> Slow {
        let target = place.0.join("target");
        fs::create_dir_all(&target).unwrap();
        let job = JobOf::identity(store);
        let (sent, recorded) = (AtomicUsize::new(0), AtomicUsize::new(0));
        Slow { sink: Sink::new(Files::new(target), job), tasks: Mutex::default(), sent, recorded }
    }

    fn read(job: &Job, inputs: &UnalignedInputs<u64>, source: usize, mut next: u64) -> Told {
        let slow = job.engine();
        while !inputs.is_closed() {
            let barrier = slow.tasks.lock().unwrap().barriers[source].front().copied();
            match barrier {
                Some(barrier) if next >= FIRST => {
                    slow.tasks.lock().unwrap().barriers[source].pop_front();
                    inputs.put_barrier(source, barrier)?;
                    slow.sent.fetch_add(1, SeqCst);
                    job.ack_payload(&barrier, (0, source as u16), &next.to_le_bytes())?;
                }
                None if next == FIRST && slow.sent.load(SeqCst) < SOURCES => thread::sleep(Duration::from_millis(1)),
                _ => {
                    inputs.put(source, next)?;
                    next += 1;
                }
            }
        }
        Ok(())
    }

    fn write(job: &Job, inputs: &UnalignedInputs<u64>) -> Told {
        let (slow, mut snapshot) = (job.engine(), Vec::new());
        while slow.sent.load(SeqCst) < SOURCES && !inputs.is_closed() {
            thread::sleep(Duration::from_millis(1));
        }
        loop {
            match inputs.take()? {
                Taken::Element(source, element) => {
                    thread::sleep(Duration::from_millis(1));
                    slow.sink.push(format!("{source} {element}"));
                }
                Taken::Cut(it) => drop(job.ack_payload(&it, SINK, &slow.sink.prepare(it.id)?)?),
                Taken::Snap(it) => snapshot = slow.sink.prepare(it.id)?,
                Taken::Recorded(barrier, elements) => {
                    let more = More { payload: &snapshot, ..More::default() };
                    let ack = Ack { barrier, subtask: SINK, fresh: &[], reused: &[], more };
                    job.ack_recorded(ack, &bytes_of(&elements))?;
                }
            }
        }
    }
}

impl Engine for Slow {
    fn start(&self, job: &Job, _: u64, record: Option<&Record>) -> Told {
        let state = |subtask| record.map_or(Ok(None), |it| job.state(it, subtask));
        self.sink.begin(&state(SINK)?.unwrap_or_default(), None)?;
        let recorded = elements_of(&record.map_or(Ok(Vec::new()), |it| job.recorded(it, SINK))?);
        self.recorded.store(recorded.len(), SeqCst);
        self.sent.store(if record.is_none() { 0 } else { SOURCES }, SeqCst);
        let inputs = Arc::new(UnalignedInputs::new(SOURCES, 20, Duration::ZERO, recorded)?);
        *self.tasks.lock().unwrap() = Tasks { inputs: Some(inputs.clone()), barriers: vec![VecDeque::new(); SOURCES] };
        for source in 0..SOURCES {
            let next = numbers(&state((0, source as u16))?.unwrap_or_default()).first().copied().unwrap_or(0);
            let inputs = inputs.clone();
            job.spawn(move |job| Self::read(job, &inputs, source, next));
        }
        job.spawn(move |job| Self::write(job, &inputs));
        Ok(())
    }

    fn barrier(&self, barrier: Barrier) -> Told {
        self.tasks.lock().unwrap().barriers.iter_mut().for_each(|it| it.push_back(barrier));
        Ok(())
    }

    fn complete(&self, id: u64) -> Told {
        self.sink.publish(id)?;
        println!("checkpoint {id}");
        Ok(())
    }

    fn end(&self) -> Told {
        self.tasks.lock().unwrap().inputs.iter().for_each(|it| it.close());
        Ok(())
    }
}

/// A checkpoint comes each 30 ms, or only if it is asked for.
fn opened(place: &Place, interval: u64) -> Store {
    let mut how = new_job(&SHAPE);
    how.settings = Settings { interval, ..SETTINGS };
    how.storage = Some(place.state());
    Store::open(&place.job(), &how).unwrap()
}

const QUICK: u64 = 30;
const IDLE: u64 = 1 << 40;

fn runner(place: &Place, interval: u64) -> Job {
    let store = opened(place, interval);
    let slow = Slow::new(place, &store);
    Runner::new(store, slow)
}

/// Tasks that are about to end have it too.
fn closed(job: Job) {
    while Arc::strong_count(&job) > 1 {
        thread::sleep(Duration::from_millis(1));
    }
}

/// Of one record alone.
fn with_record(place: &Place, of: impl FnOnce(&Job) -> u64) -> u64 {
    let job = runner(place, IDLE);
    let runs = job.clone();
    let run = thread::spawn(move || runs.run());
    let id = of(&job);
    job.close();
    assert_eq!(run.join().unwrap().unwrap(), Ended::Closed);
    closed(job);
    id
}

/// How many elements were on the way in the record from which the job begins.
fn recorded(place: &Place, id: u64) -> u64 {
    let job = runner(place, IDLE);
    job.close_after(id); // it has begun from it
    assert_eq!(job.run().unwrap(), Ended::Closed);
    let recorded = job.engine().recorded.load(SeqCst) as u64;
    closed(job);
    recorded
}

/// Each element was published once, in the order of its source. How many there are.
fn published(place: &Place) -> u64 {
    let mut files: Vec<_> = fs::read_dir(place.0.join("target")).unwrap().map(|it| it.unwrap().path()).collect();
    files.retain(|it| it.extension().is_some_and(|it| it == "jsonl"));
    files.sort(); // by their records
    let all: String = files.iter().map(|it| fs::read_to_string(it).unwrap()).collect();
    let mut following = BTreeMap::new();
    for (source, element) in all.lines().filter_map(|it| it.split_once(' ')) {
        let next = following.entry(source).or_insert(0u64);
        assert_eq!(element.parse(), Ok(*next), "{source}");
        *next += 1;
    }
    following.values().sum()
}

#[test]
fn an_unaligned_checkpoint_is_restored_and_not_rescaled() {
    let place = Place::new("unaligned-shape");
    let id = with_record(&place, |job| {
        let id = job.checkpoint(false).unwrap();
        while job.store().load(None).unwrap().is_none() {
            thread::sleep(Duration::from_millis(1));
        }
        id
    });
    let rescale =
        |count| JobOf::restore(&opened(&place, IDLE), None, Some(&[SOURCES as u64, count])).map(drop).unwrap();
    assert_eq!(recorded(&place, id), FIRST * SOURCES as u64);
    rescale(2);
    let told = runner(&place, IDLE).run();
    assert!(matches!(told, Err(RunFault::NotRescalable(NotRescalable { id: refused })) if refused == id), "{told:?}");
    rescale(1);
    assert_eq!(recorded(&place, id), FIRST * SOURCES as u64); // nothing was swept
}

#[test]
fn a_savepoint_is_rescaled() {
    let place = Place::new("unaligned-savepoint");
    let saved = with_record(&place, |job| job.savepoint().unwrap());
    JobOf::restore(&opened(&place, IDLE), saved.try_into().ok(), Some(&[SOURCES as u64, 2])).unwrap();
    assert_eq!(recorded(&place, saved), 0);
}

/// A process that is killed.
#[test]
#[ignore = "it is started by another test"]
fn an_engine_that_is_killed() {
    let place = ManuallyDrop::new(Place(std::env::var_os("RELKVANU_PLACE").unwrap().into())); // its folder stays
    runner(&place, QUICK).run().unwrap();
}

#[test]
fn kills() {
    let place = Place::new("unaligned-kills");
    for kill in 0..KILLS {
        let mut child = Command::new(std::env::current_exe().unwrap());
        child.args(["--exact", "an_engine_that_is_killed", "--ignored", "--nocapture"]).env("RELKVANU_PLACE", &place.0);
        let mut process = child.stdout(Stdio::piped()).spawn().unwrap();
        let mut lines = BufReader::new(process.stdout.take().unwrap()).lines().map(Result::unwrap);
        assert!(lines.any(|it| it.starts_with("checkpoint "))); // of this process
        thread::sleep(Duration::from_millis(7 * kill));
        process.kill().unwrap();
        process.wait().unwrap();
    }
    assert!(published(&place) > 0);
}
