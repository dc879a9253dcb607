//! kit FOLDER NUMBERS [URL[,URL..] [DSN]]: two sources, a sum and a sink over the runner, which end after so many numbers and finish the job. The coordinator
//! is job.db in the folder, and the job listens at the socket `commands` there; or it is the service at these addresses. State files are in the folder's
//! `state`, and output is in files in `target`, or in the table `lines` of PostgreSQL. Tests kill it: each number is put out once, with its sum.
use relkvanu::job::Job;
use relkvanu::outputs::{Files, Sink, Target};
use relkvanu::runner::{Barrier, Engine, Inputs, Options, Record, Runner, Taken, Told};
use relkvanu::storage::{Folder, FolderOptions};
use relkvanu::store::{self, Store};
use relkvanu::Settings;
use relkvanu_client::commands::Commands;
use relkvanu_client::table::{Table, Values};
use relkvanu_client::{Service, ServiceJob};
use std::collections::VecDeque;
use std::path::Path;
use std::sync::{Arc, Mutex, MutexGuard, OnceLock, PoisonError, Weak};
use std::time::{Duration, Instant};

const SETTINGS: Settings =
    Settings { interval: 40, pause: 0, at_once: 2, timeout: 20_000, tolerable: 3, retained: 2, keep_on_cancel: false };
const SHAPE: [u64; 3] = [2, 1, 1];
/// A state that is no payload.
const PADDING: usize = 5000;

struct Kit<J, T> {
    numbers: [u64; 2], // of each source
    sink: Sink<T>,
    tasks: Mutex<Tasks>,
    job: OnceLock<Weak<Runner<Self, J>>>,
}

/// Of a term.
#[derive(Default)]
struct Tasks {
    inputs: Option<Arc<Inputs<u64>>>,
    barriers: [VecDeque<Barrier>; 2],
}

fn numbers(state: &[u8]) -> Vec<u64> {
    state.chunks_exact(8).take(2).map(|it| it.try_into().map_or(0, u64::from_le_bytes)).collect()
}

impl<J: Job, T: Target + 'static> Kit<J, T> {
    fn tasks(&self) -> MutexGuard<'_, Tasks> {
        self.tasks.lock().unwrap_or_else(PoisonError::into_inner)
    }

    /// The first source ends before the job. The other one lets the job finish, and takes part until it drains.
    fn read(job: &Runner<Self, J>, inputs: &Inputs<u64>, term: u64, source: usize, mut next: u64) -> Told {
        let (it, state) = (job.engine(), |next: u64| next.to_le_bytes());
        while !inputs.is_closed() {
            let mut tasks = it.tasks();
            if let Some(barrier) = tasks.barriers[source].pop_front() {
                drop(tasks);
                inputs.put_barrier(source, barrier);
                job.ack_payload(&barrier, (0, source as u16), &state(next))?;
                if barrier.holds {
                    break;
                }
            } else if next < it.numbers[source] {
                drop(tasks);
                inputs.put(source, next);
                next += 1;
                std::thread::sleep(Duration::from_micros(300));
            } else if source == 0 {
                job.finished(term, (0, 0), &[], &state(next))?;
                tasks.barriers[0].clear();
                drop(tasks);
                inputs.end(0);
                break;
            } else {
                drop(tasks);
                job.finish();
                std::thread::sleep(Duration::from_millis(1));
            }
        }
        Ok(())
    }

    /// The sums by source, and the sink, which is chained to it.
    fn sum(job: &Runner<Self, J>, inputs: &Inputs<u64>, mut totals: Vec<u64>) -> Told {
        loop {
            match inputs.take()? {
                Taken::Element(source, number) => {
                    totals[source] += number;
                    job.engine().sink.push(format!("[{source}, {number}, {}]", totals[source]));
                }
                Taken::Cut(barrier) => {
                    let mut state: Vec<u8> = totals.iter().flat_map(|it| it.to_le_bytes()).collect();
                    state.resize(PADDING, 0);
                    job.ack_state(&barrier, (1, 0), &state)?;
                    let prepared = job.engine().sink.prepare(barrier.id)?;
                    job.ack_state(&barrier, (2, 0), &prepared)?;
                }
            }
        }
    }

    fn state(&self, record: &Record, subtask: (u16, u16)) -> Result<Vec<u8>, Box<dyn std::error::Error + Send + Sync>> {
        let job = self.job.get().and_then(Weak::upgrade).ok_or("there is no runner")?;
        Ok(job.state(record, subtask)?.unwrap_or_default())
    }
}

impl<J: Job, T: Target + 'static> Engine<J> for Kit<J, T> {
    fn start(&self, job: &Arc<Runner<Self, J>>, term: u64, record: Option<&Record>) -> Told {
        let load = |subtask| record.map_or(Ok(Vec::new()), |it| self.state(it, subtask));
        self.sink.begin(&load((2, 0))?, record.and_then(|it| it.origin))?;
        let mut totals = numbers(&load((1, 0))?);
        totals.resize(2, 0);
        let inputs = Arc::new(Inputs::new(2, 20)?);
        *self.tasks() = Tasks { inputs: Some(inputs.clone()), ..Tasks::default() };
        for source in 0..2 {
            let next = numbers(&load((0, source as u16))?).first().copied().unwrap_or(0);
            let inputs = inputs.clone();
            job.spawn(move |job| Self::read(job, &inputs, term, source, next));
        }
        job.spawn(move |job| Self::sum(job, &inputs, totals));
        Ok(())
    }

    fn barrier(&self, barrier: Barrier) -> Told {
        self.tasks().barriers.iter_mut().for_each(|it| it.push_back(barrier));
        Ok(())
    }

    fn complete(&self, id: u64) -> Told {
        Ok(self.sink.publish(id)?)
    }

    fn aborted(&self, ids: &[u64]) -> Told {
        let inputs = self.tasks().inputs.clone();
        inputs.map_or(Ok(()), |it| ids.iter().try_for_each(|id| it.give_up(*id).map(drop)))?;
        Ok(())
    }

    /// The job was stopped to be finished.
    fn stopped(&self, record: &Record) -> Told {
        self.sink.begin(&self.state(record, (2, 0))?, record.origin)?;
        if numbers(&self.state(record, (0, 1))?).first() == Some(&self.numbers[1]) {
            self.job.get().and_then(Weak::upgrade).ok_or("there is no runner")?.finish();
        }
        Ok(())
    }

    fn go_on(&self) -> Told {
        self.job.get().and_then(Weak::upgrade).ok_or("there is no runner")?.restart();
        Ok(())
    }

    fn end(&self) -> Told {
        if let Some(inputs) = self.tasks().inputs.take() {
            inputs.close();
        }
        Ok(())
    }
}

/// A runner whose engine knows it.
type Made<J, T> = Arc<Runner<Kit<J, T>, J>>;

fn made<J: Job, T: Target + 'static>(job: J, target: T, files: Option<Folder>, numbers: u64) -> Made<J, T> {
    let sink = Sink::new(target, job.identity());
    let kit = Kit { numbers: [numbers / 2, numbers], sink, tasks: Mutex::default(), job: OnceLock::new() };
    let patience = std::env::var("RELKVANU_PATIENCE").ok().and_then(|it| it.parse().ok()).unwrap_or(60);
    // the one that listens has no files of its own: somebody may begin it again
    let mut options = Options { patience: Duration::from_secs(patience), waits: files.is_none(), ..Options::default() };
    if let Some(files) = files {
        options.files = Some(Box::new(files));
    }
    let runner = Runner::with(job, kit, options);
    let _ = runner.engine().job.set(Arc::downgrade(&runner));
    runner
}

/// The table of PostgreSQL, with a text for each row.
fn table(dsn: &str) -> Result<impl Target, Box<dyn std::error::Error + Send + Sync>> {
    let values = |row: &[u8]| -> Values { vec![Box::new(String::from_utf8_lossy(row).into_owned())] };
    Table::of_postgres("lines", dsn.parse()?, "INSERT INTO lines VALUES ($1)", values)
        .map_err(|why| format!("{why:?}").into())
}

fn main() -> Told {
    let words: Vec<String> = std::env::args().skip(1).collect();
    let (folder, numbers) = (Path::new(words.first().ok_or("no folder")?), words.get(1).ok_or("no number")?.parse()?);
    let (began, files) = (Instant::now(), Files::new(folder.join("target")));
    let told = if let Some(urls) = words.get(2) {
        let service = Service::new(&urls.split(',').collect::<Vec<_>>(), None)?;
        let job = ServiceJob::open(&service, "kit", &SETTINGS, &SHAPE)?;
        let state = job.folder(&folder.join("state"), &FolderOptions::new())?;
        match words.get(3) {
            Some(dsn) => made(job, table(dsn)?, Some(state), numbers).run(),
            None => made(job, files, Some(state), numbers).run(),
        }
    } else {
        let mut options = store::Options::new(SETTINGS, &SHAPE);
        (options.create, options.storage) = (true, Some(folder.join("state")));
        let runner = made(Store::open(&folder.join("job.db"), &options)?, files, None, numbers);
        let _commands = Commands::serve(&runner, &folder.join("commands"), "kit")?;
        runner.run()
    };
    eprintln!("{:.1} s", began.elapsed().as_secs_f64());
    println!("{:?}", told?);
    Ok(())
}
