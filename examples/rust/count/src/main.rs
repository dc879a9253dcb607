//! count FOLDER LAST [new]: a job of two tasks that count, up to the checkpoint LAST. The word `new` makes the job.
use relkvanu::runner::{Barrier, Engine, Record, Runner, Told};
use relkvanu::store::{CallError, More, Options, Store};
use relkvanu::Settings;
use std::error::Error;
use std::path::PathBuf;
use std::sync::mpsc::{channel, Receiver, RecvTimeoutError, Sender};
use std::sync::{Arc, Mutex, OnceLock};
use std::thread::{self, JoinHandle};
use std::time::Duration;
use std::{env, mem, str};

const TASKS: u16 = 2;

type Job = Arc<Runner<Count>>;

#[derive(Clone, Copy)]
enum Order {
    Cut(Barrier),
    GoOn, // a stop of the job has failed
}

/// A task works until its orders end.
fn work(job: &Job, term: u64, index: u16, mut count: u64, orders: &Receiver<Order>) -> Result<(), CallError> {
    let mut is_held = false; // while the job is being stopped a task waits
    loop {
        let order = match is_held {
            true => orders.recv().map_err(RecvTimeoutError::from),
            false => orders.recv_timeout(Duration::from_millis(10)),
        };
        match order {
            Ok(Order::Cut(barrier)) => {
                is_held = barrier.holds;
                let snapshot = count.to_string(); // of this moment
                let more = More { payload: snapshot.as_bytes(), ..More::default() };
                job.ack(term, barrier.id, (0, index), &[], &[], more)?;
            }
            Ok(Order::GoOn) => is_held = false,
            Err(RecvTimeoutError::Timeout) => count += 1, // here a task processes an element
            Err(RecvTimeoutError::Disconnected) => return Ok(()),
        }
    }
}

/// A thread of a task. If it fails, all tasks begin again. If its term has ended before, the report does nothing.
fn start(job: &Job, term: u64, index: u16, count: u64) -> (Sender<Order>, JoinHandle<()>) {
    let (sender, orders) = channel();
    let job = job.clone();
    let thread = thread::spawn(move || {
        if let Err(why) = work(&job, term, index, count, &orders) {
            eprintln!("task {index}: {why}");
            job.restart_of(term);
        }
    });
    (sender, thread)
}

struct Count {
    last: u64,
    job: OnceLock<Job>,
    tasks: Mutex<Vec<(Sender<Order>, JoinHandle<()>)>>,
}

impl Count {
    fn tell(&self, order: Order) -> Told {
        for (task, _) in self.tasks.lock().unwrap().iter() {
            let _ = task.send(order); // a task that has failed has said so
        }
        Ok(())
    }
}

impl Engine for Count {
    /// All tasks begin, from this checkpoint or from nothing. The term numbers their attempt.
    fn start(&self, job: &Job, term: u64, record: Option<&Record>) -> Told {
        let mut counts = vec![0; TASKS.into()];
        for (index, count) in (0..TASKS).zip(&mut counts) {
            if let Some(part) = record.and_then(|it| it.part(0, index)) {
                *count = str::from_utf8(&part.payload)?.parse()?;
            }
        }
        println!("begins from {:?} with {counts:?}", record.map(|it| it.id));
        self.job.get_or_init(|| job.clone());
        *self.tasks.lock().unwrap() = (0..TASKS).zip(counts).map(|(index, count)| start(job, term, index, count)).collect();
        Ok(())
    }

    fn barrier(&self, barrier: Barrier) -> Told {
        self.tell(Order::Cut(barrier))
    }

    fn complete(&self, id: u64) -> Told {
        println!("checkpoint {id} is complete"); // a sink publishes here what it has prepared
        if let Some(job) = self.job.get().filter(|_| id >= self.last) {
            job.close();
        }
        Ok(())
    }

    fn go_on(&self) -> Told {
        self.tell(Order::GoOn)
    }

    fn end(&self) -> Told {
        for (task, thread) in mem::take(&mut *self.tasks.lock().unwrap()) {
            drop(task);
            let _ = thread.join(); // waits for all: an engine whose tasks may hang must not
        }
        Ok(())
    }
}

fn main() -> Result<(), Box<dyn Error>> {
    let words: Vec<String> = env::args().skip(1).collect();
    let [folder, last, more @ ..] = &words[..] else { return Err("count FOLDER LAST [new]".into()) };
    let folder = PathBuf::from(folder);
    let settings = Settings::every(100); // milliseconds between two checkpoints
    let options = Options { create: more == ["new"], storage: Some(folder.join("state")), ..Options::new(settings, &[TASKS.into()]) };
    let store = Store::open(&folder.join("job.db"), &options)?;
    let engine = Count { last: last.parse()?, job: OnceLock::new(), tasks: Mutex::default() };
    println!("{:?}", Runner::new(store, engine).run()?); // Closed, Stopped or Cancelled
    Ok(())
}
