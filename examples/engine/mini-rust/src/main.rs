//! mini FOLDER LAST [new|begin]: an enumerator, two sources, a sum by key and a sink, up to the checkpoint LAST. Each number is published once.
mod target;

use relkvanu::runner::{Barrier, Engine, Inputs, Record, Runner, Taken, Told};
use relkvanu::store::{Options, Store};
use relkvanu::Settings;
use std::collections::VecDeque;
use std::sync::{Arc, Mutex, OnceLock};
use std::{env, mem, path::Path};
use target::Target;

/// The engine, and what its tasks share. The enumerator has how many splits of ten numbers it gave to each source, and barriers that go there next.
struct Mini {
    target: Target,
    inputs: Inputs<u64>, // of the sum
    enumerator: Mutex<(Vec<u64>, [VecDeque<Barrier>; 2])>,
    job: OnceLock<Arc<Runner<Mini>>>, // once tasks run
}

fn cut(job: &Runner<Mini>, barrier: &Barrier, vertex: u16, index: u16, state: &[u64]) -> Told {
    let payload: Vec<u8> = state.iter().flat_map(|it| it.to_le_bytes()).collect();
    Ok(job.ack_payload(barrier, (vertex, index), &payload).map(drop)?)
}

fn state(record: &Record, vertex: u16) -> Vec<u64> {
    record.payload_of(vertex, 0).chunks(8).map(|it| u64::from_le_bytes(it.try_into().unwrap())).collect()
}

/// A source. Its state is the enumerator's: each split before the barrier was read whole. It ends if the job is being stopped.
fn read(job: &Runner<Mini>, source: usize) -> Told {
    let (inputs, mut holds) = (&job.engine().inputs, false);
    while !holds {
        let mut enumerator = job.engine().enumerator.lock().unwrap();
        if let Some(barrier) = enumerator.1[source].pop_front() {
            drop(enumerator);
            inputs.put_barrier(source, barrier);
            cut(job, &barrier, 1, source as u16, &[])?;
            holds = barrier.holds;
        } else {
            enumerator.0[source] += 1;
            let last = enumerator.0[source] * 10;
            drop(enumerator);
            (last - 10..last).for_each(|it| inputs.put(source, it));
        }
    }
    Ok(())
}

/// The sums by key, and the sink, which is chained to them.
fn sum(job: &Runner<Mini>, mut totals: Vec<u64>) -> Told {
    let mut lines = String::new();
    loop {
        match job.engine().inputs.take()? {
            Taken::Element(source, number) => {
                totals[number as usize % 4] += number;
                lines += &format!("[{source}, {number}, {}]\n", totals[number as usize % 4]);
            }
            Taken::Cut(barrier) => {
                cut(job, &barrier, 2, 0, &totals)?;
                cut(job, &barrier, 3, 0, &job.engine().target.prepare(barrier.id, &mem::take(&mut lines))?)?;
            }
        }
    }
}

impl Engine for Mini {
    fn start(&self, job: &Arc<Runner<Mini>>, _term: u64, record: Option<&Record>) -> Told {
        self.job.set(job.clone()).map_err(|_| "a restart: the next process goes on")?;
        let load = |vertex, fresh| record.map_or(fresh, |it| state(it, vertex));
        self.target.begin(load(3, vec![]))?;
        self.enumerator.lock().unwrap().0 = load(0, vec![0; 2]);
        let totals = load(2, vec![0; 4]);
        job.spawn(|job| sum(job, totals));
        for source in 0..2 {
            job.spawn(move |job| read(job, source));
        }
        Ok(())
    }

    fn barrier(&self, barrier: Barrier) -> Told {
        let (splits, barriers) = &mut *self.enumerator.lock().unwrap();
        barriers.iter_mut().for_each(|it| it.push_back(barrier));
        cut(self.job.get().unwrap(), &barrier, 0, 0, splits)
    }

    fn complete(&self, id: u64) -> Told {
        Ok(self.target.publish(id)?)
    }

    fn stopped(&self, record: &Record) -> Told {
        Ok(self.target.begin(state(record, 3))?)
    }

    fn end(&self) -> Told {
        Ok(()) // all tasks end with the process
    }
}

fn main() -> Told {
    let words: Vec<String> = env::args().collect();
    let (folder, has) = (Path::new(&words[1]), |word: &str| words[3..].iter().any(|it| it == word));
    let target = Target { folder: folder.join("target"), prepared: Mutex::default() };
    let mini = Mini { target, inputs: Inputs::new(2, 20)?, enumerator: Mutex::default(), job: OnceLock::new() };
    let mut options = Options::new(Settings::every(20), &[1, 2, 1, 1]); // the enumerator, the sources, the sum, the sink
    (options.create, options.storage) = (has("new"), Some(folder.join("state")));
    let job = Runner::new(Store::open(&folder.join("job.db"), &options)?, mini);
    job.close_after(words[2].parse()?);
    job.stop_at_signals();
    has("begin").then(|| job.begin_job()).transpose()?;
    Ok(job.run().map(drop)?)
}
