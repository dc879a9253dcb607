//! first: what a test does with a coordinator. It needs no file, no thread and no clock.
use relkvanu::{Coordinator, Fault, Settings};

fn main() -> Result<(), Fault> {
    let (now, record, name) = (0, 1, 1); // the moment in ms; the numbers of the first record and of the first file
    let mut job = Coordinator::open_fenced(&Settings::every(1000), &[2], now, record, name)?; // one vertex of two subtasks
    let term = job.term()?.term; // whoever starts the tasks tells it to each
    for id in 1..=2 {
        println!("{:?}", job.tick(id * 1000)?); // the timer: checkpoint `id` is due
        for index in 0..2 {
            let name = job.reserve(term, 1)?.start; // a task would write this file, and sync it
            println!("file {name}: {:?}", job.ack_in(term, id * 1000 + 100, id, (0, index), &[name], &[])?);
        }
    }
    println!("a discarder deletes {:?}", job.take(&mut [0; 8])?); // the files of checkpoint 1: one checkpoint is kept
    println!("{:?}", job.restore(3000, None, None)?); // a task has died: all begin again, in the next term
    println!("{:?}", job.reserve(term, 1)); // what an earlier task asks is refused
    Ok(())
}
