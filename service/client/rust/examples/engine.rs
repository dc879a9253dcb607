//! A small engine: each subtask acknowledges each checkpoint of a job with a new file, until a number of them have completed. It goes on
//! with the shape that it is told: somebody may have changed it.
//! Its arguments are the service's addresses with commas between them, the job's name and that number.
use relkvanu_client::{Call, Error, Job, Service, Session};
use serde_json::{json, Value};

#[tokio::main(flavor = "current_thread")]
async fn main() -> Result<(), Box<dyn std::error::Error>> {
    let words: Vec<String> = std::env::args().skip(1).collect();
    let [urls, name, wanted] = &words[..] else {
        return Err("usage: engine URL[,URL..] JOB CHECKPOINTS".into());
    };
    let wanted: u64 = wanted.parse()?;
    let service = Service::new(&urls.split(',').collect::<Vec<_>>(), None)?;
    let job = service.open(name, json!({"interval": 20, "retained": 1}), &[2, 3]).await?;
    let subtasks = subtasks_of(&job.opened().ok_or("the job is open")?.shape);
    let mut completed = 0;
    while completed < wanted {
        completed += round(&job, &subtasks, wanted - completed).await?;
    }
    let files = job.take(64).await?;
    job.calls(&files.iter().map(|file| Call::Deleted { file: *file }).collect::<Vec<_>>()).await?;
    println!("{completed} checkpoints completed, {} files deleted", files.len());
    Ok(())
}

/// The subtasks of each vertex of a shape.
fn subtasks_of(shape: &[u64]) -> Vec<(u16, u16)> {
    let of = |(vertex, count): (u16, &u64)| (0..*count as u16).map(move |place| (vertex, place));
    (0..).zip(shape).flat_map(of).collect()
}

/// Begins the job, and takes part in checkpoints until this many have completed, or the job has to begin again: it has failed, or
/// somebody has restored it. Returns how many have completed. If a backup of the service was restored, the error ends the engine.
async fn round(job: &Job, subtasks: &[(u16, u16)], wanted: u64) -> Result<u64, Box<dyn std::error::Error>> {
    job.until_begun().await?;
    let mut start = match job.begin(None, None).await {
        Err(Error::Refused(_)) => return Err("the job was cancelled".into()),
        begun => begun?,
    };
    let task = job.session(start.term.ok_or("the job gives out no names")?);
    let mut completed = 0;
    loop {
        for event in start.follower.next(25).await? {
            match event["event"].as_str().unwrap_or_default() {
                "triggered" => match acknowledge(&task, subtasks, &event).await {
                    // somebody has restored the job
                    Err(Error::OldTerm) => return Ok(completed),
                    done => done?,
                },
                "completed" => completed += 1,
                "failed" | "restored" | "missed" => return Ok(completed),
                "cancelled" => return Err("the job was cancelled".into()),
                _ => {}
            }
            if completed >= wanted {
                return Ok(completed);
            }
        }
    }
}

/// Each subtask acknowledges with a new file.
async fn acknowledge(task: &Session, subtasks: &[(u16, u16)], event: &Value) -> Result<(), Error> {
    let id = event["id"].as_u64().unwrap_or_default();
    for subtask in subtasks.iter().copied() {
        let name = task.name().await?;
        match task.ack(id, subtask, &[name], &[]).await {
            // its record may have ended with a tick meanwhile, in which case the file is nobody's
            Err(Error::Refused(_)) => task.forfeit(&[name]).await?,
            done => drop(done?),
        }
    }
    Ok(())
}
