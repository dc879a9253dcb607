//! Terms and names: a job that gets names, the term for whoever starts tasks, and which files may be deleted.
use super::operate::only;
use super::query::numbers;
use super::reply::{bad_field, json_reply, refusal, Answered, HttpReply};
use super::writes::Given;
use super::{gate, no_job, no_memory, wire, App};
use crate::model::{Call, Fault, Garbage};
use serde_json::json;

/// Of a job that a recovery has not made whole.
const NO_NAMES: &str = "NoNames";

/// Gives a job names, from a first one on. The call is in its log, and is made once under a key.
pub async fn fence(given: Given<'_>) -> Answered {
    let asked = given.asked().await?;
    let first_name = wire::first_name(&asked.bytes)?;
    let told = move |answers: String| turned(&answers, first_name);
    asked.make(vec![Call::Fence { first_name }], false, "", told).await
}

/// What the answer of the one call says.
fn turned(answers: &str, first_name: u64) -> HttpReply {
    let refused = |why: &str| bad_field("first_name", &format!("is refused: {why}"));
    match only(answers, fenced, refused) {
        Ok(mut answer) => {
            answer["first_name"] = json!(first_name.to_string());
            json_reply(200, &answer)
        }
        Err(refused) => *refused,
    }
}

/// What the term or the names refuse, by its name.
fn fenced(name: &str) -> HttpReply {
    let text = match name {
        NO_NAMES => "the job gives out no names: a recovery has not made it whole",
        "HasNames" => "the job gives out names already",
        "NameInUse" => "first_name: a file of the job has this number or a greater one",
        _ => name,
    };
    refusal(409, json!({"error": text, "fenced": name}))
}

/// The term that runs, for whoever starts the tasks.
pub async fn term(app: &App, job: &str, query: &str) -> Answered {
    numbers(query, [])?;
    let now = app.look(job, |job| job.engine().term()).await?.ok_or_else(|| no_job(job))?;
    let now = now.ok_or_else(|| fenced(NO_NAMES))?;
    let told = json!({"term": now.term, "next_name": now.next_name.to_string(), "log": app.board.log()});
    Ok(json_reply(200, &told))
}

/// Which of some files may be deleted, by what is committed. The writer answers only while it surely leads, and this looks again:
/// a process that was suspended meanwhile sends no answer.
pub async fn garbage(mut given: Given<'_>) -> Answered {
    let (bytes, _room) = given.read_body().await?;
    let (app, job, files) = (given.app, given.job, wire::garbage(&bytes)?);
    let told = app.look(&job, move |job| job.engine().garbage(&files)).await?;
    if !app.board.is_ready() {
        return Err(gate::standby(app).await.into());
    }
    match told.ok_or_else(|| no_job(&job))? {
        Ok(Garbage { garbage, unissued }) => {
            let texts = |files: Vec<u64>| files.iter().map(u64::to_string).collect::<Vec<_>>();
            Ok(json_reply(
                200,
                &json!({"garbage": texts(garbage), "unissued": texts(unissued), "log": app.board.log()}),
            ))
        }
        Err(Fault::Fenced(why)) => Err(fenced(&why.name()).into()),
        Err(_) => Err(no_memory().into()),
    }
}
