//! What an operator does to a job that is open: a checkpoint now, a stop and the beginning after it, and other settings.
use super::audit::Did;
use super::json_members::Checked;
use super::reply::{json_reply, refusal, Answered, HttpReply, Refusable};
use super::writes::{answered, Given};
use super::{no_job, no_memory, render, wire};
use crate::model::Call;
use crate::writer::Message;
use serde_json::{json, Value};

/// Makes the one call that the body of a path's request says. Under a key it is made once.
pub async fn one(given: Given<'_>, read: impl Fn(&[u8]) -> Checked<Call>) -> Answered {
    let asked = given.asked().await?;
    let call = read(&asked.bytes)?;
    let word = match call {
        Call::Stop => "stop",
        Call::Begin => "begin",
        Call::Advance { .. } => "advance",
        _ => "checkpoint",
    };
    asked.make(vec![call], false, word, turned).await
}

/// Changes the settings that the body names. A repeat changes nothing more, so it needs no key.
pub async fn settings(mut given: Given<'_>) -> Answered {
    let (change, _room) = given.said(wire::change).await?;
    let (app, job) = (given.app, given.job);
    let done = app.ask(|reply| Message::Configure { job: job.clone(), change, reply }).await?;
    Ok(answered(app, &job, done, Some(Did::settings(&change)), turned))
}

/// Says where the job's files are. A repeat says the same, so it needs no key.
pub async fn storage(mut given: Given<'_>) -> Answered {
    let (storage, _room) = given.said(wire::storage).await?;
    let (app, job, did) = (given.app, given.job, Did::storage(&storage));
    let told = app.ask(|reply| Message::Locate { job: job.clone(), storage, reply }).await?;
    let state = told.ok_or_else(|| no_job(&job))?;
    let mut reply = json_reply(200, &render::job(&state, app.board.log()));
    reply.extensions_mut().insert(did);
    Ok(reply)
}

fn turned(answers: String) -> HttpReply {
    let fenced =
        |why: &str| refusal(409, json!({"error": format!("its terms or names refuse it: {why}"), "fenced": why}));
    let refused =
        |why: &str| refusal(409, json!({"error": format!("the coordinator refuses it: {why}"), "refused": why}));
    only(&answers, fenced, refused).map_or_else(|refused| *refused, |answer| json_reply(200, &answer))
}

/// What the answer of the one call says. A refusal is an error here, since the request makes nothing else.
pub(super) fn only(
    answers: &str,
    fenced: impl Fn(&str) -> HttpReply,
    refused: impl Fn(&str) -> HttpReply,
) -> Refusable<Value> {
    let mut told: Value = serde_json::from_str(answers).unwrap_or_default();
    let mut answer = told["answers"][0].take();
    if let Some(why) = answer["fenced"].as_str() {
        return Err(fenced(why).into());
    }
    if let Some(why) = answer["refused"].as_str() {
        return Err(refused(why).into());
    }
    if answer["seq"].is_null() {
        return Err(no_memory().into());
    }
    answer["epoch"] = told["epoch"].take();
    answer["log"] = told["log"].take();
    Ok(answer)
}
