//! A complete record as a whole, with all that its tasks begin with after a restore.
use super::query::numbers;
use super::render::{Acked, Metadata};
use super::reply::{body, error, Answered, Refusable};
use super::App;
use crate::model::{Given, SubtaskState};
use serde::Serialize;
use std::collections::HashMap;

/// What a subtask has in it.
#[derive(Serialize)]
struct One<'a> {
    subtask: &'a str,
    /// In the order in which its acknowledgement gave them, if that gave anything beside them; else ascending.
    files: Vec<String>,
    /// The bytes of each file, as its task told them.
    sizes: Vec<Option<u64>>,
    payload: &'a str,
    bytes: u64,
    millis: u64,
}

#[derive(Serialize)]
struct Whole<'a> {
    id: u64,
    kind: &'a str,
    shape: &'a [u64],
    subtasks: Vec<One<'a>>,
}

/// The record, as long as it is live. It has no term: a task of an ended term could learn the new one here.
pub async fn answer(app: &App, job: &str, id: u64, query: &str) -> Answered {
    numbers(query, [])?;
    let number = app.number(job)?;
    let record = complete(app, job, id).await?;
    let files: Vec<u64> = record.acks.iter().flat_map(|ack| ack.files.iter().copied()).collect();
    let read = app.read_log(move |reader| Ok((reader.states(number, id)?, reader.bytes_of(number, &files)?)));
    let (states, sizes) = read.await?;
    // the rows go with the record, which may have ended meanwhile
    complete(app, job, id).await?;
    let text = tokio::task::block_in_place(|| whole(&record, &states, &sizes.into_iter().collect()));
    Ok(body(200, text))
}

async fn complete(app: &App, job: &str, id: u64) -> Refusable<Metadata> {
    let record = app.record(job, id).await?.filter(Metadata::is_done);
    record.ok_or_else(|| error(404, &format!("job {job} has no record {id} that is complete and live")).into())
}

fn whole(record: &Metadata, states: &[SubtaskState], sizes: &HashMap<u64, u64>) -> String {
    let said: HashMap<String, &SubtaskState> = states.iter().map(|it| (it.subtask.to_string(), it)).collect();
    let none = Given::default();
    let Metadata { acks, id, kind, shape, .. } = record;
    let subtasks = acks.iter().map(|Acked { files: ascending, subtask }| {
        let (files, given) = said.get(subtask).map_or((ascending, &none), |it| (&it.files, &it.given));
        One {
            subtask,
            files: files.iter().map(u64::to_string).collect(),
            sizes: files.iter().map(|file| sizes.get(file).copied()).collect(),
            payload: &given.payload,
            bytes: given.bytes.unwrap_or(0),
            millis: given.millis.unwrap_or(0),
        }
    });
    serde_json::to_string(&Whole { id: *id, kind, shape, subtasks: subtasks.collect() }).unwrap_or_default()
}

#[cfg(test)]
mod tests {
    use super::*;
    use crate::model::Subtask;

    #[test]
    fn files_have_the_order_of_the_acknowledgement_where_it_is_known() {
        let text = r#"{"acks":[{"files":[3,9],"subtask":"0.0"},{"files":[4,5],"subtask":"0.1"}],
            "id":7,"kind":"savepoint","missing":0,"shape":[2],"started":5,"state":"done"}"#;
        let given = Given { payload: "eA==".to_string(), bytes: Some(1), millis: Some(2) };
        let (subtask, files) = (Subtask { vertex: 0, index: 0 }, vec![9, 3]);
        let states = [SubtaskState { job: 1, record: 7, subtask, files, given }];
        let told = Metadata::of(text).map(|record| (record.is_done(), whole(&record, &states, &[(9, 70)].into())));
        let wanted = r#"{"id":7,"kind":"savepoint","shape":[2],"subtasks":[{"subtask":"0.0","files":["9","3"],"sizes":[70,null],"payload":"eA==","bytes":1,"millis":2},{"subtask":"0.1","files":["4","5"],"sizes":[null,null],"payload":"","bytes":0,"millis":0}]}"#;
        assert_eq!(told, Some((true, wanted.to_string())));
        let pending = Metadata::of(&text.replace("done", "pending")).map(|record| record.is_done());
        assert_eq!(pending, Some(false));
    }
}
