//! Large answers keep room for themselves until they are sent, so that slow readers can't fill the memory.
use super::reply::HttpReply;
use super::slots::Turn;
use super::{gate, units, App};
use futures_core::Stream;
use hyper::body::{Bytes, HttpBody};
use hyper::header::{HeaderValue, CONTENT_LENGTH};
use hyper::Body;
use std::convert::Infallible;
use std::pin::Pin;
use std::sync::Arc;
use std::task::{Context, Poll};
use tokio::sync::OwnedSemaphorePermit;

/// Shorter answers need no room: there is at most one for each connection.
const SMALL: u64 = 64 << 10;
/// In what pieces an answer is handed to its connection. All but the last few are sent when the last is handed over.
const PIECE: usize = 64 << 10;

/// The answer. A large one now keeps its room and its connection's place until it is sent; if there is no room, it says so.
pub async fn keep_room(app: &App, turn: Turn, reply: HttpReply) -> HttpReply {
    let length = match HttpBody::size_hint(reply.body()).exact() {
        // it is sent as it comes, and its connection's place is taken until it ends
        None => return reply.map(|body| Body::wrap_stream(Streamed { body, _turn: turn })),
        Some(length) if length <= SMALL => return reply,
        Some(length) => length,
    };
    let wanted = units(usize::try_from(length).unwrap_or(usize::MAX));
    // an answer that needs more than all room gets all of it
    let room = Arc::clone(&app.answers).try_acquire_many_owned(wanted.min(units(app.limits.all_answers_bytes)));
    let Ok(room) = room else {
        return gate::busy("other large answers take all room");
    };
    let (mut head, body) = reply.into_parts();
    let Ok(rest) = hyper::body::to_bytes(body).await else {
        return gate::busy("the answer is not whole");
    };
    head.headers.insert(CONTENT_LENGTH, HeaderValue::from(length));
    HttpReply::from_parts(head, Body::wrap_stream(Pieces { rest, _room: room, _turn: turn }))
}

struct Streamed {
    body: Body,
    _turn: Turn,
}

impl Stream for Streamed {
    type Item = Result<Bytes, hyper::Error>;

    fn poll_next(mut self: Pin<&mut Self>, cx: &mut Context<'_>) -> Poll<Option<Self::Item>> {
        Pin::new(&mut self.body).poll_data(cx)
    }
}

struct Pieces {
    rest: Bytes,
    _room: OwnedSemaphorePermit,
    _turn: Turn,
}

impl Stream for Pieces {
    type Item = Result<Bytes, Infallible>;

    fn poll_next(mut self: Pin<&mut Self>, _: &mut Context<'_>) -> Poll<Option<Self::Item>> {
        let length = self.rest.len().min(PIECE);
        Poll::Ready((length > 0).then(|| Ok(self.rest.split_to(length))))
    }
}
