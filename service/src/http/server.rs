//! Accepts connections until the service stops, and then waits until each request that was begun has its answer.
use super::slots::{Slot, Slots, YOUNG, YOUNG_BY_TLS};
use super::tls::Tls;
use super::{connection, App};
use crate::log;
use std::future::Future;
use std::sync::Arc;
use std::time::Duration;
use tokio::net::{TcpListener, TcpStream};
use tokio::sync::mpsc;

/// The wait after a failed accept, for example if the process has too many open files.
const REST: Duration = Duration::from_millis(100);
/// How long the answers of requests that were begun before the stop may take.
const ANSWER_WITHIN: Duration = Duration::from_secs(12);

/// Serves until `stop` ends. Then accepts nothing more, and returns once all requests are answered, or too much time has gone by.
/// Returns whether they are.
pub async fn serve(app: Arc<App>, listener: TcpListener, stop: impl Future<Output = ()>) -> bool {
    let (is_open, mut all) = mpsc::channel(1);
    tokio::select! {
        () = accept(&app, &listener, is_open) => {}
        () = stop => {}
    }
    drop(listener);
    app.board.stop();
    // each connection has a sender; the channel ends with the last one
    tokio::time::timeout(ANSWER_WITHIN, all.recv()).await.is_ok()
}

/// A connection that finds no slot waits for one, and those behind it wait in the system's queue.
async fn accept(app: &Arc<App>, listener: &TcpListener, is_open: mpsc::Sender<()>) {
    let slots = Slots::of(&app.limits);
    let keeps = if app.keys.tls().is_some() { YOUNG_BY_TLS } else { YOUNG };
    loop {
        match listener.accept().await {
            Ok((stream, _)) => {
                let slot = slots.enter(keeps).await;
                tokio::spawn(connected(Arc::clone(app), stream, slot, is_open.clone()));
            }
            Err(error) => {
                log::warn(&format!("a connection was not accepted: {error}"));
                tokio::time::sleep(REST).await;
            }
        }
    }
}

async fn connected(app: Arc<App>, stream: TcpStream, slot: Arc<Slot>, _is_open: mpsc::Sender<()>) {
    app.metrics.connections.inc();
    // a peer that has gone does not need the option
    let _ = stream.set_nodelay(true);
    match app.keys.tls().map(Tls::acceptor) {
        None => connection::serve(Arc::clone(&app), stream, slot).await,
        Some(acceptor) => {
            if let Some(stream) = agreed(&app, &slot, acceptor.accept(stream)).await {
                connection::serve(Arc::clone(&app), stream, slot).await;
            }
        }
    }
    app.metrics.connections.dec();
}

/// What a connection agrees on by TLS, unless it takes too long, another connection needs its slot, or the service stops. One that
/// does not agree is its client's business.
async fn agreed<S, E>(app: &App, slot: &Slot, agree: impl Future<Output = Result<S, E>>) -> Option<S> {
    tokio::select! {
        agreed = tokio::time::timeout(Duration::from_secs(app.limits.idle_seconds), agree) => agreed.ok()?.ok(),
        () = slot.lost() => None,
        () = app.board.stopping() => None,
    }
}
