//! Metrics of a command for Prometheus, which `--metrics` serves beside its work.
use hyper::service::{make_service_fn, service_fn};
use hyper::{Body, Request, Response, Server, StatusCode};
use prometheus::{Encoder, Registry, TextEncoder};
use std::convert::Infallible;
use std::net::SocketAddr;

/// Serves `/metrics` at an address.
pub fn serve(registry: &Registry, address: SocketAddr) -> Result<(), String> {
    let server = Server::try_bind(&address).map_err(|error| format!("--metrics {address}: {error}"))?;
    let registry = registry.clone();
    let make = make_service_fn(move |_| {
        let registry = registry.clone();
        async move {
            Ok::<_, Infallible>(service_fn(move |request| {
                let answer = answer(&registry, &request);
                async move { Ok::<_, Infallible>(answer) }
            }))
        }
    });
    tokio::spawn(server.serve(make));
    Ok(())
}

fn answer(registry: &Registry, request: &Request<Body>) -> Response<Body> {
    let mut text = Vec::new();
    let mut answer = Response::new(Body::empty());
    if request.uri().path() != "/metrics" {
        *answer.status_mut() = StatusCode::NOT_FOUND;
        return answer;
    }
    match TextEncoder::new().encode(&registry.gather(), &mut text) {
        Ok(()) => *answer.body_mut() = Body::from(text),
        Err(_) => *answer.status_mut() = StatusCode::INTERNAL_SERVER_ERROR,
    }
    answer
}
