//! The service that a command asks: its addresses, and a file with a token.
use crate::log;
use relkvanu_client::Service;
use std::io;
use std::path::Path;
use std::sync::atomic::{AtomicBool, Ordering};
use std::time::{Duration, Instant};
use thiserror::Error;

/// Why no service can be asked.
#[derive(Debug, Error)]
pub enum NoService {
    #[error("--token-file: {0}")]
    Token(#[from] io::Error),
    #[error(transparent)]
    Address(#[from] relkvanu_client::Error),
}

/// The service at these addresses, with the token in the first line of a file.
pub fn service(urls: &[String], token_file: Option<&Path>) -> Result<Service, NoService> {
    let text = token_file.map(std::fs::read_to_string).transpose()?;
    let token = text.as_deref().and_then(|text| text.lines().next()).map(str::trim);
    with_token(urls, token)
}

/// The service at these addresses, with this token.
pub fn with_token(urls: &[String], token: Option<&str>) -> Result<Service, NoService> {
    let urls: Vec<&str> = urls.iter().map(String::as_str).collect();
    Ok(Service::new(&urls, token)?)
}

/// After this time without an answer a person is told why.
const SILENT: Duration = Duration::from_secs(1);

/// The same service. Once a request has not been answered for some time, it is said once, and the request is made again.
pub fn noticing(service: &Service) -> Service {
    let (began, is_told) = (Instant::now(), AtomicBool::new(false));
    service.noticing(move |error| {
        if began.elapsed() >= SILENT && !is_told.swap(true, Ordering::Relaxed) {
            log::warn(&format!("{error}; it is asked again"));
        }
    })
}
