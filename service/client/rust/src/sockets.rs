//! Connections to a service: over TCP, or over a unix socket, whose path is the host of the address in hexadecimal digits.
use hyper::client::connect::{Connected, Connection};
use hyper::client::HttpConnector;
use hyper::service::Service;
use hyper::Uri;
use std::future::Future;
use std::path::PathBuf;
use std::pin::Pin;
use std::task::{Context, Poll};
use tokio::io::{AsyncRead, AsyncWrite};
use tokio::net::{TcpStream, UnixStream};

/// How an address begins that is a unix socket's.
pub const UNIX: &str = "unix:";
const HOST: &str = "http://";
const END: &str = ".unix";

type Fault = Box<dyn std::error::Error + Send + Sync>;

/// The address `unix:PATH` as a URL. Others are one.
pub fn url_of(address: &str) -> String {
    let digits = |path: &str| path.bytes().fold(String::new(), |digits, byte| digits + &format!("{byte:02x}"));
    address.strip_prefix(UNIX).map_or_else(|| address.to_string(), |path| format!("{HOST}{}{END}", digits(path)))
}

pub fn is_socket(url: &str) -> bool {
    url.ends_with(END)
}

/// The path of the socket, if the host of the URL is one.
fn path_of(uri: &Uri) -> Option<PathBuf> {
    let digits = uri.host()?.strip_suffix(END)?;
    let bytes = (0..digits.len() / 2).map(|at| u8::from_str_radix(digits.get(2 * at..2 * at + 2)?, 16).ok());
    String::from_utf8(bytes.collect::<Option<_>>()?).ok().map(PathBuf::from)
}

#[derive(Clone)]
pub struct Sockets {
    pub tcp: HttpConnector,
}

impl Service<Uri> for Sockets {
    type Response = Box<dyn Stream>;
    type Error = Fault;
    type Future = Pin<Box<dyn Future<Output = Result<Box<dyn Stream>, Fault>> + Send>>;

    fn poll_ready(&mut self, context: &mut Context<'_>) -> Poll<Result<(), Fault>> {
        self.tcp.poll_ready(context).map_err(Fault::from)
    }

    fn call(&mut self, uri: Uri) -> Self::Future {
        if let Some(path) = path_of(&uri) {
            return Box::pin(async move { Ok(Box::new(UnixStream::connect(path).await?) as Self::Response) });
        }
        let tcp = self.tcp.call(uri);
        Box::pin(async move { Ok(Box::new(tcp.await?) as Self::Response) })
    }
}

/// A connection of either kind.
pub trait Stream: AsyncRead + AsyncWrite + Send + Unpin {}

impl Stream for TcpStream {}

impl Stream for UnixStream {}

impl Connection for Box<dyn Stream> {
    fn connected(&self) -> Connected {
        Connected::new()
    }
}

#[cfg(test)]
mod tests {
    use super::*;

    #[test]
    fn the_path_of_a_socket_is_in_its_url() {
        let url = url_of("unix:job.sock");
        assert_eq!(url, "http://6a6f622e736f636b.unix");
        for path in ["job.sock", "/run/orders/job.sock", "/tmp/ä b"] {
            let uri: Uri = url_of(&format!("unix:{path}")).parse().expect("it is a URL");
            assert_eq!(path_of(&uri), Some(PathBuf::from(path)));
        }
        assert_eq!(url_of("http://127.0.0.1:7780"), "http://127.0.0.1:7780");
        for url in ["http://db.example", "http://xy.unix", "http://ff.unix"] {
            assert_eq!(path_of(&url.parse().expect("it is a URL")), None, "{url}");
        }
    }
}
