//! HTTP over a unix socket, in a thread.
use super::reads::unix_now;
use super::{Asked, Keys, Problem, Served};
use hyper::body::HttpBody;
use hyper::header::{HeaderMap, CONTENT_TYPE};
use hyper::server::conn::Http;
use hyper::service::service_fn;
use hyper::{Body, Method, Request, Response, StatusCode};
use relkvanu::runner::{Engine, Runner};
use rustix::fd::OwnedFd;
use rustix::fs::Mode;
use rustix::net::{AddressFamily, Protocol, SocketAddrUnix, SocketFlags, SocketType};
use serde_json::Value;
use std::collections::HashMap;
use std::convert::Infallible;
use std::fs;
use std::io::{self, ErrorKind};
use std::os::unix::fs::{FileTypeExt, MetadataExt};
use std::os::unix::net::{UnixListener as StdListener, UnixStream as StdStream};
use std::path::{Path, PathBuf};
use std::sync::{Arc, Mutex};
use std::thread::JoinHandle;
use std::time::Duration;
use tokio::net::{UnixListener, UnixStream};
use tokio::sync::oneshot::{channel, Receiver, Sender};

const MOST_BYTES: usize = 8 << 20;
/// In which a request has to come.
const SLOWEST: Duration = Duration::from_secs(60);
const BACKLOG: i32 = 64;

/// Serves until its drop, which removes the socket.
pub struct Commands {
    path: PathBuf,
    inode: u64,
    stop: Option<Sender<()>>,
    thread: Option<JoinHandle<()>>,
}

impl Commands {
    /// At this path, with mode 0600, for the job of the runner under this name. The socket of a process that was killed is replaced; `AddrInUse` if somebody listens
    /// there, and `AlreadyExists` if it is another file.
    pub fn serve<E: Engine>(runner: &Arc<Runner<E>>, path: &Path, name: &str) -> io::Result<Commands> {
        clear(path)?;
        let listener = bind(path)?;
        let inode = fs::symlink_metadata(path)?.ino();
        let served = Served {
            runner: runner.clone(),
            name: name.to_string(),
            opened: unix_now(),
            keys: Mutex::new(Keys::default()),
        };
        let runtime = tokio::runtime::Builder::new_current_thread().enable_all().build()?;
        let (stop, stopped) = channel();
        let thread = std::thread::Builder::new().name("relkvanu commands".to_string()).spawn(move || {
            runtime.block_on(accept(listener, Arc::new(served), stopped));
            runtime.shutdown_background();
        })?;
        Ok(Commands { path: path.to_path_buf(), inode, stop: Some(stop), thread: Some(thread) })
    }
}

impl Drop for Commands {
    fn drop(&mut self) {
        drop(self.stop.take());
        let _ = self.thread.take().map(JoinHandle::join);
        if fs::symlink_metadata(&self.path).is_ok_and(|it| it.ino() == self.inode) {
            let _ = fs::remove_file(&self.path); // the next process replaces it otherwise
        }
    }
}

fn clear(path: &Path) -> io::Result<()> {
    match fs::symlink_metadata(path) {
        Err(why) if why.kind() == ErrorKind::NotFound => return Ok(()),
        found => {
            if !found?.file_type().is_socket() {
                return Err(ErrorKind::AlreadyExists.into());
            }
        }
    }
    match StdStream::connect(path) {
        Err(why) if why.kind() == ErrorKind::ConnectionRefused => fs::remove_file(path),
        told => told.and_then(|_| Err(ErrorKind::AddrInUse.into())),
    }
}

/// Its user's alone from the moment that it is there.
fn bind(path: &Path) -> io::Result<StdListener> {
    let flags = SocketFlags::CLOEXEC | SocketFlags::NONBLOCK;
    let socket = rustix::net::socket_with(AddressFamily::UNIX, SocketType::STREAM, flags, Protocol::default())?;
    rustix::fs::fchmod(&socket, Mode::RUSR | Mode::WUSR)?;
    rustix::net::bind_unix(&socket, &SocketAddrUnix::new(path)?)?;
    rustix::net::listen(&socket, BACKLOG)?;
    Ok(StdListener::from(OwnedFd::from(socket)))
}

async fn accept<E: Engine>(listener: StdListener, served: Arc<Served<E>>, mut stopped: Receiver<()>) {
    let Ok(listener) = UnixListener::from_std(listener) else { return };
    loop {
        tokio::select! {
            _ = &mut stopped => return,
            told = listener.accept() => match told {
                Ok((stream, _)) => drop(tokio::spawn(connection(stream, served.clone()))),
                Err(_) => tokio::time::sleep(Duration::from_millis(100)).await, // no descriptor is left, say
            },
        }
    }
}

async fn connection<E: Engine>(stream: UnixStream, served: Arc<Served<E>>) {
    let service = service_fn(move |request| {
        let served = served.clone();
        async move { Ok::<_, Infallible>(answer(request, served).await) }
    });
    let mut http = Http::new();
    let _ = http.http1_only(true).http1_header_read_timeout(SLOWEST).serve_connection(stream, service).await;
    // its client went away
}

async fn answer<E: Engine>(request: Request<Body>, served: Arc<Served<E>>) -> Response<Body> {
    let told = match tokio::time::timeout(SLOWEST, asked(request)).await {
        Err(_) => Err(Problem::new(408, "the body came too slowly")),
        Ok(Err(why)) => Err(why),
        Ok(Ok(asked)) => {
            let answered = tokio::task::spawn_blocking(move || served.answer(&asked)).await;
            answered.unwrap_or_else(|_| Err(Problem::new(503, "the request has ended by a panic")))
        }
    };
    let (status, body) = told.map_or_else(|why| (why.status, why.body), |body| (200, body));
    let mut response = Response::new(Body::from(body.to_string()));
    *response.status_mut() = StatusCode::from_u16(status).unwrap_or_default();
    response.headers_mut().insert(CONTENT_TYPE, hyper::header::HeaderValue::from_static("application/json"));
    response
}

fn header(headers: &HeaderMap, name: &str) -> Option<String> {
    headers.get(name).and_then(|it| it.to_str().ok()).map(str::to_string)
}

async fn asked(request: Request<Body>) -> Result<Asked, Problem> {
    let (head, mut body) = request.into_parts();
    let mut bytes = Vec::new();
    while let Some(part) = body.data().await {
        bytes.extend_from_slice(&part.map_err(|_| Problem::new(400, "the body ended early"))?);
        if bytes.len() > MOST_BYTES {
            return Err(Problem::new(413, format!("the body has more than {MOST_BYTES} bytes")));
        }
    }
    let pairs = head.uri.query().unwrap_or_default().split('&').filter_map(|pair| pair.split_once('='));
    let query: HashMap<String, String> = pairs.map(|(name, value)| (name.to_string(), value.to_string())).collect();
    let mut asked = Asked {
        key: header(&head.headers, "idempotency-key"),
        method: head.method,
        path: head.uri.path().to_string(),
        query,
        body: serde_json::Map::new(),
    };
    if asked.method == Method::GET {
        return Ok(asked);
    }
    let is_json =
        header(&head.headers, "content-type").is_some_and(|it| it.split(';').next() == Some("application/json"));
    if !is_json {
        return Err(Problem::new(415, "Content-Type: is not application/json"));
    }
    asked.body = match serde_json::from_slice(&bytes) {
        Ok(Value::Object(body)) => body,
        Ok(_) => return Err(Problem::field("body", "body is no object")),
        Err(why) => return Err(Problem::field("body", format!("body is no JSON: {why}"))),
    };
    Ok(asked)
}
