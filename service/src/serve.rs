//! `relkvanu serve`: opens the database, and serves its jobs until it is stopped, each as soon as it is replayed from the log.
use crate::clean::Inside;
use crate::cli;
use crate::config::{Config, LogForm};
use crate::database::Database;
use crate::exit;
use crate::history::{Door, Historian, HistoryFile};
use crate::http::{self, App, Audit, Bodies, Keys, Tls};
use crate::leader::Leader;
use crate::log;
use crate::metrics::Metrics;
use crate::model::wall;
use crate::process;
use crate::stop::Stop;
use crate::store::{count_no_memory, Pg, Sqlite, Store, Unusable};
use crate::systemd_start::Starting;
use crate::writer::{queue, Board, Inbox, Message, Messages};
use sd_notify::NotifyState;
use std::collections::HashSet;
use std::sync::Arc;
use std::time::{Duration, Instant};
use tokio::net::TcpListener;
use tokio::signal::unix::{signal, SignalKind};
use tokio::sync::Mutex;

/// The longest time between two reports to systemd that the writer works.
const WATCHDOG: Duration = Duration::from_secs(5);
/// After this time without a sign of work the writer counts as stuck.
const SILENCE: Duration = Duration::from_secs(15);
/// Connections that may wait until they are accepted. The system may allow fewer (`net.core.somaxconn`).
const BACKLOG: i32 = 4096;
/// How long the writer may take for its last group. With the time for the last answers this is less than the unit's `TimeoutStopSec`.
const STOP_WITHIN: Duration = Duration::from_secs(6);
/// How long a process that does not lead yet may take to end a step of its start.
const LEAVE_WITHIN: Duration = Duration::from_secs(1);

/// Serves, and ends the process.
pub fn run(given: &cli::Serve) -> ! {
    process::make_files_private();
    count_no_memory();
    let config = Config::of(given).map_err(Stop::from);
    if config.as_ref().is_ok_and(|config| config.log == LogForm::Json) {
        log::use_json();
    }
    let ended = config.and_then(serve);
    exit::now(match ended {
        Ok(()) => 0,
        Err(stop) => {
            log::error(&stop.to_string());
            stop.status()
        }
    })
}

fn serve(mut config: Config) -> Result<(), Stop> {
    config.limits.fit(process::most_files());
    let tls = config.tls.clone().map(Tls::read).transpose()?;
    let keys = Arc::new(Keys::read(config.token_file.clone(), tls)?);
    // before the lease is taken, so a second process at this address never leads
    let listener = listening(&config)?;
    let starting = Starting::begin();
    let store = open_store(&config)?;
    drop(starting);
    let (shared, messages) = Shared::new(&config)?;
    keys.tell(&shared.metrics);
    let app = shared.app(&config, Arc::clone(&keys))?;
    let historian = shared.historian(&config)?;
    let leader = shared.leader(&config, store, messages)?;
    historian.start();
    if config.clean.run {
        let (url, options, board) = (config.advertise.clone(), config.clean.options.clone(), Arc::clone(&shared.board));
        Inside { url, options, keys, board }.start();
    }
    let working = process::thread("writer", move || leader.run());
    if answer_requests(app, listener)? {
        stop_writer(&shared, &working);
        log::info("stopped");
    } else {
        // what the writer would commit now would not be answered
        log::warn("stopped before all requests were answered: the database or a client is too slow");
    }
    Ok(())
}

/// What the threads of the service share.
struct Shared {
    board: Arc<Board>,
    metrics: Arc<Metrics>,
    inbox: Inbox,
    history: Arc<HistoryFile>,
}

impl Shared {
    fn new(config: &Config) -> Result<(Shared, Messages), Stop> {
        let history = Arc::new(HistoryFile::new(config.history.clone()));
        let (board, metrics) = (Arc::new(Board::new()), Arc::new(Metrics::new()?));
        let (inbox, messages) = queue(config.limits.queue, &metrics);
        Ok((Shared { board, metrics, inbox, history }, messages))
    }

    /// What answers requests.
    fn app(&self, config: &Config, keys: Arc<Keys>) -> Result<App, Stop> {
        Ok(App {
            board: Arc::clone(&self.board),
            metrics: Arc::clone(&self.metrics),
            inbox: self.inbox.clone(),
            reader: Arc::new(Mutex::new(config.database.reader()?)),
            events: Arc::new(Mutex::new(config.database.reader()?)),
            history: Arc::new(Mutex::new(Door::new(Arc::clone(&self.history)))),
            history_file: Arc::clone(&self.history),
            keys,
            audit: Audit::new(config.log_requests),
            bodies: Bodies::of(&config.limits),
            answers: http::room(config.limits.all_answers_bytes),
            limits: config.limits.clone(),
        })
    }

    fn historian(&self, config: &Config) -> Result<Historian, Stop> {
        Ok(Historian {
            file: Arc::clone(&self.history),
            reader: config.database.reader()?,
            board: Arc::clone(&self.board),
            metrics: Arc::clone(&self.metrics),
            inbox: self.inbox.clone(),
            keeping: config.keeping,
            since: wall(),
            measured: None,
            away: HashSet::new(),
            opened: None,
        })
    }

    fn leader(&self, config: &Config, store: Box<dyn Store>, messages: Messages) -> Result<Leader, Stop> {
        Ok(Leader {
            store,
            reader: config.database.reader()?,
            open: Box::new({
                let database = config.database.clone();
                move || database.reader()
            }),
            board: Arc::clone(&self.board),
            metrics: Arc::clone(&self.metrics),
            messages,
            inbox: self.inbox.clone(),
            listen: config.listen.to_string(),
            keeping: config.keeping,
            accept_clock: config.accept_clock,
        })
    }
}

fn open_store(config: &Config) -> Result<Box<dyn Store>, Unusable> {
    match &config.database {
        Database::Sqlite(path) => Ok(Box::new(Sqlite::open(path)?)),
        Database::Postgres(url) => Ok(Box::new(Pg::open(url, &config.advertise, config.lease)?)),
    }
}

fn listening(config: &Config) -> Result<std::net::TcpListener, Stop> {
    let told = |why: std::io::Error| Stop::Listen { address: config.listen, why };
    let listener = std::net::TcpListener::bind(config.listen).map_err(told)?;
    rustix::net::listen(&listener, BACKLOG).map_err(|why| told(why.into()))?;
    listener.set_nonblocking(true).map_err(told)?;
    Ok(listener)
}

/// Answers requests until the process gets a signal to stop, and then those that were begun. Returns whether it answered all.
fn answer_requests(app: App, listener: std::net::TcpListener) -> Result<bool, Stop> {
    let runtime = tokio::runtime::Builder::new_multi_thread().worker_threads(2).enable_all().build()?;
    let (board, keys, metrics) = (Arc::clone(&app.board), Arc::clone(&app.keys), Arc::clone(&app.metrics));
    let served = runtime.block_on(async move {
        let listener = TcpListener::from_std(listener)?;
        tokio::spawn(tell_systemd(board));
        tokio::spawn(read_again(keys, metrics));
        Ok(http::serve(Arc::new(app), listener, told_to_stop()).await)
    });
    // a read that waits for the database does not keep the process
    runtime.shutdown_background();
    served
}

/// Reports to systemd that the service is ready, even as a standby, and then that the writer works.
async fn tell_systemd(board: Arc<Board>) {
    // without systemd there is nothing to report to
    let _ = sd_notify::notify(false, &[NotifyState::Ready]);
    let each = watchdog();
    loop {
        tokio::time::sleep(each).await;
        if board.silence() < SILENCE {
            let _ = sd_notify::notify(false, &[NotifyState::Watchdog]);
        }
    }
}

/// Reads the tokens and the certificate again at each SIGHUP.
async fn read_again(keys: Arc<Keys>, metrics: Arc<Metrics>) {
    let Ok(mut told) = signal(SignalKind::hangup()) else {
        return;
    };
    while told.recv().await.is_some() {
        keys.read_again(&metrics);
    }
}

/// Half of the time after which systemd expects a report.
fn watchdog() -> Duration {
    let mut micros = 0;
    if sd_notify::watchdog_enabled(false, &mut micros) {
        Duration::from_micros(micros / 2).min(WATCHDOG)
    } else {
        WATCHDOG
    }
}

async fn told_to_stop() {
    let (Ok(mut term), Ok(mut int)) = (signal(SignalKind::terminate()), signal(SignalKind::interrupt())) else {
        return std::future::pending().await;
    };
    tokio::select! {
        _ = term.recv() => {}
        _ = int.recv() => {}
    }
}

/// Waits until the writer has ended. It has nothing left to answer, and a standby has no jobs.
fn stop_writer(shared: &Shared, working: &std::thread::JoinHandle<()>) {
    let until = Instant::now() + if shared.board.is_ready() { STOP_WITHIN } else { LEAVE_WITHIN };
    let mut sent = false;
    while !working.is_finished() && Instant::now() < until {
        sent = sent || shared.inbox.try_send(Message::Stop).is_ok();
        std::thread::sleep(Duration::from_millis(5));
    }
}
