//! How requests are made again: at which address, after which answers, and for how long. The services are stubs, which
//! answer what a test says.
use relkvanu_client::{Call, Error, Service};
use serde_json::{json, Value};
use std::net::SocketAddr;
use std::sync::{Arc, Mutex};
use std::time::Duration;
use tokio::io::{AsyncReadExt, AsyncWriteExt};
use tokio::net::{TcpListener, TcpSocket, TcpStream};
use tokio::time::Instant;

/// What is soon done takes less than this on a busy machine, and what is tried again for a minute does not.
const BUSY: Duration = Duration::from_secs(45);

/// What a stub answers to each request in turn, the last one again and again: a whole answer, or nothing and the
/// connection is closed.
type Answers = Vec<Option<String>>;

struct Stub {
    url: String,
    /// The requests that came, whole.
    came: Arc<Mutex<Vec<String>>>,
}

impl Stub {
    async fn new(answers: Answers) -> Stub {
        let listener = TcpListener::bind("127.0.0.1:0").await.expect("an address");
        let url = format!("http://{}", listener.local_addr().expect("an address"));
        let came = Arc::new(Mutex::new(Vec::new()));
        tokio::spawn(answer(listener, answers, Arc::clone(&came)));
        Stub { url, came }
    }

    fn count(&self) -> usize {
        self.came.lock().expect("no panic").len()
    }

    /// The key of each request.
    fn keys(&self) -> Vec<String> {
        let came = self.came.lock().expect("no panic");
        let key = |request: &String| {
            let line = request.lines().find_map(|line| line.strip_prefix("idempotency-key: "));
            line.unwrap_or("none").to_string()
        };
        came.iter().map(key).collect()
    }
}

async fn answer(listener: TcpListener, answers: Answers, came: Arc<Mutex<Vec<String>>>) {
    while let Ok((mut stream, _)) = listener.accept().await {
        let request = read_request(&mut stream).await;
        let place = {
            let mut came = came.lock().expect("no panic");
            came.push(request);
            came.len() - 1
        };
        if let Some(answer) = &answers[place.min(answers.len() - 1)] {
            stream.write_all(answer.as_bytes()).await.expect("the client reads");
        }
    }
}

/// A head, and a body of its length.
async fn read_request(stream: &mut TcpStream) -> String {
    let mut text = String::new();
    let mut part = [0; 4096];
    loop {
        let length = text.lines().find_map(|line| line.strip_prefix("content-length: ")?.parse::<usize>().ok());
        let body = text.split_once("\r\n\r\n").map(|(_, body)| body.len());
        if body.is_some_and(|body| body >= length.unwrap_or(0)) {
            return text;
        }
        let read = stream.read(&mut part).await.expect("the client sends");
        text.push_str(&String::from_utf8_lossy(&part[..read]));
    }
}

#[expect(clippy::unnecessary_wraps, reason = "a stub may have no answer")]
fn response(status: u16, headers: &str, body: &Value) -> Option<String> {
    let body = body.to_string();
    let length = body.len();
    Some(format!("HTTP/1.1 {status} said\r\ncontent-length: {length}\r\nconnection: close\r\n{headers}\r\n{body}"))
}

fn good() -> Option<String> {
    response(200, "", &json!({"jobs": [], "answers": [{"seq": 1, "cancel": "cancelled"}]}))
}

fn bad(status: u16) -> Option<String> {
    response(status, "", &json!({"error": "so it is"}))
}

fn service(urls: &[&str]) -> Service {
    Service::new(urls, None).expect("good addresses")
}

#[tokio::test]
async fn errors_that_pass_are_asked_again() {
    for status in [429, 500, 502, 503, 504] {
        let stub = Stub::new(vec![bad(status), good()]).await;
        assert!(service(&[&stub.url]).jobs().await.is_ok(), "{status}");
        assert_eq!(stub.count(), 2);
    }
    for status in [400, 401, 404, 409, 413, 422, 301] {
        let stub = Stub::new(vec![bad(status), good()]).await;
        let told = service(&[&stub.url]).jobs().await;
        assert!(matches!(told, Err(Error::Status { status: found, .. }) if found == status), "{status}: {told:?}");
        assert_eq!(stub.count(), 1);
    }
    // a call may have been made before the 500, so it is not made again
    let stub = Stub::new(vec![bad(500), good()]).await;
    assert!(service(&[&stub.url]).job("a").calls(&[Call::Cancel]).await.is_err());
    assert_eq!(stub.count(), 1);
}

#[tokio::test]
async fn a_call_is_made_again_under_its_key() {
    for call in [Call::Cancel, Call::Dispose { id: 1 }, Call::Restore { savepoint: None, shape: None }] {
        let stub = Stub::new(vec![None, bad(502), good()]).await;
        assert_eq!(service(&[&stub.url]).job("a").calls(&[call]).await.expect("an answer").len(), 1);
        let keys = stub.keys();
        assert!(keys.len() == 3 && keys[0].len() == 32 && keys.iter().all(|key| *key == keys[0]), "{keys:?}");
    }
}

#[tokio::test]
async fn retry_after_is_waited_for() {
    let stub = Stub::new(vec![response(503, "retry-after: 1\r\n", &json!({})), good()]).await;
    let begun = Instant::now();
    assert!(service(&[&stub.url]).jobs().await.is_ok());
    assert!(begun.elapsed() >= Duration::from_secs(1), "{:?}", begun.elapsed());
    // another address is asked at once: a wait of a minute would end after the deadline
    let (first, second) =
        (Stub::new(vec![response(503, "retry-after: 60\r\n", &json!({}))]).await, Stub::new(vec![good()]).await);
    assert!(service(&[&first.url, &second.url]).jobs().await.is_ok());
    assert_eq!((first.count(), second.count()), (1, 1));
    // such a wait is not begun, so the address is asked once
    let asked = service(&[&first.url]).within(Some(Duration::from_secs(20)));
    assert!(matches!(asked.jobs().await, Err(Error::Status { status: 503, .. })));
    assert_eq!(first.count(), 2);
}

/// A service that starts says how far it is. It is waited for as long as that rises, and no longer than that and the patience.
#[tokio::test]
async fn a_service_that_replays_is_waited_for() {
    let replaying = |calls: u64| {
        let replay = json!({"jobs": 9, "replayed": 0, "calls": calls});
        response(503, "", &json!({"error": "not yet", "reason": "replaying", "replay": replay}))
    };
    let patience = Some(Duration::from_secs(3));
    let mut answers: Answers = (0..12).map(replaying).collect();
    answers.push(good());
    let stub = Stub::new(answers).await;
    let begun = Instant::now();
    assert!(service(&[&stub.url]).within(patience).jobs().await.is_ok());
    // its pauses alone are longer than its patience
    assert!(stub.count() == 13 && begun.elapsed() > Duration::from_secs(3), "{:?}", begun.elapsed());
    // it does no more, or has begun anew
    let mut answers: Answers = vec![replaying(7)];
    answers.extend((0..7).map(replaying));
    let stub = Stub::new(answers).await;
    let told = service(&[&stub.url]).within(patience).jobs().await;
    assert!(matches!(told, Err(Error::Status { status: 503, .. })), "{told:?}");
}

#[tokio::test]
async fn the_leader_that_a_standby_names_is_asked_next() {
    let (second, leader) = (Stub::new(vec![bad(503)]).await, Stub::new(vec![good()]).await);
    let header = format!("relkvanu-leader: {}\r\n", leader.url);
    let standby = Stub::new(vec![response(503, &header, &json!({}))]).await;
    let asked = service(&[&standby.url, &second.url, &leader.url]);
    assert!(asked.jobs().await.is_ok() && asked.jobs().await.is_ok());
    assert_eq!((standby.count(), second.count(), leader.count()), (1, 0, 2));
}

#[tokio::test]
async fn a_mute_machine_does_not_use_up_the_time() {
    let mute = std::net::TcpListener::bind("127.0.0.1:0").expect("an address");
    let mute = format!("http://{}", mute.local_addr().expect("an address"));
    let stub = Stub::new(vec![good()]).await;
    // a try for each address, and one more
    assert!(service(&[&mute, &stub.url]).within(Some(Duration::from_secs(12))).jobs().await.is_ok());
    let begun = Instant::now();
    let asked = service(&[&mute]).within(Some(Duration::from_secs(1)));
    assert!(matches!(asked.jobs().await, Err(Error::Unreached(_))));
    assert!(begun.elapsed() < BUSY, "{:?}", begun.elapsed());
}

#[tokio::test]
async fn a_follower_goes_on_from_the_state() {
    let events = json!({"upto": 9, "log": "one", "first": 1, "events": [{"seq": 8, "event": "completed", "id": 3}]});
    let gone = response(410, "", &json!({"error": "gone", "reason": "cut", "first": 1, "log": "two"}));
    let state =
        json!({"seq": 5, "last_event": 4, "now": 1, "log": "two", "mode": "running", "choice": {"kind": "fresh"}});
    let stub =
        Stub::new(vec![response(200, "", &events), gone, response(200, "", &state), response(200, "", &events)]).await;
    let mut follower = service(&[&stub.url]).job("a").follower_at(7, "one");
    assert_eq!(follower.next(0).await.expect("events")[0]["id"], 3);
    assert_eq!(follower.place(), (Some(9), Some("one")));
    let told = follower.next(0).await.expect("events");
    let words: Vec<&str> = told.iter().filter_map(|event| event["event"].as_str()).collect();
    assert_eq!((words, follower.place()), (vec!["missed"], (Some(5), Some("two"))));
    follower.next(0).await.expect("events");
    let asked: Vec<String> = stub
        .came
        .lock()
        .expect("no panic")
        .iter()
        .map(|request| request.lines().next().unwrap_or("").to_string())
        .collect();
    let wanted =
        ["/events?after=7&wait=0&log=one", "/events?after=9&wait=0&log=one", "", "/events?after=5&wait=0&log=two"];
    let wanted = wanted.map(|rest| format!("GET /v1/jobs/a{rest} HTTP/1.1"));
    assert_eq!(asked, wanted);
}

/// It does not ask for the state, and stays where it is.
#[tokio::test]
async fn a_follower_ends_over_another_log() {
    let gone = || response(410, "", &json!({"error": "a backup", "reason": "other_log", "first": 1, "log": "two"}));
    let stub = Stub::new(vec![gone(), gone()]).await;
    let mut follower = service(&[&stub.url]).job("a").follower_at(7, "one");
    for count in [1, 2] {
        assert!(matches!(follower.next(0).await, Err(Error::OtherLog(why)) if why == "a backup"));
        assert_eq!((follower.place(), stub.count()), ((Some(7), Some("one")), count));
    }
}

#[tokio::test]
async fn a_job_begins_with_the_files_of_its_record() {
    let answered =
        |answer: serde_json::Value| response(200, "", &json!({"answers": [answer], "epoch": 1, "log": "one"}));
    let restored = answered(json!({"restore": "savepoint", "id": 3, "released": 0, "seq": 9}));
    let record = |live: serde_json::Value| response(200, "", &json!({"id": 3, "live": live}));
    let live = record(json!({"acks": [{"subtask": "0.0", "files": ["31", "32"]}]}));
    let fresh = answered(json!({"restore": "fresh", "released": 0, "seq": 9}));
    let refused = answered(json!({"refused": "NotRunning"}));
    let stub = Stub::new(vec![restored.clone(), live, restored, record(json!(null)), fresh, refused]).await;
    let job = service(&[&stub.url]).job("a");
    let start = job.begin(Some(3), None).await.expect("a start");
    assert_eq!((start.kind.as_str(), start.id), ("savepoint", Some(3)));
    assert_eq!(
        (start.files, start.follower.place()),
        (vec![("0.0".to_string(), vec![31, 32])], (Some(9), Some("one")))
    );
    assert!(matches!(job.begin(None, None).await, Err(Error::Answer(why)) if why.contains("has ended meanwhile")));
    let start = job.begin(None, None).await.expect("a start");
    assert_eq!((start.kind.as_str(), start.id, start.files.len()), ("fresh", None, 0));
    assert!(matches!(job.begin(None, None).await, Err(Error::Refused(name)) if name == "NotRunning"));
}

/// Hours pass at once where all tasks sleep.
#[tokio::test(start_paused = true)]
async fn it_never_gives_up_if_told_so() {
    // its port is nobody else's meanwhile, and nobody listens there
    let held = TcpSocket::new_v4().expect("a socket");
    held.bind(SocketAddr::from(([127, 0, 0, 1], 0))).expect("an address");
    let place = held.local_addr().expect("an address");
    let lost = Arc::new(Mutex::new(0));
    let noticed = Arc::clone(&lost);
    let url = format!("http://{place}");
    let asked = service(&[&url]).within(None).noticing(move |_| *noticed.lock().expect("no panic") += 1);
    let gave_up = tokio::time::timeout(Duration::from_secs(3600), asked.jobs()).await;
    assert!(gave_up.is_err(), "{gave_up:?}");
    assert!(*lost.lock().expect("no panic") > 1000);
    let asked = asked.within(Some(Duration::from_secs(60)));
    assert!(tokio::time::timeout(Duration::from_secs(61), asked.jobs()).await.is_ok_and(|told| told.is_err()));
}
