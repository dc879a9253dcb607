//! The metrics for Prometheus: the writer sets counters and times, and reads set gauges.
mod jobs;
mod parted;
mod process;
mod queue;
mod sizes;
mod upkeep;

pub use parted::Parted;

use crate::history::Search;
use crate::model::Outcome;
use crate::writer::{JobState, Served};
use jobs::Gauges;
use parted::{part_of, Labels, OfJobs, PARTS};
use process::Process;
use prometheus::core::{Collector, MetricVec, MetricVecBuilder};
use prometheus::{
    Encoder, Gauge, GaugeVec, Histogram, HistogramOpts, HistogramVec, IntCounterVec, IntGauge, IntGaugeVec, Opts,
    Registry, TextEncoder,
};
use queue::Queue;
use sizes::SizeMetrics;
use std::sync::{Mutex, MutexGuard, PoisonError};
use std::time::Duration;
use upkeep::Upkeep;

const SECONDS: [f64; 12] = [0.0005, 0.001, 0.002, 0.005, 0.01, 0.02, 0.05, 0.1, 0.25, 0.5, 1.0, 5.0];
const ROWS: [f64; 8] = [1.0, 4.0, 16.0, 64.0, 256.0, 1024.0, 4096.0, 16384.0];
const DURATIONS: [f64; 12] = [0.1, 0.25, 0.5, 1.0, 2.5, 5.0, 10.0, 30.0, 60.0, 120.0, 300.0, 600.0];

/// The words of labels. A word that is missing would leave values of deleted jobs.
const CALLS: [&str; 18] = [
    "tick",
    "savepoint",
    "ack",
    "decline",
    "dispose",
    "restore",
    "cancel",
    "take",
    "deleted",
    "undeleted",
    "fence",
    "reserve",
    "forfeit",
    "trigger",
    "configure",
    "stop",
    "begin",
    "advance",
];
const OUTCOMES: [&str; 5] = ["made", "fenced", "refused", "no_memory", "not_made"];
const KINDS: [&str; 2] = Search::KINDS;
const STATES: [&str; 3] = ["in_use", "waiting", "taken"];
const KIND: (&str, &[&str]) = ("kind", &KINDS);
const STATE: (&str, &[&str]) = ("state", &STATES);

pub struct Metrics {
    families: Families,
    calls: Parted<IntCounterVec>,
    requests: IntCounterVec,
    commit_seconds: Histogram,
    commit_rows: Histogram,
    image_seconds: Histogram,
    images_fail: Parted<IntGaugeVec>,
    clock_ahead: Gauge,
    pub leader: IntGauge,
    pub connections: IntGauge,
    pub bodies: IntGauge,
    pub commit_takes: Gauge,
    records: Parted<IntCounterVec>,
    durations: Parted<HistogramVec>,
    gauges: Gauges,
    /// One of each part, which is held while a read sets the values of one of its jobs, and while they are forgotten.
    values: [Mutex<()>; PARTS],
    pub upkeep: Upkeep,
    pub sizes: SizeMetrics,
    pub queue: Queue,
    pub process: Process,
}

impl Metrics {
    pub fn new() -> Result<Metrics, prometheus::Error> {
        let mut all = Families::default();
        let requests = Opts::new("relkvanu_http_requests_total", "HTTP requests, by route and status.");
        Ok(Metrics {
            calls: all.counters(
                "relkvanu_calls_total",
                "Calls, by what became of them.",
                &[("call", &CALLS), ("outcome", &OUTCOMES)],
            )?,
            requests: all.add(IntCounterVec::new(requests, &["route", "status"]))?,
            records: all.counters(
                "relkvanu_records_total",
                "Records that ended being pending, by how.",
                &[KIND, ("how", &Search::HOWS)],
            )?,
            commit_seconds: all.histogram("relkvanu_commit_seconds", "How long a commit takes.", &SECONDS)?,
            commit_rows: all.histogram("relkvanu_commit_calls", "How many calls share a commit.", &ROWS)?,
            image_seconds: all.histogram(
                "relkvanu_image_seconds",
                "How long an image of a job is made, while calls of that job wait.",
                &SECONDS,
            )?,
            images_fail: all.of_jobs(
                "relkvanu_image_failing",
                "1 where the last image of the job, or the last cut of its log, could not be written.",
                &[],
            )?,
            clock_ahead: all.gauge(
                "relkvanu_clock_ahead_seconds",
                "How far the moments that calls are given are ahead of this machine's clock.",
            )?,
            leader: all.whole("relkvanu_leader", "1 where this process leads.")?,
            connections: all.whole("relkvanu_http_connections", "Open connections.")?,
            bodies: all
                .whole("relkvanu_http_body_bytes", "Bytes of requests' bodies that are being read or worked on.")?,
            commit_takes: all.gauge(
                "relkvanu_commit_under_way_seconds",
                "For how long the commit that is under way has taken; 0 if none is.",
            )?,
            durations: all.durations("relkvanu_completion_seconds", "From a record's trigger to its completion.")?,
            upkeep: Upkeep::new(&mut all)?,
            sizes: SizeMetrics::new(&mut all)?,
            queue: Queue::new(&mut all)?,
            process: Process::new(&mut all)?,
            gauges: Gauges::new(&mut all)?,
            values: [const { Mutex::new(()) }; PARTS],
            families: all,
        })
    }

    pub fn call(&self, job: &str, call: &str, outcome: &Outcome) {
        self.calls.with_label_values(&[job, call, outcome.word()]).inc();
    }

    pub fn commit(&self, calls: usize, took: Duration) {
        self.commit_seconds.observe(took.as_secs_f64());
        self.commit_rows.observe(calls as f64);
    }

    /// An image was made.
    pub fn image(&self, took: Duration) {
        self.image_seconds.observe(took.as_secs_f64());
    }

    /// Whether a job's image, or a cut of its log, could not be made or written.
    pub fn image_fails(&self, job: &str, fails: bool) {
        self.images_fail.with_label_values(&[job]).set(i64::from(fails));
    }

    /// How many milliseconds the moments of calls are ahead of this machine's clock.
    pub fn clock(&self, ahead: i64) {
        self.clock_ahead.set(ahead as f64 / 1000.0);
    }

    pub fn request(&self, route: &str, status: &str) {
        self.requests.with_label_values(&[route, status]).inc();
    }

    /// A record stopped being pending, `seconds` after its trigger.
    pub fn record(&self, job: &str, kind: &str, how: &str, seconds: f64) {
        self.records.with_label_values(&[job, kind, how]).inc();
        if how == "completed" {
            self.durations.with_label_values(&[job, kind]).observe(seconds);
        }
    }

    /// How far the history is in a job's log.
    pub fn history(&self, job: &str, upto: u64) {
        self.gauges.history(job, upto);
    }

    /// Sets values of a job, if it `is_there`. One that goes leaves the board before its values are forgotten, so none are left of it, and a later
    /// job of its name gets none.
    pub fn of_job(&self, job: &str, is_there: impl Fn() -> bool, set: impl FnOnce(&Metrics)) {
        let _held = self.values(job);
        if is_there() {
            set(self);
        }
    }

    /// A job was deleted, or is another process's: its values go.
    pub fn forget(&self, job: &str) {
        let _held = self.values(job);
        self.families.forget(job);
    }

    /// All metrics as text, with the gauges of these jobs. `names` has the jobs of this process, and `served` tells of each whether it still has it.
    pub fn text(
        &self,
        jobs: &[JobState],
        names: &[String],
        served: impl Fn(&str) -> Option<Served>,
    ) -> Result<Vec<u8>, prometheus::Error> {
        self.set(jobs, names, served);
        self.families.text()
    }

    /// A job that has gone since it was read has been forgotten, or will be: it gets no values, which would stay. Nothing is held from one job to
    /// the next, so that the writer can forget one meanwhile.
    fn set(&self, jobs: &[JobState], names: &[String], served: impl Fn(&str) -> Option<Served>) {
        for job in jobs {
            let name = job.opening.name.as_str();
            let _held = self.values(name);
            if served(name).is_some() {
                self.gauges.set(job);
                self.sizes.job(name, &job.bytes);
                // it is there, and 0 at first
                self.images_fail.with_label_values(&[name]);
            }
        }
        for job in names {
            let _held = self.values(job);
            if let Some(Served { since, lag }) = served(job) {
                self.upkeep.history_lag(job, lag);
                self.gauges.served(job, since);
            }
        }
    }

    fn values(&self, job: &str) -> MutexGuard<'_, ()> {
        self.values[part_of(job)].lock().unwrap_or_else(PoisonError::into_inner)
    }
}

/// All metrics. Their texts are written one after another: all values of thousands of jobs at once would take some hundred MiB.
#[derive(Default)]
pub struct Families {
    /// Refuses two metrics of one name.
    pub registry: Registry,
    all: Vec<Box<dyn Collector>>,
    /// Those of them that have values of jobs.
    of_jobs: Vec<Box<dyn OfJobs>>,
}

impl Families {
    pub fn add<C: Collector + Clone + 'static>(
        &mut self,
        made: Result<C, prometheus::Error>,
    ) -> Result<C, prometheus::Error> {
        let metric = made?;
        self.registry.register(Box::new(metric.clone()))?;
        self.all.push(Box::new(metric.clone()));
        Ok(metric)
    }

    /// A metric of jobs.
    fn parted<T: MetricVecBuilder + 'static>(
        &mut self,
        labels: Labels,
        make: impl Fn(&[&str]) -> Result<MetricVec<T>, prometheus::Error>,
    ) -> Result<Parted<MetricVec<T>>, prometheus::Error> {
        let metric = self.add(Parted::of(labels, make))?;
        self.of_jobs.push(Box::new(metric.clone()));
        Ok(metric)
    }

    pub fn counters(
        &mut self,
        name: &str,
        help: &str,
        labels: Labels,
    ) -> Result<Parted<IntCounterVec>, prometheus::Error> {
        self.parted(labels, |labels| IntCounterVec::new(Opts::new(name, help), labels))
    }

    /// A gauge of jobs, with whole numbers.
    pub fn of_jobs(
        &mut self,
        name: &str,
        help: &str,
        labels: Labels,
    ) -> Result<Parted<IntGaugeVec>, prometheus::Error> {
        self.parted(labels, |labels| IntGaugeVec::new(Opts::new(name, help), labels))
    }

    pub fn seconds(&mut self, name: &str, help: &str, labels: Labels) -> Result<Parted<GaugeVec>, prometheus::Error> {
        self.parted(labels, |labels| GaugeVec::new(Opts::new(name, help), labels))
    }

    fn durations(&mut self, name: &str, help: &str) -> Result<Parted<HistogramVec>, prometheus::Error> {
        let opts = || HistogramOpts::new(name, help).buckets(DURATIONS.to_vec());
        self.parted(&[KIND], |labels| HistogramVec::new(opts(), labels))
    }

    fn histogram(&mut self, name: &str, help: &str, buckets: &[f64]) -> Result<Histogram, prometheus::Error> {
        self.add(Histogram::with_opts(HistogramOpts::new(name, help).buckets(buckets.to_vec())))
    }

    pub fn gauge(&mut self, name: &str, help: &str) -> Result<Gauge, prometheus::Error> {
        self.add(Gauge::new(name, help))
    }

    /// A gauge of whole numbers.
    pub fn whole(&mut self, name: &str, help: &str) -> Result<IntGauge, prometheus::Error> {
        self.add(IntGauge::new(name, help))
    }

    /// Removes the values of a job.
    pub fn forget(&self, job: &str) {
        self.of_jobs.iter().for_each(|metric| metric.forget(job));
    }

    fn text(&self) -> Result<Vec<u8>, prometheus::Error> {
        let mut text = Vec::new();
        for metric in &self.all {
            // the encoder refuses one without a value
            let families: Vec<_> = metric.collect().into_iter().filter(|it| !it.get_metric().is_empty()).collect();
            TextEncoder::new().encode(&families, &mut text)?;
        }
        Ok(text)
    }
}

fn set(gauge: &Parted<IntGaugeVec>, labels: &[&str], value: u64) {
    gauge.with_label_values(labels).set(i64::try_from(value).unwrap_or(i64::MAX));
}

fn set_seconds(gauge: &Parted<GaugeVec>, job: &str, milliseconds: u64) {
    gauge.with_label_values(&[job]).set(milliseconds as f64 / 1000.0);
}

#[cfg(test)]
mod tests {
    use super::*;
    use crate::model::Fault;
    use serde_json::Value;
    use std::collections::BTreeSet;
    use std::sync::mpsc::channel;

    #[test]
    fn each_call_of_the_api_is_known() -> Result<(), serde_json::Error> {
        let api: Value = serde_json::from_str(include_str!("../../web/openapi.json"))?;
        let forms = api["components"]["schemas"]["Call"]["oneOf"].as_array().cloned().unwrap_or_default();
        let calls: BTreeSet<&str> =
            forms.iter().filter_map(|form| form["properties"]["call"]["enum"][0].as_str()).collect();
        // these have paths of their own
        let own = ["fence", "configure", "stop", "begin", "advance"];
        let known: BTreeSet<&str> = CALLS.into_iter().filter(|call| !own.contains(call)).collect();
        assert_eq!(calls, known);
        Ok(())
    }

    #[test]
    fn a_job_that_is_forgotten_has_no_values() -> Result<(), prometheus::Error> {
        let metrics = Metrics::new()?;
        for job in ["gone", "stays"] {
            for outcome in [Outcome::NoMemory, Outcome::NotMade, Outcome::Refused(Fault::Memory)] {
                for call in CALLS {
                    metrics.call(job, call, &outcome);
                }
            }
            for kind in KINDS {
                for how in Search::HOWS {
                    metrics.record(job, kind, how, 1.0);
                }
                metrics.sizes.record(job, kind, (1, 2));
            }
            metrics.history(job, 1);
            metrics.image_fails(job, true);
            metrics.upkeep.oldest_files(job, Duration::ZERO, Duration::ZERO);
        }
        metrics.forget("gone");
        let text = String::from_utf8_lossy(&metrics.families.text()?).into_owned();
        assert!(!text.contains("gone") && text.contains("stays"));
        Ok(())
    }

    /// The writer forgets the values of a job while a scrape sets those of another one.
    #[test]
    fn a_deletion_does_not_wait_for_a_scrape() -> Result<(), prometheus::Error> {
        let metrics = Metrics::new()?;
        let names = ["one".to_string()];
        let other = (0..1000).map(|it| it.to_string()).find(|it| part_of(it) != part_of("one")).unwrap_or_default();
        let (told, is_forgotten) = channel();
        std::thread::scope(|scope| {
            metrics.set(&[], &names, |_| {
                scope.spawn(|| {
                    metrics.forget(&other);
                    told.send(())
                });
                assert!(is_forgotten.recv_timeout(Duration::from_secs(60)).is_ok());
                None
            });
        });
        Ok(())
    }
}
