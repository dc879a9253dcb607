//! The cleaner's metrics for Prometheus, by job, which `--metrics` serves.
use super::sweep::Swept;
use super::Kind;
use crate::files::Gone;
use crate::log;
use crate::metrics::{Families, Parted};
use prometheus::{GaugeVec, IntCounter, IntCounterVec, IntGauge, IntGaugeVec};
use relkvanu_client::Error;
use std::time::{Duration, SystemTime, UNIX_EPOCH};

const RELEASED: &str = "released";
const GARBAGE: &str = "garbage";
/// What becomes of files.
const OUTCOMES: [(&str, &str); 5] =
    [(RELEASED, "deleted"), (RELEASED, "absent"), (RELEASED, "failed"), (GARBAGE, "deleted"), (GARBAGE, "failed")];

pub struct Metrics {
    pub families: Families,
    files: Parted<IntCounterVec>,
    bytes: Parted<IntCounterVec>,
    reported: Parted<GaugeVec>,
    swept: Parted<GaugeVec>,
    unissued: Parted<IntGaugeVec>,
    stopped: Parted<IntGaugeVec>,
    works: Parted<IntGaugeVec>,
    lost: IntCounter,
    pub threads: IntGauge,
}

impl Metrics {
    /// `every`: how long after the begin of a look for garbage the next one begins.
    pub fn new(every: Duration) -> Result<Metrics, prometheus::Error> {
        let mut all = Families::default();
        let interval = "How long after the begin of a look for a job's garbage the next one begins.";
        all.gauge("relkvanu_clean_interval_seconds", interval)?.set(every.as_secs_f64());
        Ok(Metrics {
            files: all.counters(
                "relkvanu_clean_files_total",
                "Files that jobs handed out, and garbage, by what became of them.",
                &[("kind", &[RELEASED, GARBAGE]), ("outcome", &["deleted", "absent", "failed"])],
            )?,
            bytes: all.counters("relkvanu_clean_garbage_bytes_total", "Bytes of the garbage that was deleted.", &[])?,
            reported: all.seconds("relkvanu_clean_report_timestamp_seconds", "When files were reported last.", &[])?,
            swept: all.seconds(
                "relkvanu_clean_sweep_timestamp_seconds",
                "When a look for garbage last came to its end; before the first, when the job was found.",
                &[],
            )?,
            unissued: all.of_jobs(
                "relkvanu_clean_unissued_files",
                "Files found last whose names were never given out. Nobody deletes them.",
                &[],
            )?,
            // a job that goes says which reason it has
            stopped: all.of_jobs(
                "relkvanu_clean_stopped",
                "1 if the job is not cleaned, by the reason: docs/SERVICE-OPERATION.md.",
                &[("reason", &[])],
            )?,
            works: all.of_jobs(
                "relkvanu_clean_works",
                "1 if the job is cleaned; 0 if something is in the way.",
                &[],
            )?,
            lost: all.add(IntCounter::new(
                "relkvanu_clean_lost_requests_total",
                "Tries to reach the service that were not answered, or with an error that passes.",
            ))?,
            threads: all.whole("relkvanu_clean_threads", "Threads that work now.")?,
            families: all,
        })
    }

    /// A job was found, whose garbage is looked for or not.
    pub fn found(&self, job: &str, has_place: bool) {
        for (kind, outcome) in OUTCOMES {
            self.files.with_label_values(&[job, kind, outcome]);
        }
        if has_place {
            self.swept.with_label_values(&[job]).set(now());
        }
        self.works.with_label_values(&[job]).set(0);
    }

    /// A job is there no more.
    pub fn forget(&self, job: &str, stopped: Option<&str>) {
        self.families.forget(job);
        if let Some(reason) = stopped {
            self.stopped.remove(&[job, reason]);
        }
    }

    /// Whether a job is cleaned; why not, if that is known; and why it was not before.
    pub fn show(&self, job: &str, works: bool, before: Option<&str>, now: Option<&str>) {
        if let Some(reason) = before.filter(|_| before != now) {
            self.stopped.remove(&[job, reason]);
        }
        if let Some(reason) = now {
            self.stopped.with_label_values(&[job, reason]).set(1);
        }
        self.works.with_label_values(&[job]).set(i64::from(works));
    }

    /// A try was not answered.
    pub fn lost(&self, error: &Error) {
        self.lost.inc();
        log::warn(&format!("it tries again: {error}"));
    }

    /// Files were reported.
    pub fn reported(&self, job: &str, files: &[Gone]) {
        for gone in files {
            self.files.with_label_values(&[job, RELEASED, word(gone)]).inc();
        }
        self.reported.with_label_values(&[job]).set(now());
    }

    /// Garbage was deleted, of so many bytes, or could not be.
    pub fn garbage_deleted(&self, job: &str, bytes: u64) {
        self.files.with_label_values(&[job, GARBAGE, "deleted"]).inc();
        self.bytes.with_label_values(&[job]).inc_by(bytes);
    }

    pub fn garbage_failed(&self, job: &str) {
        self.files.with_label_values(&[job, GARBAGE, "failed"]).inc();
    }

    /// A look for garbage came to its end.
    pub fn swept(&self, job: &str, swept: &Swept) {
        self.unissued.with_label_values(&[job]).set(swept.unissued as i64);
        self.swept.with_label_values(&[job]).set(now());
    }
}

/// How long a turn of this kind may take before it is told that it hangs.
pub fn hangs_after(kind: Kind) -> Duration {
    match kind {
        Kind::Released => Duration::from_secs(30),
        Kind::Garbage => Duration::from_secs(3600),
    }
}

fn word(gone: &Gone) -> &'static str {
    match gone {
        Gone::Deleted => "deleted",
        Gone::Absent => "absent",
        Gone::Failed(_) => "failed",
    }
}

fn now() -> f64 {
    SystemTime::now().duration_since(UNIX_EPOCH).unwrap_or_default().as_secs_f64()
}

#[cfg(test)]
mod tests {
    use super::*;
    use prometheus::proto::MetricFamily;

    #[test]
    fn a_job_has_one_reason_and_leaves_nothing() -> Result<(), prometheus::Error> {
        let metrics = Metrics::new(Duration::from_secs(1))?;
        let of_job = || {
            let families = metrics.families.registry.gather();
            let all = families.iter().flat_map(MetricFamily::get_metric);
            all.filter(|metric| metric.get_label().iter().any(|label| label.get_name() == "job_name")).count()
        };
        metrics.found("a", true);
        let found = of_job();
        metrics.show("a", false, None, Some("storage"));
        metrics.show("a", false, Some("storage"), Some("busy"));
        assert_eq!((of_job(), metrics.works.with_label_values(&["a"]).get()), (found + 1, 0));
        metrics.show("a", true, Some("busy"), None);
        assert_eq!((of_job(), metrics.works.with_label_values(&["a"]).get()), (found, 1));
        metrics.reported("a", &[Gone::Deleted]);
        metrics.garbage_deleted("a", 7);
        metrics.swept("a", &Swept::default());
        metrics.show("a", false, None, Some("storage"));
        metrics.forget("a", Some("storage"));
        assert_eq!(of_job(), 0);
        Ok(())
    }
}
