//! Metrics of what waits: requests for the writer, and jobs for their ticks.
use super::Families;
use prometheus::{Gauge, Histogram, IntGauge};
use std::time::{Duration, SystemTime, UNIX_EPOCH};

const WAITS: [f64; 12] = [0.0005, 0.001, 0.0025, 0.005, 0.01, 0.025, 0.05, 0.1, 0.25, 1.0, 5.0, 30.0];
const LATE: [f64; 10] = [0.005, 0.01, 0.025, 0.05, 0.1, 0.25, 1.0, 5.0, 30.0, 300.0];

pub struct Queue {
    pub requests: IntGauge,
    waited: Histogram,
    tick_late: Histogram,
    followed: Gauge,
}

impl Queue {
    pub fn new(all: &mut Families) -> Result<Queue, prometheus::Error> {
        Ok(Queue {
            requests: all.whole("relkvanu_queue_requests", "Requests that wait for the writer.")?,
            waited: all.histogram("relkvanu_queue_seconds", "How long requests waited for the writer.", &WAITS)?,
            tick_late: all.histogram("relkvanu_tick_late_seconds", "How late jobs are ticked.", &LATE)?,
            followed: all.gauge(
                "relkvanu_followed_timestamp_seconds",
                "When a process that stands by had read all of the log last, in Unix time.",
            )?,
        })
    }

    /// The writer took a request that had waited for so long.
    pub fn waited(&self, time: Duration) {
        self.waited.observe(time.as_secs_f64());
    }

    /// A job was ticked so many milliseconds after that was due.
    pub fn late(&self, milliseconds: u64) {
        self.tick_late.observe(milliseconds as f64 / 1000.0);
    }

    /// This process has read all of the log, or leads.
    pub fn followed(&self) {
        self.followed.set(SystemTime::now().duration_since(UNIX_EPOCH).unwrap_or_default().as_secs_f64());
    }
}
