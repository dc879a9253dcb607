//! Metrics of sizes: the bytes of a job's files, and of its last records.
use super::{set, Families, Parted, KIND, STATE, STATES};
use crate::model::Bytes;
use prometheus::IntGaugeVec;

/// Of which files of a record the bytes are.
const OF: [&str; 2] = ["new", "all"];

pub struct SizeMetrics {
    files: Parted<IntGaugeVec>,
    sized: Parted<IntGaugeVec>,
    records: Parted<IntGaugeVec>,
}

impl SizeMetrics {
    pub fn new(all: &mut Families) -> Result<SizeMetrics, prometheus::Error> {
        Ok(SizeMetrics {
            files: all.of_jobs(
                "relkvanu_file_bytes",
                "Bytes of state files that are in use, wait for deletion, or were taken for it, as acknowledgements said them.",
                &[STATE],
            )?,
            sized: all.of_jobs("relkvanu_sized_files", "State files whose bytes are known.", &[])?,
            records: all.of_jobs(
                "relkvanu_record_bytes",
                "Bytes of the last record that completed: of all files that it names, and of its new files.",
                &[KIND, ("of", &OF)],
            )?,
        })
    }

    pub fn job(&self, job: &str, bytes: &Bytes) {
        for (state, number) in STATES.into_iter().zip([bytes.in_use, bytes.waiting, bytes.taken]) {
            set(&self.files, &[job, state], number);
        }
        set(&self.sized, &[job], bytes.files);
    }

    /// A record completed, with these bytes of its new files and of all.
    pub fn record(&self, job: &str, kind: &str, (fresh, full): (u64, u64)) {
        for (of, number) in OF.into_iter().zip([fresh, full]) {
            set(&self.records, &[job, kind, of], number);
        }
    }
}
