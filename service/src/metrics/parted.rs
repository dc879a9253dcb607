//! Values of jobs, kept in parts. A scrape reads one part after another, and holds one at a time: so a call or a deletion never waits for a walk
//! over the values of all jobs.
use prometheus::core::{Collector, Desc, MetricVec, MetricVecBuilder};
use prometheus::proto::MetricFamily;
use std::hash::{DefaultHasher, Hash, Hasher};

/// Of ten thousand jobs a part has some hundred and fifty.
pub const PARTS: usize = 64;

/// The part that has the values of a job.
pub fn part_of(job: &str) -> usize {
    let mut hasher = DefaultHasher::new();
    job.hash(&mut hasher);
    hasher.finish() as usize % PARTS
}

/// The labels of a metric of jobs behind the name of the job, each with its words. By these the values of a job are found again: a deletion looks at
/// them alone, and not at the values of all jobs.
pub type Labels = &'static [(&'static str, &'static [&'static str])];

/// A metric whose first label is the name of a job.
#[derive(Clone)]
pub struct Parted<V> {
    parts: Vec<V>,
    more: Labels,
}

impl<T: MetricVecBuilder> Parted<MetricVec<T>> {
    /// `make` makes one part, of these labels.
    pub fn of(
        more: Labels,
        make: impl Fn(&[&str]) -> Result<MetricVec<T>, prometheus::Error>,
    ) -> Result<Parted<MetricVec<T>>, prometheus::Error> {
        let labels: Vec<&str> = ["job_name"].into_iter().chain(more.iter().map(|(label, _)| *label)).collect();
        let parts = (0..PARTS).map(|_| make(&labels)).collect::<Result<_, _>>()?;
        Ok(Parted { parts, more })
    }

    fn part(&self, labels: &[&str]) -> &MetricVec<T> {
        &self.parts[part_of(labels.first().copied().unwrap_or(""))]
    }

    pub fn with_label_values(&self, labels: &[&str]) -> T::M {
        self.part(labels).with_label_values(labels)
    }

    /// Removes a value. Most of those that a deletion looks for are not there.
    pub fn remove(&self, labels: &[&str]) {
        let _ = self.part(labels).remove_label_values(labels);
    }
}

/// What forgets a job that was deleted, or is another process's.
pub trait OfJobs: Send + Sync {
    /// Removes the values of a job.
    fn forget(&self, job: &str);
}

impl<T: MetricVecBuilder> OfJobs for Parted<MetricVec<T>> {
    fn forget(&self, job: &str) {
        let mut labels = vec![vec![job]];
        for (_, words) in self.more {
            labels = labels.iter().flat_map(|some| words.iter().map(|word| [&some[..], &[*word]].concat())).collect();
        }
        for some in labels {
            self.remove(&some);
        }
    }
}

impl<T: MetricVecBuilder> Collector for Parted<MetricVec<T>> {
    fn desc(&self) -> Vec<&Desc> {
        self.parts.first().map_or(Vec::new(), Collector::desc)
    }

    /// One family with the values of all parts.
    fn collect(&self) -> Vec<MetricFamily> {
        let mut whole: Option<MetricFamily> = None;
        for mut part in self.parts.iter().flat_map(Collector::collect) {
            match &mut whole {
                Some(whole) => whole.mut_metric().append(&mut part.take_metric()),
                None => whole = Some(part),
            }
        }
        whole.into_iter().collect()
    }
}

#[cfg(test)]
mod tests {
    use super::*;
    use prometheus::core::Metric;
    use prometheus::proto::{self, MetricType};
    use prometheus::{IntGaugeVec, Opts};
    use std::sync::atomic::{AtomicBool, Ordering};
    use std::sync::mpsc::channel;
    use std::sync::{Arc, OnceLock};
    use std::time::Duration;

    #[test]
    fn the_parts_are_one_family() -> Result<(), prometheus::Error> {
        let more: Labels = &[("kind", &["other", "some"])];
        let made = Parted::of(more, |labels| IntGaugeVec::new(Opts::new("name", "help"), labels))?;
        for job in 0..200 {
            made.with_label_values(&[&job.to_string(), "some"]).set(job);
        }
        made.forget("7");
        let [family] = &made.collect()[..] else {
            return Err(prometheus::Error::Msg("more than one family".to_string()));
        };
        let mut found: Vec<i64> = family.get_metric().iter().map(|it| it.get_gauge().get_value() as i64).collect();
        found.sort_unstable();
        assert_eq!(found, (0..200).filter(|job| *job != 7).collect::<Vec<_>>());
        assert_eq!(made.desc().len(), 1);
        Ok(())
    }

    /// A metric that does something when it is read.
    #[derive(Clone)]
    struct Reads(Arc<dyn Fn() + Send + Sync>);

    impl Metric for Reads {
        fn metric(&self) -> proto::Metric {
            (self.0)();
            proto::Metric::default()
        }
    }

    impl MetricVecBuilder for Reads {
        type M = Reads;
        type P = Opts;

        fn build(&self, _: &Opts, _: &[&str]) -> Result<Reads, prometheus::Error> {
            Ok(self.clone())
        }
    }

    /// While a scrape reads the value of one job, the first value of another one is made, and forgotten again.
    #[test]
    fn other_jobs_do_not_wait_for_a_scrape() -> Result<(), prometheus::Error> {
        let made = Arc::new(OnceLock::<Parted<MetricVec<Reads>>>::new());
        let done = Arc::new(AtomicBool::new(false));
        let (all, is_done) = (Arc::clone(&made), Arc::clone(&done));
        let reads = Reads(Arc::new(move || {
            let (told, is_told) = channel();
            let all = Arc::clone(&all);
            std::thread::spawn(move || {
                let other =
                    (0..1000).map(|it| it.to_string()).find(|it| part_of(it) != part_of("one")).unwrap_or_default();
                if let Some(all) = all.get() {
                    all.with_label_values(&[&other]);
                    all.forget(&other);
                    let _ = told.send(());
                }
            });
            is_done.store(is_told.recv_timeout(Duration::from_secs(60)).is_ok(), Ordering::SeqCst);
        }));
        let labels = || Opts::new("name", "help").variable_label("job_name");
        let parts = Parted::of(&[], |_| MetricVec::create(MetricType::GAUGE, reads.clone(), labels()))?;
        let parts = made.get_or_init(|| parts);
        parts.with_label_values(&["one"]);
        parts.collect();
        assert!(done.load(Ordering::SeqCst));
        Ok(())
    }
}
