//! Metrics of the process, under the names that Prometheus' clients give them, and of what was built.
use super::Families;
use prometheus::{Counter, Gauge, IntGauge, IntGaugeVec, Opts};
use rustix::param::{clock_ticks_per_second, page_size};
use std::fs;
use std::time::{SystemTime, UNIX_EPOCH};

pub struct Process {
    cpu: Counter,
    resident: IntGauge,
    virtual_memory: IntGauge,
    open_files: IntGauge,
    most_files: Gauge,
    threads: IntGauge,
}

/// What the system says of the process.
#[derive(Debug, PartialEq)]
struct ProcStat {
    cpu_seconds: f64,
    threads: i64,
    virtual_bytes: i64,
    resident_pages: i64,
}

impl Process {
    pub fn new(all: &mut Families) -> Result<Process, prometheus::Error> {
        let build = Opts::new("relkvanu_build_info", "1: the version of the program, and that of its library.");
        let process = Process {
            cpu: all.add(Counter::new("process_cpu_seconds_total", "Processor time that the process took."))?,
            resident: all.whole("process_resident_memory_bytes", "Memory that the process has.")?,
            virtual_memory: all.whole("process_virtual_memory_bytes", "Addresses that the process has.")?,
            open_files: all.whole("process_open_fds", "Files and connections that are open.")?,
            most_files: all.gauge("process_max_fds", "How many may be open.")?,
            threads: all.whole("process_threads", "Threads of the process.")?,
        };
        let started = all.gauge("process_start_time_seconds", "When the process began, in Unix time.")?;
        started.set(SystemTime::now().duration_since(UNIX_EPOCH).unwrap_or_default().as_secs_f64());
        let build = all.add(IntGaugeVec::new(build, &["version", "library"]))?;
        build.with_label_values(&[env!("CARGO_PKG_VERSION"), relkvanu::version()]).set(1);
        Ok(process)
    }

    /// Asks the system. What it does not say stays as it was.
    pub fn look(&self) {
        let said = fs::read_to_string("/proc/self/stat")
            .ok()
            .and_then(|text| ProcStat::of(&text, clock_ticks_per_second() as f64));
        if let Some(said) = said {
            self.cpu.inc_by((said.cpu_seconds - self.cpu.get()).max(0.0));
            self.threads.set(said.threads);
            self.virtual_memory.set(said.virtual_bytes);
            self.resident.set(said.resident_pages.saturating_mul(page_size() as i64));
        }
        if let Ok(files) = fs::read_dir("/proc/self/fd") {
            // one of them is this list
            self.open_files.set(files.count() as i64 - 1);
        }
        self.most_files.set(crate::process::files_limit() as f64);
    }
}

impl ProcStat {
    /// Reads `/proc/self/stat`. The program's name, which may have spaces, is in brackets.
    fn of(text: &str, ticks_each_second: f64) -> Option<ProcStat> {
        let words: Vec<&str> = text.rsplit_once(')')?.1.split_whitespace().collect();
        let number = |place: usize| words.get(place)?.parse::<i64>().ok();
        let cpu_seconds = (number(11)? + number(12)?) as f64 / ticks_each_second;
        Some(ProcStat { cpu_seconds, threads: number(17)?, virtual_bytes: number(20)?, resident_pages: number(21)? })
    }
}

#[cfg(test)]
mod tests {
    use super::*;

    #[test]
    fn reads_what_linux_says() {
        let text =
            "7 (a b) c) S 1 7 7 0 -1 4194560 90 0 0 0 250 50 0 0 20 0 9 0 123 20480000 1500 18446744073709551615";
        let said = ProcStat { cpu_seconds: 3.0, threads: 9, virtual_bytes: 20_480_000, resident_pages: 1500 };
        assert_eq!(ProcStat::of(text, 100.0), Some(said));
        assert_eq!((ProcStat::of("", 100.0), ProcStat::of("7 (a) S 1", 100.0)), (None, None));
    }
}
