//! Copies Debian's Chart.js into the folder from which the program includes it. So no request ever reaches a file.
use std::{env, fs, path::Path};

const CHART: &str = "/usr/share/javascript/chart.js/chart.min.js";

fn main() {
    println!("cargo:rerun-if-changed={CHART}");
    let Some(out) = env::var_os("OUT_DIR") else {
        panic!("cargo sets OUT_DIR");
    };
    if let Err(error) = fs::copy(CHART, Path::new(&out).join("chart.js")) {
        panic!("{CHART}: {error}; service/setup installs it");
    }
}
