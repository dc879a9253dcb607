//! The settings of the tests, which change some of them.
use relkvanu::Settings;

pub const SETTINGS: Settings =
    Settings { interval: 1000, pause: 0, at_once: 1, timeout: 5000, tolerable: 0, retained: 1, keep_on_cancel: false };
