//! The history of each record and file. A thread that no answer waits for makes it from the log.
mod error;
mod files;
mod follow;
mod historian;
mod history_file;
mod read;
mod records;
mod samples;
mod summary;
mod tables;
mod version;

pub use error::Error;
pub use historian::Historian;
pub use history_file::{Door, HistoryFile};
pub use read::{FileRow, HistoryReader, RecordRow, Search};
pub use records::rank;
