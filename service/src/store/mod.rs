//! The log of all jobs in a database. What was committed is the state of the service.
mod cells;
mod error;
mod files;
pub mod many;
mod parameter;
mod parts;
mod pg;
mod pg_commit;
mod pg_lease;
mod pg_read;
mod pq;
mod reader;
mod rows;
mod space;
mod sqlite;
mod sqlite_read;

pub use cells::entry_of;
pub use error::{is_damage, DbError, Failure, Unusable};
pub use pg::Pg;
pub use pg_read::PgReader;
pub use reader::{Listed, LogReader, Reader};
pub use rows::Disk;
pub use rows::{signed, steps_after, Committed, GoneJob, Group, Keyed, Lead, SavedImage, Store};
#[cfg(test)]
pub use rows::{IS_EVENT, TABLES};
pub use space::space_of;
pub use sqlite::{count_no_memory, locked, Sqlite, BUSY, ERASE};
pub use sqlite_read::{read_only, SqliteReader};
