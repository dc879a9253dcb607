//! Jobs and their calls: the decisions of the proved coordinator, in the words of the log and of the API.
mod answer_row;
mod back;
mod bases;
mod call;
mod clock;
mod engine;
mod event;
mod held;
mod image;
mod job;
mod lines;
mod live;
mod outcome;
mod parts;
mod phase;
mod retention;
mod settings;
mod sizes;
mod starts;
mod states;
mod stop;
mod summary;
mod trail;

pub use answer_row::AnswerRow;
pub use bases::Bases;
pub use call::{Call, Subtask, Target};
pub use clock::{check as check_clock, millis, shown, wall, Clock, FarAhead, Moment};
pub use engine::{Engine, NoJob};
pub use event::{kind, Event};
pub use held::Held;
pub use image::{kind_of, Contents, Image, ImagePart, SavedRecord};
pub use job::{Entry, Job, Logged, Opening};
#[cfg(test)]
pub use lines::ack;
pub use lines::{parse_line, without_term};
#[cfg(test)]
pub use outcome::Extra;
pub use outcome::{Outcome, Reply};
pub use parts::parts;
pub use phase::Phase;
pub use relkvanu::{Answer, Choice, Fault, FileCounts, Garbage, Kind, Live as LiveRecord, Mode, RunningTerm, Settings};
pub use retention::{Cut, Keeping, KeptImage, Retention, CALL_BYTES};
pub use settings::{
    check_shape, config_line, parse_config, settings_json, settings_of, shape_words, Change, FIELDS, MAKING,
};
pub use sizes::{parse_sizes, sizes_text, AckBytes, Bytes, FileBytes};
pub use starts::{length_in, lengths_text};
pub use states::{files_text, parse_files, Figure, Given, StateChange, SubtaskState, MOST_PAYLOAD, MOST_REASON};
pub use summary::{KeptSummary, PastRecord, SummaryPart};
pub use trail::Trail;
