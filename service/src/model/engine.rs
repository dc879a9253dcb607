//! The proved coordinator of one job, through the crate of `bindings/rust`.
use super::call::Call;
use super::live::Live;
use super::outcome::Reply;
use relkvanu::{
    Answer, Choice, Fault, FileCounts, Garbage, Grouped, LineFault, Mode, Receipt, Refusal, RunningTerm, Said,
    Settings, Told,
};
use std::ops::{Deref, DerefMut, Range};
use thiserror::Error;

/// A job could not be opened: memory ran out, or its settings were refused.
#[derive(Clone, Copy, Debug, PartialEq, Eq, Error)]
#[error("{0:?}")]
pub struct NoJob(Fault);

impl NoJob {
    pub fn no_memory() -> NoJob {
        NoJob(Fault::Memory)
    }

    /// Whether memory ran out. A later try may have more.
    pub fn is_memory(self) -> bool {
        self.0 == Fault::Memory
    }
}

/// Most takes find no more files.
const FILES: usize = 64;

/// A call that was made.
pub struct MadeCall {
    pub reply: Reply,
    /// Its line, without a newline.
    pub line: String,
    /// The places, among the files that wait for deletion, of those that it released.
    pub released: Range<u64>,
}

impl MadeCall {
    fn of(made: relkvanu::Made<'_>) -> Result<MadeCall, Fault> {
        let released = made.waited..made.counts.waiting;
        Ok(MadeCall { reply: reply(Ok(made.said))?, line: made.line, released })
    }
}

/// A call whose answer the library holds back.
pub struct HeldCall {
    pub receipt: Receipt,
    pub made: Result<MadeCall, Fault>,
}

impl HeldCall {
    fn of(held: relkvanu::Held<'_>) -> HeldCall {
        HeldCall { receipt: held.receipt, made: held.made.and_then(MadeCall::of) }
    }
}

pub struct Engine(Grouped);

impl Engine {
    /// Opens a coordinator at the moment `now`. Its first record has the number `first`.
    pub fn open(settings: &Settings, shape: &[u64], now: u64, first: u64) -> Result<Engine, NoJob> {
        let opened = relkvanu::Coordinator::open(settings, shape, now, first);
        opened.map(|it| Engine(Grouped::new(it))).map_err(NoJob)
    }

    /// Opens the coordinator of an image.
    pub fn of_image(text: &str) -> Result<Engine, Fault> {
        relkvanu::Coordinator::open_saved(text.as_bytes()).map(|it| Engine(Grouped::new(it)))
    }

    /// The coordinator's image; `None` if memory ran out.
    pub fn image(&self) -> Option<String> {
        self.0.save().ok()
    }

    /// The files that were taken and not reported, ascending; `None` if memory ran out.
    pub fn taken(&self) -> Option<Vec<u64>> {
        self.0.taken_files().ok()
    }

    /// The file at a place among those that wait for deletion.
    pub fn waiting_file(&self, place: u64) -> Option<u64> {
        self.0.waiting_file(usize::try_from(place).ok()?)
    }

    /// The term that runs and the next name, if the job gives out names.
    pub fn term(&self) -> Option<RunningTerm> {
        self.0.term().ok()
    }

    /// Those of these files that may be deleted, and those whose names were never given out.
    pub fn garbage(&self, files: &[u64]) -> Result<Garbage, Fault> {
        self.0.garbage(files)
    }

    /// Makes a call at the moment `now`, in one call of the library, which holds its answer back. A take that finds more files than there is room
    /// for is made again. A fault of this function itself has no receipt: there was no memory for it.
    pub fn make(&mut self, call: &Call, now: u64) -> Result<HeldCall, Fault> {
        let call = call.of_library(now);
        let mut files = [0; FILES];
        let held = match self.0.make(&call, &mut files) {
            Err(Fault::TooShort { places }) => {
                let mut files = vec![0; usize::try_from(places).unwrap_or(0)];
                return self.0.make(&call, &mut files).map(HeldCall::of);
            }
            held => held,
        };
        held.map(HeldCall::of)
    }

    /// Makes a call of the log again. Its answer was told before, or is told to nobody.
    pub fn repeat(&mut self, call: &Call, now: u64) -> Result<MadeCall, Fault> {
        let call = call.of_library(now);
        let mut files = [0; FILES];
        match self.0.repeat(&call, &mut files) {
            Err(Fault::TooShort { places }) => {
                let mut files = vec![0; usize::try_from(places).unwrap_or(0)];
                self.0.repeat(&call, &mut files).and_then(MadeCall::of)
            }
            made => made.and_then(MadeCall::of),
        }
    }

    /// Holds back that the service itself refuses a call.
    pub fn hold(&mut self) -> Result<Receipt, Fault> {
        self.0.hold(Refusal::NotRunning)
    }

    /// The lines of all calls so far are committed: the library may tell their answers.
    pub fn synced(&mut self) -> Result<u64, Fault> {
        self.0.synced()
    }

    /// The answer of this receipt, once its line is committed.
    pub fn told(&self, receipt: Receipt) -> Result<Told, Fault> {
        self.0.told(receipt)
    }

    pub fn mode(&self) -> Mode {
        self.0.mode()
    }

    pub fn due(&self) -> u64 {
        self.0.due()
    }

    pub fn oldest_expiry(&self) -> Option<u64> {
        self.0.oldest_expiry()
    }

    pub fn choice(&self) -> Choice {
        self.0.choice()
    }

    pub fn counts(&self) -> FileCounts {
        self.0.file_counts()
    }

    pub fn missing(&self, id: u64) -> Option<u64> {
        self.0.missing(id)
    }

    /// How many uses a file has; `None` if memory ran out.
    pub fn uses(&self, file: u64) -> Option<u64> {
        match self.0.count(file) {
            Ok(Answer::Counted { uses, .. }) => Some(uses),
            _ => None,
        }
    }

    /// The metadata of a live record, as JSON; `None` if there is none, or memory ran out.
    pub fn show(&self, id: u64) -> Option<String> {
        self.0.show(id).ok()
    }

    pub fn live(&self) -> Live {
        let core = &self.0;
        (0..).map_while(|place| core.live(place)).map(|record| (record.id, record)).collect()
    }
}

/// The coordinator of a job, which may be lent to another thread. Nobody looks at it meanwhile: a coordinator has one caller at a time.
pub struct Lendable(Option<Engine>);

impl Lendable {
    pub fn of(engine: Engine) -> Lendable {
        Lendable(Some(engine))
    }

    pub fn lend(&mut self) -> Option<Engine> {
        self.0.take()
    }

    pub fn is_lent(&self) -> bool {
        self.0.is_none()
    }
}

const LENT: &str = "the coordinator is lent";

impl Deref for Lendable {
    type Target = Engine;

    fn deref(&self) -> &Engine {
        let Some(engine) = &self.0 else { panic!("{LENT}") };
        engine
    }
}

impl DerefMut for Lendable {
    fn deref_mut(&mut self) -> &mut Engine {
        let Some(engine) = &mut self.0 else { panic!("{LENT}") };
        engine
    }
}

/// The answer to a line, if the line is a call that changes a job.
fn reply(said: Result<Said<'_>, Fault>) -> Result<Reply, Fault> {
    match said? {
        Said::Called(answer) => Ok(Reply::Answered(answer)),
        Said::Taken(files) => Ok(Reply::Taken(files.to_vec())),
        Said::Skipped | Said::Shown(_) => Err(Fault::BadLine(LineFault::NoCall)),
    }
}

#[cfg(test)]
mod tests {
    use super::super::lines::ack;
    use super::super::settings::settings_of;
    use super::*;
    use std::error::Error;

    const SETTINGS: Settings = settings_of([10, 0, 1, 5000, 0, 1], false);

    #[test]
    fn a_take_may_find_more_files_than_most_do() -> Result<(), Box<dyn Error>> {
        let mut engine = Engine::open(&SETTINGS, &[1], 0, 1)?;
        let files: Vec<u64> = (1..=100).collect();
        engine.make(&Call::Tick, 10)?;
        engine.make(&ack(0, 1, (0, 0), &files, &[]), 11)?;
        engine.make(&Call::Cancel, 12)?;
        let taken = engine.make(&Call::Take { most: 1000 }, 13)?.made?;
        assert_eq!((taken.reply, taken.line.as_str()), (Reply::Taken(files), "take 1000"));
        Ok(())
    }
}
