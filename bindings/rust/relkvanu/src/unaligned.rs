//! Inputs whose checkpoints may overtake: what was on the way to a task when it took its snapshot is recorded, and taken again after a restart.
use crate::aligner::{AlignFault, Recorder, Step};
use crate::inputs::Item;
use crate::locked;
use crate::runner::Barrier;
use crate::Kind;
use std::collections::{BTreeMap, VecDeque};
use std::fmt;
use std::mem;
use std::sync::{Condvar, Mutex, PoisonError};
use std::time::{Duration, Instant};

/// What a task takes from its inputs.
#[derive(Clone, Debug, PartialEq, Eq)]
pub enum Taken<T> {
    /// It processes this element of an input.
    Element(usize, T),
    /// The barrier has come on each input: it takes its snapshot now, sends the barrier on, and acknowledges.
    Cut(Barrier),
    /// It takes its snapshot now, sends the barrier on before anything else, and keeps the snapshot until [`Taken::Recorded`].
    Snap(Barrier),
    /// It acknowledges that snapshot, with these elements, each with its input: they were on the way to it.
    Recorded(Barrier, Vec<(usize, T)>),
}

/// The job has another shape than this checkpoint, which has elements that were on the way: go back to a savepoint, which is always aligned, or restore it in
/// its own shape.
#[derive(Clone, Copy, Debug, PartialEq, Eq)]
pub struct NotRescalable {
    pub id: u64,
}

impl fmt::Display for NotRescalable {
    fn fmt(&self, f: &mut fmt::Formatter<'_>) -> fmt::Result {
        write!(
            f,
            "checkpoint {} is unaligned and has another shape: go back to a savepoint, or restore it in its own shape",
            self.id
        )
    }
}

impl std::error::Error for NotRescalable {}

/// The file of recorded elements, as the engine writes them, under this name: a task acknowledges it as one more fresh file. Its first line has the name, so no
/// other file has it. Python's `relkvanu.unaligned` writes and reads the same.
pub fn file_of(name: u64, elements: &[u8]) -> Vec<u8> {
    [first_line(name).as_bytes(), elements].concat()
}

/// The recorded elements in a file with this name, or `None` if it is another file.
pub fn elements_in(name: u64, file: &[u8]) -> Option<&[u8]> {
    file.strip_prefix(first_line(name).as_bytes())
}

fn first_line(name: u64) -> String {
    format!("relkvanu recorded {name}\n")
}

/// Refuses to begin from a checkpoint, with these files, if the job has another shape than it and one of them has recorded elements.
pub fn check<'a>(
    id: u64,
    has_its_shape: bool,
    files: impl IntoIterator<Item = (u64, &'a [u8])>,
) -> Result<(), NotRescalable> {
    let is_unaligned = !has_its_shape && files.into_iter().any(|(name, file)| elements_in(name, file).is_some());
    if is_unaligned {
        Err(NotRescalable { id })
    } else {
        Ok(())
    }
}

struct Channel<T> {
    items: VecDeque<Item<T>>,
    ahead: usize,  // of the first so many the recorder was told already
    has_end: bool, // whether its end was put
    is_over: bool, // whether the recorder was told of its end
}

struct Channels<T> {
    recorder: Recorder,
    each: Vec<Channel<T>>,
    left: usize,                             // how many there are whose end was not taken
    last: usize,                             // from which something was taken
    barrier: Option<Barrier>,                // the last one that came, of the record that is being aligned
    seen: BTreeMap<u64, (Barrier, Instant)>, // barriers of records that were not cut, and when the first of each came
    recording: Option<(Barrier, Vec<(usize, T)>)>,
    whole: Option<(Barrier, Vec<(usize, T)>)>,
    after: Duration,
    copy: Option<fn(&T) -> T>, // of an element that is recorded; without it no checkpoint overtakes
    room: usize,
    has_room: bool, // since somebody who waits for it was told
    is_closed: bool,
}

impl<T> Channels<T> {
    /// The checkpoint that may overtake, and when. An earlier record comes first, and a savepoint is aligned.
    fn next_due(&self) -> Option<(Barrier, Instant)> {
        let (barrier, since) = self.seen.values().next().filter(|_| self.recording.is_none())?;
        (barrier.kind == Kind::Checkpoint).then_some((*barrier, *since + self.after))
    }

    fn due(&self) -> Option<Barrier> {
        self.next_due().filter(|(_, at)| *at <= Instant::now()).map(|(barrier, _)| barrier)
    }

    /// The input to take from, if there is one: each has its turn. While a checkpoint is recorded elements are taken from each, and the next barrier or
    /// end waits.
    fn open(&self) -> Option<usize> {
        let count = self.each.len();
        let may_take = |it: usize| match self.each[it].items.front() {
            None => false,
            Some(_) if self.each[it].ahead > 0 => true,
            Some(Item::Element(_)) if self.recording.is_some() => true,
            Some(_) => self.recording.is_none() && self.recorder.element(it as u32) == Ok(Step::Process),
        };
        (1..=count).map(|it| (self.last + it) % count).find(|&it| may_take(it))
    }

    /// What the task does next, if it is anything: what is about checkpoints comes before elements.
    fn turn(&mut self) -> Result<Option<Taken<T>>, AlignFault> {
        if let Some((barrier, elements)) = self.whole.take() {
            return Ok(Some(Taken::Recorded(barrier, elements)));
        }
        if let Some(barrier) = self.due() {
            return self.overtake(barrier);
        }
        self.open().map_or(Ok(None), |input| self.taken(input))
    }

    fn taken(&mut self, input: usize) -> Result<Option<Taken<T>>, AlignFault> {
        self.last = input;
        let channel = &mut self.each[input];
        let was_told = channel.ahead > 0;
        channel.ahead -= usize::from(was_told);
        self.has_room |= channel.items.len() == self.room;
        match channel.items.pop_front() {
            Some(Item::Element(element)) => Ok(Some(Taken::Element(input, element))),
            Some(Item::Barrier(barrier)) if !was_told => self.at_barrier(input, barrier),
            Some(Item::End) => {
                self.left -= 1;
                if was_told {
                    Ok(None)
                } else {
                    self.at_end(input)
                }
            }
            _ => Ok(None),
        }
    }

    fn at_barrier(&mut self, input: usize, barrier: Barrier) -> Result<Option<Taken<T>>, AlignFault> {
        let step = self.recorder.barrier(input as u32, barrier.id)?;
        self.barrier = if step == Step::Late { self.barrier } else { Some(barrier) };
        self.cut_at(step)
    }

    fn at_end(&mut self, input: usize) -> Result<Option<Taken<T>>, AlignFault> {
        self.each[input].is_over = true;
        let step = self.recorder.end(input as u32)?;
        self.cut_at(step)
    }

    fn cut_at(&mut self, step: Step) -> Result<Option<Taken<T>>, AlignFault> {
        match step {
            Step::Cut(cut) => {
                self.begin_anew(cut.id());
                Ok(self.barrier.map(Taken::Cut))
            }
            Step::Abandon(_) => Err(AlignFault::TwoOrders),
            _ => Ok(None),
        }
    }

    fn overtake(&mut self, barrier: Barrier) -> Result<Option<Taken<T>>, AlignFault> {
        self.seen.remove(&barrier.id);
        if !matches!(self.recorder.overtake(barrier.id)?, Step::Snap(_)) {
            return Ok(None); // it was cut or given up before
        }
        // what was recorded for an earlier checkpoint, and was not taken since, is on the way to this snapshot too
        self.recording = Some((barrier, Vec::new()));
        for input in 0..self.each.len() {
            (0..self.each[input].ahead).for_each(|place| self.record(input, place));
        }
        (0..self.each.len()).try_for_each(|input| self.read_ahead(input))?;
        Ok(Some(Taken::Snap(barrier)))
    }

    /// Records what has come on an input, up to the barrier.
    fn read_ahead(&mut self, input: usize) -> Result<(), AlignFault> {
        while let Some(step) = self.told(input)? {
            match step {
                Step::Process => return Ok(()), // it comes behind the barrier
                Step::Abandon(id) => {
                    self.begin_anew(id);
                    return Ok(());
                }
                Step::Complete(cut) => {
                    self.whole = self.recording.take();
                    self.begin_anew(cut.id());
                }
                Step::Record => self.record(input, self.each[input].ahead),
                _ => {}
            }
            self.each[input].ahead += 1;
        }
        Ok(())
    }

    fn record(&mut self, input: usize, place: usize) {
        let item = self.each[input].items.get(place);
        if let (Some((_, elements)), Some(Item::Element(it)), Some(copy)) = (&mut self.recording, item, self.copy) {
            elements.push((input, copy(it)));
        }
    }

    /// What the recorder answers to what came next while a checkpoint is recorded; nothing of a barrier or an end behind this one's.
    fn told(&mut self, input: usize) -> Result<Option<Step>, AlignFault> {
        let Some(item) = self.each[input].items.get(self.each[input].ahead).filter(|_| self.recording.is_some()) else {
            return Ok(None);
        };
        let step = match item {
            Item::Element(_) => self.recorder.element(input as u32),
            Item::Barrier(barrier) => self.recorder.barrier(input as u32, barrier.id),
            Item::End => {
                let step = self.recorder.end(input as u32);
                self.each[input].is_over |= step.is_ok();
                step
            }
        };
        match step {
            Err(AlignFault::HeldInput) => Ok(None),
            told => told.map(Some),
        }
    }

    /// This record is cut, whole or given up.
    fn begin_anew(&mut self, id: u64) {
        self.recording = None;
        self.seen = self.seen.split_off(&id.saturating_add(1));
    }
}

/// As [`Inputs`](crate::runner::Inputs), of which a checkpoint may overtake: [`take`](Self::take) also returns [`Taken::Snap`], and later
/// [`Taken::Recorded`], unless the checkpoint was given up or a later one took its place. It overtakes if its barrier has waited for `after` on an
/// input; savepoints stay aligned. Barriers come in also where an input is full.
pub struct UnalignedInputs<T> {
    channels: Mutex<Channels<T>>,
    filled: Condvar,
    emptied: Condvar,
}

impl<T> fmt::Debug for UnalignedInputs<T> {
    fn fmt(&self, f: &mut fmt::Formatter<'_>) -> fmt::Result {
        f.write_str("unaligned inputs of a task")
    }
}

impl<T: Clone> UnalignedInputs<T> {
    /// So many inputs, 1 to [`MOST_INPUTS`](crate::MOST_INPUTS), otherwise [`AlignFault::BadInputs`]. What was `recorded` in the checkpoint from which the job
    /// began is taken before all that is put. An input that it has and the task has not is [`AlignFault::UnknownInput`].
    pub fn new(
        inputs: usize,
        room: usize,
        after: Duration,
        recorded: Vec<(usize, T)>,
    ) -> Result<UnalignedInputs<T>, AlignFault> {
        UnalignedInputs::with(inputs, room, after, recorded, Some(T::clone))
    }
}

impl<T> UnalignedInputs<T> {
    pub(crate) fn with(
        inputs: usize,
        room: usize,
        after: Duration,
        recorded: Vec<(usize, T)>,
        copy: Option<fn(&T) -> T>,
    ) -> Result<UnalignedInputs<T>, AlignFault> {
        let recorder = Recorder::new(inputs)?;
        let one = || Channel { items: VecDeque::new(), ahead: 0, has_end: false, is_over: false };
        let mut each: Vec<Channel<T>> = (0..inputs).map(|_| one()).collect();
        for (input, element) in recorded {
            each.get_mut(input).ok_or(AlignFault::UnknownInput)?.items.push_back(Item::Element(element));
        }
        let (seen, left, last) = (BTreeMap::new(), inputs, inputs - 1);
        let channels = Channels {
            recorder,
            each,
            left,
            last,
            barrier: None,
            seen,
            recording: None,
            whole: None,
            after,
            copy,
            room: room.max(1),
            has_room: false,
            is_closed: false,
        };
        Ok(UnalignedInputs { channels: Mutex::new(channels), filled: Condvar::new(), emptied: Condvar::new() })
    }

    /// Puts an element on an input, and waits while that is full. Inputs that are closed take nothing. A panic if there is no such input, and behind its end.
    pub fn put(&self, input: usize, element: T) -> Result<(), AlignFault> {
        self.put_item(input, Item::Element(element))
    }

    /// Puts a barrier, also where the input is full.
    pub fn put_barrier(&self, input: usize, barrier: Barrier) -> Result<(), AlignFault> {
        self.put_item(input, Item::Barrier(barrier))
    }

    /// Nothing more comes on this input. Waits and panics as [`put`](Self::put).
    pub fn end(&self, input: usize) -> Result<(), AlignFault> {
        self.put_item(input, Item::End)
    }

    fn put_item(&self, input: usize, item: Item<T>) -> Result<(), AlignFault> {
        let (is_element, is_barrier) = (matches!(item, Item::Element(_)), matches!(item, Item::Barrier(_)));
        let is_full =
            |it: &mut Channels<T>| it.each[input].items.len() >= it.room && !(is_barrier && it.copy.is_some());
        let channels = self.emptied.wait_while(locked(&self.channels), is_full);
        let channels = &mut *channels.unwrap_or_else(PoisonError::into_inner);
        if channels.is_closed {
            return Ok(());
        }
        assert!(!channels.each[input].has_end, "input {input} has ended");
        channels.each[input].has_end = matches!(item, Item::End);
        if let (Item::Barrier(barrier), Some(_)) = (&item, channels.copy) {
            channels.seen.entry(barrier.id).or_insert((*barrier, Instant::now()));
        }
        channels.each[input].items.push_back(item);
        if channels.each[input].items.len() == 1 || !is_element {
            self.filled.notify_one(); // otherwise the task waits for no item of this input
        }
        channels.read_ahead(input)
    }

    /// The coordinator or the task gives this record up. True: it was being aligned or recorded, and its elements go on.
    pub fn give_up(&self, id: u64) -> Result<bool, AlignFault> {
        let mut channels = locked(&self.channels);
        let is_open = matches!(channels.recorder.give_up(id)?, Step::Abandon(_));
        let is_whole = channels.whole.as_ref().is_some_and(|(barrier, _)| barrier.id == id);
        if is_open || is_whole {
            channels.whole = None;
            channels.begin_anew(id);
            self.filled.notify_one();
        }
        Ok(is_open || is_whole)
    }

    /// Waits for what the task does next. [`AlignFault::EndedInput`] once each input has ended, and all was taken; [`AlignFault::TwoOrders`] if barriers come
    /// in another order on another input; [`AlignFault::Closed`] once they are closed.
    pub fn take(&self) -> Result<Taken<T>, AlignFault> {
        let mut channels = locked(&self.channels);
        while !channels.is_closed && (channels.left > 0 || channels.whole.is_some()) {
            let turn = channels.turn();
            if mem::take(&mut channels.has_room) {
                self.emptied.notify_all();
            }
            if let Some(taken) = turn? {
                return Ok(taken);
            }
            if channels.left == 0 || channels.open().is_some() || channels.due().is_some() || channels.whole.is_some() {
                continue;
            }
            let patience =
                channels.next_due().map_or(Duration::MAX, |(_, at)| at.saturating_duration_since(Instant::now()));
            channels = self
                .filled
                .wait_timeout(channels, patience.min(Duration::from_secs(3600)))
                .unwrap_or_else(PoisonError::into_inner)
                .0;
        }
        Err(if channels.is_closed { AlignFault::Closed } else { AlignFault::EndedInput })
    }

    /// The tasks end, as [`Inputs::close`](crate::runner::Inputs::close).
    pub fn close(&self) {
        let mut channels = locked(&self.channels);
        channels.is_closed = true;
        channels.each.iter_mut().for_each(|it| drop(mem::take(&mut it.items)));
        for it in [&self.filled, &self.emptied] {
            it.notify_all();
        }
    }

    pub fn is_closed(&self) -> bool {
        locked(&self.channels).is_closed
    }

    /// How many there are.
    pub(crate) fn len(&self) -> usize {
        locked(&self.channels).each.len()
    }
}
