//! The program that the benchmarks compare with: a plain coordinator. It runs the scripts that
//! bench/script.py prints, and prints the answers of ckpt_job. It uses only the standard library, keeps the
//! list of all calls, and is written to be fast. It promises nothing: it has no `restore`, `cancel`,
//! `show` and `all`, stops at a line that it can't read, and aborts if memory runs out.

use std::collections::hash_map::Entry;
use std::collections::{BTreeMap, HashMap, VecDeque};
use std::hash::{BuildHasher, Hasher};
use std::io::{self, BufRead, BufReader, Write};

const MOMENTS_END: u64 = 1 << 62;
const MOST_FILES: usize = 4096;
const MOST_SAVEPOINTS: usize = 1000;

/// How much is read or written at once, in bytes.
const BUFFER: usize = 1 << 16;

/// Hashes a number by a folded multiplication.
#[derive(Clone, Copy, Default)]
struct Folded(u64);

impl Hasher for Folded {
    fn finish(&self) -> u64 {
        self.0
    }

    fn write(&mut self, _bytes: &[u8]) {
        unreachable!("the keys are numbers")
    }

    fn write_u64(&mut self, number: u64) {
        let product = u128::from(number ^ 0x243f_6a88_85a3_08d3) * 0x9e37_79b9_7f4a_7c15;
        self.0 = product as u64 ^ (product >> 64) as u64;
    }
}

impl BuildHasher for Folded {
    type Hasher = Folded;

    fn build_hasher(&self) -> Folded {
        Folded(0)
    }
}

/// A call as the list keeps it.
#[allow(dead_code)]
enum Call {
    Tick(u64),
    Savepoint(u64),
    Ack { now: u64, id: u64, subtask: Subtask, fresh: Box<[u64]>, reused: Box<[u64]> },
    Decline { now: u64, id: u64, subtask: Subtask },
    Dispose(u64),
    Take(u64),
    Deleted(u64),
    Undeleted(u64),
    Count(u64),
}

type Subtask = (u16, u16);

/// What is known of a file.
#[derive(Clone, Copy, PartialEq)]
enum Place {
    Used(u32),
    Waiting,
    Taken,
}

#[derive(Clone, Copy, PartialEq)]
enum Kind {
    Checkpoint,
    Savepoint,
}

struct Record {
    kind: Kind,
    started: u64,
    /// By the subtask's place in the shape.
    acks: Vec<Option<Box<[u64]>>>,
    missing: u32,
    pins: Box<[u64]>,
}

struct Config {
    interval: u64,
    pause: u64,
    at_once: u64,
    timeout: u64,
    tolerable: u64,
    retained: u64,
}

struct Coordinator {
    config: Config,
    shape: Vec<u32>,
    failed: bool,
    latest: u64,
    due: u64,
    completed: Option<u64>,
    failures: u64,
    next: u64,
    pending: BTreeMap<u64, Record>,
    checkpoints: BTreeMap<u64, Record>,
    savepoints: BTreeMap<u64, Record>,
    places: HashMap<u64, Place, Folded>,
    waiting: VecDeque<u64>,
    released: Vec<u64>,
}

/// What is printed and not written yet.
struct Out {
    bytes: Vec<u8>,
}

/// What `say!` can print.
trait Put {
    fn put(self, out: &mut Vec<u8>);
}

impl Put for &str {
    fn put(self, out: &mut Vec<u8>) {
        out.extend_from_slice(self.as_bytes());
    }
}

impl Put for u64 {
    fn put(mut self, out: &mut Vec<u8>) {
        let mut digits = [0; 20];
        let mut at = digits.len();
        loop {
            at -= 1;
            digits[at] = b'0' + (self % 10) as u8;
            self /= 10;
            if self == 0 {
                break;
            }
        }
        out.extend_from_slice(&digits[at..]);
    }
}

impl Put for u32 {
    fn put(self, out: &mut Vec<u8>) {
        u64::from(self).put(out);
    }
}

impl Put for usize {
    fn put(self, out: &mut Vec<u8>) {
        (self as u64).put(out);
    }
}

macro_rules! say {
    ($out:expr, $($part:expr),*) => {{
        $($part.put(&mut $out.bytes);)*
        $out.bytes.push(b'\n');
    }};
}

impl Out {
    fn write(&mut self) -> io::Result<()> {
        io::stdout().write_all(&self.bytes)?;
        self.bytes.clear();
        Ok(())
    }
}

impl Coordinator {
    fn new(config: Config, shape: Vec<u32>, start: u64) -> Coordinator {
        Coordinator {
            due: start + config.interval.max(config.pause),
            config,
            shape,
            failed: false,
            latest: start,
            completed: None,
            failures: 0,
            next: 1,
            pending: BTreeMap::new(),
            checkpoints: BTreeMap::new(),
            savepoints: BTreeMap::new(),
            places: HashMap::with_hasher(Folded(0)),
            waiting: VecDeque::new(),
            released: Vec::new(),
        }
    }

    /// The subtask's place among all, if the shape has it.
    fn place(&self, (vertex, index): Subtask) -> Option<usize> {
        let vertex = usize::from(vertex);
        let parallelism = *self.shape.get(vertex)?;
        let before: u32 = self.shape[..vertex].iter().sum();
        (u32::from(index) < parallelism).then_some((before + u32::from(index)) as usize)
    }

    fn lower(&mut self, file: u64) {
        if let Entry::Occupied(mut entry) = self.places.entry(file) {
            match entry.get_mut() {
                Place::Used(1) => {
                    entry.insert(Place::Waiting);
                    self.released.push(file);
                }
                Place::Used(count) => *count -= 1,
                _ => {}
            }
        }
    }

    fn drop_record(&mut self, record: Record) {
        for file in record.acks.iter().flatten().flat_map(|files| files.iter()) {
            self.lower(*file);
        }
        self.unpin(record.pins);
    }

    fn unpin(&mut self, pins: Box<[u64]>) {
        for file in pins.iter() {
            self.lower(*file);
        }
    }

    /// Hands out what was released, and returns how many files these are.
    fn hand_out(&mut self) -> usize {
        self.released.sort_unstable();
        self.waiting.extend(&self.released);
        let count = self.released.len();
        self.released.clear();
        count
    }

    fn trigger(&mut self, kind: Kind) -> u64 {
        let subtasks: u32 = self.shape.iter().sum();
        let mut pins: Vec<u64> = match self.checkpoints.last_key_value() {
            Some((_, choice)) => choice.acks.iter().flatten().flat_map(|files| files.iter()).copied().collect(),
            None => Vec::new(),
        };
        pins.sort_unstable();
        pins.dedup();
        for file in &pins {
            if let Some(Place::Used(count)) = self.places.get_mut(file) {
                *count += 1;
            }
        }
        let mut acks = Vec::new();
        acks.resize_with(subtasks as usize, || None);
        let id = self.next;
        let record = Record { kind, started: self.latest, acks, missing: subtasks, pins: pins.into() };
        self.pending.insert(id, record);
        self.next += 1;
        id
    }

    fn drop_pending(&mut self, dropped: impl Fn(u64, &Record) -> bool) -> usize {
        let ids: Vec<u64> = self.pending.iter().filter(|(id, record)| dropped(**id, record)).map(|(id, _)| *id).collect();
        for id in &ids {
            if let Some(record) = self.pending.remove(id) {
                self.drop_record(record);
            }
        }
        ids.len()
    }

    fn fail_over(&mut self) {
        self.drop_pending(|_, _| true);
        self.failed = true;
    }

    fn tick(&mut self, now: u64, out: &mut Out) {
        if now >= MOMENTS_END {
            return say!(out, "refused MomentTooLarge");
        }
        if self.failed {
            return say!(out, "refused NotRunning");
        }
        self.latest = self.latest.max(now);
        let (latest, timeout) = (self.latest, self.config.timeout);
        let is_late = |record: &Record| record.started + timeout <= latest;
        let (mut late, mut pending, mut expired) = (0, 0, 0);
        for record in self.pending.values() {
            let is_checkpoint = record.kind == Kind::Checkpoint;
            if is_late(record) {
                expired += 1;
                late += u64::from(is_checkpoint);
            } else {
                pending += u64::from(is_checkpoint);
            }
        }
        if expired > 0 {
            self.drop_pending(|_, record| is_late(record));
        }
        self.failures += late;
        if late > 0 && self.failures > self.config.tolerable {
            self.fail_over();
            self.hand_out();
            return say!(out, "tick expired ", expired as u64, " failed");
        }
        self.hand_out();
        let at_once = if self.config.pause > 0 { 1 } else { self.config.at_once };
        if latest < self.due {
            return say!(out, "tick expired ", expired as u64, " held interval");
        }
        if pending >= at_once {
            return say!(out, "tick expired ", expired as u64, " held at-once");
        }
        if self.completed.is_some_and(|completed| latest < completed + self.config.pause) {
            return say!(out, "tick expired ", expired as u64, " held pause");
        }
        let id = self.trigger(Kind::Checkpoint);
        self.due = latest + self.config.interval.max(self.config.pause);
        say!(out, "tick expired ", expired as u64, " triggered ", id)
    }

    fn savepoint(&mut self, now: u64, out: &mut Out) {
        if now >= MOMENTS_END {
            return say!(out, "refused MomentTooLarge");
        }
        if self.failed {
            return say!(out, "refused NotRunning");
        }
        let pending = self.pending.values().filter(|record| record.kind == Kind::Savepoint).count();
        if self.savepoints.len() + pending >= MOST_SAVEPOINTS {
            return say!(out, "refused TooManySavepoints");
        }
        self.latest = self.latest.max(now);
        let id = self.trigger(Kind::Savepoint);
        say!(out, "savepoint triggered ", id)
    }

    fn ack(&mut self, now: u64, id: u64, subtask: Subtask, fresh: &[u64], reused: &[u64], out: &mut Out) {
        if now >= MOMENTS_END {
            return say!(out, "refused MomentTooLarge");
        }
        if fresh.len() + reused.len() > MOST_FILES {
            return say!(out, "refused TooManyFiles");
        }
        // Both lists come sorted.
        let mut files: Vec<u64> = Vec::with_capacity(fresh.len() + reused.len());
        files.extend_from_slice(fresh);
        files.extend_from_slice(reused);
        files.sort_unstable();
        if files.windows(2).any(|pair| pair[0] == pair[1]) {
            return say!(out, "refused RepeatedFile");
        }
        if id == 0 || id >= self.next {
            return say!(out, "refused UnknownCheckpoint");
        }
        let place = self.place(subtask);
        let Some(record) = self.pending.get_mut(&id) else {
            return self.ack_late(now, fresh, out);
        };
        let Some(place) = place else {
            return say!(out, "refused UnknownSubtask");
        };
        if record.acks[place].is_some() {
            return say!(out, "refused AlreadyAcknowledged");
        }
        let places = &mut self.places;
        if let Some(file) = fresh.iter().find(|file| places.contains_key(file)) {
            return say!(out, "refused NameTaken ", *file);
        }
        if let Some(file) = reused.iter().find(|file| !matches!(places.get(file), Some(Place::Used(_)))) {
            return say!(out, "refused FileGone ", *file);
        }
        self.latest = self.latest.max(now);
        for file in fresh {
            places.insert(*file, Place::Used(1));
        }
        for file in reused {
            if let Some(Place::Used(count)) = places.get_mut(file) {
                *count += 1;
            }
        }
        record.acks[place] = Some(files.into());
        record.missing -= 1;
        if record.missing > 0 {
            return say!(out, "ack pending ", record.missing);
        }
        self.complete(id, out)
    }

    fn ack_late(&mut self, now: u64, fresh: &[u64], out: &mut Out) {
        self.latest = self.latest.max(now);
        let mut handed = 0u64;
        for file in fresh {
            if let Entry::Vacant(entry) = self.places.entry(*file) {
                entry.insert(Place::Waiting);
                self.waiting.push_back(*file);
                handed += 1;
            }
        }
        say!(out, "ack late ", handed)
    }

    fn complete(&mut self, id: u64, out: &mut Out) {
        let Some(mut record) = self.pending.remove(&id) else {
            return;
        };
        let mut dropped = 0;
        let pins = std::mem::take(&mut record.pins);
        if record.kind == Kind::Savepoint {
            self.savepoints.insert(id, record);
        } else {
            self.checkpoints.insert(id, record);
            dropped += self.drop_pending(|other, record| other < id && record.kind == Kind::Checkpoint);
            if self.checkpoints.len() as u64 > self.config.retained {
                if let Some((_, oldest)) = self.checkpoints.pop_first() {
                    self.drop_record(oldest);
                    dropped += 1;
                }
            }
            self.failures = 0;
            self.completed = Some(self.latest);
        }
        self.unpin(pins);
        let released = self.hand_out();
        say!(out, "ack completed ", dropped, " ", released)
    }

    fn decline(&mut self, now: u64, id: u64, subtask: Subtask, out: &mut Out) {
        if now >= MOMENTS_END {
            return say!(out, "refused MomentTooLarge");
        }
        if id == 0 || id >= self.next {
            return say!(out, "refused UnknownCheckpoint");
        }
        if self.pending.contains_key(&id) && self.place(subtask).is_none() {
            return say!(out, "refused UnknownSubtask");
        }
        self.latest = self.latest.max(now);
        let Some(record) = self.pending.remove(&id) else {
            return say!(out, "decline late");
        };
        let is_failure = record.kind == Kind::Checkpoint;
        self.drop_record(record);
        self.failures += u64::from(is_failure);
        if is_failure && self.failures > self.config.tolerable {
            self.fail_over();
            let released = self.hand_out();
            return say!(out, "decline failed ", released);
        }
        let released = self.hand_out();
        say!(out, "decline aborted ", released)
    }

    fn dispose(&mut self, id: u64, out: &mut Out) {
        let Some(record) = self.savepoints.remove(&id) else {
            return say!(out, "refused NoSuchSavepoint");
        };
        self.drop_record(record);
        let released = self.hand_out();
        say!(out, "disposed ", released)
    }

    fn take(&mut self, most: u64, out: &mut Out) {
        let count = most.min(self.waiting.len() as u64) as usize;
        if count == 0 {
            return say!(out, "take none");
        }
        "take".put(&mut out.bytes);
        for file in self.waiting.drain(..count) {
            self.places.insert(file, Place::Taken);
            " ".put(&mut out.bytes);
            file.put(&mut out.bytes);
        }
        out.bytes.push(b'\n');
    }

    fn deleted(&mut self, file: u64, out: &mut Out) {
        match self.places.entry(file) {
            Entry::Occupied(entry) if *entry.get() == Place::Taken => {
                entry.remove();
                say!(out, "deleted ", file)
            }
            _ => say!(out, "refused NotTaken"),
        }
    }

    fn undeleted(&mut self, file: u64, out: &mut Out) {
        match self.places.get_mut(&file) {
            Some(place) if *place == Place::Taken => {
                *place = Place::Waiting;
                self.waiting.push_back(file);
                say!(out, "undeleted ", file)
            }
            _ => say!(out, "refused NotTaken"),
        }
    }

    fn count(&self, file: u64, out: &mut Out) {
        let count = match self.places.get(&file) {
            Some(Place::Used(count)) => *count,
            _ => 0,
        };
        say!(out, "count ", file, " ", count)
    }

    fn apply(&mut self, call: &Call, out: &mut Out) {
        match call {
            Call::Tick(now) => self.tick(*now, out),
            Call::Savepoint(now) => self.savepoint(*now, out),
            Call::Ack { now, id, subtask, fresh, reused } => self.ack(*now, *id, *subtask, fresh, reused, out),
            Call::Decline { now, id, subtask } => self.decline(*now, *id, *subtask, out),
            Call::Dispose(id) => self.dispose(*id, out),
            Call::Take(most) => self.take(*most, out),
            Call::Deleted(file) => self.deleted(*file, out),
            Call::Undeleted(file) => self.undeleted(*file, out),
            Call::Count(file) => self.count(*file, out),
        }
    }
}

/// What is left of a line.
struct Words<'a> {
    rest: &'a [u8],
}

impl Words<'_> {
    fn skip_spaces(&mut self) {
        while let [b' ', rest @ ..] = self.rest {
            self.rest = rest;
        }
    }

    /// The digits that come next.
    fn digits(&mut self) -> Option<u64> {
        let mut value = 0u64;
        let before = self.rest.len();
        while let [digit @ b'0'..=b'9', rest @ ..] = self.rest {
            value = value.checked_mul(10)?.checked_add(u64::from(digit - b'0'))?;
            self.rest = rest;
        }
        (self.rest.len() < before).then_some(value)
    }

    fn is_at_end_of_word(&self) -> bool {
        matches!(self.rest, [] | [b' ', ..])
    }

    fn number(&mut self) -> Option<u64> {
        self.skip_spaces();
        let value = self.digits()?;
        self.is_at_end_of_word().then_some(value)
    }

    fn subtask(&mut self) -> Option<Subtask> {
        self.skip_spaces();
        let vertex = u16::try_from(self.digits()?).ok()?;
        self.rest = self.rest.strip_prefix(b".")?;
        let index = u16::try_from(self.digits()?).ok()?;
        self.is_at_end_of_word().then_some((vertex, index))
    }

    /// The files up to the end of the line, each list in order.
    fn files(&mut self, fresh: &mut Vec<u64>, reused: &mut Vec<u64>) -> Option<()> {
        fresh.clear();
        reused.clear();
        loop {
            self.skip_spaces();
            let [sign, rest @ ..] = self.rest else {
                break;
            };
            let list = match sign {
                b'+' => &mut *fresh,
                b'=' => &mut *reused,
                _ => return None,
            };
            self.rest = rest;
            list.push(self.digits()?);
            if !self.is_at_end_of_word() {
                return None;
            }
        }
        fresh.sort_unstable();
        reused.sort_unstable();
        Some(())
    }
}

/// The lists that lines are read into.
#[derive(Default)]
struct Scratch {
    fresh: Vec<u64>,
    reused: Vec<u64>,
}

fn read_call(line: &[u8], scratch: &mut Scratch) -> Option<Call> {
    let end = line.iter().position(|byte| *byte == b' ')?;
    let mut words = Words { rest: &line[end..] };
    let call = match &line[..end] {
        b"tick" => Call::Tick(words.number()?),
        b"savepoint" => Call::Savepoint(words.number()?),
        b"dispose" => Call::Dispose(words.number()?),
        b"take" => Call::Take(words.number()?),
        b"deleted" => Call::Deleted(words.number()?),
        b"undeleted" => Call::Undeleted(words.number()?),
        b"count" => Call::Count(words.number()?),
        b"decline" => Call::Decline { now: words.number()?, id: words.number()?, subtask: words.subtask()? },
        b"ack" => {
            let (now, id, subtask) = (words.number()?, words.number()?, words.subtask()?);
            words.files(&mut scratch.fresh, &mut scratch.reused)?;
            let (fresh, reused) = (scratch.fresh.as_slice().into(), scratch.reused.as_slice().into());
            Call::Ack { now, id, subtask, fresh, reused }
        }
        _ => return None,
    };
    words.skip_spaces();
    words.rest.is_empty().then_some(call)
}

/// Reads the three lines that a bench script opens with.
fn open(input: &mut impl BufRead) -> Option<Coordinator> {
    let mut text = String::new();
    for _ in 0..3 {
        input.read_line(&mut text).ok()?;
    }
    let numbers = |line: &str| line.split(' ').filter_map(|word| word.trim().parse().ok()).collect::<Vec<u64>>();
    let lines: Vec<Vec<u64>> = text.lines().map(numbers).collect();
    let [config, shape, start] = lines.try_into().ok()?;
    let [interval, pause, at_once, timeout, tolerable, retained] = config.try_into().ok()?;
    let config = Config { interval, pause, at_once, timeout, tolerable, retained };
    Some(Coordinator::new(config, shape.iter().map(|p| *p as u32).collect(), *start.first()?))
}

fn main() -> io::Result<()> {
    let mut input = BufReader::with_capacity(BUFFER, io::stdin().lock());
    let mut out = Out { bytes: Vec::with_capacity(2 * BUFFER) };
    let mut coordinator = open(&mut input).expect("config, job and start");
    let mut entries: Vec<(u32, Call)> = Vec::new();
    let mut scratch = Scratch::default();
    let mut line = Vec::new();
    while input.read_until(b'\n', &mut line)? > 0 {
        let call = read_call(line.trim_ascii_end(), &mut scratch).expect("a line that this program knows");
        coordinator.apply(&call, &mut out);
        entries.push((64, call));
        line.clear();
        if out.bytes.len() >= BUFFER {
            out.write()?;
        }
    }
    out.write()
}
