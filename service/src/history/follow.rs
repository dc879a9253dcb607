//! One job's history, as it follows the log.
use super::error::Error;
use super::files::{Outbox, UNKNOWN};
use super::records::{Ended, Pending, Records};
use super::summary::Summary;
use super::tables::{Progress, Tables};
use crate::log;
use crate::model::{
    parse_line, AckBytes, Answer, Call, Contents, Entry, Figure, Image, Keeping, KeptSummary, Opening, Reply,
    SavedRecord, Subtask, CALL_BYTES,
};
use crate::store::{DbError, Reader};
use std::collections::BTreeMap;

/// How many entries of a record are read at a time for its acknowledgements.
const ABOUT: u32 = 2000;
/// How many records that ended are read of the database at once.
const PAST: u32 = 1000;

/// A row of the log, with its call and its answer.
pub struct LoggedCall<'a> {
    pub entry: &'a Entry,
    pub call: Call,
    pub reply: Reply,
    /// What an acknowledgement said of sizes.
    pub said: Option<&'a AckBytes>,
    /// What the call told for the history.
    pub figure: Option<&'a Figure>,
}

impl LoggedCall<'_> {
    /// `None` if the row has no call, or no answer.
    fn of(entry: &Entry) -> Option<LoggedCall<'_>> {
        let (_, call) = parse_line(&entry.line)?;
        Some(LoggedCall { entry, call, reply: entry.reply()?, said: None, figure: None })
    }
}

pub struct Follower {
    pub job: i64,
    pub name: String,
    pub upto: u64,
    /// The log's first call, when what was before it was forgotten last.
    pub first: u64,
    /// The moment of the last entry.
    pub at: u64,
    /// The last summary that the database has, or that was tried.
    pub summary: KeptSummary,
    pub records: Records,
    outbox: Outbox,
}

impl Follower {
    /// Goes on where the tables end. If they are of another log, as after a restore of the database, begins at the start.
    pub fn open(tables: &Tables, reader: &mut dyn Reader, opening: &Opening) -> Result<Follower, Error> {
        let job = opening.number;
        let mut progress = tables.progress(job)?;
        if let Some(read) = &progress {
            if !is_of(read, job, reader)? {
                tables.forget(job)?;
                progress = None;
            }
        }
        let start = || Progress { upto: 0, at: 0, shape: opening.shape.clone() };
        let Progress { upto, at, shape } = progress.unwrap_or_else(start);
        let mut records = Records::new(shape);
        records.pending = pending(tables, reader, job, upto)?;
        let outbox = Outbox::of(tables.runs(job)?);
        let whole = reader.summaries(job)?.into_iter().rfind(|one| one.bytes > 0);
        let summary = whole.unwrap_or(KeptSummary { seq: 0, bytes: 0 });
        Ok(Follower { job, name: opening.name.clone(), upto, first: 1, at, summary, records, outbox })
    }

    /// The place at which the next summary is due. The log is cut at summaries, so there are none if it is kept whole. They
    /// never take more bytes than the log.
    pub fn next_summary(&self, keeping: Keeping) -> Option<u64> {
        let each = keeping.image_calls.max(self.summary.bytes / CALL_BYTES);
        (keeping.image_calls > 0).then(|| self.summary.seq.saturating_add(each))
    }

    /// Goes on from a summary of the database, if calls before it can't be read. Returns whether there is one.
    pub fn load(&mut self, tables: &Tables, reader: &mut dyn Reader) -> Result<bool, Error> {
        let Some((seq, summary)) = usable(reader, self.job, self.upto)? else {
            return Ok(false);
        };
        let mut after = 0;
        loop {
            let page = reader.past(self.job, after, PAST)?;
            let Some(last) = page.last() else {
                break;
            };
            after = last.id;
            tables.within(|| tables.add_past(&page))?;
        }
        tables.within(|| {
            summary.write(tables, self.job)?;
            tables.set_progress(self.job, seq, summary.at, &summary.shape).map_err(Error::from)
        })?;
        (self.upto, self.at) = (seq, summary.at);
        self.records = Records::new(summary.shape);
        self.records.pending = pending(tables, reader, self.job, seq)?;
        self.outbox = Outbox::of(tables.runs(self.job)?);
        Ok(true)
    }

    /// Goes on from an image, if calls before it can't be read and there is no summary of them. Forgets what they did to files.
    /// How records ended that were live then is not known.
    pub fn bridge(&mut self, tables: &Tables, image: &Image) -> Result<(), Error> {
        let contents = image
            .contents()
            .ok_or_else(|| Error::BadLog(format!("the image after call {} can't be read", image.seq)))?;
        tables.within(|| self.take_over(tables, image, &contents))
    }

    fn take_over(&mut self, tables: &Tables, image: &Image, contents: &Contents) -> Result<(), Error> {
        tables.forget_unread(self.job, image.at, &contents.records)?;
        self.records = Records::new(image.shape.clone());
        for record in &contents.records {
            let pending = tables.saved_record(self.job, record)?;
            self.records.pending.extend((!record.is_done()).then_some((record.id, pending)));
        }
        self.outbox = Outbox::default();
        self.outbox.push(tables, self.job, UNKNOWN, contents.waiting())?;
        (self.upto, self.at) = (image.seq, image.at);
        Ok(tables.set_progress(self.job, self.upto, self.at, &self.records.shape)?)
    }

    /// Adds a page of the log in one transaction, and returns which records stopped being pending, and when. `said` is what its
    /// acknowledgements said of sizes, and `figures` what calls told for the history, both in order.
    pub fn follow(
        &mut self,
        tables: &Tables,
        page: &[Entry],
        said: &[AckBytes],
        figures: &[Figure],
    ) -> Result<Vec<(u64, Ended)>, Error> {
        tables.within(|| {
            let mut ended = Vec::new();
            for entry in page {
                if let Some(mut made) = LoggedCall::of(entry) {
                    let place = said.binary_search_by_key(&entry.seq, |one| one.seq);
                    made.said = place.ok().map(|place| &said[place]);
                    let place = figures.binary_search_by_key(&entry.seq, |one| one.seq);
                    made.figure = place.ok().map(|place| &figures[place]);
                    let by_it = self.records.follow(tables, &made)?;
                    ended.extend(by_it.into_iter().map(|one| (entry.at, one)));
                    self.outbox.follow(tables, &made)?;
                } else {
                    log::warn(&format!("history job={}: call {} can't be read, and is left out", self.name, entry.seq));
                }
                (self.upto, self.at) = (entry.seq, entry.at);
            }
            self.records.write(tables, self.job)?;
            self.outbox.write(tables, self.job)?;
            tables.set_progress(self.job, self.upto, self.at, &self.records.shape)?;
            Ok(ended)
        })
    }
}

/// Whether tables that end here are of this log: whether the log goes on after them, as far as its entries show.
fn is_of(read: &Progress, job: i64, reader: &mut dyn Reader) -> Result<bool, DbError> {
    if let Some(entry) = reader.entry(job, read.upto)? {
        return Ok(entry.at == read.at);
    }
    let cut_at = reader.image(job, read.upto.saturating_sub(1))?;
    Ok(cut_at.is_some_and(|saved| saved.image.seq > read.upto || saved.image.at == read.at))
}

/// The first summary after a place, if the log has all calls after it.
fn usable(reader: &mut dyn Reader, job: i64, after: u64) -> Result<Option<(u64, Summary)>, Error> {
    let first = reader.first(job)?.unwrap_or(0);
    let is_usable = |one: &KeptSummary| one.bytes > 0 && one.seq > after && one.seq + 1 >= first;
    let Some(KeptSummary { seq, .. }) = reader.summaries(job)?.into_iter().find(is_usable) else {
        return Ok(None);
    };
    let text =
        reader.summary(job, seq)?.ok_or_else(|| Error::BadLog(format!("the summary after call {seq} is gone")))?;
    Ok(Some((seq, Summary::parse(&text)?)))
}

/// The records that were pending, with their acknowledgements: those of the log, and of the summary or image before it.
fn pending(tables: &Tables, reader: &mut dyn Reader, job: i64, upto: u64) -> Result<BTreeMap<u64, Pending>, Error> {
    let mut found: BTreeMap<u64, Pending> = tables.pending(job)?.into_iter().collect();
    if found.is_empty() {
        return Ok(found);
    }
    let summary = usable(reader, job, 0)?.filter(|(seq, _)| *seq <= upto).map(|(_, summary)| summary);
    let image = reader.image(job, 0)?.filter(|saved| saved.image.seq <= upto);
    let saved = image.and_then(|saved| saved.image.contents()).map_or(Vec::new(), |contents| contents.records);
    for (id, pending) in &mut found {
        let told =
            summary.iter().flat_map(|summary| summary.acked(*id)).filter_map(|name| name.parse::<Subtask>().ok());
        pending.acked.extend(told);
        let before = saved.iter().filter(|record| record.id == *id).flat_map(|record: &SavedRecord| &record.acked);
        pending.acked.extend(before);
        acked(reader, job, *id, upto, pending)?;
    }
    Ok(found)
}

/// Adds the acknowledgements of a record that the log has up to a place.
fn acked(reader: &mut dyn Reader, job: i64, id: u64, upto: u64, pending: &mut Pending) -> Result<(), DbError> {
    let mut after = 0;
    loop {
        let page = reader.about(job, id, after, ABOUT)?;
        acks_of(&page, upto).for_each(|(subtask, at)| pending.ack(subtask, at));
        match page.last() {
            Some(entry) if entry.seq < upto => after = entry.seq,
            _ => return Ok(()),
        }
    }
}

/// The acknowledgements of a record among entries of the log up to a place.
fn acks_of(entries: &[Entry], upto: u64) -> impl Iterator<Item = (Subtask, u64)> + '_ {
    let made = entries.iter().filter(move |entry| entry.seq <= upto).filter_map(LoggedCall::of);
    made.filter_map(|made| match (made.call, made.reply) {
        (_, Reply::Answered(Answer::AckLate { .. })) => None,
        (Call::Ack { subtask, .. }, _) => Some((subtask, made.entry.at)),
        _ => None,
    })
}

#[cfg(test)]
mod tests;
