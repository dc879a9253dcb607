//! What a group writes, said once for both databases: its parts, each with its statements and the cells of its rows.
use super::many::{cells, Cell};
use super::rows::Group;
use crate::model::{config_line, files_text, shape_words, sizes_text, Phase};
use Statement::{Counted, Each, Insert};

/// A part of a group. Parts are written in the order of their places.
#[derive(Debug)]
pub struct Part {
    pub place: usize,
    /// What the cells of a row are: `n` a number, `t` a text.
    pub cells: &'static str,
    pub statements: &'static [Statement],
}

#[derive(Debug)]
pub enum Statement {
    /// Inserts the rows into this table, and counts them.
    Counted(&'static str),
    /// Inserts the rows into this table. Behind the values comes what becomes of a row that is there.
    Insert(&'static str, &'static str),
    /// What is done for each row, whose cells are `u.a`, `u.b` and so on. PostgreSQL has the rows in place of `{u}`.
    Each(&'static str),
}

/// The calls, which nearly each group has.
pub const CALLS: Part = part(1, "nnnntnnnttn", &[Counted("call")]);

const fn part(place: usize, cells: &'static str, statements: &'static [Statement]) -> Part {
    Part { place, cells, statements }
}

/// What takes the parts of a group.
pub trait Take {
    type Error;

    /// The rows of a part, each with the cells that this function gives.
    fn take<'a, T, const N: usize>(
        &mut self,
        part: &'static Part,
        rows: impl ExactSizeIterator<Item = T> + Clone,
        cells: impl Fn(T) -> [Cell<'a>; N],
    ) -> Result<(), Self::Error>;
}

/// Hands all parts over.
pub fn write<W: Take>(group: &Group, to: &mut W) -> Result<(), W::Error> {
    write_log(group, to)?;
    write_kept(group, to)?;
    write_sizes(group, to)?;
    write_states(group, to)?;
    write_jobs(group, to)
}

fn write_log<W: Take>(group: &Group, to: &mut W) -> Result<(), W::Error> {
    const JOBS: Part = part(0, "ntttnnt", &[Counted("job")]);
    const REQUESTS: Part = part(2, "ntntt", &[Counted("request")]);
    to.take(&JOBS, group.jobs.iter(), |it| {
        let (config, shape) = (config_line(&it.settings), shape_words(&it.shape));
        cells![it.number, it.name.as_str(), config, shape, it.started, it.first, env!("CARGO_PKG_VERSION")]
    })?;
    to.take(&CALLS, group.entries.iter(), |it| {
        let [what, a, b] = it.told.numbers();
        let (files, ended) = (it.told.files.as_deref(), it.ended.as_deref());
        cells![it.job, it.seq, it.at, it.record, it.line.as_str(), what, a, b, files, ended, it.waiting]
    })?;
    to.take(&REQUESTS, group.requests.iter(), |it| {
        cells![it.job, it.key.as_str(), it.at, it.digest.as_str(), it.answers.as_str()]
    })
}

/// Images and summaries, and the calls that go.
fn write_kept<W: Take>(group: &Group, to: &mut W) -> Result<(), W::Error> {
    const IMAGES: Part = part(3, "nnnttnnnt", &[Counted("image")]);
    const IMAGE_PARTS: Part =
        part(4, "nnnt", &[Insert("image_part", "on conflict (job, seq, part) do update set text = excluded.text")]);
    const DROPPED: Part = part(
        5,
        "nn",
        &[
            Each("delete from image using {u} where job = u.a and seq = u.b"),
            Each("delete from image_part using {u} where job = u.a and seq = u.b"),
        ],
    );
    const CUTS: Part = part(
        6,
        "nnn",
        &[
            Each("delete from call using {u} where job = u.a and seq > u.b and seq <= u.c"),
            Each("delete from ack_size using {u} where job = u.a and seq <= u.c"),
            Each("delete from figure using {u} where job = u.a and seq <= u.c"),
        ],
    );
    to.take(&IMAGES, group.images.iter(), |it| {
        let (image, shape) = (&it.image, shape_words(&it.image.shape));
        let (completed, event, bytes) = (image.last_completed, image.last_event, image.text.len() as u64);
        cells![image.job, image.seq, image.at, it.digest.as_str(), shape, completed, event, bytes, image.row_text()]
    })?;
    to.take(&IMAGE_PARTS, group.image_parts.iter(), |it| cells![it.job, it.seq, it.part, it.text.as_str()])?;
    to.take(&DROPPED, group.dropped.iter(), |(job, seq)| cells![*job, *seq])?;
    to.take(&CUTS, group.cuts.iter(), |it| cells![it.job, it.after, it.upto])?;
    write_history(group, to)
}

fn write_history<W: Take>(group: &Group, to: &mut W) -> Result<(), W::Error> {
    const SUMMARIES: Part = part(
        7,
        "nnnnt",
        &[Insert("summary", "on conflict (job, seq, part) do update set whole = excluded.whole, text = excluded.text")],
    );
    const PAST: Part = part(8, "nnt", &[Insert("past", "on conflict (job, id) do update set text = excluded.text")]);
    const DROPPED: Part = part(9, "nn", &[Each("delete from summary using {u} where job = u.a and seq = u.b")]);
    to.take(&SUMMARIES, group.summaries.iter(), |it| cells![it.job, it.seq, it.part, it.whole, it.text.as_str()])?;
    to.take(&PAST, group.past.iter(), |it| cells![it.job, it.id, it.text.as_str()])?;
    to.take(&DROPPED, group.dropped_summaries.iter(), |(job, seq)| cells![*job, *seq])
}

/// The bytes of files, of which those go that are deleted, and what acknowledgements said of them. A file's number is kept with its 64 bits.
fn write_sizes<W: Take>(group: &Group, to: &mut W) -> Result<(), W::Error> {
    const SIZES: Part =
        part(10, "nnn", &[Insert("size", "on conflict (job, file) do update set bytes = excluded.bytes")]);
    const GONE: Part = part(11, "nn", &[Each("delete from size using {u} where job = u.a and file = u.b")]);
    const SAID: Part = part(
        12,
        "nntn",
        &[Insert("ack_size", "on conflict (job, seq) do update set fresh = excluded.fresh, bytes = excluded.bytes")],
    );
    let (known, gone): (Vec<_>, Vec<_>) = group.sizes.iter().partition(|(_, size)| size.is_some());
    to.take(&SIZES, known.iter(), |((job, file), size)| cells![*job, *file as i64, **size])?;
    to.take(&GONE, gone.iter(), |((job, file), _)| cells![*job, *file as i64])?;
    to.take(&SAID, group.said.iter(), |it| cells![it.job, it.seq, sizes_text(&it.fresh), it.full])
}

/// What subtasks have in records. Rows that are copied are those of before this group.
fn write_states<W: Take>(group: &Group, to: &mut W) -> Result<(), W::Error> {
    const COPIES: Part = part(
        13,
        "nnn",
        &[Each(
            "insert into subtask_state select s.job, u.c, s.vertex, s.place, s.files, s.payload, s.bytes, s.millis
            from {u}, subtask_state s where s.job = u.a and s.record = u.b",
        )],
    );
    const STATES: Part = part(14, "nnnnttnn", &[Insert("subtask_state", "")]);
    const GONE: Part = part(15, "nn", &[Each("delete from subtask_state using {u} where job = u.a and record = u.b")]);
    const FIGURES: Part = part(16, "nnnnt", &[Insert("figure", "")]);
    to.take(&COPIES, group.copied_states.iter(), |(job, from, to)| cells![*job, *from, *to])?;
    to.take(&STATES, group.states.iter(), |it| {
        let (vertex, place, given) = (i64::from(it.subtask.vertex), i64::from(it.subtask.index), &it.given);
        let (bytes, millis) = (given.bytes.unwrap_or(0), given.millis.unwrap_or(0));
        cells![it.job, it.record, vertex, place, files_text(&it.files), given.payload.as_str(), bytes, millis]
    })?;
    to.take(&GONE, group.gone_states.iter(), |(job, record)| cells![*job, *record])?;
    to.take(&FIGURES, group.figures.iter(), |it| cells![it.job, it.seq, it.bytes, it.millis, it.reason.as_deref()])
}

/// The phases and storages of jobs, and the jobs that go.
fn write_jobs<W: Take>(group: &Group, to: &mut W) -> Result<(), W::Error> {
    const PHASES: Part = part(
        17,
        "ntnnnt",
        &[Insert(
            "phase",
            "on conflict (job) do update set phase = excluded.phase, record = excluded.record, at = excluded.at,
            term = excluded.term, failed = excluded.failed",
        )],
    );
    const STORAGES: Part = part(18, "nt", &[Insert("storage", "on conflict (job) do update set text = excluded.text")]);
    const GONE: Part = part(
        19,
        "ntn",
        &[
            Each("delete from job using {u} where job = u.a"),
            Each("insert into gone_job select u.a, u.b, u.c, 0 from {u}"),
        ],
    );
    to.take(&PHASES, group.phases.iter(), |(job, phase): (&i64, &Phase)| {
        let (word, record, at, term, failed) = phase.row();
        cells![*job, word, record, at, term, failed]
    })?;
    to.take(&STORAGES, group.storages.iter(), |(job, storage)| cells![*job, storage.text()])?;
    to.take(&GONE, group.gone.iter(), |it| cells![it.job, it.name.as_str(), it.at])
}
