//! What the database keeps of a job's log: images and summaries of the history, and the calls from one of them on.
use super::image::Image;
use super::summary::KeptSummary;

/// How many bytes a call of the log counts as. An image is made when the calls since the last one have as many bytes as
/// that one. So images take more bytes than the log only where each has more than 10 MB.
pub const CALL_BYTES: u64 = 100;
/// After so many calls an image is made though it has more bytes than they: a start makes as many again in about a second.
const MOST_CALLS: u64 = 100_000;
/// Into how many parts images and summaries divide the kept calls, at least.
const PARTS: u64 = 8;

/// How often images are made, and how much of the log is kept.
#[derive(Clone, Copy, Debug, PartialEq, Eq)]
pub struct Keeping {
    /// From one image to the next, at least; 0: none is made, and the log is kept whole.
    pub image_calls: u64,
    /// Calls before the last image that are kept, at least.
    pub keep_calls: u64,
    /// Bytes that the logs of all jobs may take; 0: as many as the calls have.
    pub keep_bytes: u64,
    /// Records of a job that are kept once they have ended: those whose numbers are among the last so many.
    pub keep_records: u64,
}

/// An image that the database has.
#[derive(Clone, Copy, Debug, PartialEq, Eq)]
pub struct KeptImage {
    pub seq: u64,
    pub at: u64,
    pub bytes: u64,
}

/// Calls to delete: those after `after`, up to `upto`.
#[derive(Clone, Copy, Debug, PartialEq, Eq)]
pub struct Cut {
    pub job: i64,
    pub after: u64,
    pub upto: u64,
}

#[derive(Clone, Default)]
pub struct Retention {
    images: Vec<KeptImage>,
    /// The places of summaries, at which the log may be cut.
    summaries: Vec<u64>,
    /// Images and summaries to delete.
    old_images: Vec<u64>,
    old_summaries: Vec<u64>,
    /// Calls up to here are to be deleted.
    cut: u64,
    /// Calls up to here are deleted.
    gone: u64,
    /// The place at which an image was tried last.
    tried: u64,
    /// The bytes of a call on average, and of how many calls.
    mean: (f64, f64),
}

/// How many bytes a call takes beside its line and the files of its answer, with its indexes.
const ROW_BYTES: f64 = 70.0;
/// Of how many calls the average is that is kept.
const MEAN_OF: f64 = 1000.0;

impl Retention {
    /// What a database has: its images and summaries, which rise, and the first call.
    pub fn of(images: Vec<KeptImage>, summaries: &[KeptSummary], first: Option<u64>, keeping: Keeping) -> Retention {
        let all_gone = images.last().map_or(0, |image| image.seq);
        let gone = first.map_or(all_gone, |first| first.saturating_sub(1));
        // a summary is of no use if calls after it are missing
        let is_of_use = |one: &&KeptSummary| one.bytes > 0 && one.seq >= gone;
        let (whole, old): (Vec<_>, Vec<_>) = summaries.iter().partition(is_of_use);
        let places = |these: Vec<&KeptSummary>| these.into_iter().map(|one| one.seq).collect();
        let (summaries, old_summaries) = (places(whole), places(old));
        let mut kept = Retention { images, summaries, old_summaries, cut: gone, gone, ..Retention::default() };
        kept.set_limits(keeping);
        kept
    }

    /// The bytes of a call on average, as the log says.
    pub fn set_mean(&mut self, bytes: u64) {
        self.mean = (bytes as f64 + ROW_BYTES, MEAN_OF);
    }

    /// Notes a call whose line and files have so many bytes.
    pub fn count_bytes(&mut self, bytes: u64) {
        let (mean, of) = self.mean;
        let of = (of + 1.0).min(MEAN_OF);
        self.mean = (mean + (bytes as f64 + ROW_BYTES - mean) / of, of);
    }

    /// About how many bytes the calls take that the log has, of which `seq` is the last.
    pub fn bytes(&self, seq: u64) -> u64 {
        (seq.saturating_sub(self.gone) as f64 * self.mean.0) as u64
    }

    /// How many calls have so many bytes.
    pub fn calls_in(&self, bytes: u64) -> u64 {
        (bytes as f64 / self.mean.0.max(1.0)) as u64
    }

    /// Sets up to where the log is to be cut: at the last summary before the image from which on it is kept.
    pub fn set_limits(&mut self, keeping: Keeping) {
        let base = self.base(keeping);
        self.cut = self.summaries.iter().rfind(|seq| **seq <= base).map_or(self.cut, |seq| self.cut.max(*seq));
    }

    /// The call up to which the log may be cut, by its last image.
    fn base(&self, keeping: Keeping) -> u64 {
        let last = self.last().map_or(0, |image| image.seq);
        let places = self.images.iter().map(|image| image.seq);
        places.filter(|seq| last.saturating_sub(*seq) >= keeping.keep_calls).max().unwrap_or(0)
    }

    pub fn last(&self) -> Option<KeptImage> {
        self.images.last().copied()
    }

    /// The first call that the log has.
    pub fn first(&self) -> u64 {
        self.gone + 1
    }

    /// Whether to make an image at this place, because the last one is old enough.
    pub fn wants_image(&self, seq: u64, keeping: Keeping) -> bool {
        let (last, bytes) = self.last().map_or((0, 0), |image| (image.seq, image.bytes));
        let each = keeping.image_calls.max((bytes / CALL_BYTES).min(MOST_CALLS));
        keeping.image_calls > 0 && seq.saturating_sub(last.max(self.tried)) >= each
    }

    /// An image could not be made here.
    pub fn postpone(&mut self, seq: u64) {
        self.tried = seq;
    }

    /// Adds a new image, and returns the places of images to delete.
    pub fn add(&mut self, image: &Image, keeping: Keeping) -> Vec<u64> {
        self.images.push(KeptImage { seq: image.seq, at: image.at, bytes: image.text.len() as u64 });
        self.set_limits(keeping);
        self.take_needless_images(keeping)
    }

    fn take_needless_images(&mut self, keeping: Keeping) -> Vec<u64> {
        let places: Vec<u64> = self.images.iter().map(|image| image.seq).collect();
        let gone = needless(&places, self.cut, keeping);
        self.images.retain(|image| gone.binary_search(&image.seq).is_err());
        gone
    }

    /// Adds a new summary of the history.
    pub fn add_summary(&mut self, seq: u64, keeping: Keeping) {
        self.summaries.retain(|one| *one < seq);
        self.summaries.push(seq);
        self.set_limits(keeping);
        let gone = needless(&self.summaries, self.cut, keeping);
        self.summaries.retain(|seq| gone.binary_search(seq).is_err());
        self.old_summaries.extend(gone);
        let images = self.take_needless_images(keeping);
        self.old_images.extend(images);
    }

    /// The places of images and of summaries to delete. Afterwards they count as deleted.
    pub fn take_old(&mut self) -> (Vec<u64>, Vec<u64>) {
        (std::mem::take(&mut self.old_images), std::mem::take(&mut self.old_summaries))
    }

    /// Whether there are calls left to delete.
    pub fn is_cutting(&self) -> bool {
        self.cut > self.gone
    }

    /// The next calls to delete: at most this many, and none after `read`. Afterwards they count as deleted.
    pub fn cut(&mut self, job: i64, most: u64, read: u64) -> Option<Cut> {
        let upto = self.cut.min(read).min(self.gone.saturating_add(most));
        (upto > self.gone).then(|| Cut { job, after: std::mem::replace(&mut self.gone, upto), upto })
    }
}

/// Of places that rise, those before the cut, and each between two that are near each other.
fn needless(places: &[u64], cut: u64, keeping: Keeping) -> Vec<u64> {
    let apart = keeping.keep_calls / PARTS;
    let (mut gone, mut at) = (Vec::new(), 0);
    for (place, seq) in places.iter().enumerate() {
        let is_between = *seq > cut && places.get(place + 1).is_some_and(|next| next - at <= apart);
        if *seq < cut || is_between && place + 2 < places.len() {
            gone.push(*seq);
        } else {
            at = *seq;
        }
    }
    gone
}

#[cfg(test)]
mod tests {
    use super::*;

    const KEEPING: Keeping = Keeping { image_calls: 10, keep_calls: 80, keep_bytes: 0, keep_records: 1000 };

    fn image(seq: u64, bytes: usize) -> Image {
        let text = "x".repeat(bytes);
        Image { job: 1, seq, at: seq, shape: vec![1], last_completed: None, last_event: 0, text }
    }

    fn places(kept: &Retention) -> Vec<u64> {
        kept.images.iter().map(|image| image.seq).collect()
    }

    #[test]
    fn images_come_after_so_many_calls_and_bytes() {
        let mut kept = Retention::default();
        assert!(!kept.wants_image(9, KEEPING) && kept.wants_image(10, KEEPING));
        kept.postpone(10);
        assert!(!kept.wants_image(19, KEEPING) && kept.wants_image(20, KEEPING));
        kept.add(&image(20, 1500), KEEPING);
        assert!(!kept.wants_image(34, KEEPING) && kept.wants_image(35, KEEPING));
        kept.images = vec![KeptImage { seq: 40, at: 1, bytes: u64::MAX }];
        assert!(!kept.wants_image(100_039, KEEPING) && kept.wants_image(100_040, KEEPING));
        assert!(
            !kept.wants_image(1 << 40, Keeping { image_calls: 0, keep_calls: 0, keep_bytes: 0, keep_records: 1000 })
        );
    }

    #[test]
    fn the_log_is_cut_at_a_summary_before_an_image() {
        let mut kept = Retention::default();
        for seq in 1..=9 {
            kept.add_summary(seq * 10 - 5, KEEPING);
            assert!(kept.add(&image(seq * 10, 1), KEEPING).is_empty());
            assert_eq!(kept.cut, if seq < 9 { 0 } else { 5 });
        }
        assert_eq!((kept.add(&image(100, 1), KEEPING), kept.cut, places(&kept)[0]), (vec![10], 15, 20));
        assert_eq!((kept.first(), kept.take_old()), (1, (vec![], vec![])));
        assert_eq!(kept.cut(1, 12, 100), Some(Cut { job: 1, after: 0, upto: 12 }));
        assert_eq!(kept.cut(1, 12, 14), Some(Cut { job: 1, after: 12, upto: 14 }));
        assert_eq!((kept.cut(1, 12, 14), kept.first()), (None, 15));
        assert_eq!(kept.cut(1, 12, 100), Some(Cut { job: 1, after: 14, upto: 15 }));
        assert_eq!((kept.cut(1, 12, 100), kept.first()), (None, 16));
        kept.add_summary(95, KEEPING);
        assert_eq!((kept.take_old(), kept.take_old()), ((vec![], vec![5]), (vec![], vec![])));
    }

    #[test]
    fn nothing_is_cut_without_a_summary() {
        let mut kept = Retention::default();
        (1..=20).for_each(|seq| assert!(kept.add(&image(seq * 10, 1), KEEPING).is_empty() || seq > 9));
        assert_eq!((kept.cut, kept.is_cutting(), places(&kept)[0]), (0, false, 10));
        kept.add_summary(130, KEEPING);
        assert!(!kept.is_cutting());
        kept.add(&image(210, 1), KEEPING);
        assert_eq!((kept.cut, places(&kept)[0]), (130, 130));
        // a summary of calls that could be cut before
        let mut late = Retention::default();
        (1..=20).for_each(|seq| drop(late.add(&image(seq * 10, 1), KEEPING)));
        late.add_summary(95, KEEPING);
        assert_eq!((late.cut, late.take_old().0.last().copied(), places(&late)[0]), (95, Some(90), 100));
    }

    #[test]
    fn images_and_summaries_between_near_ones_go() {
        let (mut kept, keeping) =
            (Retention::default(), Keeping { image_calls: 1, keep_calls: 8000, keep_bytes: 0, keep_records: 1000 });
        for seq in 1..=20_000 {
            kept.add_summary(seq, keeping);
            kept.add(&image(seq, 1), keeping);
        }
        for places in [places(&kept), kept.summaries.clone()] {
            assert!((9..=20).contains(&places.len()), "{places:?}");
            assert!(places.windows(2).all(|two| two[1] - two[0] <= 1000), "{places:?}");
            assert!(places[0] <= 12_000 && places[0] >= 10_000, "{places:?}");
        }
        assert!(kept.summaries.contains(&kept.cut));
    }

    #[test]
    fn a_log_tells_about_its_bytes() {
        let mut kept = Retention::default();
        assert_eq!((kept.bytes(10), kept.calls_in(1000)), (0, 1000));
        (0..5000).for_each(|place| kept.count_bytes(if place % 2 == 0 { 20 } else { 40 }));
        assert!((980..=1020).contains(&kept.bytes(10)), "{}", kept.bytes(10));
        kept.set_mean(130);
        assert_eq!((kept.bytes(10), kept.calls_in(1000)), (2000, 5));
        (1..=20).for_each(|seq| kept.add_summary(seq * 10, KEEPING));
        (1..=20).for_each(|seq| drop(kept.add(&image(seq * 10, 1), KEEPING)));
        assert_eq!(kept.cut, 120);
        kept.set_limits(Keeping { keep_calls: 20, ..KEEPING });
        assert_eq!(kept.cut, 180);
    }

    #[test]
    fn a_start_ends_a_cut_that_was_begun() {
        let at = |seq: u64| KeptImage { seq, at: 0, bytes: 1 };
        let told = |seq: u64, bytes: u64| KeptSummary { seq, bytes };
        let of = |images: &[u64], summaries: &[KeptSummary], first: Option<u64>| {
            let kept = Retention::of(images.iter().map(|seq| at(*seq)).collect(), summaries, first, KEEPING);
            (kept.cut, kept.gone, kept.old_summaries)
        };
        assert_eq!(of(&[10, 20], &[told(5, 1)], Some(1)), (0, 0, vec![]));
        assert_eq!(of(&[10, 20, 100], &[told(5, 1), told(15, 1), told(18, 0)], Some(6)), (15, 5, vec![18]));
        assert_eq!(of(&[10, 20, 100], &[told(5, 1)], Some(11)), (10, 10, vec![5]));
        assert_eq!(of(&[10], &[], None), (10, 10, vec![]));
        assert_eq!(of(&[], &[], None), (0, 0, vec![]));
    }
}
