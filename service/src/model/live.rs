//! The live records of a job, kept beside the coordinator. Compared before and after a call, they show its effect.
use relkvanu::Live as LiveRecord;
use std::collections::BTreeMap;

/// The live records, by number.
pub type Live = BTreeMap<u64, LiveRecord>;

/// The numbers of `before` that are not in `after`, with a space between them; none: `None`.
pub fn ended_numbers(before: &Live, after: &Live) -> Option<String> {
    let gone: Vec<String> = before.keys().filter(|id| !after.contains_key(id)).map(u64::to_string).collect();
    (!gone.is_empty()).then(|| gone.join(" "))
}
