//! How far each job's log was when the service began to lead. It tells whether a place that an engine knows is a place
//! of this log.
//!
//! Each time a process begins to lead, it gives the log a new identity, and writes how many calls each job has. Answers
//! name the identity. A place of an earlier identity is in this log if the log knows that identity, and had the place
//! when the next one began. So it is not if a backup was restored since, because the next identity began with the calls
//! of the backup.

/// The text of lengths: `JOB:CALLS` of each job, with a space between.
pub fn lengths_text(lengths: &[(i64, u64)]) -> String {
    lengths.iter().map(|(job, calls)| format!("{job}:{calls}")).collect::<Vec<_>>().join(" ")
}

/// The calls of a job in such a text; none if the job was not there.
pub fn length_in(text: &str, job: i64) -> u64 {
    let of = |pair: &str| {
        let (number, calls) = pair.split_once(':')?;
        (number.parse() == Ok(job)).then(|| calls.parse().ok())?
    };
    text.split(' ').find_map(of).unwrap_or(0)
}

#[cfg(test)]
mod tests {
    use super::*;

    #[test]
    fn lengths_are_found_again() {
        let text = lengths_text(&[(3, 310), (12, 0), (31, 7)]);
        assert_eq!(text, "3:310 12:0 31:7");
        assert_eq!([3, 12, 31, 1, 2].map(|job| length_in(&text, job)), [310, 0, 7, 0, 0]);
        assert_eq!(length_in(&lengths_text(&[]), 1), 0);
    }
}
