//! What a restore would begin from, after which call of the log: a trigger's barrier names it, since tasks build on its files.
use relkvanu::Choice;
use std::collections::VecDeque;

/// How many changes are known.
const MOST: usize = 256;

/// The last changes of a job's choice: it is this one after this call.
#[derive(Clone, Debug, Default, PartialEq, Eq)]
pub struct Bases(VecDeque<(u64, Choice)>);

impl Bases {
    /// The choice after a call; nothing is known of what was before.
    pub fn from(seq: u64, choice: Choice) -> Bases {
        Bases(VecDeque::from([(seq, choice)]))
    }

    pub fn note(&mut self, seq: u64, choice: Choice) {
        if self.0.back().map(|(_, last)| *last) == Some(choice) {
            return;
        }
        self.0.push_back((seq, choice));
        if self.0.len() > MOST {
            self.0.pop_front();
        }
    }

    /// A trigger is told no base, though the choice is this one.
    pub fn note_full(&mut self, seq: u64, choice: Choice) {
        self.0.push_back((seq.saturating_sub(1), Choice::Fresh));
        self.0.push_back((seq, choice));
        let most = self.0.len().saturating_sub(MOST);
        self.0.drain(..most);
    }

    /// Of the calls up to this one nothing is known: an earlier process may have told a trigger no base.
    pub fn forget(&mut self, seq: u64) {
        if let Some((_, choice)) = self.0.pop_back() {
            *self = Bases::from(seq, choice);
        }
    }

    /// The choice before a call; `None` if it is not known any more.
    pub fn before(&self, seq: u64) -> Option<Choice> {
        self.0.iter().rev().find(|(at, _)| *at < seq).map(|(_, choice)| *choice)
    }

    /// The call that changed it last.
    pub fn changed(&self) -> u64 {
        self.0.back().map_or(0, |(seq, _)| *seq)
    }
}

#[cfg(test)]
mod tests {
    use super::*;

    #[test]
    fn the_choice_before_a_call_is_told() {
        let mut bases = Bases::from(4, Choice::Fresh);
        bases.note(7, Choice::Checkpoint(1));
        bases.note(9, Choice::Checkpoint(1));
        bases.note(12, Choice::Savepoint(2));
        assert_eq!([4, 5, 7].map(|seq| bases.before(seq)), [None, Some(Choice::Fresh), Some(Choice::Fresh)]);
        assert_eq!([8, 12].map(|seq| bases.before(seq)), [Some(Choice::Checkpoint(1)); 2]);
        assert_eq!((bases.before(13), bases.changed()), (Some(Choice::Savepoint(2)), 12));
    }

    #[test]
    fn a_full_trigger_has_no_base() {
        let mut bases = Bases::from(4, Choice::Fresh);
        bases.note(7, Choice::Checkpoint(1));
        bases.note(8, Choice::Checkpoint(2));
        bases.note_full(9, Choice::Checkpoint(2));
        let told = [8, 9, 10].map(|seq| bases.before(seq));
        assert_eq!(told, [Choice::Checkpoint(1), Choice::Fresh, Choice::Checkpoint(2)].map(Some));
        bases.forget(12);
        assert_eq!([9, 12, 13].map(|seq| bases.before(seq)), [None, None, Some(Choice::Checkpoint(2))]);
    }

    #[test]
    fn old_changes_are_forgotten() {
        let mut bases = Bases::from(0, Choice::Fresh);
        for seq in 1..=MOST as u64 {
            bases.note(seq, Choice::Checkpoint(seq));
        }
        assert_eq!((bases.before(1), bases.before(2)), (None, Some(Choice::Checkpoint(1))));
    }
}
