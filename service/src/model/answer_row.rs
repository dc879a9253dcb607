//! The answer to a call as a row of the log has it: the numbers that include/relkvanu.h gives it, and the files of a take. A text is made
//! of it only for people.
use super::outcome::Reply;
use relkvanu::Answer;

#[derive(Clone, Debug, Default, PartialEq, Eq)]
pub struct AnswerRow {
    pub what: u32,
    pub a: u64,
    pub b: u64,
    /// The files of a take, with a space between them. A history has none.
    pub files: Option<String>,
}

impl AnswerRow {
    pub fn of(reply: &Reply) -> AnswerRow {
        match reply {
            Reply::Answered(answer) => {
                let (what, a, b) = answer.numbers();
                AnswerRow { what, a, b, files: None }
            }
            Reply::Taken(files) => {
                let texts: Vec<String> = files.iter().map(u64::to_string).collect();
                AnswerRow { what: Answer::TAKEN, a: files.len() as u64, b: 0, files: Some(texts.join(" ")) }
            }
        }
    }

    /// The three numbers as a database keeps them: with their 64 bits, as signed ones.
    pub fn numbers(&self) -> [i64; 3] {
        [i64::from(self.what), self.a as i64, self.b as i64]
    }

    /// The answer; `None` if these are no numbers of one, or not the files of a take.
    pub fn reply(&self) -> Option<Reply> {
        let Some(files) = &self.files else {
            return Answer::of_numbers(self.what, self.a, self.b).map(Reply::Answered);
        };
        let files = files.split(' ').filter(|word| !word.is_empty()).map(|word| word.parse().ok());
        let reply = Reply::Taken(files.collect::<Option<_>>()?);
        // what is written otherwise, as with a sign, is not of ours
        Some(reply).filter(|reply| AnswerRow::of(reply) == *self)
    }

    /// The text of docs/SCRIPT.md and docs/LOGS.md. A take whose files are not known has its first word alone.
    pub fn text(&self) -> String {
        match self.reply() {
            Some(reply) => reply.text(),
            None if self.what == Answer::TAKEN => "take".to_string(),
            None => format!("unknown {} {} {}", self.what, self.a, self.b),
        }
    }
}

#[cfg(test)]
mod tests {
    use super::*;

    fn told(what: u32, a: u64, b: u64, files: Option<&str>) -> AnswerRow {
        AnswerRow { what, a, b, files: files.map(str::to_string) }
    }

    #[test]
    fn what_is_no_answer_is_none() {
        for (kept, text) in [
            (told(0, 1, 2, None), "unknown 0 1 2"),
            (told(18, 1, 0, None), "take"),
            (told(18, 2, 0, Some("7")), "take"),
            (told(18, 1, 0, Some("+7")), "take"),
            (told(18, 1, 0, Some("07")), "take"),
            (told(18, 2, 0, Some("7  8")), "take"),
            (told(18, 1, 1, Some("7")), "take"),
            (told(8, 1, 0, Some("7")), "unknown 8 1 0"),
            (told(u32::MAX, 0, 0, None), "unknown 4294967295 0 0"),
        ] {
            assert_eq!((kept.reply(), kept.text().as_str()), (None, text));
        }
    }
}
