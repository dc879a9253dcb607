//! Tokens: which clients may read, which may change something, and of which jobs.
use crate::disk::{of, FileError};
use hyper::header::{HeaderMap, AUTHORIZATION};
use std::path::{Path, PathBuf};
use std::time::SystemTime;
use subtle::{Choice, ConstantTimeEq};
use thiserror::Error;

const SHORTEST: usize = 16;
const LONGEST_NAME: usize = 64;

#[derive(Clone, Copy, Debug, PartialEq, Eq)]
pub enum Access {
    Read,
    Write,
}

/// Who makes a request: the name of the token, and the jobs that it is for.
#[derive(Clone, Debug, PartialEq, Eq)]
pub struct Caller {
    pub name: String,
    /// Whether its token allows calls.
    pub may_write: bool,
    /// Their names, or how they begin, with a star behind it. `None`: all.
    jobs: Option<Vec<String>>,
    /// From when on it is refused.
    pub until: Option<SystemTime>,
}

impl Caller {
    /// A program of this machine, where there are no tokens.
    pub fn local() -> Caller {
        Caller { name: "local".to_string(), may_write: true, jobs: None, until: None }
    }

    pub fn may_see(&self, job: &str) -> bool {
        let is_of = |it: &String| it.strip_suffix('*').map_or(job == it, |prefix| job.starts_with(prefix));
        self.jobs.as_ref().is_none_or(|jobs| jobs.iter().any(is_of))
    }

    pub fn may_see_all(&self) -> bool {
        self.jobs.is_none()
    }
}

struct Token {
    access: Access,
    text: Vec<u8>,
    caller: Caller,
}

/// The tokens of a file. A write token may read too.
pub struct Tokens(Vec<Token>);

/// Why a file of tokens can't be used. Another start over the same file ends in the same way.
#[derive(Debug, Error)]
pub enum NoTokens {
    #[error(transparent)]
    Unread(#[from] FileError),
    #[error("{}: {why}", .path.display())]
    Bad { path: PathBuf, why: BadTokens },
}

/// What is wrong in a file of tokens, and in which line. It shows no token.
#[derive(Debug, PartialEq, Eq, Error)]
pub enum BadTokens {
    #[error("has no token")]
    None,
    #[error("line {line} is not 'read TOKEN' or 'write TOKEN'")]
    Words { line: usize },
    #[error(
        "line {line} has {word:?} after its token, which is not until=YEAR-MONTH-DAY, jobs=NAME,PREFIX*,.. or name=WORD"
    )]
    Word { line: usize, word: String },
    #[error("line {line} begins with neither 'read' nor 'write'")]
    Access { line: usize },
    #[error("line {line} has a token of less than {SHORTEST} characters")]
    Short { line: usize },
}

impl Tokens {
    pub fn read(path: &Path) -> Result<Tokens, NoTokens> {
        let text = std::fs::read_to_string(path).map_err(of(path))?;
        Tokens::parse(&text).map_err(|why| NoTokens::Bad { path: path.to_path_buf(), why })
    }

    /// Reads lines of `read TOKEN` and `write TOKEN`, after which `until=YEAR-MONTH-DAY`, `jobs=NAME,PREFIX*` and `name=WORD` may
    /// stand. Empty lines and those that begin with `#` are comments.
    fn parse(text: &str) -> Result<Tokens, BadTokens> {
        let lines = text.lines().enumerate().filter(|(_, line)| !line.trim().is_empty() && !line.starts_with('#'));
        let tokens: Vec<_> = lines.map(|(place, line)| token(place + 1, line)).collect::<Result<_, _>>()?;
        if tokens.is_empty() {
            return Err(BadTokens::None);
        }
        Ok(Tokens(tokens))
    }

    pub fn are_several(&self) -> bool {
        self.0.len() > 1
    }

    /// A token that may change something of all jobs, if there is one.
    pub fn for_all_jobs(&self) -> Option<String> {
        let fits =
            |token: &&Token| token.caller.may_write && token.caller.may_see_all() && token.caller.until.is_none();
        self.0.iter().find(fits).and_then(|token| String::from_utf8(token.text.clone()).ok())
    }

    /// When the last token for this access ends, if all of them do.
    pub fn until(&self, access: Access) -> Option<SystemTime> {
        let ends = self.0.iter().filter(|token| token.access == access).map(|token| token.caller.until);
        ends.reduce(|one, other| Some(one?.max(other?))).flatten()
    }

    /// Who has the token of the headers, if it is one for this access. Each token is compared in full, in a time that depends on its
    /// length alone.
    pub fn caller(&self, headers: &HeaderMap, wanted: Access, now: SystemTime) -> Option<&Caller> {
        let given = headers.get(AUTHORIZATION).and_then(|value| value.as_bytes().strip_prefix(b"Bearer "));
        let given = given.unwrap_or_default();
        let matches = |Token { access, text, caller }: &Token| -> bool {
            let may = *access == Access::Write || wanted == Access::Read;
            let is_now = caller.until.is_none_or(|until| now < until);
            (text.ct_eq(given) & Choice::from(u8::from(may && is_now))).into()
        };
        // all are looked at, whichever matches
        let found: Vec<bool> = self.0.iter().map(matches).collect();
        found.iter().position(|it| *it).map(|place| &self.0[place].caller)
    }
}

fn token(line: usize, text: &str) -> Result<Token, BadTokens> {
    let mut words = text.split_whitespace();
    let (Some(word), Some(text)) = (words.next(), words.next()) else {
        return Err(BadTokens::Words { line });
    };
    let access = match word {
        "read" => Access::Read,
        "write" => Access::Write,
        _ => return Err(BadTokens::Access { line }),
    };
    let may_write = access == Access::Write;
    let mut caller = Caller { name: format!("line-{line}"), may_write, jobs: None, until: None };
    for word in words {
        let bad = || BadTokens::Word { line, word: word.to_string() };
        match word.split_once('=').ok_or_else(bad)? {
            ("until", day) => caller.until = Some(start_of(day).ok_or_else(bad)?),
            ("jobs", jobs) if !jobs.split(',').any(str::is_empty) => {
                caller.jobs = Some(jobs.split(',').map(str::to_string).collect());
            }
            ("name", name) if !name.is_empty() && name.len() <= LONGEST_NAME => caller.name = name.to_string(),
            _ => return Err(bad()),
        }
    }
    if text.len() < SHORTEST {
        return Err(BadTokens::Short { line });
    }
    Ok(Token { access, text: text.as_bytes().to_vec(), caller })
}

fn start_of(day: &str) -> Option<SystemTime> {
    humantime::parse_rfc3339(&format!("{day}T00:00:00Z")).ok()
}

#[cfg(test)]
mod tests {
    use super::*;
    use hyper::header::HeaderValue;
    use std::time::{Duration, UNIX_EPOCH};

    fn bearer(token: &str) -> HeaderMap {
        let mut headers = HeaderMap::new();
        if let Ok(value) = HeaderValue::from_str(&format!("Bearer {token}")) {
            headers.insert(AUTHORIZATION, value);
        }
        headers
    }

    #[test]
    fn one_text_may_be_two_tokens() -> Result<(), BadTokens> {
        let tokens = Tokens::parse("read aaaaaaaaaaaaaaaa name=r\nwrite aaaaaaaaaaaaaaaa name=w")?;
        let name = |access| tokens.caller(&bearer("aaaaaaaaaaaaaaaa"), access, UNIX_EPOCH).map(|it| it.name.clone());
        assert_eq!((name(Access::Read).as_deref(), name(Access::Write).as_deref()), (Some("r"), Some("w")));
        Ok(())
    }

    #[test]
    fn refuses_bad_files() {
        let word = |line, word: &str| BadTokens::Word { line, word: word.to_string() };
        for (text, why) in [
            ("", BadTokens::None),
            ("# none", BadTokens::None),
            ("# one\nread short", BadTokens::Short { line: 2 }),
            ("admin aaaaaaaaaaaaaaaa", BadTokens::Access { line: 1 }),
            ("read", BadTokens::Words { line: 1 }),
            ("read aaaaaaaaaaaaaaaa b", word(1, "b")),
            ("read aaaaaaaaaaaaaaaa until=2027-02-30", word(1, "until=2027-02-30")),
            ("read aaaaaaaaaaaaaaaa jobs=", word(1, "jobs=")),
            ("read aaaaaaaaaaaaaaaa name=", word(1, "name=")),
            ("read aaaaaaaaaaaaaaaa job=a", word(1, "job=a")),
        ] {
            assert_eq!(Tokens::parse(text).err(), Some(why), "{text}");
        }
    }

    #[test]
    fn a_token_ends_with_its_day() -> Result<(), BadTokens> {
        let text =
            "read aaaaaaaaaaaaaaaa until=1970-01-03\nread bbbbbbbbbbbbbbbb until=1970-01-05\nwrite cccccccccccccccc\n";
        let (tokens, day) = (Tokens::parse(text)?, |number: u64| UNIX_EPOCH + Duration::from_secs(number * 86_400));
        let may = |token, at| tokens.caller(&bearer(token), Access::Read, at).is_some();
        assert!(may("aaaaaaaaaaaaaaaa", day(2) - Duration::from_secs(1)) && !may("aaaaaaaaaaaaaaaa", day(2)));
        assert!(may("bbbbbbbbbbbbbbbb", day(3)) && may("cccccccccccccccc", day(1_000_000)));
        assert_eq!((tokens.until(Access::Read), tokens.until(Access::Write)), (Some(day(4)), None));
        Ok(())
    }
}
