//! The words of the command line, as the parser takes them.
use super::Ask;
use clap::{Command, Subcommand};
use std::ffi::{OsStr, OsString};

/// How an address begins that is a socket's.
pub const SOCKET: &str = "unix:";
const URL: &str = "--url";
const JOINED: &str = "--url=";
/// Options that may come before a verb. Each has a value.
const BEFORE: [&str; 2] = [URL, "--token-file"];
/// In the place of the name of a job that is asked over its socket, which nobody says.
const SOME_JOB: &str = "job";

/// Options before the verb go behind it. A verb that asks a job over its socket gets some name.
pub fn words(given: impl IntoIterator<Item = OsString>, address: Option<OsString>) -> Vec<OsString> {
    let mut given = given.into_iter().peekable();
    let (mut words, mut behind): (Vec<OsString>, Vec<OsString>) = (given.next().into_iter().collect(), Vec::new());
    while let Some(option) = given.next_if(|word| BEFORE.iter().any(|name| word == name)) {
        behind.extend([Some(option), given.next()].into_iter().flatten());
    }
    words.extend(given.chain(behind));
    if is_over_socket(&words, address.as_deref()) && words.get(1).is_some_and(|verb| has_job(verb)) {
        words.insert(2, SOME_JOB.into());
    }
    words
}

/// Whether the address is a socket that the options say, or else the environment.
fn is_over_socket(words: &[OsString], address: Option<&OsStr>) -> bool {
    let after = words.iter().skip_while(|word| *word != URL).nth(1).and_then(|it| it.to_str());
    let joined = || words.iter().find_map(|word| word.to_str()?.strip_prefix(JOINED));
    let said = after.or_else(joined).or(address.and_then(OsStr::to_str));
    said.is_some_and(|address| address.starts_with(SOCKET))
}

fn has_job(verb: &OsStr) -> bool {
    let verbs = Ask::augment_subcommands(Command::new("ask"));
    verbs.find_subcommand(verb).is_some_and(|it| it.get_positionals().any(|word| word.get_id() == "job"))
}

#[cfg(test)]
mod tests {
    use super::*;

    fn taken(line: &str, address: Option<&str>) -> String {
        let words = words(line.split(' ').map(OsString::from), address.map(OsString::from));
        words.iter().map(|it| it.to_string_lossy()).collect::<Vec<_>>().join(" ")
    }

    #[test]
    fn a_verb_over_a_socket_has_some_job() {
        for (line, address, wanted) in [
            ("relkvanu", Some("unix:a"), "relkvanu"),
            ("relkvanu --help", Some("unix:a"), "relkvanu --help"),
            ("relkvanu stop orders", None, "relkvanu stop orders"),
            ("relkvanu stop --wait 5", Some("unix:job.sock"), "relkvanu stop job --wait 5"),
            ("relkvanu stop orders --url http://a", Some("unix:job.sock"), "relkvanu stop orders --url http://a"),
            ("relkvanu --url unix:a stop --wait", None, "relkvanu stop job --wait --url unix:a"),
            (
                "relkvanu --url http://a --token-file f show orders",
                None,
                "relkvanu show orders --url http://a --token-file f",
            ),
            ("relkvanu dispose 12 --url=unix:a", None, "relkvanu dispose job 12 --url=unix:a"),
            ("relkvanu jobs", Some("unix:a"), "relkvanu jobs"),
            ("relkvanu backup --to a", Some("unix:a"), "relkvanu backup --to a"),
            ("relkvanu --url", None, "relkvanu --url"),
        ] {
            assert_eq!(taken(line, address), wanted, "{line}");
        }
    }
}
