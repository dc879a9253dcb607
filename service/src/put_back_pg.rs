//! `relkvanu put-back` of a PostgreSQL database: puts a dump of pg_dump in its place, or nothing, and sets the database that is there aside. Both change their
//! names in one transaction, so an end at any moment loses none: the same command goes on. PostgreSQL's commands do the work, as the administrator, who they
//! are by PGHOST, PGPORT and PGUSER; the check of the dump has the URL of the service alone.
use crate::check;
use crate::cli::PutBack;
use crate::disk::of;
use crate::put_back::{read, NotPut};
use sha2::{Digest, Sha256};
use std::path::Path;
use std::process::{Command, Stdio};

/// What a database says that is made, and once it is in its place.
const MAKES: &str = "relkvanu restores";
const IS_IN_PLACE: &str = "relkvanu restored";
const TABLES: &str = "select count(*) from pg_class where relnamespace = 'public'::regnamespace";
/// Each service that leads counts the epochs up.
const EPOCHS: &str = "select count(*), coalesce(max(number), 0) from log_start";

/// The databases, and the user who has them.
struct Replaced {
    url: String,
    role: String,
    name: String,
    new: String,
    aside: String,
    unused: String,
}

pub fn run(given: &PutBack, url: &str) -> Result<String, NotPut> {
    let place = Replaced::of(given, url)?;
    match given.copy.as_deref() {
        Some(dump) => place.put(dump, given.checked),
        None if given.none => place.put_none(),
        None => place.put_aside_back(),
    }
}

fn is_word(text: &str) -> bool {
    let is_sign = |it: u8| it.is_ascii_lowercase() || it == b'_';
    text.bytes().next().is_some_and(is_sign) && text.bytes().all(|it| is_sign(it) || it.is_ascii_digit())
}

/// Runs a program, and returns what it says.
fn ran(program: &str, words: &[&str]) -> Result<String, NotPut> {
    let failed = |why: &str| NotPut::Postgres(format!("{program}: {}", why.trim()));
    let told = Command::new(program).args(words).stdin(Stdio::null()).output();
    let told = told.map_err(|why| failed(&why.to_string()))?;
    if told.status.success() {
        return Ok(String::from_utf8_lossy(&told.stdout).trim().to_string());
    }
    Err(failed(&String::from_utf8_lossy(&told.stderr)))
}

fn ask(database: &str, text: &str) -> Result<String, NotPut> {
    ran("psql", &["-XAtq", "--no-password", "--set=ON_ERROR_STOP=1", "--dbname", database, "--command", text])
}

fn is_there(database: &str) -> Result<bool, NotPut> {
    let found = ask("postgres", &format!("select oid from pg_database where datname = '{database}'"))?;
    Ok(!found.is_empty())
}

fn comment(database: &str) -> Result<String, NotPut> {
    let told = format!("select shobj_description(oid, 'pg_database') from pg_database where datname = '{database}'");
    ask("postgres", &told)
}

fn is_empty(database: &str) -> Result<bool, NotPut> {
    Ok(ask(database, TABLES)? == "0")
}

impl Replaced {
    fn of(given: &PutBack, url: &str) -> Result<Replaced, NotPut> {
        let wrong = || {
            let why = "the URL has to name a user and a database, as postgres://relkvanu@db.example/relkvanu";
            NotPut::Postgres(why.to_string())
        };
        let (_, rest) = url.split_once("://").ok_or_else(wrong)?;
        let (who, path) = rest.split_once('/').ok_or_else(wrong)?;
        let name = path.split('?').next().unwrap_or_default();
        let role = who.split_once('@').map(|(who, _)| who.split(':').next().unwrap_or_default()).ok_or_else(wrong)?;
        let aside = given.aside.as_ref().map_or(format!("{name}_aside"), |it| it.display().to_string());
        if ![name, role, &aside].into_iter().all(is_word) {
            return Err(wrong());
        }
        let (new, unused) = (format!("{name}_restored"), format!("{name}_not_used"));
        Ok(Replaced { url: url.to_string(), role: role.to_string(), name: name.to_string(), new, aside, unused })
    }

    /// The URL of the service, with the name of the new database.
    fn new_url(&self) -> String {
        let (before, after) = self.url.split_once("://").unwrap_or_default();
        let (who, path) = after.split_once('/').unwrap_or_default();
        let more = path.strip_prefix(&self.name).unwrap_or_default();
        format!("{before}://{who}/{}{more}", self.new)
    }

    fn check_free(database: &str) -> Result<(), NotPut> {
        if is_there(database)? {
            return Err(NotPut::Postgres(format!("there is a database {database} already: rename it, or drop it")));
        }
        Ok(())
    }

    /// Makes the new database anew that an earlier run has left, which its comment says. One without it that is empty was left before its comment came.
    fn make(&self) -> Result<(), NotPut> {
        let new = self.new.as_str();
        if is_there(new)? {
            if comment(new)? != MAKES && !is_empty(new)? {
                let why =
                    format!("there is a database {new} already, which is not of this command: rename it, or drop it");
                return Err(NotPut::Postgres(why));
            }
            ran("dropdb", &["--no-password", new])?;
        }
        ran("createdb", &["--no-password", "--owner", &self.role, new, MAKES]).map(|_| ())
    }

    /// Names the new database, with a comment, and sets the other one aside.
    fn name_it(&self, what: &str) -> Result<(), NotPut> {
        let Replaced { name, new, aside, .. } = self;
        let before = if is_there(name)? { format!("alter database {name} rename to {aside}; ") } else { String::new() };
        let told =
            format!("comment on database {new} is '{IS_IN_PLACE} {what}'; alter database {new} rename to {name}");
        ask("postgres", &format!("begin; {before}{told}; commit")).map(|_| ())
    }

    /// Whether the database was put there by this command, and no service has run over it.
    fn is_put(&self, what: impl FnOnce() -> Result<String, NotPut>) -> Result<bool, NotPut> {
        if !is_there(&self.name)? {
            return Ok(false);
        }
        let told = comment(&self.name)?;
        Ok(told.starts_with(IS_IN_PLACE) && told == format!("{IS_IN_PLACE} {}", what()?))
    }

    fn put(&self, dump: &Path, checked: bool) -> Result<String, NotPut> {
        let Replaced { name, new, aside, role, .. } = self;
        let mut sum = Sha256::new();
        read(dump, |piece| {
            sum.update(piece);
            Ok(true)
        })
        .map_err(of(dump))?;
        let sum = sum.finalize().iter().fold(String::new(), |text, byte| text + &format!("{byte:02x}"));
        if self.is_put(|| Ok(format!("{sum} {}", ask(name, EPOCHS)?)))? {
            return Ok(format!("{name} is the copy already"));
        }
        Self::check_free(aside)?;
        self.make()?;
        let path = dump.to_str().ok_or_else(|| NotPut::Name(dump.to_path_buf()))?;
        let how = ["--single-transaction", "--exit-on-error", "--no-owner", "--no-password", "--role", role];
        ran("pg_restore", &[&how[..], &["--dbname", new, path]].concat())?;
        if !checked && !check::is_sound(&self.new_url()) {
            return Err(NotPut::Unsound(dump.to_path_buf()));
        }
        self.name_it(&format!("{sum} {}", ask(new, EPOCHS)?))?;
        Ok(format!("{name} is the copy, and what was there is {aside}"))
    }

    fn put_none(&self) -> Result<String, NotPut> {
        let Replaced { name, aside, .. } = self;
        if self.is_put(|| Ok("none".to_string()))? && is_empty(name)? {
            return Ok(format!("{name} is empty already"));
        }
        Self::check_free(aside)?;
        self.make()?;
        self.name_it("none")?;
        Ok(format!("{name} is empty, and what was there is {aside}"))
    }

    fn put_aside_back(&self) -> Result<String, NotPut> {
        let Replaced { name, aside, unused, .. } = self;
        let told = format!("what was set aside is in its place, and what was there is {unused}");
        if !is_there(aside)? {
            let why = format!("nothing is set aside as {aside}");
            return if is_there(unused)? { Ok(told) } else { Err(NotPut::Postgres(why)) };
        }
        Self::check_free(unused)?;
        let swap = format!("alter database {name} rename to {unused}; alter database {aside} rename to {name}");
        ask("postgres", &format!("begin; {swap}; commit"))?;
        Ok(told)
    }
}
