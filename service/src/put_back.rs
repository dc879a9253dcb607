//! `relkvanu put-back`: puts a copy of an SQLite database in its place, or nothing, and sets the files that are there aside. An end at any moment loses
//! none of them: the same command goes on. `put_back_pg` has the same of PostgreSQL.
use crate::check;
use crate::cli;
use crate::database::{Database, NoDatabase};
use crate::disk::{self, beside, folder_of, if_there, of, private, sync, sync_folder, FileError};
use crate::exit;
use crate::put_back_pg;
use crate::store::{locked, DbError};
use std::ffi::{OsStr, OsString};
use std::fs::{self, File};
use std::io::{self, Read, Write};
use std::os::unix::ffi::OsStrExt;
use std::os::unix::fs::{chown, MetadataExt};
use std::path::{Path, PathBuf};
use std::process::ExitCode;
use thiserror::Error;

const LOG: &str = "-wal";
const LOCK: &str = ".lock";
/// The copy, until it has its name.
const NEW: &str = ".restored";
/// Of the folder of what was set aside: while its files go back; and of the one for the files that were there meanwhile.
const GOES_BACK: &str = ".back";
const UNUSED: &str = ".not-used";
const PIECE: usize = 1 << 20;

/// Why a copy is not in its place.
#[derive(Debug, Error)]
pub enum NotPut {
    #[error(transparent)]
    Database(#[from] NoDatabase),
    #[error("{0}")]
    Postgres(String),
    #[error("{}: the name is no UTF-8", .0.display())]
    Name(PathBuf),
    #[error("{}: no service can run over this copy", .0.display())]
    Unsound(PathBuf),
    #[error("{} has {} already: name another folder", .0.display(), .1.display())]
    Taken(PathBuf, PathBuf),
    #[error("nothing is set aside in {}", .0.display())]
    Nothing(PathBuf),
    #[error(transparent)]
    Locked(#[from] DbError),
    #[error(transparent)]
    File(#[from] FileError),
}

pub fn run(given: &cli::PutBack) -> ExitCode {
    exit::told(match (Database::of(&given.database), given.copy.as_deref()) {
        (Err(why), _) => Err(why.into()),
        (Ok(Database::Postgres(url)), _) => put_back_pg::run(given, &url),
        (Ok(Database::Sqlite(path)), Some(copy)) => put(given, &path, copy),
        (Ok(Database::Sqlite(path)), None) if given.none => put_none(given, &path),
        (Ok(Database::Sqlite(path)), None) => put_aside_back(given, &path),
    })
}

/// Where the database is, and where its files are set aside.
struct Replaced {
    database: PathBuf,
    folder: PathBuf,
    aside: PathBuf,
    /// No service, and no other command, has the database.
    _lock: File,
}

impl Replaced {
    fn open(given: &cli::PutBack, named: &Path) -> Result<Replaced, NotPut> {
        let parent = folder_of(named);
        let folder = made(parent).map_err(of(parent))?;
        let database = folder.join(named.file_name().unwrap_or(OsStr::new("relkvanu.db")));
        let lock = locked(&database)?;
        let place = Replaced {
            aside: given.aside.clone().unwrap_or_else(|| folder.join("aside")),
            database,
            folder,
            _lock: lock,
        };
        place.own(&beside(&place.database, LOCK))?;
        Ok(place)
    }

    /// Gives a file to the user of the folder, who runs the service.
    fn own(&self, path: &Path) -> Result<(), NotPut> {
        let owner = fs::metadata(&self.folder).map_err(of(&self.folder))?;
        let is = fs::metadata(path).map_err(of(path))?;
        if (is.uid(), is.gid()) == (owner.uid(), owner.gid()) {
            return Ok(());
        }
        Ok(chown(path, Some(owner.uid()), Some(owner.gid())).map_err(of(path))?)
    }

    /// The names of the database's files in a folder: all that begin with its own, which is the last: as long as it is there, it is not known that its log is gone.
    fn names(&self, folder: &Path) -> io::Result<Vec<OsString>> {
        let own = self.database.file_name().unwrap_or_default();
        let is_kept = |name: &OsString| [LOCK, NEW].iter().all(|end| beside(Path::new(own), end).as_os_str() != name);
        let entries = fs::read_dir(folder)?.map(|it| it.map(|it| it.file_name())).collect::<io::Result<Vec<_>>>()?;
        let mut names: Vec<OsString> = entries.into_iter().filter(|name| begins(name, own) && is_kept(name)).collect();
        names.sort_unstable_by_key(|name| std::cmp::Reverse(name.len()));
        Ok(names)
    }

    /// Moves the files of the database from one folder to another, and replaces none there.
    fn move_all(&self, from: &Path, to: &Path) -> Result<(), NotPut> {
        let names = self.names(from).map_err(of(from))?;
        if let Some(name) = names.iter().rev().find(|name| to.join(name).symlink_metadata().is_ok()) {
            return Err(NotPut::Taken(to.to_path_buf(), PathBuf::from(name)));
        }
        for name in names {
            fs::rename(from.join(&name), to.join(&name)).map_err(of(&from.join(&name)))?;
        }
        sync(to)?;
        Ok(sync(from)?)
    }
}

/// Makes the folder, whose disk may be lost. systemd has the folder of a unit behind a link.
fn made(folder: &Path) -> io::Result<PathBuf> {
    let behind = fs::read_link(folder).map_or(folder.to_path_buf(), |to| folder.with_file_name(to));
    disk::make_folder(&behind)?;
    fs::canonicalize(folder)
}

fn begins(name: &OsStr, with: &OsStr) -> bool {
    name.as_bytes().starts_with(with.as_bytes())
}

/// Makes a folder, which may be there.
fn make_folder(path: &Path) -> Result<(), NotPut> {
    disk::make_folder(path).map_err(of(path))?;
    Ok(sync_folder(path)?)
}

/// Reads a file in pieces, which the function gets.
pub fn read(path: &Path, mut each: impl FnMut(&[u8]) -> io::Result<bool>) -> io::Result<bool> {
    let (mut file, mut piece) = (File::open(path)?, vec![0; PIECE]);
    loop {
        let len = file.read(&mut piece)?;
        if len == 0 || !each(&piece[..len])? {
            return Ok(len == 0);
        }
    }
}

/// Whether the database has the bytes of the copy, and no log: then it was put there, and no service has run over it.
fn is_in_place(place: &Replaced, copy: &Path) -> Result<bool, NotPut> {
    let lengths = |path: &Path| fs::metadata(path).map(|it| it.len());
    let Ok(there) = lengths(&place.database) else {
        return Ok(false);
    };
    if there != lengths(copy).map_err(of(copy))? || beside(&place.database, LOG).exists() {
        return Ok(false);
    }
    let mut file = File::open(&place.database).map_err(of(&place.database))?;
    let mut own = vec![0; PIECE];
    let same = |piece: &[u8]| file.read_exact(&mut own[..piece.len()]).map(|()| own[..piece.len()] == *piece);
    Ok(read(copy, same).map_err(of(copy))?)
}

/// Writes the copy beside the database, under another name.
fn write_new(place: &Replaced, copy: &Path) -> Result<PathBuf, NotPut> {
    let new = beside(&place.database, NEW);
    let mut file = private().truncate(true).open(&new).map_err(of(&new))?;
    read(copy, |piece| file.write_all(piece).map(|()| true)).map_err(of(&new))?;
    place.own(&new)?;
    file.sync_all().map_err(of(&new))?;
    Ok(new)
}

/// Puts the copy in the place of the database. Returns what was done.
fn put(given: &cli::PutBack, database: &Path, copy: &Path) -> Result<String, NotPut> {
    let place = Replaced::open(given, database)?;
    let name = copy.to_str().ok_or_else(|| NotPut::Name(copy.to_path_buf()))?;
    if !given.checked && !check::is_sound(name) {
        return Err(NotPut::Unsound(copy.to_path_buf()));
    }
    if is_in_place(&place, copy)? {
        sync(&place.folder)?;
        return Ok(format!("{} is the copy already", place.database.display()));
    }
    make_folder(&place.aside)?;
    let new = write_new(&place, copy)?;
    place.move_all(&place.folder, &place.aside).inspect_err(|_| {
        // the next one writes it again
        let _ = fs::remove_file(&new);
    })?;
    fs::rename(&new, &place.database).map_err(of(&new))?;
    sync(&place.folder)?;
    Ok(format!("{} is the copy, and what was there is in {}", place.database.display(), place.aside.display()))
}

/// Sets the files aside, of a database that is lost. Returns what was done.
fn put_none(given: &cli::PutBack, database: &Path) -> Result<String, NotPut> {
    let place = Replaced::open(given, database)?;
    make_folder(&place.aside)?;
    place.move_all(&place.folder, &place.aside)?;
    Ok(format!("{} is not there, and what was there is in {}", place.database.display(), place.aside.display()))
}

/// Puts the files back that were set aside. Those that are there go into another folder, and then the name of the first folder says that all that is in the place
/// was set aside before.
fn put_aside_back(given: &cli::PutBack, database: &Path) -> Result<String, NotPut> {
    let place = Replaced::open(given, database)?;
    let (back, unused) = (beside(&place.aside, GOES_BACK), beside(&place.aside, UNUSED));
    if !back.exists() {
        if !place.aside.exists() {
            return if unused.exists() { Ok(told_back(&unused)) } else { Err(NotPut::Nothing(place.aside.clone())) };
        }
        make_folder(&unused)?;
        place.move_all(&place.folder, &unused)?;
        fs::rename(&place.aside, &back).map_err(of(&place.aside))?;
        sync_folder(&back)?;
    }
    let new = beside(&place.database, NEW);
    if_there(fs::remove_file(&new)).map_err(of(&new))?;
    place.move_all(&back, &place.folder)?;
    fs::remove_dir(&back).map_err(of(&back))?;
    sync_folder(&back)?;
    Ok(told_back(&unused))
}

fn told_back(unused: &Path) -> String {
    format!("what was set aside is in its place, and what was there is in {}", unused.display())
}
