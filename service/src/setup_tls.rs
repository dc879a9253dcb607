//! `relkvanu setup-tls`: makes the tokens, the certificate and the settings with which a service speaks TLS. All is made in a folder of its own, and gets in its
//! place once it is whole. So after an end at any moment the same command goes on, and nothing is replaced but the settings that were installed.
use crate::cli;
use crate::disk::{self, folder_of, if_there, of, private, sync, sync_folder, FileError};
use crate::exit;
use crate::http::{NoTls, Tls, TlsFiles};
use crate::renew_tls;
use openssl::pkey::PKey;
use openssl::x509::X509;
use rustix::fs::{flock, FlockOperation};
use std::fs::{self, File, Permissions};
use std::io::{self, ErrorKind, Write};
use std::net::IpAddr;
use std::os::unix::fs::PermissionsExt;
use std::path::{Path, PathBuf};
use std::process::{Command, ExitCode};
use thiserror::Error;

/// The folder of what is made; its name once all of it is there; and once all is in its place.
const NEW: &str = "setup-tls.new";
const WHOLE: &str = "setup-tls";
const DONE: &str = "setup-tls.done";
const SETTINGS: &str = "service.toml";
/// What they are if nobody has installed them.
const INSTALLED: &str = include_str!("../deploy/service.toml");
/// The settings as they were.
const BEFORE: &str = "service.toml.before";
pub const CERTIFICATE: &str = "certificate.pem";
pub const KEY: &str = "key.pem";
const DROP_IN: &str = "tls.conf";
const DROP_IN_FOLDER: &str = "relkvanu.service.d";
const DAYS: &str = "90";
const BYTES_OF_TOKEN: usize = 20;
const LONGEST_NAME: usize = 64;

/// The files of a certificate, with their modes.
pub const OF_CERTIFICATE: [(&str, u32); 2] = [(KEY, 0o600), (CERTIFICATE, 0o644)];

/// All files that are made, in the order in which they get in their place. With the settings the service speaks TLS.
const PARTS: [(&str, u32); 7] = [
    ("read-token", 0o600),
    ("write-token", 0o600),
    ("token", 0o600),
    OF_CERTIFICATE[0],
    OF_CERTIFICATE[1],
    (DROP_IN, 0o644),
    (SETTINGS, 0o644),
];

/// Why nothing was set up, or not all.
#[derive(Debug, Error)]
pub enum NotSet {
    #[error("{}: it is there, and is not replaced", .0.display())]
    Taken(PathBuf),
    #[error("{}: it has no lines `listen`, `# tls_certificate` and `# tls_key` as they are installed", .0.display())]
    OtherSettings(PathBuf),
    #[error("{0:?} is no name of a machine")]
    Name(String),
    #[error("{}: it is not the key of the certificate", .0.display())]
    OtherKey(PathBuf),
    #[error("openssl: {0}")]
    Openssl(String),
    #[error(transparent)]
    Tls(#[from] NoTls),
    #[error("{}: another setup-tls runs", .0.display())]
    InUse(PathBuf),
    #[error("{}: it is not there, so nothing is renewed", .0.display())]
    NotThere(PathBuf),
    #[error(transparent)]
    File(#[from] FileError),
}

pub fn run(given: &cli::SetupTls) -> ExitCode {
    exit::told(if given.renew { renew_tls::renew(given) } else { set_up(given) })
}

fn set_up(given: &cli::SetupTls) -> Result<String, NotSet> {
    let setup = Setup::open(given)?;
    let done = given.settings.join(DONE);
    if !setup.whole.exists() && !done.exists() {
        setup.check_free()?;
        make_whole(&setup.new, &setup.whole, &PARTS, || setup.make())?;
    }
    if !done.exists() {
        PARTS.into_iter().try_for_each(|(name, mode)| setup.place(name, mode))?;
        fs::rename(&setup.whole, &done).map_err(of(&done))?;
    }
    fs::remove_dir_all(&done).map_err(of(&done))?;
    sync_folder(&done)?;
    Ok("the service speaks TLS from its next start on: systemctl daemon-reload, and systemctl restart relkvanu"
        .to_string())
}

/// No other command of this kind changes the settings as long as it is there.
pub fn locked(settings: &Path) -> Result<File, NotSet> {
    let lock = File::open(settings).map_err(of(settings))?;
    flock(&lock, FlockOperation::NonBlockingLockExclusive).map_err(|_| NotSet::InUse(settings.to_path_buf()))?;
    Ok(lock)
}

/// Makes a certificate and its key in a folder, or copies those that are given.
pub fn make_certificate(given: &cli::SetupTls, folder: &Path) -> Result<(), NotSet> {
    let files = TlsFiles { certificate: folder.join(CERTIFICATE), key: folder.join(KEY) };
    match (&given.certificate, &given.key) {
        (Some(certificate), Some(key)) => {
            copied(certificate, &files.certificate)?;
            copied(key, &files.key)?;
        }
        _ => sign(&given.name, &files)?,
    }
    for (name, mode) in OF_CERTIFICATE {
        let path = folder.join(name);
        fs::set_permissions(&path, Permissions::from_mode(mode)).map_err(of(&path))?;
    }
    if !fits(&files)? {
        return Err(NotSet::OtherKey(files.key));
    }
    Tls::read(files)?; // as the service will
    Ok(())
}

/// Makes a folder with these files in it, which root alone reads, under another name, and gives it its own once they are on the disk. One that an earlier
/// run has left is made anew, and none is left if they can't be made.
pub fn make_whole(
    new: &Path,
    whole: &Path,
    parts: &[(&str, u32)],
    make: impl FnOnce() -> Result<(), NotSet>,
) -> Result<(), NotSet> {
    if new.exists() {
        fs::remove_dir_all(new).map_err(of(new))?;
    }
    disk::make_folder(new).map_err(of(new))?;
    if let Err(why) = make() {
        fs::remove_dir_all(new).map_err(of(new))?;
        return Err(why);
    }
    parts.iter().try_for_each(|(name, _)| sync(&new.join(name)))?;
    sync(new)?;
    fs::rename(new, whole).map_err(of(whole))?;
    Ok(sync_folder(whole)?)
}

/// Writes a file beside the one whose place it gets; `None` if that has the same contents.
pub fn staged(target: &Path, contents: &[u8], mode: u32) -> Result<Option<PathBuf>, NotSet> {
    let name = target.file_name().unwrap_or_default().to_string_lossy();
    let new = target.with_file_name(format!(".{name}.{NEW}"));
    if_there(fs::remove_file(&new)).map_err(of(&new))?;
    if fs::read(target).is_ok_and(|it| it == contents) {
        return Ok(None);
    }
    written(&new, contents, mode)?;
    Ok(Some(new))
}

fn copied(from: &Path, to: &Path) -> Result<(), NotSet> {
    written(to, fs::read_to_string(from).map_err(of(from))?.as_bytes(), 0o600)
}

/// Where all is made.
struct Setup<'a> {
    given: &'a cli::SetupTls,
    new: PathBuf,
    whole: PathBuf,
    /// No other command makes it.
    _lock: File,
}

impl Setup<'_> {
    fn open(given: &cli::SetupTls) -> Result<Setup<'_>, NotSet> {
        fs::create_dir_all(&given.settings).map_err(of(&given.settings))?;
        let (new, whole) = (given.settings.join(NEW), given.settings.join(WHOLE));
        Ok(Setup { given, new, whole, _lock: locked(&given.settings)? })
    }

    /// Where a part gets.
    fn target(&self, name: &str) -> PathBuf {
        if name == DROP_IN {
            self.given.units.join(DROP_IN_FOLDER).join(DROP_IN)
        } else {
            self.given.settings.join(name)
        }
    }

    fn check_free(&self) -> Result<(), NotSet> {
        let mut targets = PARTS.iter().filter(|(name, _)| *name != SETTINGS).map(|(name, _)| self.target(name));
        targets.find(|it| it.symlink_metadata().is_ok()).map_or(Ok(()), |it| Err(NotSet::Taken(it)))
    }

    /// Makes all parts.
    fn make(&self) -> Result<(), NotSet> {
        self.make_tokens()?;
        make_certificate(self.given, &self.new)?;
        self.make_settings()
    }

    fn make_tokens(&self) -> Result<(), NotSet> {
        let (read, write) = (token()?, token()?);
        self.write("read-token", &format!("{read}\n"))?;
        self.write("write-token", &format!("{write}\n"))?;
        self.write("token", &format!("read {read}\nwrite {write}\n"))
    }

    fn make_settings(&self) -> Result<(), NotSet> {
        let path = self.given.settings.join(SETTINGS);
        let before = match fs::read_to_string(&path) {
            Err(why) if why.kind() == ErrorKind::NotFound => INSTALLED.to_string(),
            text => text.map_err(of(&path))?,
        };
        let listen = self.given.listen.to_string();
        let settings = with_tls(&before, &listen).ok_or(NotSet::OtherSettings(path))?;
        self.write(BEFORE, &before)?;
        self.write(SETTINGS, &settings)?;
        let folder = self.given.settings.display();
        let line = |name| format!("LoadCredential={name}:{folder}/{name}\n");
        self.write(DROP_IN, &format!("[Service]\n{}{}", line(CERTIFICATE), line(KEY)))
    }

    /// A file that only its owner reads, until it is in its place.
    fn write(&self, name: &str, text: &str) -> Result<(), NotSet> {
        written(&self.new.join(name), text.as_bytes(), 0o600)
    }

    /// Gets a part in its place, unless it is there.
    fn place(&self, name: &str, mode: u32) -> Result<(), NotSet> {
        let (source, target) = (self.whole.join(name), self.target(name));
        let folder = folder_of(&target);
        let contents = fs::read(&source).map_err(of(&source))?;
        fs::create_dir_all(folder).map_err(of(folder))?;
        let Some(new) = staged(&target, &contents, mode)? else { return Ok(()) };
        if name == SETTINGS {
            self.check_settings(&target)?;
            fs::rename(&new, &target).map_err(of(&target))?;
        } else {
            fs::hard_link(&new, &target).map_err(|why| taken(why, &target))?;
            fs::remove_file(&new).map_err(of(&new))?;
        }
        Ok(sync_folder(&target)?)
    }

    /// The settings that are replaced are those that were read, if there were some.
    fn check_settings(&self, path: &Path) -> Result<(), NotSet> {
        let before = self.whole.join(BEFORE);
        let is_there = path.symlink_metadata().is_ok();
        if !is_there || fs::read(&before).map_err(of(&before))? == fs::read(path).map_err(of(path))? {
            Ok(())
        } else {
            Err(NotSet::Taken(path.to_path_buf()))
        }
    }
}

fn taken(why: io::Error, path: &Path) -> NotSet {
    if why.kind() == ErrorKind::AlreadyExists {
        NotSet::Taken(path.to_path_buf())
    } else {
        of(path)(why).into()
    }
}

/// Makes a file, which is on the disk then.
fn written(path: &Path, contents: &[u8], mode: u32) -> Result<(), NotSet> {
    let make = || {
        let mut file = private().create_new(true).open(path)?;
        file.write_all(contents)?;
        file.set_permissions(Permissions::from_mode(mode))?;
        file.sync_all()
    };
    Ok(make().map_err(of(path))?)
}

/// Whether the key is that of the certificate.
fn fits(files: &TlsFiles) -> Result<bool, NotSet> {
    let (certificate, key) =
        (fs::read(&files.certificate).map_err(of(&files.certificate))?, fs::read(&files.key).map_err(of(&files.key))?);
    let public = X509::from_pem(&certificate).and_then(|it| it.public_key());
    let private = PKey::private_key_from_pem(&key);
    public.and_then(|it| Ok(it.public_eq(&*private?))).map_err(|why| NotSet::Openssl(why.to_string()))
}

fn token() -> Result<String, NotSet> {
    let mut bytes = [0; BYTES_OF_TOKEN];
    openssl::rand::rand_bytes(&mut bytes).map_err(|why| NotSet::Openssl(why.to_string()))?;
    Ok(bytes.map(|it| format!("{it:02x}")).concat())
}

fn is_name(name: &str) -> bool {
    let is_sign = |it: u8| it.is_ascii_alphanumeric() || it == b'-' || it == b'.';
    let is_edge = |it: Option<&u8>| it.is_some_and(u8::is_ascii_alphanumeric);
    let bytes = name.as_bytes();
    bytes.len() <= LONGEST_NAME
        && bytes.iter().all(|it| is_sign(*it))
        && is_edge(bytes.first())
        && is_edge(bytes.last())
}

/// A certificate that the machine signs itself, for this name.
fn sign(name: &str, files: &TlsFiles) -> Result<(), NotSet> {
    if !is_name(name) {
        return Err(NotSet::Name(name.to_string()));
    }
    let mut command = Command::new("openssl");
    command.args(["req", "-x509", "-newkey", "rsa:2048", "-nodes", "-days", DAYS, "-subj", &format!("/CN={name}")]);
    let kind = if name.parse::<IpAddr>().is_ok() { "IP" } else { "DNS" };
    command
        .args(["-addext", &format!("subjectAltName={kind}:{name}"), "-keyout"])
        .arg(&files.key)
        .arg("-out")
        .arg(&files.certificate);
    let told = command.output().map_err(|why| NotSet::Openssl(why.to_string()))?;
    if told.status.success() {
        return Ok(());
    }
    Err(NotSet::Openssl(String::from_utf8_lossy(&told.stderr).trim().to_string()))
}

/// The settings with this address, and with the lines of the certificate. `None` if they are not as they are installed.
fn with_tls(text: &str, listen: &str) -> Option<String> {
    let is_address = |line: &&str| line.starts_with("listen = ");
    let is_certificate = |line: &&str| line.starts_with("# tls_certificate = ") || line.starts_with("# tls_key = ");
    if (text.lines().filter(is_address).count(), text.lines().filter(is_certificate).count()) != (1, 2) {
        return None;
    }
    let changed = text.lines().map(|line| match line {
        it if is_address(&it) => format!("listen = \"{listen}\"\n"),
        it if is_certificate(&it) => format!("{}\n", it.trim_start_matches("# ")),
        it => format!("{it}\n"),
    });
    Some(changed.collect())
}

#[cfg(test)]
mod tests {
    use super::*;

    #[test]
    fn a_machine_has_a_name() {
        assert!(["relkvanu.example", "localhost", "a", "10.0.0.5", "a-b.c"].into_iter().all(is_name));
        let long = "a".repeat(LONGEST_NAME + 1);
        assert!(["", "a/CN=b", "-a", "a.", "a b", "a,DNS:b", "*.a", &long].into_iter().all(|it| !is_name(it)));
    }
}
