//! `relkvanu setup-tls --renew`: makes another certificate in a folder of its own, and puts it in the place of the one that is there, which gets another name. After
//! an end at any moment the same command goes on.
use crate::cli;
use crate::disk::{if_there, of, sync_folder};
use crate::setup_tls::{locked, make_certificate, make_whole, staged, NotSet, CERTIFICATE, OF_CERTIFICATE};
use std::fs;
use std::path::Path;

/// The folder of what is made; and its name once all of it is there.
const NEW: &str = "renewed.new";
const WHOLE: &str = "renewed";

/// Makes a certificate, puts one in its place, or both if it is given. Returns what was done, and what comes next.
pub fn renew(given: &cli::SetupTls) -> Result<String, NotSet> {
    let _lock = locked(&given.settings)?;
    for (name, _) in OF_CERTIFICATE {
        is_there(&given.settings.join(name))?;
    }
    let (new, whole) = (given.settings.join(NEW), given.settings.join(WHOLE));
    if new.exists() {
        fs::remove_dir_all(&new).map_err(of(&new))?; // an earlier run has left it
    }
    if given.self_signed {
        let is_made = if whole.exists() { "was made before" } else { "is made" };
        make(given, &whole)?;
        let (at, name) = (whole.join(CERTIFICATE), &given.name);
        return Ok(format!(
            "{} {is_made}: give it to each machine that trusts the certificate that is there, beside that one. Then: relkvanu setup-tls {name} --renew",
            at.display()
        ));
    }
    if given.certificate.is_some() {
        make(given, &whole)?;
    }
    is_there(&whole)?;
    OF_CERTIFICATE.into_iter().try_for_each(|(name, mode)| put(&whole, &given.settings, name, mode))?;
    fs::rename(&whole, &new).map_err(of(&whole))?;
    sync_folder(&new)?;
    fs::remove_dir_all(&new).map_err(of(&new))?;
    Ok("the certificate is renewed, and served after: systemctl reload relkvanu".to_string())
}

fn is_there(path: &Path) -> Result<(), NotSet> {
    if path.exists() {
        Ok(())
    } else {
        Err(NotSet::NotThere(path.to_path_buf()))
    }
}

/// Makes the folder, unless it is there: one that is given has to be that one then.
fn make(given: &cli::SetupTls, whole: &Path) -> Result<(), NotSet> {
    if whole.exists() {
        let same = |from: &Path, name: &str| fs::read(from).ok() == fs::read(whole.join(name)).ok();
        let other = given.certificate.as_deref().filter(|it| !same(it, CERTIFICATE));
        return other.map_or(Ok(()), |_| Err(NotSet::Taken(whole.to_path_buf())));
    }
    let new = given.settings.join(NEW);
    make_whole(&new, whole, &OF_CERTIFICATE, || make_certificate(given, &new))
}

/// Replaces a file, unless it was replaced before. The one that was there stays under another name.
fn put(whole: &Path, settings: &Path, name: &str, mode: u32) -> Result<(), NotSet> {
    let (from, target) = (whole.join(name), settings.join(name));
    let contents = fs::read(&from).map_err(of(&from))?;
    let Some(new) = staged(&target, &contents, mode)? else { return Ok(()) };
    let before = settings.join(format!("{name}.before"));
    if_there(fs::remove_file(&before)).map_err(of(&before))?;
    fs::hard_link(&target, &before).map_err(of(&before))?;
    fs::rename(&new, &target).map_err(of(&target))?;
    Ok(sync_folder(&target)?)
}
