//! The tokens and the certificate, which the service reads again at SIGHUP.
use super::tls::{self, NoTls, Tls};
use crate::auth::{Caller, NoTokens, Tokens};
use crate::log;
use crate::metrics::Metrics;
use std::path::{Path, PathBuf};
use std::sync::atomic::{AtomicU64, Ordering};
use std::sync::{Arc, PoisonError, RwLock};
use thiserror::Error;

pub struct Keys {
    file: Option<PathBuf>,
    tokens: RwLock<Option<Arc<Tokens>>>,
    tls: Option<Tls>,
    /// How often the tokens were read.
    read: AtomicU64,
}

impl Keys {
    /// Reads the file of tokens, if there is one.
    pub fn read(file: Option<PathBuf>, tls: Option<Tls>) -> Result<Keys, NoTokens> {
        let tokens = RwLock::new(file.as_deref().map(Tokens::read).transpose()?.map(Arc::new));
        Ok(Keys { file, tokens, tls, read: AtomicU64::new(1) })
    }

    pub fn tokens(&self) -> Option<Arc<Tokens>> {
        self.tokens.read().unwrap_or_else(PoisonError::into_inner).clone()
    }

    /// The name of the caller's token, if there are others too.
    pub fn token_of(&self, caller: &Caller) -> Option<String> {
        self.tokens().filter(|tokens| tokens.are_several()).map(|_| caller.name.clone())
    }

    pub fn tls(&self) -> Option<&Tls> {
        self.tls.as_ref()
    }

    /// Tells the metrics when the tokens and the certificate end.
    pub fn tell(&self, metrics: &Metrics) {
        metrics.upkeep.tokens(self.tokens().as_deref());
        metrics.upkeep.certificate(self.tls.as_ref().and_then(Tls::until));
    }

    /// Changes each time the tokens are read, so that what lasts long can end.
    pub fn generation(&self) -> u64 {
        self.read.load(Ordering::SeqCst)
    }

    /// Reads all files again, and takes what they say in the place of what was read before. If one of them can't be used, all stays as it was.
    pub fn read_again(&self, metrics: &Metrics) {
        let read = self.fresh();
        metrics.upkeep.reload_failed.set(read.is_err().into());
        match read {
            Ok((tokens, certificate)) => {
                self.take(tokens, certificate);
                self.tell(metrics);
            }
            Err(why) => log::error(&format!("the tokens and the certificate stay as they were: {why}")),
        }
    }

    fn fresh(&self) -> Result<(Option<Tokens>, Option<tls::Fresh>), Unread> {
        let tokens = self.file.as_deref().map(|file| Tokens::read(&fresh(file))).transpose()?;
        Ok((tokens, self.tls.as_ref().map(Tls::fresh).transpose()?))
    }

    fn take(&self, tokens: Option<Tokens>, certificate: Option<tls::Fresh>) {
        match tokens {
            Some(tokens) => {
                *self.tokens.write().unwrap_or_else(PoisonError::into_inner) = Some(Arc::new(tokens));
                self.read.fetch_add(1, Ordering::SeqCst);
                log::info("the tokens are read again");
            }
            None => log::info("there is no file of tokens to be read again"),
        }
        if let (Some(tls), Some(certificate)) = (&self.tls, certificate) {
            tls.take(certificate);
            log::info("the certificate is read again");
        }
    }
}

/// Why the files are not read again.
#[derive(Debug, Error)]
enum Unread {
    #[error(transparent)]
    Tokens(#[from] NoTokens),
    #[error(transparent)]
    Tls(#[from] NoTls),
}

/// Where a file is read again: its new copy, if there is one. The unit gives the service copies of files that root alone can read, and
/// `systemctl reload` makes new ones in the folder that `RELKVANU_KEYS` names.
pub(super) fn fresh(file: &Path) -> PathBuf {
    let copy =
        std::env::var_os("RELKVANU_KEYS").zip(file.file_name()).map(|(folder, name)| Path::new(&folder).join(name));
    copy.filter(|copy| copy.exists()).unwrap_or_else(|| file.to_path_buf())
}
