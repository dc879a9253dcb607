//! TLS of the service's own: its certificate and key, which can be read again while it serves.
use super::keys::fresh;
use crate::disk::{of, FileError};
use native_tls::{Identity, Protocol, TlsAcceptor};
use openssl::asn1::Asn1Time;
use openssl::x509::X509;
use std::fs;
use std::path::{Path, PathBuf};
use std::sync::{PoisonError, RwLock};
use std::time::{Duration, SystemTime, UNIX_EPOCH};
use thiserror::Error;

/// Why the certificate or the key can't be used. Another start over the same files ends in the same way.
#[derive(Debug, Error)]
pub enum NoTls {
    #[error(transparent)]
    Unread(#[from] FileError),
    #[error("tls_certificate {}, tls_key {}: {why}", .certificate.display(), .key.display())]
    Bad { certificate: PathBuf, key: PathBuf, why: native_tls::Error },
}

/// The files of a certificate with its chain, and of its key, both in PEM.
#[derive(Clone, Debug, PartialEq, Eq)]
pub struct TlsFiles {
    pub certificate: PathBuf,
    pub key: PathBuf,
}

pub struct Tls {
    files: TlsFiles,
    read: RwLock<Read>,
}

/// What was read from the files.
struct Read {
    acceptor: tokio_native_tls::TlsAcceptor,
    /// When the certificate ends, or the first one of its chain.
    until: Option<SystemTime>,
}

/// A certificate that can take the place of the one that is used.
pub struct Fresh(Read);

impl Tls {
    pub fn read(files: TlsFiles) -> Result<Tls, NoTls> {
        let read = RwLock::new(read(&files)?);
        Ok(Tls { files, read })
    }

    /// What the files have now, or their new copies.
    pub fn fresh(&self) -> Result<Fresh, NoTls> {
        let TlsFiles { certificate, key } = &self.files;
        read(&TlsFiles { certificate: fresh(certificate), key: fresh(key) }).map(Fresh)
    }

    /// From now on new connections get it.
    pub fn take(&self, Fresh(read): Fresh) {
        *self.read.write().unwrap_or_else(PoisonError::into_inner) = read;
    }

    pub fn acceptor(&self) -> tokio_native_tls::TlsAcceptor {
        self.read.read().unwrap_or_else(PoisonError::into_inner).acceptor.clone()
    }

    /// When the certificate ends.
    pub fn until(&self) -> Option<SystemTime> {
        self.read.read().unwrap_or_else(PoisonError::into_inner).until
    }
}

fn read(files: &TlsFiles) -> Result<Read, NoTls> {
    let read = |path: &Path| fs::read(path).map_err(of(path));
    let (certificate, key) = (read(&files.certificate)?, read(&files.key)?);
    let built = Identity::from_pkcs8(&certificate, &key)
        .and_then(|identity| TlsAcceptor::builder(identity).min_protocol_version(Some(Protocol::Tlsv12)).build());
    let until = first_end(&certificate);
    let TlsFiles { certificate, key } = files.clone();
    let acceptor = built.map(Into::into).map_err(|why| NoTls::Bad { certificate, key, why })?;
    Ok(Read { acceptor, until })
}

/// When the first one ends of the certificates of a text in PEM; `None` if that can't be read.
fn first_end(pem: &[u8]) -> Option<SystemTime> {
    let epoch = Asn1Time::from_unix(0).ok()?;
    let end = |certificate: &X509| {
        let since = epoch.diff(certificate.not_after()).ok()?;
        let (days, seconds) = (u64::try_from(since.days).ok()?, u64::try_from(since.secs).ok()?);
        Some(UNIX_EPOCH + Duration::from_secs(days * 86_400 + seconds))
    };
    X509::stack_from_pem(pem).ok()?.iter().map(end).min().flatten()
}

#[cfg(test)]
mod tests {
    use super::*;

    #[test]
    fn what_is_no_certificate_has_no_end() {
        assert_eq!((first_end(b""), first_end(b"no PEM")), (None, None));
    }
}
