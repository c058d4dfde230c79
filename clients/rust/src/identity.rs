//! Who a client is, and whom it trusts: certificates and keys in PEM, of files or in memory.
use crate::connector::{reasons, strict_context};
use crate::error::{Error, Result};
use openssl::error::ErrorStack;
use openssl::pkey::{PKey, Private};
use openssl::ssl::{SslContext, SslContextBuilder};
use openssl::x509::X509;
use std::fmt::{self, Debug, Display, Formatter};
use std::path::PathBuf;
use std::sync::Arc;

/// A text of PEM. `Debug` shows none.
#[derive(Clone)]
pub(crate) enum Pem {
    File(PathBuf),
    Memory(Arc<[u8]>),
}

impl Display for Pem {
    fn fmt(&self, f: &mut Formatter<'_>) -> fmt::Result {
        match self {
            Pem::File(path) => Display::fmt(&path.display(), f),
            Pem::Memory(_) => f.write_str("in memory"),
        }
    }
}

impl Debug for Pem {
    fn fmt(&self, f: &mut Formatter<'_>) -> fmt::Result {
        Display::fmt(self, f)
    }
}

impl Pem {
    fn bytes(&self, what: &str) -> Result<Arc<[u8]>> {
        match self {
            Pem::Memory(bytes) => Ok(Arc::clone(bytes)),
            Pem::File(path) => std::fs::read(path).map(Into::into).map_err(|error| {
                Error::connect_of(format!("{what} {}: {error}", path.display()), error)
            }),
        }
    }
}

/// What connects as this client, and trusts servers of this authority alone.
pub(crate) fn context_of(
    (certificate, key): (&Pem, &Pem),
    authority: &Pem,
    passphrase: Option<&str>,
) -> Result<SslContext> {
    let chain = certificate.bytes("certificate")?;
    let pem = key.bytes("key")?;
    let trusted = authority.bytes("authority")?;
    for (what, of, pem) in
        [("certificate", certificate, &chain), ("authority", authority, &trusted)]
    {
        is_plain(what, of, pem)?;
        holds(what, of, pem, "certificate")?;
    }
    holds("key", key, &pem, "private key")?;
    let private_key = private_key(key, &pem, passphrase)?;
    let mut context = strict_context().map_err(|error| failed("OpenSSL", &error))?;
    trust(&mut context, authority, &trusted)
        .map_err(|error| failed(&format!("authority {authority}"), &error))?;
    show(&mut context, certificate, &chain)
        .map_err(|error| failed(&format!("certificate {certificate}"), &error))?;
    context
        .set_private_key(&private_key)
        .and_then(|()| context.check_private_key())
        .map_err(|error| failed(&format!("certificate {certificate}, key {key}"), &error))?;
    Ok(context.build())
}

fn trust(
    context: &mut SslContextBuilder,
    of: &Pem,
    pem: &[u8],
) -> std::result::Result<(), ErrorStack> {
    if let Pem::File(path) = of {
        return context.set_ca_file(path);
    }
    let authorities = X509::stack_from_pem(pem)?;
    authorities.into_iter().try_for_each(|one| context.cert_store_mut().add_cert(one))
}

fn show(
    context: &mut SslContextBuilder,
    of: &Pem,
    pem: &[u8],
) -> std::result::Result<(), ErrorStack> {
    if let Pem::File(path) = of {
        return context.set_certificate_chain_file(path);
    }
    let mut chain = X509::stack_from_pem(pem)?.into_iter();
    let own = chain.next().ok_or_else(ErrorStack::get)?;
    context.set_certificate(&own)?;
    chain.try_for_each(|one| context.add_extra_chain_cert(one))
}

/// A text of PEM has a block whose label ends so.
fn holds(what: &str, of: &Pem, pem: &[u8], label: &str) -> Result<()> {
    let end = format!("{}-----", label.to_ascii_uppercase());
    let is_begin = |line: &str| line.starts_with("-----BEGIN ") && line.trim_end().ends_with(&end);
    if String::from_utf8_lossy(pem).lines().any(is_begin) {
        return Ok(());
    }
    Err(Error::connect(format!("{what} {of}: there is no {label} in PEM")))
}

/// No block of a text of PEM is encrypted: OpenSSL would ask the terminal for its passphrase.
fn is_plain(what: &str, of: &Pem, pem: &[u8]) -> Result<()> {
    let is_encrypted = |line: &str| line.starts_with("Proc-Type:") && line.contains("ENCRYPTED");
    // The key may stand in the file of the certificate, and is read from its own.
    let text = String::from_utf8_lossy(pem);
    let certificates = text.split("-----BEGIN ").filter(|block| block.contains("CERTIFICATE-----"));
    if certificates.flat_map(str::lines).any(is_encrypted) {
        return Err(Error::connect(format!("{what} {of}: a block of it is encrypted")));
    }
    Ok(())
}

fn failed(what: &str, errors: &ErrorStack) -> Error {
    Error::connect(format!("{what}: {}", reasons(errors)))
}

fn private_key(of: &Pem, pem: &[u8], passphrase: Option<&str>) -> Result<PKey<Private>> {
    let mut is_encrypted = false;
    // Without this the terminal is asked.
    let key = PKey::private_key_from_pem_callback(pem, |room| {
        is_encrypted = true;
        let passphrase = passphrase.unwrap_or("").as_bytes();
        let room = room.get_mut(..passphrase.len()).ok_or_else(ErrorStack::get)?;
        room.copy_from_slice(passphrase);
        Ok(passphrase.len())
    });
    key.map_err(|errors| {
        let why = match passphrase {
            _ if !is_encrypted => return failed(&format!("key {of}"), &errors),
            None => "no passphrase is given",
            Some(_) => "this is not its passphrase",
        };
        Error::connect(format!("key {of}: it is encrypted, and {why}"))
    })
}
