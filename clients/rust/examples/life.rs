//! The life of a key: made, active, read, used, named anew, revoked, destroyed, gone.
//!
//! life HOST PORT CERTIFICATE KEY AUTHORITY FOLDER [COUNT]
//!
//! It leaves the public key (PKCS#1) in FOLDER as public.der and public.pem, and the signature of
//! `hello` as signature. With a COUNT it also makes ten times so many queries and so many
//! signatures, and says how long each took.
mod settings;

use metsuwan::{Error, TlsClient};
use settings::Failure;
use std::path::Path;
use std::process::ExitCode;
use std::time::Instant;

type Outcome<T> = Result<T, Box<dyn std::error::Error>>;

fn timed(
    what: &str,
    count: u32,
    mut step: impl FnMut() -> metsuwan::Result<()>,
) -> metsuwan::Result<()> {
    let started = Instant::now();
    for _ in 0..count {
        step()?;
    }
    let each = started.elapsed().as_secs_f64() / f64::from(count);
    println!("rust, library: {what} {:.2} ms, {:.0} a second", each * 1000.0, 1.0 / each);
    Ok(())
}

fn wanted(is_so: bool, otherwise: &str) -> Outcome<()> {
    is_so.then_some(()).ok_or_else(|| otherwise.into())
}

fn live(client: &TlsClient, folder: &Path, count: u32) -> Outcome<()> {
    let server = client.query()?;
    let can_sign = server.operations.iter().flatten().any(|name| name == "Sign");
    wanted(can_sign && server.vendor_identification.is_some(), "query names no Sign")?;
    let (private_key, public_key) =
        client.create_rsa_key_pair(2048, "life, 100%".into(), "life, public".into())?;
    client.activate_key(&private_key)?;
    let public = client.get_key(&public_key)?;
    let is_public = public.object_type == "PublicKey" && public.key_format_type()? == "PKCS1";
    wanted(is_public, "this is no public key in PKCS#1")?;
    std::fs::write(folder.join("public.der"), public.key_material()?)?;
    std::fs::write(folder.join("public.pem"), public.pem()?)?;
    let signed = client.sign(&private_key, b"hello")?;
    std::fs::write(folder.join("signature"), signed.signature_data)?;
    if count > 0 {
        timed("query", 10 * count, || client.query().map(drop))?;
        timed("sign", count, || client.sign(&private_key, b"hello").map(drop))?;
    }
    let renamed = client.rename_key(&private_key, "life, renamed".into())?;
    wanted(renamed.attribute.name == "Name", "another attribute was changed")?;
    client.revoke_key(&private_key)?;
    let again = client.sign(&private_key, b"hello");
    wanted(matches!(again, Err(Error::ServerError(_))), "a revoked key signs")?;
    client.destroy_key(&private_key)?;
    let gone = client.get_key(&private_key);
    let is_gone = matches!(gone, Err(Error::ItemNotFound(_) | Error::ServerError(_)));
    wanted(is_gone, "a destroyed key is there")?;
    client.query()?;
    Ok(())
}

fn run() -> Outcome<()> {
    let words = settings::arguments()?;
    let Some((server, [folder, count @ ..])) = settings::server_of(&words)? else {
        let usage = "usage: life HOST PORT CERTIFICATE KEY AUTHORITY FOLDER [COUNT]";
        return Err(settings::wrong(usage).into());
    };
    let count = count.first().map_or(Ok(0), |text| text.parse())?;
    live(&server.connect()?.build(), Path::new(folder), count)
}

fn main() -> ExitCode {
    match run() {
        Ok(()) => ExitCode::SUCCESS,
        Err(error) => {
            settings::say(&error);
            ExitCode::from(error.downcast_ref().map_or(1, |failure: &Failure| failure.1))
        }
    }
}
