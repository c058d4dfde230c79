//! Key rotation: a new RSA pair is made, made active and tried; it takes over the name of the old
//! private key, which is then revoked and destroyed. It writes the new private key's identifier.
//!
//! rotate HOST PORT CERTIFICATE KEY AUTHORITY OLD-PRIVATE-KEY NAME
//!
//! Status: 0 done, 1 refused, 2 not of the grammar, 3 the connection is lost or there is none, 4 the
//! identifier could not be written, 5 out of memory.
mod settings;

use metsuwan::TlsClient;
use settings::Failure;
use std::io::Write;
use std::process::ExitCode;

/// Each step is done only after the one before it was answered.
fn rotate(client: &TlsClient, old: &str, name: &str) -> metsuwan::Result<String> {
    let (new, _public) =
        client.create_rsa_key_pair(2048, format!("{name}, new"), format!("{name}, public"))?;
    client.activate_key(&new)?;
    client.sign(&new, b"hello")?;
    client.rename_key(old, format!("{name}, old"))?;
    client.rename_key(&new, name.to_string())?;
    client.revoke_key(old)?;
    client.destroy_key(old)?;
    Ok(new)
}

fn run() -> Result<String, Failure> {
    let words = settings::arguments()?;
    match settings::server_of(&words)? {
        Some((server, [old, name])) => Ok(rotate(&server.connect()?.build(), old, name)?),
        _ => Err(settings::wrong(
            "usage: rotate HOST PORT CERTIFICATE KEY AUTHORITY OLD-PRIVATE-KEY NAME",
        )),
    }
}

fn main() -> ExitCode {
    match run() {
        Ok(new) => {
            let mut out = std::io::stdout();
            if writeln!(out, "{new}").and_then(|()| out.flush()).is_ok() {
                return ExitCode::SUCCESS;
            }
            let why = "locate finds the new private key by its name";
            settings::say(&settings::error_line("NotWritten", why));
            ExitCode::from(4)
        }
        Err(Failure(line, status)) => {
            settings::say(&line);
            ExitCode::from(status)
        }
    }
}
