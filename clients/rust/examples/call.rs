//! One call, whose arguments are texts. It writes the answer as JSON.
//!
//! call HOST PORT CERTIFICATE KEY AUTHORITY CALL TEXT..
//!
//! Beside the calls of the grammar there are `pem IDENTIFIER`, and what registers the contents of a
//! file: `register-private FILE`, `register-public FILE`, `register-certificate FILE` and
//! `register-secret FILE`, each with `usage=..` and `name=..`; a secret also with `kind=Seed`.
//!
//! The environment may have KMIP_USER and KMIP_PASSWORD, a credential; KMIP_PASSPHRASE, that of an
//! encrypted key; KMIP_LIMIT, the most bytes of a response (1048576 where it is not set; 0: no
//! limit); KMIP_TIMEOUT, the most seconds of connecting and of the call (30; 0: no deadline). With
//! KMIP_PEM set, a key or a certificate that was got is written as PEM.
//!
//! Status: 0 answered, 1 refused, 2 not of the grammar, 3 the connection is lost or there is none,
//! 4 the answer could not be written, 5 out of memory. What is no answer is a line of JSON on
//! standard error.
mod settings;

use metsuwan::{ClientBuilder, Error, Json, Register, SecretDataType, TlsClient, TlsConnector};
use settings::Failure;
use std::env::{self, VarError};
use std::io::Write;
use std::process::ExitCode;
use std::time::Duration;

fn no_setting(text: &str) -> Failure {
    Failure(settings::error_line("ConfigurationError", text), 2)
}

/// A variable of the environment, where it is set and not empty.
fn variable(name: &str) -> Result<Option<String>, Failure> {
    match env::var(name) {
        Ok(text) => Ok(Some(text).filter(|text| !text.is_empty())),
        Err(VarError::NotPresent) => Ok(None),
        Err(VarError::NotUnicode(_)) => Err(no_setting(&format!("{name} is not UTF-8"))),
    }
}

/// The seconds that a text is: `Some(None)` for 0, which is no deadline.
fn seconds(text: &str) -> Option<Option<Duration>> {
    let seconds = text.parse::<f64>().ok().filter(|seconds| (0.0..1e9).contains(seconds))?;
    Some((seconds > 0.0).then(|| Duration::from_secs_f64(seconds)))
}

/// A client of this server, with the settings of the environment.
fn client_of(mut server: TlsConnector) -> Result<TlsClient, Failure> {
    if let Some(text) = variable("KMIP_TIMEOUT")? {
        let no_timeout = || no_setting("KMIP_TIMEOUT is no number of seconds, 0 to 1e9");
        server = server.with_timeout(seconds(&text).ok_or_else(no_timeout)?);
    }
    if let Some(passphrase) = variable("KMIP_PASSPHRASE")? {
        server = server.with_passphrase(passphrase);
    }
    let no_limit = |_| no_setting("KMIP_LIMIT is no number of bytes, 0 to 4294967295");
    let limit = variable("KMIP_LIMIT")?.map(|text| text.parse().map_err(no_limit)).transpose()?;
    let credential = match (variable("KMIP_USER")?, variable("KMIP_PASSWORD")?) {
        (Some(user), Some(password)) => Some((user, password)),
        (None, None) => None,
        _ => return Err(no_setting("a credential is a user and a password")),
    };
    let mut builder = server.connect()?;
    if let Some((user, password)) = credential {
        builder = builder.with_credentials(user, password);
    }
    Ok(limit.into_iter().fold(builder, ClientBuilder::with_max_bytes).build())
}

/// What a file is registered with: `usage=..`, `name=..` and `kind=..`.
fn options_of<'a>(texts: &[&'a str]) -> Result<(Register<'a>, SecretDataType), Failure> {
    let mut found = (Register::default(), SecretDataType::Password);
    for text in texts {
        found = match text.split_once('=') {
            Some(("name", name)) => (found.0.with_name(name), found.1),
            Some(("usage", names)) => {
                let usage = names.parse().map_err(|_| settings::wrong("usage is no names of KMIP"));
                (found.0.with_usage(usage?), found.1)
            }
            Some(("kind", "Password")) => found,
            Some(("kind", "Seed")) => (found.0, SecretDataType::Seed),
            _ => return Err(settings::wrong("there is no such option")),
        };
    }
    Ok(found)
}

/// Registers the contents of a file.
fn register(client: &TlsClient, what: &str, texts: &[&str]) -> Result<String, Failure> {
    let [file, options @ ..] = texts else { return Err(settings::wrong("there is no file")) };
    let bytes =
        std::fs::read(file).map_err(|error| settings::wrong(&format!("{file}: {error}")))?;
    let (options, kind) = options_of(options)?;
    let made = match what {
        "private" => client.register_private_key(&bytes, options),
        "public" => client.register_public_key(&bytes, options),
        "certificate" => client.register_certificate_with(&bytes, options),
        "secret" => client.register_secret(kind, &bytes, options),
        _ => return Err(settings::wrong("there is no such call")),
    };
    let made = Json::text(made?);
    Ok(format!("{{\"answer\":{{\"unique_identifier\":{made}}}}}\n"))
}

fn call(client: &TlsClient, name: &str, texts: &[&str]) -> Result<String, Error> {
    match texts {
        [identifier] if name == "pem" => client.get_key(identifier)?.pem(),
        [identifier] if name == "get" && env::var_os("KMIP_PEM").is_some() => {
            client.get_key(identifier)?.pem()
        }
        _ => Ok(format!("{{\"answer\":{}}}\n", client.call_texts(name, texts)?.json())),
    }
}

fn answer() -> Result<String, Failure> {
    let words = settings::arguments()?;
    let Some((server, [name, texts @ ..])) = settings::server_of(&words)? else {
        return Err(settings::wrong("usage: call HOST PORT CERTIFICATE KEY AUTHORITY CALL TEXT.."));
    };
    let texts: Vec<&str> = texts.iter().map(String::as_str).collect();
    match name.strip_prefix("register-") {
        Some(what) => register(&client_of(server)?, what, &texts),
        None => Ok(call(&client_of(server)?, name, &texts)?),
    }
}

fn main() -> ExitCode {
    match answer() {
        Ok(answer) => {
            let mut out = std::io::stdout();
            let Err(error) = out.write_all(answer.as_bytes()).and_then(|()| out.flush()) else {
                return ExitCode::SUCCESS;
            };
            let why = format!("the answer cannot be written: {error}");
            settings::say(&settings::error_line("NotWritten", &why));
            ExitCode::from(4)
        }
        Err(Failure(line, status)) => {
            settings::say(&line);
            ExitCode::from(status)
        }
    }
}
