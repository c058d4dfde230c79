//! A client of the settings.
use crate::failure::{setting, Failure};
use crate::record::Record;
use crate::settings::{secret_of, Settings};
use metsuwan::{Order, TlsClient, TlsConnector};
use std::time::Duration;
use zeroize::Zeroizing;

/// What a connection is opened with, beside the settings.
#[derive(Default)]
pub struct How {
    /// The most bytes of a response where the setting `limit` is not set.
    pub limit: Option<u32>,
    pub trace: bool,
}

/// A client, and what it records.
pub struct Connected {
    pub client: TlsClient,
    record: Option<Record>,
}

impl Connected {
    /// That each exchange stands in the record.
    pub fn check_record(&self) -> Result<(), Failure> {
        self.record.as_ref().map_or(Ok(()), Record::check)
    }
}

fn needed<'a>(settings: &'a Settings, name: &str) -> Result<&'a str, Failure> {
    let none = || {
        let file = settings.file.as_ref().map(|it| it.display().to_string());
        let file = file.unwrap_or_else(|| "~/.config/metsuwan/kmip.conf".into());
        let option = if name == "server" { ", or the option --server" } else { "" };
        let upper = name.to_uppercase();
        setting(format!("there is no {name}: set it in {file}, or METSUWAN_{upper}{option}"))
    };
    settings.get(name).ok_or_else(none)
}

/// A passphrase or a password: as it is set, of a file, or what the terminal is asked for.
fn secret(
    settings: &Settings,
    name: &str,
    asks: bool,
) -> Result<Option<Zeroizing<String>>, Failure> {
    let file = format!("{name}_file");
    if let Some(value) = settings.get(name) {
        return Ok(Some(Zeroizing::new(value.to_string())));
    }
    if let Some(path) = settings.get(&file) {
        return secret_of(&file, path).map(Some);
    }
    if !asks {
        return Ok(None);
    }
    let said = crate::terminal::ask(name);
    said.map(Some).map_err(|error| {
        setting(format!("there is no {name}, and no terminal can be asked ({error}): set {file}"))
    })
}

fn number<T: std::str::FromStr>(
    settings: &Settings,
    name: &str,
    range: &str,
    is_in: impl Fn(&T) -> bool,
) -> Result<Option<T>, Failure> {
    let Some(text) = settings.get(name) else { return Ok(None) };
    let number = text.parse().ok().filter(is_in);
    number.map(Some).ok_or_else(|| setting(format!("{name} is no number of {range}: {text}")))
}

/// Whether a PEM file has a key that is encrypted.
fn is_encrypted(key: &str) -> bool {
    let pem = std::fs::read(key).map(Zeroizing::new).unwrap_or_default();
    pem.windows(9).any(|part| part == b"ENCRYPTED")
}

/// The credential: a user and a password.
type Credential = Option<(String, Zeroizing<String>)>;

fn credential(settings: &Settings) -> Result<Credential, Failure> {
    let user = settings.get("user");
    let password = secret(settings, "password", user.is_some())?;
    match (user, password) {
        (Some(user), Some(password)) => Ok(Some((user.to_string(), password))),
        (None, Some(_)) => Err(setting("a password needs a user: set user")),
        _ => Ok(None),
    }
}

/// How long, in seconds, where that is set.
fn seconds(settings: &Settings, name: &str) -> Result<Option<Duration>, Failure> {
    let found = number(settings, name, "0 to 86400", |it: &f64| (0.0..=86400.0).contains(it))?;
    Ok(found.map(Duration::from_secs_f64))
}

fn order(settings: &Settings) -> Result<Order, Failure> {
    match settings.get("order") {
        None | Some("first") => Ok(Order::First),
        Some("turns") => Ok(Order::Turns),
        Some(other) => Err(setting(format!("order is neither first nor turns: {other}"))),
    }
}

fn connector(settings: &Settings) -> Result<TlsConnector, Failure> {
    let server = needed(settings, "server")?;
    let (certificate, key) = (needed(settings, "certificate")?, needed(settings, "key")?);
    let mut made = TlsConnector::of_servers([server])
        .with_order(order(settings)?)
        .with_certificate(certificate, key)
        .with_authority(needed(settings, "authority")?);
    if let Some(name) = settings.get("server_name") {
        made = made.with_server_name(name);
    }
    if let Some(age) = seconds(settings, "max_age")?.filter(|age| !age.is_zero()) {
        made = made.with_max_age(age);
    }
    if let Some(most) = seconds(settings, "seconds")? {
        made = made.with_timeout(Some(most));
    }
    if let Some(passphrase) = secret(settings, "passphrase", is_encrypted(key))? {
        made = made.with_passphrase(passphrase.as_str());
    }
    Ok(made)
}

pub fn connect(settings: &Settings, how: &How) -> Result<Connected, Failure> {
    let connector = connector(settings)?;
    let credential = credential(settings)?;
    let limit = number(settings, "limit", "0 to 4294967295", |_: &u32| true)?.or(how.limit);
    let record = settings.get("record").map(Record::open).transpose()?;
    let mut builder = connector.connect()?;
    if let Some((user, password)) = &credential {
        builder = builder.with_credentials(user.as_str(), password.as_str());
    }
    if let Some(limit) = limit {
        builder = builder.with_max_bytes(limit);
    }
    if how.trace {
        builder = builder.with_log(|event| crate::trace::event(&event.to_string()));
    }
    if how.trace || record.is_some() {
        let (record, is_traced) = (record.clone(), how.trace);
        builder = builder.with_record(move |line| {
            if is_traced {
                crate::trace::exchange(line);
            }
            if let Some(record) = &record {
                record.add(line);
            }
        });
    }
    Ok(Connected { client: builder.build(), record })
}
