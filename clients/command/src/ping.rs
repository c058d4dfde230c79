//! What the settings are, and what the server is.
use crate::connect::{connect, Connected, How};
use crate::failure::{plain, Failure};
use crate::output::print;
use crate::settings::Settings;
use crate::view::lines;
use openssl::ssl::SslRef;
use openssl::x509::{X509Ref, X509VerifyResult};
use std::net::IpAddr;
use std::time::Instant;

/// Each setting with its value, which is not shown where it is secret, and where it stands.
fn shown(settings: &Settings) -> String {
    let file = settings.file.as_ref().map_or("none".into(), |it| it.display().to_string());
    let profile = settings.profile.as_deref().unwrap_or("default");
    let mut rows = vec![("file".to_string(), file), ("profile".to_string(), profile.to_string())];
    for (name, it) in &settings.of {
        let is_secret = matches!(*name, "password" | "passphrase");
        let value = if is_secret { "not shown" } else { it.value.as_str() };
        rows.push(((*name).to_string(), format!("{} ({})", plain(value), plain(&it.origin))));
    }
    lines(&rows)
}

/// `config check`: the settings, and whether they connect.
pub fn config(settings: &Settings) -> Result<u8, Failure> {
    print(shown(settings).as_bytes())?;
    ping(settings, false)
}

/// The names and addresses that a certificate is for.
fn names_of(certificate: &X509Ref) -> String {
    let address = |bytes: &[u8]| {
        let four = <[u8; 4]>::try_from(bytes).map(IpAddr::from);
        let six = <[u8; 16]>::try_from(bytes).map(IpAddr::from);
        four.or(six).map(|it| it.to_string()).ok()
    };
    let names = certificate.subject_alt_names().into_iter().flatten();
    let names = names.filter_map(|name| {
        let host = name.dnsname().map(str::to_string);
        host.or_else(|| name.ipaddress().and_then(address))
    });
    names.collect::<Vec<_>>().join(", ")
}

fn subject_of(certificate: &X509Ref) -> String {
    let entries = certificate.subject_name().entries();
    let texts = entries.filter_map(|it| Some(it.data().as_utf8().ok()?.to_string()));
    texts.collect::<Vec<_>>().join(", ")
}

/// What TLS is, and whose the server's certificate.
fn rows_of_tls(ssl: &SslRef) -> Vec<(String, String)> {
    let cipher = ssl.current_cipher().map_or("no cipher", |it| it.name());
    let mut rows = vec![("tls".to_string(), format!("{}, {cipher}", ssl.version_str()))];
    if let Some(certificate) = ssl.peer_certificate() {
        let (subject, names) = (subject_of(&certificate), names_of(&certificate));
        let text = format!("{subject}; for {names}; until {}", certificate.not_after());
        rows.push(("certificate".into(), text));
    }
    if ssl.verify_result() != X509VerifyResult::OK {
        rows.push(("trust".into(), ssl.verify_result().error_string().into()));
    }
    rows
}

/// The versions and the operations of the server; what it does not say is no error here.
fn rows_of_server(connected: &Connected) -> Result<Vec<(String, String)>, Failure> {
    let versions = match connected.client.discover() {
        Ok(all) => {
            let all = all.iter().map(|it| format!("{}.{}", it.major, it.minor));
            all.collect::<Vec<_>>().join(" ")
        }
        Err(error) if error.is_lost() => return Err(error.into()),
        Err(error) => format!("not said: {error}"),
    };
    let query = connected.client.query()?;
    let operations = query.operations.unwrap_or_default().join(" ");
    Ok(vec![
        ("versions".into(), versions),
        ("vendor".into(), query.vendor_identification.unwrap_or_default()),
        ("operations".into(), operations),
    ])
}

/// `ping`: the address, TLS, the certificate, versions, operations and milliseconds.
pub fn ping(settings: &Settings, trace: bool) -> Result<u8, Failure> {
    let begun = Instant::now();
    let connected = connect(settings, &How { limit: None, trace })?;
    let opened = begun.elapsed().as_secs_f64() * 1e3;
    let begun = Instant::now();
    let of_server = rows_of_server(&connected)?;
    let took = begun.elapsed().as_secs_f64() * 1e3 / 2.0;
    let mut rows = vec![("server".to_string(), connected.client.server())];
    connected.check_record()?;
    if let Some(stream) = connected.client.into_inner() {
        rows.extend(rows_of_tls(stream.ssl()));
    }
    rows.extend(of_server);
    rows.push(("time".into(), format!("{opened:.1} ms to connect, {took:.1} ms a call")));
    for (_, value) in &mut rows {
        *value = plain(value);
    }
    print(lines(&rows).as_bytes())?;
    Ok(0)
}
