//! The fake servers, and clients of them. tests/live/unit.sh starts them, and says where they are:
//! METSUWAN_FAKES is the file of their ports, METSUWAN_CERTS the folder of their certificates.
#![allow(dead_code)] // each test takes what it needs

use metsuwan::{TlsClient, TlsConnector};
use std::path::PathBuf;
use std::time::Duration;

/// Servers that keep silent do so for ever: what ends by then has ended by itself, on a busy machine
/// too.
pub const LONG: Duration = Duration::from_secs(100);

pub fn folder() -> PathBuf {
    std::env::var_os("METSUWAN_CERTS").expect("METSUWAN_CERTS").into()
}

pub fn port_of(name: &str) -> u16 {
    let path = std::env::var_os("METSUWAN_FAKES").expect("METSUWAN_FAKES");
    let ports = std::fs::read_to_string(path).unwrap();
    let mut found = ports.lines().filter_map(|line| line.split_once(' '));
    let (_, port) = found.find(|(fake, _)| *fake == name).expect("a fake of this name");
    port.parse().unwrap()
}

pub fn connector(fake: &str, host: &str, client: &str) -> TlsConnector {
    let file = |name: String| folder().join(name);
    TlsConnector::new(host, port_of(fake))
        .with_certificate(file(format!("{client}.pem")), file(format!("{client}.key")))
        .with_authority(file("ca.pem".into()))
        .with_timeout(Some(Duration::from_secs(60)))
}

pub fn client(fake: &str) -> TlsClient {
    connector(fake, "localhost", "client").connect().unwrap().build()
}
