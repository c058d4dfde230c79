//! What the examples share: the words that they begin with, and what they say of a failure.
use metsuwan::{Error, Json, TlsConnector};
use std::env;
use std::fmt::{self, Display, Formatter};
use std::io::{self, Write};

/// Why there is no answer: a line of JSON, and the status.
#[derive(Debug)]
pub struct Failure(pub Json, pub u8);

impl From<Error> for Failure {
    fn from(error: Error) -> Failure {
        let status = match error {
            Error::GrammarError(_) | Error::ConfigurationError(_) => 2,
            Error::OutOfMemory(_) => 5,
            _ if error.is_lost() => 3,
            _ => 1,
        };
        Failure(error.json(), status)
    }
}

impl Display for Failure {
    fn fmt(&self, f: &mut Formatter<'_>) -> fmt::Result {
        self.0.fmt(f)
    }
}

impl std::error::Error for Failure {}

/// The line of an error.
pub fn error_line(kind: &str, text: &str) -> Json {
    let members = [("error", kind), ("text", text)];
    Json::Object(members.map(|(name, text)| (name.into(), Json::text(text))).into())
}

/// Writes a line to standard error, where that can be written: the status tells of it, too.
pub fn say(line: &impl Display) {
    let _ = writeln!(io::stderr(), "{line}");
}

/// The failure of words that are none.
pub fn wrong(text: &str) -> Failure {
    Failure(error_line("GrammarError", text), 2)
}

/// The arguments of the program.
pub fn arguments() -> Result<Vec<String>, Failure> {
    let words = env::args_os().skip(1).map(|word| word.into_string().ok());
    words.collect::<Option<_>>().ok_or_else(|| wrong("a word is not UTF-8"))
}

/// The server of the first five words, HOST PORT CERTIFICATE KEY AUTHORITY, and the words after
/// them, where there are so many.
pub fn server_of(words: &[String]) -> Result<Option<(TlsConnector, &[String])>, Failure> {
    let [host, port, certificate, key, authority, rest @ ..] = words else {
        return Ok(None);
    };
    let port = port.parse().ok().filter(|port| *port != 0);
    let port = port.ok_or_else(|| wrong("PORT is no number of 1 to 65535"))?;
    let server =
        TlsConnector::new(host, port).with_certificate(certificate, key).with_authority(authority);
    Ok(Some((server, rest)))
}
