//! Why there is no answer, and the status.
use metsuwan::Json;
use std::io::{IsTerminal, Write};

/// What is said, and the status that the program ends with.
#[derive(Debug)]
pub struct Failure {
    pub status: u8,
    pub kind: String,
    pub text: String,
    /// The client's own line of JSON.
    line: Option<String>,
}

impl Failure {
    pub fn new(status: u8, kind: &str, text: impl Into<String>) -> Failure {
        Failure { status, kind: kind.into(), text: text.into(), line: None }
    }

    /// A line of JSON.
    pub fn json(&self) -> String {
        let member = |name: &str, value: &str| (name.into(), Json::text(value));
        let own = || {
            let members = vec![member("error", &self.kind), member("text", &self.text)];
            Json::Object(members).to_string()
        };
        self.line.clone().unwrap_or_else(own)
    }

    /// Words on a terminal, a line of JSON elsewhere. Where standard error takes neither, the
    /// status tells of it.
    pub fn say(&self) {
        let mut out = std::io::stderr().lock();
        let _ = if out.is_terminal() {
            writeln!(out, "kmip: {}", plain(&self.text))
        } else {
            writeln!(out, "{}", self.json())
        };
    }
}

/// The words are no call.
pub fn grammar(text: impl Into<String>) -> Failure {
    Failure::new(2, "GrammarError", text)
}

/// A setting is none.
pub fn setting(text: impl Into<String>) -> Failure {
    Failure::new(2, "ConfigurationError", text)
}

/// The call is done, and what it gave cannot be written.
pub fn unwritten(error: std::io::Error) -> Failure {
    Failure::new(4, "NotWritten", format!("the answer cannot be written: {error}"))
}

impl From<metsuwan::Error> for Failure {
    fn from(error: metsuwan::Error) -> Failure {
        Failure::of(error, "this operation")
    }
}

impl Failure {
    /// Of a call of this operation.
    pub fn of(error: metsuwan::Error, operation: &str) -> Failure {
        use metsuwan::Error as E;
        let status = match &error {
            E::GrammarError(_) | E::ConfigurationError(_) => 2,
            E::OutOfMemory(_) => 5,
            _ if error.is_lost() => 3,
            _ => 1,
        };
        let details = error.details();
        let mut text = match (details.reason_name(), details.message()) {
            (Some(name), Some(message)) => format!("the server refused: {message} ({name})"),
            _ => details.text().to_string(),
        };
        let is_unread = details.message().is_some_and(|it| it.contains("parsing request"));
        let hint = match &error {
            E::ConnectError(_) => hint(&text).to_string(),
            // By TLS 1.3 the server looks at the client's certificate after the handshake.
            _ if error.is_lost() && text.contains(REFUSED) => hint(REFUSED).to_string(),
            _ if is_unread => {
                let text = "`kmip query` lists those that it has";
                format!("the server may not have {operation}: {text}")
            }
            _ => String::new(),
        };
        if !hint.is_empty() {
            text = format!("{text}; {hint}");
        }
        let line = Some(with_hint(&error.json().to_string(), &hint));
        Failure { status, kind: error.kind().into(), text, line }
    }
}

/// The client's line of an error, with what mends it.
fn with_hint(line: &str, hint: &str) -> String {
    match line.strip_suffix('}') {
        Some(front) if !hint.is_empty() => {
            format!("{front},\"hint\":{}}}", serde_json::json!(hint))
        }
        _ => line.to_string(),
    }
}

/// How the client tells that the server takes no certificate of ours.
const REFUSED: &str = "the server refused the certificate";
/// What mends an error of connecting. The client tells these errors by their text alone.
const HINTS: [(&str, &str); 15] = [
    ("Connection refused", "nothing listens on this port: look at `server`"),
    ("failed to lookup", "look at the host's name in `server`"),
    (
        "unable to get local issuer",
        "the server's certificate is of another authority than that of `authority`",
    ),
    (
        "self-signed certificate",
        "the server's certificate is of another authority than that of `authority`",
    ),
    (
        "ostname mismatch",
        "the server's certificate has another name: use one that it has in `server`",
    ),
    (
        "IP address mismatch",
        "the server's certificate has not this address: use a name that it has in `server`",
    ),
    ("has expired", "the server's certificate has ended, or the clock of this machine is wrong"),
    (
        "not yet valid",
        "the clock of this machine is wrong, or the server's certificate is not valid yet",
    ),
    ("this is not its passphrase", "look at `passphrase` or `passphrase_file`"),
    ("no passphrase is given", "set `passphrase_file`, or call from a terminal, which is asked"),
    (REFUSED, "the server refuses the client's certificate: look at `certificate`"),
    ("alert", "the server refuses the handshake: look at `certificate`"),
    ("wrong version number", "what listens there speaks no TLS: look at the port in `server`"),
    ("end of input", "the server ended the connection: it may refuse `certificate`"),
    ("no answer within", "a firewall may lie between, or `server` has another port"),
];

fn hint(text: &str) -> &'static str {
    HINTS.iter().find(|(part, _)| text.contains(part)).map_or("", |(_, hint)| hint)
}

/// Whether a terminal would act on this sign, not show it, or turn the direction of what follows:
/// as the client's own errors have it.
fn is_odd(it: char) -> bool {
    it.is_control()
        || matches!(it, '\u{AD}' | '\u{61C}' | '\u{180E}' | '\u{FEFF}' | '\u{FFF9}'..='\u{FFFB}')
        || matches!(it, '\u{200B}'..='\u{200F}' | '\u{2028}'..='\u{202E}')
        || matches!(it, '\u{2060}'..='\u{206F}' | '\u{E0000}'..='\u{E007F}')
}

/// A text with nothing in it that moves a terminal's cursor or turns its direction.
pub fn plain(text: &str) -> String {
    let mut made = String::with_capacity(text.len());
    for it in text.chars() {
        if is_odd(it) {
            made.extend(it.escape_default());
        } else {
            made.push(it);
        }
    }
    made
}

#[cfg(test)]
mod tests {
    use super::*;

    #[test]
    fn a_text_moves_no_cursor() {
        let rows = [
            ("a b", "a b"),
            ("\u{1b}[2J", "\\u{1b}[2J"),
            ("a\nb\r", "a\\nb\\r"),
            ("\u{202E}x\u{200F}", "\\u{202e}x\\u{200f}"),
            ("\u{9B}31m\u{2028}\u{AD}", "\\u{9b}31m\\u{2028}\\u{ad}"),
            ("schl\u{fc}ssel", "schl\u{fc}ssel"),
        ];
        for (text, wanted) in rows {
            assert_eq!(plain(text), wanted);
        }
    }

    #[test]
    fn a_line_has_its_hint() {
        let line = "{\"error\":\"ConnectError\",\"text\":\"x\"}";
        let wanted = "{\"error\":\"ConnectError\",\"text\":\"x\",\"hint\":\"do \\\"y\\\"\"}";
        assert_eq!(with_hint(line, "do \"y\""), wanted);
        assert_eq!(with_hint(line, ""), line);
    }
}
