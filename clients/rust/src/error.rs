//! Why a client has no answer.
use crate::answer::Answer;
use crate::json::Json;
use std::fmt::{self, Display, Formatter, Write};
use std::io;
use std::sync::Arc;

/// What a client's call gives. With a second type it is the standard library's, so that
/// `use metsuwan::*` changes no `Result<T, E>`.
pub type Result<T, E = Error> = std::result::Result<T, E>;

/// The server refused the client's certificate, and so has read nothing of what was sent. A stream's
/// [`io::Error`] that has this within makes a call a `ConnectError`.
#[derive(Clone, Copy, Debug, PartialEq, Eq)]
pub struct CertificateRefused(
    /// The name of the alert of TLS, as `unknown CA`.
    pub &'static str,
);

impl Display for CertificateRefused {
    fn fmt(&self, f: &mut Formatter<'_>) -> fmt::Result {
        write!(f, "the server refused the certificate: {}", self.0)
    }
}

impl std::error::Error for CertificateRefused {}

/// Whether a stream's error is that.
pub(crate) fn is_refusal(error: &io::Error) -> bool {
    error.get_ref().is_some_and(|error| error.is::<CertificateRefused>())
}

/// What is said of an error. `Display` writes its text.
#[derive(Clone, Debug)]
pub struct Details {
    text: String,
    lost: bool,
    /// Whether the server may have read a part of the request.
    sent: bool,
    source: Option<Arc<io::Error>>,
    said: Option<Box<Said>>,
    /// What was answered, where that was not recorded.
    answers: Arc<Vec<Result<Answer>>>,
}

/// What a server said.
#[derive(Clone, Debug, PartialEq, Eq)]
struct Said {
    /// The error by the name that a line of JSON has for it.
    kind: String,
    reason: Option<u32>,
    reason_name: Option<String>,
    message: Option<String>,
    response: Option<String>,
}

/// Two are equal where all that is said is the same, and the stream's errors are of one kind.
impl PartialEq for Details {
    fn eq(&self, other: &Details) -> bool {
        let all = |details: &Details| (details.lost, details.sent, details.io_kind());
        let is_same = self.text == other.text && self.said == other.said;
        is_same && all(self) == all(other) && self.answers == other.answers
    }
}

impl Eq for Details {}

impl Details {
    fn new(text: impl Into<String>, lost: bool) -> Details {
        let (text, answers) = (text.into(), Arc::default());
        Details { text, lost, sent: true, source: None, said: None, answers }
    }

    /// Those of an error before anything was sent.
    fn before(text: impl Into<String>, lost: bool) -> Details {
        Details { sent: false, ..Details::new(text, lost) }
    }

    /// Those of an error of the stream, which is kept.
    fn of_stream(text: impl Into<String>, error: io::Error, sent: bool) -> Details {
        Details { source: Some(Arc::new(error)), sent, ..Details::new(text, true) }
    }

    /// The error, in words.
    pub fn text(&self) -> &str {
        &self.text
    }

    /// The number of the server's Result Reason, where its response reports failure.
    pub fn reason(&self) -> Option<u32> {
        self.said.as_ref()?.reason
    }

    /// KMIP's name of that reason, as `PermissionDenied`, where KMIP 1.2 has one.
    pub fn reason_name(&self) -> Option<&str> {
        self.said.as_ref()?.reason_name.as_deref()
    }

    /// The server's Result Message, where its response reports failure and has one.
    pub fn message(&self) -> Option<&str> {
        self.said.as_ref()?.message.as_deref()
    }

    /// What came, where it was no answer: the tags, types and nesting of its items, and the numbers
    /// of its enumerations; no other value.
    pub fn response(&self) -> Option<&str> {
        self.said.as_ref()?.response.as_deref()
    }

    /// The kind of the stream's error, as `TimedOut` past the deadline and `UnexpectedEof` where
    /// the server ended the connection.
    pub fn io_kind(&self) -> Option<io::ErrorKind> {
        self.io_error().map(io::Error::kind)
    }

    /// The stream's error itself. It is the [`source`](std::error::Error::source), too.
    pub fn io_error(&self) -> Option<&io::Error> {
        self.source.as_deref()
    }
}

impl Display for Details {
    /// The text, which may be a server's, as a terminal can be shown it.
    fn fmt(&self, f: &mut Formatter<'_>) -> fmt::Result {
        self.text.chars().try_for_each(|sign| match sign {
            sign if acts_on_a_terminal(sign) => write!(f, "{}", sign.escape_default()),
            sign => f.write_char(sign),
        })
    }
}

/// Whether a terminal would act on this sign, or not show it, or turn the direction of what follows.
pub(crate) fn acts_on_a_terminal(sign: char) -> bool {
    sign.is_control()
        || matches!(sign, '\u{AD}' | '\u{61C}' | '\u{180E}' | '\u{FEFF}' | '\u{FFF9}'..='\u{FFFB}')
        || matches!(sign, '\u{200B}'..='\u{200F}' | '\u{2028}'..='\u{202E}')
        || matches!(sign, '\u{2060}'..='\u{206F}' | '\u{E0000}'..='\u{E007F}')
}

/// Why a client has no answer. The names are those of kmip-protocol, and some more.
#[derive(Clone, Debug, PartialEq, Eq)]
#[non_exhaustive]
pub enum Error {
    /// The call is not of the grammar. Nothing was sent.
    GrammarError(Details),
    /// A setting of a connection is missing, or is none. Nothing was sent.
    ConfigurationError(Details),
    /// The call was answered, and its answer has not the value that was asked for.
    MissingValue(Details),
    /// There is no connection, or the server refused the client's certificate. It has read nothing of
    /// the request.
    ConnectError(Details),
    /// The request has no wire form. Nothing was sent.
    SerializeError(Details),
    /// The connection failed before it took the whole request, or was closed before. It is closed.
    RequestWriteError(Details),
    /// The connection failed or ended before a whole response, or its time was over. It is closed.
    ResponseReadError(Details),
    /// The response is not well formed, or longer than the limit. The connection is closed.
    DeserializeError(Details),
    /// The server refused the request.
    ServerError(Details),
    /// The response is well formed and is no answer to the request.
    InternalError(Details),
    /// The response is none to this call: it is about another object or of another operation, or is
    /// none of one operation. It was meant for another call. The connection is closed. In a line of
    /// JSON it is an `InternalError` or a `ServerError`.
    OtherObject(Details),
    /// The server refused the request, since it has no such object.
    ItemNotFound(Details),
    /// The server has not done this call of a batch, as after another one that failed.
    NotDone(Details),
    /// The server has undone this call of a batch, since another one failed.
    Undone(Details),
    /// The call was made, and its line was not added to the file of the record. What was answered is
    /// in [`answers`](Error::answers).
    NotRecorded(Details),
    /// Memory ran out. The connection is closed.
    OutOfMemory(Details),
    /// An error of another kind. The connection is closed where it [`is_lost`](Error::is_lost).
    Unknown(Details),
}

impl Error {
    pub(crate) fn grammar(text: impl Into<String>) -> Error {
        Error::GrammarError(Details::before(text, false))
    }

    pub(crate) fn configuration(text: impl Into<String>) -> Error {
        Error::ConfigurationError(Details::before(text, false))
    }

    pub(crate) fn pool_is_closed() -> Error {
        Error::configuration("the pool is closed")
    }

    pub(crate) fn connect(text: impl Into<String>) -> Error {
        Error::ConnectError(Details::before(text, true))
    }

    pub(crate) fn connect_of(text: impl Into<String>, error: io::Error) -> Error {
        Error::ConnectError(Details::of_stream(text, error, false))
    }

    /// That of several servers, with the last error of one of them, where there is any.
    pub(crate) fn no_server(text: impl Into<String>, last: Option<Error>) -> Error {
        let source = last.and_then(|last| last.details().source.clone());
        Error::ConnectError(Details { source, ..Details::before(text, true) })
    }

    pub(crate) fn other_object(text: impl Into<String>) -> Error {
        Error::OtherObject(Details::new(text, true))
    }

    pub(crate) fn missing(text: impl Into<String>) -> Error {
        Error::MissingValue(Details::new(text, false))
    }

    pub(crate) fn no_form() -> Error {
        Error::SerializeError(Details::before("request has no wire form", false))
    }

    pub(crate) fn closed() -> Error {
        Error::RequestWriteError(Details::before(
            "the connection is closed; nothing was sent",
            true,
        ))
    }

    pub(crate) fn not_own() -> Error {
        let text = "the connection is another process's; nothing was sent";
        Error::RequestWriteError(Details::before(text, true))
    }

    pub(crate) fn not_sent(error: io::Error) -> Error {
        if is_refusal(&error) {
            return Error::connect_of(error.to_string(), error);
        }
        let text = format!("{error}; nothing was sent");
        Error::RequestWriteError(Details::of_stream(text, error, false))
    }

    pub(crate) fn no_random(error: io::Error) -> Error {
        let text =
            format!("no random bytes for the Unique Batch Item ID: {error}; nothing was sent");
        Error::RequestWriteError(Details::of_stream(text, error, false))
    }

    /// That of a request of which a byte was sent, or none.
    pub(crate) fn write(error: io::Error, sent: bool) -> Error {
        if is_refusal(&error) {
            return Error::connect_of(error.to_string(), error);
        }
        Error::RequestWriteError(Details::of_stream(error.to_string(), error, sent))
    }

    pub(crate) fn read(error: io::Error) -> Error {
        if is_refusal(&error) {
            return Error::connect_of(error.to_string(), error);
        }
        Error::ResponseReadError(Details::of_stream(error.to_string(), error, true))
    }

    pub(crate) fn bad_head(text: impl Into<String>) -> Error {
        Error::DeserializeError(Details::new(text, true))
    }

    pub(crate) fn not_done() -> Error {
        Error::NotDone(Details::new("the server has not done this call of the batch", false))
    }

    pub(crate) fn undone() -> Error {
        Error::Undone(Details::new("the server has undone this call of the batch", false))
    }

    /// That of a call which was answered like this, or of a batch.
    pub(crate) fn not_recorded(error: io::Error, answers: Vec<Result<Answer>>) -> Error {
        let is_lost = |answer: &Result<Answer>| answer.as_ref().is_err_and(Error::is_lost);
        let lost = answers.iter().any(is_lost);
        let details = Details::of_stream(error.to_string(), error, true);
        Error::NotRecorded(Details { lost, answers: Arc::new(answers), ..details })
    }

    pub(crate) fn memory() -> Error {
        Error::OutOfMemory(Details::new("out of memory", true))
    }

    /// The error of a line `{"error":..,"text":..}`; `lost` where the connection is to be closed.
    pub(crate) fn of_line(line: &str, lost: bool) -> Error {
        let json = Json::parse(line);
        let member = |name: &str| json.as_ref().and_then(|json| json.member(name));
        let text = |name: &str| member(name).and_then(Json::as_text);
        let (Some(kind), Some(said)) = (text("error"), text("text")) else {
            return Error::Unknown(Details::new("the library's line cannot be read", true));
        };
        // An object with a number and a name, or a number alone.
        let reason = member("reason");
        let number = reason.and_then(|reason| reason.member("number").or(Some(reason)));
        let name = reason.and_then(|reason| reason.member("name")).and_then(Json::as_text);
        let details = Details {
            said: Some(Box::new(Said {
                kind: kind.to_string(),
                reason: number.and_then(Json::as_number).and_then(|number| number.try_into().ok()),
                reason_name: name.map(str::to_string),
                message: text("message").map(str::to_string),
                response: text("response").map(str::to_string),
            })),
            ..Details::new(said, lost)
        };
        match (kind, lost) {
            ("SerializeError", false) => Error::SerializeError(Details { sent: false, ..details }),
            ("ServerError", false) => Error::ServerError(details),
            ("ItemNotFound", false) => Error::ItemNotFound(details),
            ("InternalError", false) => Error::InternalError(details),
            ("InternalError" | "ServerError" | "ItemNotFound", true) => Error::OtherObject(details),
            ("RequestWriteError", true) => Error::RequestWriteError(details),
            ("ResponseReadError", true) => Error::ResponseReadError(details),
            ("DeserializeError", true) => Error::DeserializeError(details),
            _ => Error::Unknown(details),
        }
    }

    fn parts(&self) -> (&'static str, &Details) {
        match self {
            Error::GrammarError(details) => ("GrammarError", details),
            Error::ConfigurationError(details) => ("ConfigurationError", details),
            Error::MissingValue(details) => ("MissingValue", details),
            Error::ConnectError(details) => ("ConnectError", details),
            Error::SerializeError(details) => ("SerializeError", details),
            Error::RequestWriteError(details) => ("RequestWriteError", details),
            Error::ResponseReadError(details) => ("ResponseReadError", details),
            Error::DeserializeError(details) => ("DeserializeError", details),
            Error::ServerError(details) => ("ServerError", details),
            Error::InternalError(details) => ("InternalError", details),
            Error::OtherObject(details) => ("OtherObject", details),
            Error::ItemNotFound(details) => ("ItemNotFound", details),
            Error::NotDone(details) => ("NotDone", details),
            Error::Undone(details) => ("Undone", details),
            Error::NotRecorded(details) => ("NotRecorded", details),
            Error::OutOfMemory(details) => ("OutOfMemory", details),
            Error::Unknown(details) => ("Unknown", details),
        }
    }

    fn details_mut(&mut self) -> &mut Details {
        match self {
            Error::GrammarError(details)
            | Error::ConfigurationError(details)
            | Error::MissingValue(details)
            | Error::ConnectError(details)
            | Error::SerializeError(details)
            | Error::RequestWriteError(details)
            | Error::ResponseReadError(details)
            | Error::DeserializeError(details)
            | Error::ServerError(details)
            | Error::InternalError(details)
            | Error::OtherObject(details)
            | Error::ItemNotFound(details)
            | Error::NotDone(details)
            | Error::Undone(details)
            | Error::NotRecorded(details)
            | Error::OutOfMemory(details)
            | Error::Unknown(details) => details,
        }
    }

    /// The same after all tries of a call, with which a byte of it was sent, or none.
    pub(crate) fn with_sent(mut self, sent: bool) -> Error {
        self.details_mut().sent = sent;
        self
    }

    /// The same in these words.
    pub(crate) fn with_text(mut self, text: String) -> Error {
        self.details_mut().text = text;
        self
    }

    /// Why the stream failed, without what came of it for the call.
    pub(crate) fn cause(&self) -> String {
        let details = self.details();
        details.source.as_ref().map_or_else(|| details.text.clone(), ToString::to_string)
    }

    /// Whether the server refused the client's certificate.
    pub(crate) fn is_refusal(&self) -> bool {
        self.details().io_error().is_some_and(is_refusal)
    }

    /// Whether the time of the stream was over.
    pub(crate) fn is_late(&self) -> bool {
        matches!(
            self.details().io_kind(),
            Some(io::ErrorKind::TimedOut | io::ErrorKind::WouldBlock)
        )
    }

    /// The name of its variant.
    pub fn kind(&self) -> &'static str {
        self.parts().0
    }

    /// What is said of the error.
    pub fn details(&self) -> &Details {
        self.parts().1
    }

    /// Whether the connection is closed, and each later call of this client is a
    /// `RequestWriteError`. Whether the server did what was asked is not known, but where nothing
    /// was sent.
    pub fn is_lost(&self) -> bool {
        self.details().lost
    }

    /// Whether the server may have read a part of the request. Where it is false, the call may be
    /// made again.
    pub fn was_sent(&self) -> bool {
        self.details().sent
    }

    /// Of a `NotRecorded` what the call would have given, or each call of a batch; of any other error
    /// nothing.
    pub fn answers(&self) -> &[Result<Answer>] {
        &self.details().answers
    }

    /// Whether the stream failed or ended.
    pub fn is_connection_error(&self) -> bool {
        matches!(
            self,
            Error::ConnectError(_) | Error::RequestWriteError(_) | Error::ResponseReadError(_)
        )
    }

    /// The error as a line of JSON has it: `error`, `text`, and what else is known.
    pub fn json(&self) -> Json {
        let (kind, details) = self.parts();
        let kind = details.said.as_ref().map_or(kind, |said| said.kind.as_str());
        let name = details.reason_name().map(Json::text);
        let number = details.reason().map(|reason| Json::Number(reason.to_string()));
        let reason = number.map(|number| object([("name", name), ("number", Some(number))]));
        object([
            ("error", Some(Json::text(kind))),
            ("text", Some(Json::text(details.text()))),
            ("response", details.response().map(Json::text)),
            ("reason", reason),
            ("message", details.message().map(Json::text)),
        ])
    }
}

/// An object of those members that there are.
fn object<const N: usize>(members: [(&str, Option<Json>); N]) -> Json {
    let known = members.into_iter().filter_map(|(name, value)| Some((name.into(), value?)));
    Json::Object(known.collect())
}

impl Display for Error {
    fn fmt(&self, f: &mut Formatter<'_>) -> fmt::Result {
        let (kind, details) = self.parts();
        write!(f, "{kind}: {details}")
    }
}

impl std::error::Error for Error {
    fn source(&self) -> Option<&(dyn std::error::Error + 'static)> {
        self.details().io_error().map(|error| error as _)
    }
}

#[cfg(test)]
mod tests {
    use super::*;

    #[test]
    fn the_variant_is_by_kind_and_status() {
        let of = |kind: &str, lost| {
            Error::of_line(&format!("{{\"error\":\"{kind}\",\"text\":\"why\"}}\n"), lost)
        };
        assert!(matches!(of("ServerError", false), Error::ServerError(_)));
        assert!(matches!(of("ItemNotFound", false), Error::ItemNotFound(_)));
        assert!(matches!(of("InternalError", false), Error::InternalError(_)));
        assert!(matches!(of("SerializeError", false), Error::SerializeError(_)));
        assert!(matches!(of("Newer", false), Error::Unknown(_)));
        assert!(matches!(of("RequestWriteError", true), Error::RequestWriteError(_)));
        assert!(matches!(of("ResponseReadError", true), Error::ResponseReadError(_)));
        assert!(matches!(of("DeserializeError", true), Error::DeserializeError(_)));
        assert!(matches!(of("InternalError", true), Error::OtherObject(_)));
        assert!(matches!(of("Newer", true), Error::Unknown(_)));
        for lost in [false, true] {
            let error = of("InternalError", lost);
            let kind = if lost { "OtherObject" } else { "InternalError" };
            assert_eq!((error.kind(), error.details().text()), (kind, "why"));
            assert_eq!(error.is_lost(), lost);
            assert_eq!(error.to_string(), format!("{kind}: why"));
            assert_eq!(error.json().to_string(), r#"{"error":"InternalError","text":"why"}"#);
        }
        for kind in ["ServerError", "ItemNotFound"] {
            let error = of(kind, true);
            assert!(matches!(error, Error::OtherObject(_)) && error.is_lost());
            assert!(error.json().to_string().contains(kind));
        }
    }

    #[test]
    fn an_error_of_the_stream_is_kept() {
        use std::error::Error as _;
        let error = Error::read(io::Error::from_raw_os_error(104));
        let source = error.source().and_then(|source| source.downcast_ref::<io::Error>()).unwrap();
        assert_eq!(source.raw_os_error(), Some(104));
        assert_eq!(error.details().io_kind(), Some(io::ErrorKind::ConnectionReset));
        assert_eq!(error, error.clone());
        let other = Error::ResponseReadError(Details::new(error.details().text(), true));
        assert!(error != other && other.source().is_none());
    }

    #[test]
    fn a_reason_has_a_number_and_a_name() {
        let line = "{\"error\":\"ServerError\",\"text\":\"why\",\"reason\":{\"name\":\
                    \"PermissionDenied\",\"number\":12},\"message\":\"no\"}";
        let error = Error::of_line(line, false);
        let details = error.details();
        assert_eq!((details.reason(), details.reason_name()), (Some(12), Some("PermissionDenied")));
        assert_eq!(details.message(), Some("no"));
        assert_eq!(error.json().to_string(), line);
        for odd in ["{}", "\"x\"", "{\"number\":\"x\"}", "[12]", "-1"] {
            let line = format!(r#"{{"error":"ServerError","text":"why","reason":{odd}}}"#);
            assert_eq!(Error::of_line(&line, false).details().reason(), None, "{odd}");
        }
    }

    #[test]
    fn an_error_has_what_the_server_said() {
        let line = "{\"error\":\"InternalError\",\"text\":\"why\",\"response\":\"7B[]\",\
                    \"reason\":{\"number\":18},\"message\":\"not \\\"today\\\" \\u001F\"}";
        let error = Error::of_line(line, false);
        let details = error.details();
        assert_eq!(details.reason(), Some(18));
        assert_eq!(details.message(), Some("not \"today\" \u{1F}"));
        assert_eq!(details.response(), Some("7B[]"));
        assert_eq!(error.json().to_string(), line);
        let error = Error::of_line("{\"error\":\"ServerError\",\"text\":\"why\"}", false);
        assert_eq!(error.json().to_string(), "{\"error\":\"ServerError\",\"text\":\"why\"}");
        assert_eq!(error.details().reason(), None);
    }

    #[test]
    fn no_sign_of_a_text_acts_on_a_terminal() {
        let text = "caf\u{E9} \u{1B}[2J \u{9B}31m \u{202E}gnp.exe \u{2028} \n \u{7F}";
        let error = Error::grammar(text);
        let wanted =
            r"GrammarError: caf\u{E9} \u{1b}[2J \u{9b}31m \u{202e}gnp.exe \u{2028} \n \u{7f}";
        assert_eq!(error.to_string(), wanted.replace(r"\u{E9}", "\u{E9}"));
        assert_eq!(error.details().text(), text);
        assert_eq!(
            Error::grammar("'a' \"b\" \\ \u{4E2D}").to_string(),
            "GrammarError: 'a' \"b\" \\ \u{4E2D}"
        );
    }

    #[test]
    fn a_line_of_no_error_closes() {
        for line in ["", "rubbish", "{}", "{\"error\":\"ServerError\"}", "{\"answer\":{}}"] {
            let error = Error::of_line(line, false);
            assert!(matches!(error, Error::Unknown(_)) && error.is_lost(), "{line}");
        }
    }
}
