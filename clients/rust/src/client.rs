//! A client over a stream.
use crate::answer::Answer;
use crate::batch::{self, Batch, Ids};
use crate::carrier::{Carrier, Uses};
use crate::error::{Error, Result};
use crate::item::Item;
use crate::library::{self, NoRequest, Operation, Status};
use crate::log::{Begun, Event};
use crate::options::Given;
use crate::process::Process;
use crate::record;
use crate::servers::{Server, Servers};
use crate::word::{with_options, Word, Words};
use std::fmt::{self, Debug, Formatter};
use std::io::{self, Read, Write};
use std::path::Path;
use std::sync::{Arc, Mutex, MutexGuard, PoisonError};

/// The most bytes of a response where no limit is given: 1 MiB.
pub const DEFAULT_LIMIT: u32 = 1 << 20;

type Random = fn(&mut [u8]) -> io::Result<()>;

/// The calls that change nothing on the server: they may be made twice.
const CHANGELESS: [&str; 32] = [
    "query",
    "discover",
    "locate",
    "get",
    "attributes",
    "sign",
    "encrypt",
    "decrypt",
    "mac",
    "mac-verify",
    "verify",
    "hash",
    "check",
    "attribute-list",
    "validate",
    "rng",
    "Query",
    "DiscoverVersions",
    "Locate",
    "Get",
    "GetAttributes",
    "GetAttributeList",
    "Sign",
    "SignatureVerify",
    "Encrypt",
    "Decrypt",
    "MAC",
    "MACVerify",
    "Hash",
    "Check",
    "Validate",
    "RNGRetrieve",
];

/// A user and a password.
#[derive(Clone)]
struct Credential {
    user: String,
    password: String,
}

/// Makes a client. `Debug` shows no password.
pub struct ClientBuilder<T> {
    carrier: Carrier<T>,
    credential: Option<Credential>,
    limit: u32,
}

impl<T: Read + Write> ClientBuilder<T> {
    /// Over this stream, as an `SslStream` or a `StreamOwned` of rustls. The time of a call is that
    /// of the stream: see [`with_before_call`](Self::with_before_call).
    pub fn new(stream: T) -> Self {
        let servers = Arc::new(Servers::one(Server::nameless()));
        ClientBuilder::of(Carrier::new(Some(stream), Uses::plain(), servers))
    }

    pub(crate) fn of(carrier: Carrier<T>) -> Self {
        ClientBuilder { carrier, credential: None, limit: DEFAULT_LIMIT }
    }

    /// Requests carry this user and this password.
    pub fn with_credentials(self, user: impl Into<String>, password: impl Into<String>) -> Self {
        let credential = Some(Credential { user: user.into(), password: password.into() });
        ClientBuilder { credential, ..self }
    }

    /// The most bytes of a response, its head counted: 1 MiB where no limit is given; 0 is no
    /// limit.
    pub fn with_max_bytes(self, limit: u32) -> Self {
        ClientBuilder { limit, ..self }
    }

    /// Before each call this is called with the stream: it may begin a deadline, or look whether
    /// the connection is open. Where it gives an error, nothing is sent, and the call is a
    /// `RequestWriteError`. A pool of r2d2 has it called, too, when a client is taken.
    pub fn with_before_call(
        mut self,
        mut before_call: impl FnMut(&mut T) -> io::Result<()> + Send + 'static,
    ) -> Self {
        self.carrier.uses.begin = Box::new(move |stream, _| before_call(stream));
        self
    }

    /// A stream that is lost is opened again by this for the next call, with the error of that call
    /// where it is not. A call itself is made again, once, where nothing of it was sent, or where it
    /// changes nothing, and not where its time was over: `query`, `discover`, `locate`, `get`,
    /// `attributes`, `attribute-list`, `sign`, `encrypt`, `decrypt`, `mac`, `mac-verify`, `verify`,
    /// `hash`, `check`, `validate` and `rng`, and of the operations `Encrypt` and the like.
    /// [`with_log`](Self::with_log) is told of it. Under KMIP's Usage Limits a `sign`, `encrypt`,
    /// `decrypt` or `mac` that is made again may count twice. With this, a client of several servers
    /// has the one at hand alone.
    pub fn with_reconnect(mut self, reopen: impl FnMut() -> Result<T> + Send + 'static) -> Self {
        self.carrier.reopens_by(reopen);
        self
    }

    /// This is told of each call that has ended, and of a connection that is opened again. It is
    /// called within a call of the client, which it may not use.
    ///
    /// With the feature `tracing` a subscriber is told of the same, also where there is no listener,
    /// at the target `metsuwan`, and may not use the client either. The fields are `operation`,
    /// `server`, `status` as `kmip_call` has it, `error`, its kind, `elapsed_ms`, and `response`, the
    /// skeleton of a response that is no answer: no value, no identifier, and nothing that the server
    /// said. The level is `DEBUG` where the call is answered, `WARN` where it is not and where it is
    /// made again, and `INFO` where the connection is opened again.
    pub fn with_log(mut self, listener: impl FnMut(&Event<'_>) + Send + 'static) -> Self {
        self.carrier.log.set(Box::new(listener));
        self
    }

    /// This is told of each exchange whose whole response came, also of an operation and of a batch,
    /// a line with its line feed: `raw REQUEST RESPONSE` in hex, the request without its credential,
    /// which `kmip_run replay` answers again; or, where it has no such call, `message REQUEST
    /// RESPONSE`. Keys stand in it where they were sent or given. It is called within a call of the
    /// client, which it may not use; what it cannot write is its own to tell.
    pub fn with_record(mut self, mut listener: impl FnMut(&str) + Send + 'static) -> Self {
        self.carrier.record = Some(Box::new(move |line| {
            listener(line);
            Ok(())
        }));
        self
    }

    /// The same, with a file, to which each line is added at its end. Other processes and threads may
    /// add theirs at the same time: it is locked for the one write alone, and not while a server is
    /// waited for. Where a line cannot be written whole, the file is as it was, and the call is a
    /// `NotRecorded`, whose [`answers`](Error::answers) have what the server answered.
    ///
    /// # Errors
    /// `ConfigurationError`: the file cannot be opened
    pub fn with_record_file(mut self, path: impl AsRef<Path>) -> Result<Self> {
        let path = path.as_ref();
        let record = record::to_file(path);
        let record = record
            .map_err(|error| Error::configuration(format!("record {}: {error}", path.display())))?;
        self.carrier.record = Some(record);
        Ok(self)
    }

    /// The client.
    pub fn build(self) -> Client<T> {
        let ClientBuilder { mut carrier, credential, limit } = self;
        carrier.log.tell_untold();
        let (process, servers) = (Process::this(), Arc::clone(carrier.servers()));
        let carrier = Mutex::new(carrier);
        Client { carrier, servers, process, credential, limit, random: library::random }
    }
}

/// What `Debug` shows of a credential: the user alone.
fn user_of(credential: &Option<Credential>) -> Option<&str> {
    credential.as_ref().map(|credential| credential.user.as_str())
}

impl<T> Debug for ClientBuilder<T> {
    fn fmt(&self, f: &mut Formatter<'_>) -> fmt::Result {
        f.debug_struct("ClientBuilder")
            .field("user", &user_of(&self.credential))
            .field("limit", &self.limit)
            .finish_non_exhaustive()
    }
}

/// A KMIP client. Threads may share it: one call at a time is made on its stream.
///
/// Each call gives an [`Error`] by its kind where it is not answered. After an error that
/// [`is_lost`](Error::is_lost), the stream is dropped, and each later call is a
/// `RequestWriteError`, but where it is [opened again](ClientBuilder::with_reconnect). `Debug` shows
/// no password.
///
/// It is of the process that made it: in the child of a fork each call is a `RequestWriteError`, and
/// where the stream is one of this crate, its end ends nothing of the parent's.
pub struct Client<T> {
    carrier: Mutex<Carrier<T>>,
    servers: Arc<Servers>,
    /// The process whose connection it is.
    process: Process,
    credential: Option<Credential>,
    limit: u32,
    /// What makes the Unique Batch Item IDs of operations and batches.
    random: Random,
}

/// Options of a call by their names, each with its value, which for `prehashed` is empty.
pub type Options<'a> = &'a [(&'a str, &'a str)];

impl<T> Debug for Client<T> {
    fn fmt(&self, f: &mut Formatter<'_>) -> fmt::Result {
        f.debug_struct("Client")
            .field("user", &user_of(&self.credential))
            .field("limit", &self.limit)
            .finish_non_exhaustive()
    }
}

impl<T: Read + Write> Client<T> {
    /// Makes any call: its name, and the words after it. `metsuwan.h` and `kmip_call --operations`
    /// have all of them.
    ///
    /// The request of a call of a further operation, as `encrypt`, has eight random bytes as its
    /// Unique Batch Item ID. An answer with another one, or with none, is that of another call. The
    /// names of its values are those of KMIP's tags, as `data` and `unique_identifier`; where several
    /// items have one tag, the value is their list.
    ///
    /// # Errors
    /// - `GrammarError`: the words are none of a call, as bytes where it has an identifier
    /// - `OtherObject`: the answer is that of another call
    /// - those of every call
    ///
    /// ```no_run
    /// # use metsuwan::{Client, Result, Word};
    /// # fn example<T: std::io::Read + std::io::Write>(client: &Client<T>) -> Result<Vec<u8>> {
    /// let words = [Word::Text("5"), Word::Bytes(b"hello"), Word::Option("mode", "ECB")];
    /// client.call("encrypt", &words)?.bytes_at("data")
    /// # }
    /// ```
    pub fn call(&self, name: &str, words: &[Word<'_>]) -> Result<Answer> {
        self.call_words(&Words::new(name, words)?)
    }

    /// The same with options by their names, which stand after the other words.
    pub fn call_with(
        &self,
        name: &str,
        words: &[Word<'_>],
        options: Options<'_>,
    ) -> Result<Answer> {
        self.call(name, &with_options(words, options.iter().copied()))
    }

    /// The same with options by their types.
    pub(crate) fn call_given(
        &self,
        name: &str,
        words: &[Word<'_>],
        options: &Given<'_>,
    ) -> Result<Answer> {
        self.call(name, &with_options(words, options.iter().map(|(name, value)| (*name, &**value))))
    }

    /// The same with words that were typed: numbers in decimal digits, bytes in hex digits, options
    /// as `hash=SHA384`.
    pub fn call_texts(&self, name: &str, texts: &[&str]) -> Result<Answer> {
        self.call_words(&Words::of_texts(name, texts)?)
    }

    /// Makes a call of any operation of KMIP 1.0 to 1.2 by its name, as `Encrypt`, with this version,
    /// as `1.2`. The request's payload is a structure of these items, and what is given back is the
    /// response's payload. Whether it is about the object that was asked about is the caller's to
    /// look at.
    ///
    /// The request has eight random bytes as its Unique Batch Item ID. An answer with another one,
    /// or with none, is that of another call.
    ///
    /// # Errors
    /// - `GrammarError`: the operation or the version has another name, or an item is none of KMIP's
    /// - `OtherObject`: the answer is that of another call
    /// - those of every call
    pub fn do_operation(&self, name: &str, version: &str, items: Vec<Item>) -> Result<Item> {
        let payload = Item::new("RequestPayload", items).to_json().to_string();
        let answer = self.operation(name, version, &payload)?;
        let none = || Error::missing("the answer is no item");
        Item::of_json(answer.json()).ok_or_else(none)
    }

    /// The same with the request's payload in the JSON of KMIP's Additional Message Encodings; the
    /// answer is the response's payload in the same JSON:
    /// `{"tag":"RequestPayload","value":[{"tag":"Data","type":"ByteString","value":"00FF"}]}`.
    pub fn operation(&self, name: &str, version: &str, payload: &str) -> Result<Answer> {
        self.make(Asked::Operation(Operation::new(name, version, payload)))
    }

    /// An empty batch, to which calls are added, and which is then sent as one message.
    pub fn batch(&self) -> Batch<'_, T> {
        Batch::new(self)
    }

    /// The stream, where no call has lost it, and it is none of a process that this one was forked
    /// from.
    pub fn into_inner(self) -> Option<T> {
        if !self.is_own() {
            return None;
        }
        let carrier = self.carrier.into_inner().unwrap_or_else(PoisonError::into_inner);
        carrier.stream.filter(|_| !carrier.is_busy)
    }

    fn call_words(&self, words: &Words) -> Result<Answer> {
        self.make(Asked::Words(words, &[]))
    }

    fn make(&self, asked: Asked<'_>) -> Result<Answer> {
        let mut carrier = self.own_carrier()?;
        carrier.ends_by(|carrier| {
            let mut item_id = [0; 8];
            let (plain, asked) = (asked, asked.identified(&mut item_id, self.random)?);
            let request = asked.request(self.credential())?;
            let call = Begun::begin(asked.name());
            let response =
                carrier.response_again(call, &request, self.limit, asked.is_changeless());
            let read = response.as_ref().map_or(0, Vec::len);
            let unwritten = carrier.record(&response, || plain.request(None));
            let answer = response.and_then(|response| asked.read(response));
            carrier.tell_end(call, asked.name(), answer.as_ref().err(), (request.len(), read));
            match unwritten {
                None => answer,
                Some(error) => Err(Error::not_recorded(error, vec![answer])),
            }
        })
    }

    /// Makes these calls in one message, whose request is made of theirs, and gives the answer to
    /// each, or its error.
    pub(crate) fn make_batch(
        &self,
        calls: &[Asked<'_>],
        message_of: impl Fn(&[Vec<u8>], Ids) -> Result<Vec<u8>>,
        responses_of: impl FnOnce(&[u8], Ids) -> Result<Vec<Option<Vec<u8>>>>,
    ) -> Result<Vec<Result<Answer>>> {
        let mut carrier = self.own_carrier()?;
        carrier.ends_by(|carrier| {
            let mut first_id = [0; 8];
            (self.random)(&mut first_id).map_err(Error::no_random)?;
            let ids = Ids::new(first_id);
            let message = |credential: Option<(&str, &str)>| {
                let requests = calls.iter().map(|call| call.request(credential));
                message_of(&requests.collect::<Result<Vec<_>>>()?, ids)
            };
            let request = message(self.credential())?;
            let call = Begun::begin("batch");
            let is_changeless = calls.iter().all(Asked::is_changeless);
            let response = carrier.response_again(call, &request, self.limit, is_changeless);
            let read = response.as_ref().map_or(0, Vec::len);
            let unwritten = carrier.record(&response, || message(None));
            let responses = response.and_then(|response| responses_of(&response, ids));
            let name = format!("a batch of {}", calls.len());
            carrier.tell_end(call, &name, responses.as_ref().err(), (request.len(), read));
            let answers = match responses {
                Ok(responses) => calls.iter().zip(responses).map(answer_of_batch).collect(),
                Err(error) if unwritten.is_none() => return Err(error),
                Err(error) => vec![Err(error)],
            };
            if let Some(error) = unwritten {
                return Err(Error::not_recorded(error, answers));
            }
            if answers.iter().any(|answer| matches!(answer, Err(error) if error.is_lost())) {
                carrier.stream = None;
            }
            Ok(answers)
        })
    }

    pub(crate) fn credential(&self) -> Option<(&str, &str)> {
        self.credential
            .as_ref()
            .map(|credential| (credential.user.as_str(), credential.password.as_str()))
    }
}

impl<T> Client<T> {
    /// Whether calls can be made: no call has lost the connection, or it may be opened again.
    pub fn is_open(&self) -> bool {
        self.own_carrier().is_ok_and(|carrier| carrier.is_open())
    }

    /// The server of the connection, or the one that was tried last, as `localhost:5696`. That of a
    /// stream of your own is empty; so it is in the child of a fork.
    pub fn server(&self) -> String {
        self.own_carrier().map_or(String::new(), |carrier| carrier.server().into())
    }

    /// Whether of several that are free the one is to be taken that was idle longest.
    pub(crate) fn goes_by_turns(&self) -> bool {
        self.servers.go_by_turns()
    }

    /// Whether this process made it, and not one that it was forked from.
    pub(crate) fn is_own(&self) -> bool {
        self.process.is_this()
    }

    /// Makes no call, and sends nothing: looks at the stream as before a call. After an error it is
    /// dropped.
    pub(crate) fn look(&self) -> Result<()> {
        self.own_carrier()?.ends_by(Carrier::look)
    }

    /// The stream and what goes with it. In the child of a fork the lock may be that of a thread
    /// which is not there, so it is not taken. A call that panicked in the middle of a message has
    /// lost the connection, for all who come after it.
    fn own_carrier(&self) -> Result<MutexGuard<'_, Carrier<T>>> {
        if !self.is_own() {
            return Err(Error::not_own());
        }
        let mut carrier = self.carrier.lock().unwrap_or_else(PoisonError::into_inner);
        if carrier.is_busy {
            carrier.stream = None;
            carrier.is_busy = false;
        }
        Ok(carrier)
    }
}

/// The answer to a call of a batch, where the server has come to it.
fn answer_of_batch((call, response): (&Asked<'_>, Option<Vec<u8>>)) -> Result<Answer> {
    let response = response.ok_or_else(Error::not_done)?;
    let is_undone = batch::is_undone(&response);
    match call.read(response) {
        Err(Error::InternalError(_)) if is_undone => Err(Error::undone()),
        answer => answer,
    }
}

/// A call, as the library takes it.
#[derive(Clone, Copy)]
pub(crate) enum Asked<'a> {
    /// Words, and the Unique Batch Item ID of the request, where that has one.
    Words(&'a Words, &'a [u8]),
    /// Any operation.
    Operation(Operation<'a>),
}

impl<'a> Asked<'a> {
    /// The same call with a Unique Batch Item ID that no answer to another call has; a typed one,
    /// whose request has none, as it is.
    fn identified(self, item_id: &'a mut [u8], random: Random) -> Result<Self> {
        if matches!(self, Asked::Words(words, _) if words.is_typed()) {
            return Ok(self);
        }
        random(item_id).map_err(Error::no_random)?;
        Ok(match self {
            Asked::Words(words, _) => Asked::Words(words, item_id),
            Asked::Operation(call) => Asked::Operation(call.with_item_id(item_id)),
        })
    }
}

impl Asked<'_> {
    /// The request, or the error of a call that is none.
    pub(crate) fn request(&self, credential: Option<(&str, &str)>) -> Result<Vec<u8>> {
        let request = match self {
            Asked::Words(words, item_id) => library::request(&words.given(), item_id, credential),
            Asked::Operation(call) => library::operation_request(call, credential),
        };
        request.map_err(|reason| match reason {
            NoRequest::Grammar => self.grammar(),
            NoRequest::NoForm => Error::no_form(),
            NoRequest::Memory => Error::memory(),
        })
    }

    /// The name of the call.
    fn name(&self) -> &str {
        match self {
            Asked::Words(words, _) => words.texts().next().unwrap_or(""),
            Asked::Operation(call) => call.name,
        }
    }

    fn is_changeless(&self) -> bool {
        CHANGELESS.contains(&self.name())
    }

    fn answer(&self, response: &[u8]) -> (Status, String) {
        match self {
            Asked::Words(words, item_id) => library::answer(&words.given(), item_id, response),
            Asked::Operation(call) => library::operation_answer(call, response),
        }
    }

    /// The error of a call that is none.
    fn grammar(&self) -> Error {
        let said = match self {
            Asked::Words(words, _) => library::refusal(&words.given()),
            Asked::Operation(call) => library::operation_refusal(call),
        };
        Error::grammar(said.unwrap_or_else(|| "the call is none".into()))
    }

    /// What a response answers to the call.
    fn read(self, response: Vec<u8>) -> Result<Answer> {
        let (status, line) = self.answer(&response);
        match status {
            Status::Answered => {
                Answer::of_line(line, response).ok_or_else(|| Error::of_line("", true))
            }
            Status::Refused => Err(Error::of_line(&line, false)),
            Status::Lost => Err(Error::of_line(&line, true)),
            Status::Grammar => Err(self.grammar()),
            Status::Memory => Err(Error::memory()),
        }
    }
}

#[cfg(test)]
mod tests {
    use super::*;
    use crate::library::NO_ITEMS;

    /// A stream that has failed where it is used.
    struct Unused;

    impl Write for Unused {
        fn write(&mut self, _: &[u8]) -> io::Result<usize> {
            panic!("something is sent")
        }

        fn flush(&mut self) -> io::Result<()> {
            Ok(())
        }
    }

    impl Read for Unused {
        fn read(&mut self, _: &mut [u8]) -> io::Result<usize> {
            panic!("something is read")
        }
    }

    fn without_random_bytes(call: impl Fn(&Client<Unused>) -> Error) {
        let mut client = ClientBuilder::new(Unused).build();
        client.random = |_| Err(io::Error::from_raw_os_error(38));
        let error = call(&client);
        let wanted =
            "RequestWriteError: no random bytes for the Unique Batch Item ID: Function not \
                      implemented (os error 38); nothing was sent";
        assert_eq!(error.to_string(), wanted);
        assert_eq!(error.details().io_error().and_then(io::Error::raw_os_error), Some(38));
        assert!(error.is_lost() && !client.is_open());
    }

    #[test]
    fn a_typed_call_wants_no_random_bytes() {
        let mut client = ClientBuilder::new(io::Cursor::new(Vec::<u8>::new())).build();
        client.random = |_| Err(io::Error::from_raw_os_error(38));
        // It is sent, and no answer comes.
        let error = client.call("activate", &[Word::Text("k")]).unwrap_err();
        assert!(matches!(error, Error::ResponseReadError(_)), "{error}");
    }

    #[test]
    fn without_random_bytes_nothing_is_sent() {
        without_random_bytes(|client| client.operation("Encrypt", "1.2", NO_ITEMS).unwrap_err());
        let words = [Word::Text("5"), Word::Bytes(b"hello")];
        without_random_bytes(|client| client.call("encrypt", &words).unwrap_err());
        without_random_bytes(|client| {
            client.batch().call("query", &[]).unwrap().send().unwrap_err()
        });
    }
}
