//! What a client tells of its calls.
use crate::error::Error;
use std::fmt::{self, Display, Formatter};
use std::time::{Duration, Instant};

/// What has happened.
#[derive(Clone, Copy, Debug, PartialEq, Eq, Hash)]
#[non_exhaustive]
pub enum EventKind {
    /// A call, or a batch, whose request was made has ended.
    Call,
    /// The connection was lost, and the call is made again.
    Repeated,
    /// The connection was lost, or was old, and is opened again for this call.
    Reopened,
    /// One of several servers has failed, and is left out for a while.
    ServerOut,
    /// It answers again.
    ServerBack,
}

/// What [`with_log`](crate::ClientBuilder::with_log) is told: no value of a call, and no identifier.
/// `Display` writes it in words, as `localhost:5696: sign: status 0, 288 bytes sent, 432 read,
/// 1.5 ms`.
#[derive(Clone, Debug)]
#[non_exhaustive]
pub struct Event<'a> {
    /// What has happened.
    pub kind: EventKind,
    /// The name of the call, as `sign`, or of the operation, as `Encrypt`; `batch` of a batch, and
    /// `connect` before the first call.
    pub operation: &'a str,
    /// The kind of the error where there is one, as `ItemNotFound`.
    pub error: Option<&'static str>,
    /// How long the call has taken until now.
    pub elapsed: Duration,
    text: String,
    response: Option<String>,
}

impl Event<'_> {
    /// The skeleton of a response that is no answer: the tags, types and nesting of its items, and the
    /// numbers of its enumerations; no value, and nothing that the server said.
    pub fn response(&self) -> Option<&str> {
        self.response.as_deref()
    }
}

impl Display for Event<'_> {
    fn fmt(&self, f: &mut Formatter<'_>) -> fmt::Result {
        f.write_str(&self.text)
    }
}

/// The operation of what happens before the first call.
pub(crate) const CONNECT: &str = "connect";

/// What is told of each event.
pub(crate) type Listener = Box<dyn FnMut(&Event<'_>) + Send>;

/// Where a client tells of its calls.
#[derive(Default)]
pub(crate) struct Log {
    listener: Option<Listener>,
    /// What happened before there was one.
    untold: Vec<Event<'static>>,
}

/// A call that is told of.
#[derive(Clone, Copy)]
pub(crate) struct Begun<'a> {
    pub(crate) operation: &'a str,
    begun: Instant,
}

impl<'a> Begun<'a> {
    pub(crate) fn begin(operation: &'a str) -> Self {
        Begun { operation, begun: Instant::now() }
    }

    /// How long it has taken, in words.
    pub(crate) fn took(&self) -> String {
        format!("{:.1} ms", self.begun.elapsed().as_secs_f64() * 1000.0)
    }
}

/// The status that `kmip_call` has for it.
pub(crate) fn status_of(error: Option<&Error>) -> u8 {
    match error {
        None => 0,
        Some(Error::OutOfMemory(_)) => 5,
        Some(error) if error.is_lost() => 3,
        Some(_) => 1,
    }
}

impl Log {
    pub(crate) fn set(&mut self, listener: Listener) {
        self.listener = Some(listener);
    }

    /// Tells the listener what happened before it was known.
    pub(crate) fn tell_untold(&mut self) {
        let untold = std::mem::take(&mut self.untold);
        if let Some(listener) = &mut self.listener {
            untold.iter().for_each(listener);
        }
    }

    /// Of this server, as `localhost:5696`, or of none that is known.
    pub(crate) fn report(
        &mut self,
        call: Begun<'_>,
        kind: EventKind,
        error: Option<&Error>,
        server: &str,
        text: &str,
    ) {
        #[cfg(feature = "tracing")]
        trace(call, kind, error, Some(server).filter(|name| !name.is_empty()));
        let front = if server.is_empty() { String::new() } else { format!("{server}: ") };
        let (operation, text) = (call.operation, front + text);
        let response = error.and_then(|error| error.details().response()).map(str::to_string);
        let (error, elapsed) = (error.map(Error::kind), call.begun.elapsed());
        match &mut self.listener {
            Some(listener) => {
                listener(&Event { kind, operation, error, elapsed, text, response });
            }
            None if operation == CONNECT => {
                let operation = CONNECT;
                self.untold.push(Event { kind, operation, error, elapsed, text, response });
            }
            None => {}
        }
    }
}

/// Tells `tracing` of an event, in the words of this crate alone: the text of an error may repeat
/// what the server said.
#[cfg(feature = "tracing")]
fn trace(call: Begun<'_>, kind: EventKind, error: Option<&Error>, server: Option<&str>) {
    macro_rules! event {
        ($level:ident, $($more:tt)+) => {
            tracing::$level!(
                target: "metsuwan",
                operation = call.operation,
                server,
                error = error.map(Error::kind),
                elapsed_ms = call.begun.elapsed().as_secs_f64() * 1000.0,
                $($more)+
            )
        };
    }
    let status = status_of(error);
    match (kind, error) {
        (EventKind::Call, None) => event!(debug, status, "the call is answered"),
        (EventKind::Call, Some(error)) => {
            let response = error.details().response();
            event!(warn, status, response, "the call is not answered")
        }
        (EventKind::Repeated, _) => {
            event!(warn, "the connection was lost, and the call is made again")
        }
        (EventKind::Reopened, _) => event!(info, "the connection was lost, and is opened again"),
        (EventKind::ServerOut, _) => {
            event!(warn, "the server has failed, and is left out for a while")
        }
        (EventKind::ServerBack, _) => event!(info, "the server answers again"),
    }
}
