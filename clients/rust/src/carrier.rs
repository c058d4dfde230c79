//! How the messages of a client are carried: over a stream, which is opened again where it was lost,
//! and with the next server where one has failed. What makes or changes is sent to one server at most.
use crate::batch;
use crate::error::{Error, Result};
use crate::library::{self, BadHead};
use crate::log::{self, Begun, EventKind, Log};
use crate::record::{self, Record};
use crate::servers::{Server, Servers};
use crate::time::{Part, Time};
use std::io::{self, ErrorKind, Read, Write};
use std::sync::Arc;
use std::time::{Duration, Instant};

/// The most room that one read is offered.
const PIECE: usize = 65536;

/// The most time of connecting and TLS with a server after which there is another.
const CONNECT: Duration = Duration::from_secs(5);

/// Calls about one that is pending, of which one server alone knows.
const OF_PENDING: [&str; 4] = ["poll", "cancel", "Poll", "Cancel"];

const MAY_BE_DONE: &str = "; it may have been done there, and was sent to no other server";

/// Opens a stream to this server, within this time.
pub(crate) type Open<T> = Box<dyn FnMut(&Server, Time) -> Result<T> + Send>;

/// Called before a call, which has this time.
pub(crate) type Begin<T> = Box<dyn FnMut(&mut T, Time) -> io::Result<()> + Send>;

/// What is done with a stream beside reading and writing.
pub(crate) struct Uses<T> {
    pub(crate) begin: Begin<T>,
    /// An answer has to begin within this part of the time.
    pub(crate) share: fn(&mut T, Part),
    /// Whether a byte has gone out since the call began.
    pub(crate) has_sent: fn(&T) -> bool,
}

impl<T> Uses<T> {
    /// Those of a stream of which nothing is known.
    pub(crate) fn plain() -> Self {
        Uses { begin: Box::new(|_, _| Ok(())), share: |_, _| (), has_sent: |_| true }
    }
}

/// A stream, and what goes with it.
pub(crate) struct Carrier<T> {
    /// None where a call lost it.
    pub(crate) stream: Option<T>,
    /// When it was opened, or the try of that began.
    opened_at: Instant,
    /// Whether a call is made on it, or has panicked.
    pub(crate) is_busy: bool,
    pub(crate) uses: Uses<T>,
    /// What opens it again.
    open: Option<Open<T>>,
    servers: Arc<Servers>,
    /// The server of the stream, or the one that was tried last.
    at: usize,
    /// The one of which the last call is that is pending.
    pending_at: Option<usize>,
    /// The most time of the opening, and of each call.
    pub(crate) timeout: Option<Duration>,
    /// The longest that a stream is used which is opened again.
    pub(crate) max_age: Option<Duration>,
    time: Time,
    /// The servers that failed within it, ..
    tried: Vec<bool>,
    /// .. and why.
    reasons: Vec<String>,
    pub(crate) log: Log,
    pub(crate) record: Option<Record>,
}

impl<T> Carrier<T> {
    /// Of this stream, where there is one, and of these servers.
    pub(crate) fn new(stream: Option<T>, uses: Uses<T>, servers: Arc<Servers>) -> Self {
        let tried = vec![false; servers.all.len()];
        Carrier {
            stream,
            opened_at: Instant::now(),
            is_busy: false,
            uses,
            open: None,
            servers,
            at: 0,
            pending_at: None,
            timeout: None,
            max_age: None,
            time: Time::new(None),
            tried,
            reasons: Vec::new(),
            log: Log::default(),
            record: None,
        }
    }

    /// The stream is opened again by this, which knows one server.
    pub(crate) fn reopens_by(&mut self, mut reopen: impl FnMut() -> Result<T> + Send + 'static) {
        let server = self.servers.all[self.at].clone();
        self.servers = Arc::new(Servers::one(server));
        self.at = 0;
        self.tried = vec![false];
        self.open = Some(Box::new(move |_, _| reopen()));
    }

    /// Opens the stream by this, by which it is opened again where that is wanted.
    pub(crate) fn opened_by(mut self, open: Open<T>, reconnects: bool) -> Result<Self> {
        self.open = Some(open);
        self.begin_time();
        self.open_any(Begun::begin(log::CONNECT))?;
        if !reconnects {
            self.open = None;
        }
        Ok(self)
    }

    pub(crate) fn is_open(&self) -> bool {
        self.stream.is_some() || self.open.is_some()
    }

    /// The server of the stream, or the one that was tried last.
    pub(crate) fn server(&self) -> &str {
        &self.servers.all[self.at].text
    }

    /// The servers that all clients of a pool have.
    pub(crate) fn servers(&self) -> &Arc<Servers> {
        &self.servers
    }

    /// Makes a call. After an error that loses it, the stream is dropped.
    pub(crate) fn ends_by<R>(&mut self, make: impl FnOnce(&mut Self) -> Result<R>) -> Result<R> {
        if !self.is_open() {
            return Err(Error::closed());
        }
        self.is_busy = true;
        let made = make(self);
        self.is_busy = false;
        if matches!(&made, Err(error) if error.is_lost()) {
            self.stream = None;
        }
        made
    }

    /// Looks at the stream as before a call, where there is one. It is not good, either, where its
    /// server has failed since it was opened.
    pub(crate) fn look(&mut self) -> Result<()> {
        let Some(stream) = &mut self.stream else { return Ok(()) };
        if self.servers.failed_since(self.at, self.opened_at) {
            return Err(Error::closed());
        }
        (self.uses.begin)(stream, Time::new(self.timeout)).map_err(Error::not_sent)
    }

    fn begin_time(&mut self) {
        self.time = Time::new(self.timeout);
        self.tried.fill(false);
        self.reasons.clear();
    }

    /// How many servers this call may still try, the one at hand counted.
    fn untried(&self) -> usize {
        self.tried.iter().filter(|tried| !**tried).count()
    }

    /// The share of the time of the server at hand; the last one has all that is left.
    fn share(&self, most: Option<Duration>) -> Time {
        match self.untried() {
            0 | 1 => self.time,
            left => self.time.share(left, most),
        }
    }

    fn tell(&mut self, call: Begun<'_>, kind: EventKind, error: Option<&Error>, text: &str) {
        let server = &self.servers.all[self.at].text;
        self.log.report(call, kind, error, server, text);
    }

    /// Tells the log that a call of this name has ended, which sent and read so many bytes.
    pub(crate) fn tell_end(
        &mut self,
        call: Begun<'_>,
        name: &str,
        error: Option<&Error>,
        (sent, read): (usize, usize),
    ) {
        let what = match error {
            Some(error) if read == 0 => error.kind().to_string(),
            _ => format!("status {}, {sent} bytes sent, {read} read", log::status_of(error)),
        };
        let text = format!("{name}: {what}, {}", call.took());
        self.tell(call, EventKind::Call, error, &text);
    }

    /// Adds what failed to what is told of the call; of several servers with which of them it was.
    fn add_reason(&mut self, which: usize, why: &str) {
        let server = &self.servers.all[which].text;
        let several = self.servers.are_several();
        self.reasons.push(if several { format!("{server}: {why}") } else { why.into() });
    }

    /// The server at hand is not tried again in this call, and left out for a while.
    fn server_fails(&mut self, call: Begun<'_>, error: &Error) {
        let why = error.cause();
        self.tried[self.at] = true;
        let pause = self.servers.failed(self.at, self.opened_at, error.is_refusal(), &why);
        self.add_reason(self.at, &why);
        if self.servers.are_several() {
            let text = format!("{why}: it is left out for {:.1} s", pause.as_secs_f64());
            self.tell(call, EventKind::ServerOut, Some(error), &text);
        }
    }

    /// Adds those that were not tried, and why.
    fn add_untried(&mut self) {
        for which in 0..self.tried.len() {
            let out = self.servers.out(which);
            if self.tried[which] {
                continue;
            }
            let why = match (out.refuses, out.time.is_zero()) {
                (true, _) => {
                    format!("left out for {:.0} s more: {}", out.time.as_secs_f64(), out.why)
                }
                (false, false) => format!("not tried within the time, after: {}", out.why),
                (false, true) => "not tried within the time".into(),
            };
            self.add_reason(which, &why);
        }
    }

    /// Opens a stream to the first server, in its turn, with which that comes about.
    fn open_any(&mut self, call: Begun<'_>) -> Result<()> {
        let mut last = None;
        while last.is_none() || !self.time.is_over() {
            let Some(at) = self.servers.next(&self.tried) else { break };
            (self.at, self.opened_at) = (at, Instant::now());
            let share = self.share(Some(CONNECT));
            let open = self.open.as_mut().ok_or_else(Error::closed)?;
            match open(&self.servers.all[at], share) {
                Ok(stream) => {
                    self.stream = Some(stream);
                    self.opened_at = Instant::now();
                    return Ok(());
                }
                Err(error) => {
                    self.server_fails(call, &error);
                    last = Some(error);
                }
            }
        }
        self.add_untried();
        match last {
            Some(error) if !self.servers.are_several() => Err(error),
            last => Err(Error::no_server(self.reasons.join("; "), last)),
        }
    }

    /// Begins a call: its time, and where it goes. What polls or cancels goes where that came from
    /// which it is about, and to no other server. Whether the stream is left since it is old.
    fn begin_call(&mut self, operation: &str) -> bool {
        self.begin_time();
        if self.open.is_none() {
            return false;
        }
        let only = self.pending_at.filter(|_| OF_PENDING.contains(&operation));
        if let Some(only) = only {
            self.tried.fill(true);
            self.tried[only] = false;
        }
        let is_old = self.max_age.is_some_and(|age| self.opened_at.elapsed() > age);
        let leaves = self.stream.is_some() && only.map_or(is_old, |only| only != self.at);
        if leaves {
            self.stream = None;
        }
        leaves && only.is_none()
    }

    /// What came of the call where it goes to no other server: with all that failed before, where
    /// there are several.
    fn with_all(&self, error: Error, was_sent: bool, is_changeless: bool) -> Error {
        if !self.servers.are_several() || self.reasons.is_empty() {
            return error.with_sent(was_sent);
        }
        let end = if was_sent && !is_changeless { MAY_BE_DONE } else { "" };
        error.with_text(self.reasons.join("; ") + end).with_sent(was_sent)
    }

    /// Tells the servers of an answer.
    fn is_answered(&mut self, call: Begun<'_>, response: &[u8]) {
        if self.servers.answered(self.at) && self.servers.are_several() {
            self.tell(call, EventKind::ServerBack, None, "it answers again");
        }
        if batch::is_pending(response) {
            self.pending_at = Some(self.at);
        }
    }
}

impl<T: Read + Write> Carrier<T> {
    /// The stream is there, which is opened again where it was lost.
    fn ready(&mut self, call: Begun<'_>, is_old: bool) -> Result<()> {
        if self.stream.is_some() {
            return Ok(());
        }
        self.open_any(call)?;
        let text = if is_old {
            "the connection was old, and another one is opened"
        } else {
            "the connection was lost, and is opened again"
        };
        self.tell(call, EventKind::Reopened, None, text);
        Ok(())
    }

    /// The response to a request. Where the server at hand fails, it is sent to each other, once: as
    /// long as nothing of it was sent, and where it changes nothing also after that.
    pub(crate) fn response_again(
        &mut self,
        call: Begun<'_>,
        request: &[u8],
        limit: u32,
        is_changeless: bool,
    ) -> Result<Vec<u8>> {
        let mut is_old = self.begin_call(call.operation);
        let (mut was_open, mut was_sent) = (self.stream.is_some(), false);
        loop {
            self.ready(call, is_old).map_err(|error| error.with_sent(was_sent))?;
            is_old = false;
            let error = match self.response(request, limit, is_changeless) {
                Ok(response) => {
                    self.is_answered(call, &response);
                    return Ok(response);
                }
                Err(error) if error.is_connection_error() => error,
                Err(error) => return Err(error),
            };
            self.stream = None;
            // That a connection ended while it lay idle says nothing of its server.
            let is_idle_end = was_open
                && !(error.is_late() || error.is_refusal())
                && !(error.was_sent() && self.servers.are_several());
            if !is_idle_end {
                self.server_fails(call, &error);
            }
            (was_open, was_sent) = (false, was_sent || error.was_sent());
            let may_go_on = self.open.is_some() && self.untried() > 0;
            if !may_go_on || (was_sent && !is_changeless) {
                return Err(self.with_all(error, was_sent, is_changeless));
            }
            if self.time.is_over() {
                self.add_untried();
                return Err(self.with_all(error, was_sent, is_changeless));
            }
            let text = format!("{}: the call is made again", error.details());
            self.tell(call, EventKind::Repeated, Some(&error), &text);
        }
    }

    /// Tells the record of a response that came, and of the request without its credential and its
    /// Unique Batch Item ID; or gives the error of that.
    pub(crate) fn record(
        &mut self,
        response: &Result<Vec<u8>>,
        request: impl FnOnce() -> Result<Vec<u8>>,
    ) -> Option<io::Error> {
        let (listener, response) = (self.record.as_mut()?, response.as_ref().ok()?);
        let request = match request() {
            Ok(request) => request,
            Err(error) => return Some(io::Error::new(ErrorKind::Other, error)),
        };
        listener(&record::line_of(&request, response)).err()
    }

    /// The three steps that nothing checks: these bytes are sent, 8 are read, and then so many.
    fn response(&mut self, request: &[u8], limit: u32, is_changeless: bool) -> Result<Vec<u8>> {
        let left = if is_changeless && self.open.is_some() { self.untried() } else { 1 };
        let (servers, at) = (Arc::clone(&self.servers), self.at);
        let Some(stream) = &mut self.stream else { return Err(Error::closed()) };
        (self.uses.begin)(stream, self.time).map_err(Error::not_sent)?;
        let sent_at = Instant::now();
        let sent = stream.write_all(request).and_then(|()| stream.flush());
        sent.map_err(|error| Error::write(error, (self.uses.has_sent)(stream)))?;
        if left > 1 {
            // One that answers others is slow, and not dead.
            let is_slow = Box::new(move || servers.answered_since(at, sent_at));
            (self.uses.share)(stream, Part { time: self.time.share(left, None), is_slow });
        }
        read_response(stream, limit)
    }
}

/// Reads a response.
fn read_response(stream: &mut impl Read, limit: u32) -> Result<Vec<u8>> {
    let mut head = [0; 8];
    read(stream, &mut head)?;
    let more = library::contents_len(&head, limit).map_err(|bad| match bad {
        BadHead::TooLong => {
            Error::bad_head(format!("the response is longer than the limit of {limit} bytes"))
        }
        BadHead::NotAStructure => Error::bad_head("not a structure"),
    })?;
    let mut response = head.to_vec();
    let mut left = more;
    while left > 0 {
        let piece = left.min(PIECE);
        let from = response.len();
        if response.capacity() - from < piece {
            // It grows as bytes come, whatever was announced, and no further than that.
            let more = left.min(piece.max(from / 2));
            response.try_reserve_exact(more).map_err(|_| Error::memory())?;
        }
        response.resize(from + piece, 0);
        read(stream, &mut response[from..])?;
        left -= piece;
    }
    Ok(response)
}

/// Reads as many bytes as there is room for.
fn read(stream: &mut impl Read, into: &mut [u8]) -> Result<()> {
    let mut done = 0;
    while done < into.len() {
        match stream.read(&mut into[done..]) {
            Ok(0) => {
                return Err(Error::read(io::Error::new(ErrorKind::UnexpectedEof, "end of input")))
            }
            Ok(count) => done += count,
            Err(error) if error.kind() == ErrorKind::Interrupted => {}
            Err(error) => return Err(Error::read(error)),
        }
    }
    Ok(())
}
