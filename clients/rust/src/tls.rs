//! TLS connections by the openssl crate, each use of which ends by a deadline.
use crate::carrier::{Carrier, Uses};
use crate::client::{Client, ClientBuilder};
use crate::connector::{check_name, name_of, reasons};
use crate::error::{Error, Result};
use crate::known;
use crate::process::Process;
use crate::servers::{Server, Servers};
use crate::time::{Part, Time};
use openssl::ssl::{self, ErrorCode, Ssl, SslRef, SslStream};
use openssl::x509::X509VerifyResult;
use std::fmt::{self, Debug, Formatter};
use std::io::{self, ErrorKind, Read, Write};
use std::mem::ManuallyDrop;
use std::net::TcpStream;
use std::os::fd::{AsRawFd, FromRawFd, OwnedFd};
use std::sync::Arc;
use std::time::Duration;

/// A client over TLS.
pub type TlsClient = Client<TlsStream>;

/// A TCP connection, each use of which ends by its time.
struct Timed {
    stream: TcpStream,
    time: Time,
    /// Until when an answer has to begin, where that is before the end of the time.
    part: Option<Part>,
    /// Whether a use waits for the server.
    is_waiting: bool,
    /// Whether a byte has gone out since the call began.
    has_sent: bool,
    /// Whether the server has ended the connection.
    has_ended: bool,
}

impl Timed {
    fn wait(&mut self, is_waiting: bool) -> io::Result<()> {
        self.stream.set_nonblocking(!is_waiting)?;
        self.is_waiting = is_waiting;
        Ok(())
    }

    /// What is left of the time, or of its part.
    fn left(&mut self) -> io::Result<Option<Duration>> {
        if let Some(part) = &self.part {
            match part.time.left() {
                Err(late) if !(part.is_slow)() => return Err(late),
                Err(_) => self.part = None,
                left => return left,
            }
        }
        self.time.left()
    }

    /// Does this until it is done, or the time is over.
    fn in_time<R>(
        &mut self,
        limit: fn(&TcpStream, Option<Duration>) -> io::Result<()>,
        mut step: impl FnMut(&mut TcpStream) -> io::Result<R>,
    ) -> io::Result<R> {
        loop {
            // Whatever comes within TLS, each piece of it is asked for in time.
            let left = self.left()?;
            if self.is_waiting {
                limit(&self.stream, left)?;
            }
            match step(&mut self.stream) {
                Err(error) if error.kind() == ErrorKind::Interrupted => {}
                Err(error)
                    if self.is_waiting
                        && matches!(error.kind(), ErrorKind::WouldBlock | ErrorKind::TimedOut) => {}
                done => return done,
            }
        }
    }
}

impl Read for Timed {
    fn read(&mut self, into: &mut [u8]) -> io::Result<usize> {
        let count = self.in_time(TcpStream::set_read_timeout, |stream| stream.read(into))?;
        self.has_ended |= count == 0 && !into.is_empty();
        Ok(count)
    }
}

impl Write for Timed {
    fn write(&mut self, bytes: &[u8]) -> io::Result<usize> {
        let count = self.in_time(TcpStream::set_write_timeout, |stream| stream.write(bytes))?;
        self.has_sent |= count > 0;
        Ok(count)
    }

    fn flush(&mut self) -> io::Result<()> {
        self.stream.flush()
    }
}

/// A TLS connection, each use of which ends by the deadline of its call. When it is dropped, its end
/// is said to the server, and nothing is waited for. In the child of a fork it is the parent's: each
/// use is an error, and when it is dropped there, nothing is said.
pub struct TlsStream {
    /// Dropped in the process that opened it alone.
    tls: ManuallyDrop<SslStream<Timed>>,
    process: Process,
    /// Whether a byte of an answer was read: then the server has taken the certificate.
    has_read: bool,
    /// The most time of each call, where TLS is the caller's.
    timeout: Option<Duration>,
}

impl TlsStream {
    /// TLS over this connection as the caller has set it up, as for a key in hardware or lists of
    /// revoked certificates. The handshake and each call of a client have this time; `None` or zero
    /// is no deadline.
    ///
    /// Whatever the context allows and its callbacks say, the server has to be known: it is TLS 1.2 or
    /// later, with a cipher of 112 bits at least, in a new session; the server has a certificate with
    /// this name or address, and it is verified by what the context trusts. A context that trusts by
    /// DANE or a pin alone is refused.
    ///
    /// # Errors
    /// - `ConfigurationError`: the name is none
    /// - `ConnectError`: the handshake failed, or the server is not known
    pub fn from_ssl(
        mut ssl: Ssl,
        name: &str,
        stream: TcpStream,
        timeout: Option<Duration>,
    ) -> Result<TlsStream> {
        let timeout = timeout.filter(|time| !time.is_zero());
        let (time, name) = (Time::new(timeout), name_of(name)?);
        let stream = check_name(&mut ssl, name)
            .map_err(io::Error::from)
            .and_then(|()| TlsStream::connect(ssl, stream, time, name, true));
        let mut stream = stream.map_err(|error| Error::connect_of(error.to_string(), error))?;
        stream.timeout = timeout;
        Ok(stream)
    }

    /// What TLS is there: its version, its cipher and the server's certificate.
    pub fn ssl(&self) -> &SslRef {
        self.tls.ssl()
    }

    /// The builder of a client on this connection, which is looked at before each call.
    pub fn into_builder(self) -> ClientBuilder<TlsStream> {
        let (timeout, servers) = (self.timeout, Arc::new(Servers::one(Server::nameless())));
        let mut carrier = Carrier::new(Some(self), TlsStream::uses(), servers);
        carrier.timeout = timeout;
        ClientBuilder::of(carrier)
    }

    /// What a client does with it beside reading and writing.
    pub(crate) fn uses() -> Uses<TlsStream> {
        Uses {
            begin: Box::new(TlsStream::begin),
            share: |stream, part| stream.tls.get_mut().part = Some(part),
            has_sent: |stream| stream.tls.get_ref().has_sent,
        }
    }

    pub(crate) fn connect(
        mut ssl: Ssl,
        stream: TcpStream,
        time: Time,
        name: &str,
        is_callers: bool,
    ) -> io::Result<TlsStream> {
        known::insist(&mut ssl);
        let (is_waiting, has_sent, has_ended) = (true, false, false);
        let timed = Timed { stream, time, part: None, is_waiting, has_sent, has_ended };
        let tls = ManuallyDrop::new(SslStream::new(ssl, timed)?);
        let process = Process::this();
        let mut stream = TlsStream { tls, process, has_read: false, timeout: None };
        stream.tls.connect().map_err(|error| stream.io_error(error))?;
        known::check(stream.tls.ssl(), name, is_callers)
            .map_err(|text| io::Error::new(ErrorKind::PermissionDenied, text))?;
        Ok(stream)
    }

    /// From here on the connection has the time of one call. It is looked at first: nothing may
    /// have come that no call had asked for.
    fn begin(&mut self, time: Time) -> io::Result<()> {
        self.check_process()?;
        let timed = self.tls.get_mut();
        (timed.time, timed.part) = (time, None);
        timed.wait(false)?;
        let early = self.tls.ssl_read(&mut [0]);
        let timed = self.tls.get_mut();
        timed.wait(true)?;
        timed.has_sent = false;
        match early {
            Ok(_) => {
                let text = "the server sent bytes that no call had asked for";
                Err(io::Error::new(ErrorKind::InvalidData, text))
            }
            Err(error) if is_to_wait(&error) => Ok(()),
            Err(error) => Err(self.io_error(error)),
        }
    }

    /// What could not be written may have been refused, with an alert that is not read yet.
    fn alert_or(&mut self, error: io::Error) -> io::Error {
        let is_torn = matches!(error.kind(), ErrorKind::BrokenPipe | ErrorKind::ConnectionReset);
        if !is_torn || self.has_read || self.tls.get_mut().wait(false).is_err() {
            return error;
        }
        match self.tls.ssl_read(&mut [0]) {
            Err(alert) if alert.ssl_error().and_then(known::refusal_of).is_some() => {
                self.io_error(alert)
            }
            _ => error,
        }
    }

    fn check_process(&self) -> io::Result<()> {
        if self.process.is_this() {
            return Ok(());
        }
        Err(io::Error::new(ErrorKind::Other, "the connection is another process's"))
    }

    /// What an error of TLS comes to.
    fn io_error(&self, error: ssl::Error) -> io::Error {
        if self.tls.get_ref().has_ended || error.code() == ErrorCode::ZERO_RETURN {
            return io::Error::new(ErrorKind::UnexpectedEof, "end of input");
        }
        let error = match error.into_io_error() {
            Ok(error) => return error,
            Err(error) => error,
        };
        if let Some(refused) = error.ssl_error().and_then(known::refusal_of) {
            if !self.has_read {
                return io::Error::new(ErrorKind::PermissionDenied, refused);
            }
        }
        let mut text = error.ssl_error().map_or_else(|| error.to_string(), reasons);
        let verified = self.tls.ssl().verify_result();
        if verified != X509VerifyResult::OK {
            text = format!("{text}: {}", verified.error_string());
        }
        io::Error::new(ErrorKind::Other, text)
    }

    /// Does this until it is done.
    fn in_tls(
        &mut self,
        mut step: impl FnMut(&mut SslStream<Timed>) -> std::result::Result<usize, ssl::Error>,
    ) -> io::Result<usize> {
        self.check_process()?;
        loop {
            match step(&mut self.tls) {
                Ok(count) => return Ok(count),
                // A message of TLS itself came.
                Err(error) if is_to_wait(&error) && error.io_error().is_none() => {}
                Err(error) => return Err(self.io_error(error)),
            }
        }
    }
}

fn is_to_wait(error: &ssl::Error) -> bool {
    matches!(error.code(), ErrorCode::WANT_READ | ErrorCode::WANT_WRITE)
}

impl Debug for TlsStream {
    fn fmt(&self, f: &mut Formatter<'_>) -> fmt::Result {
        f.debug_tuple("TlsStream").field(&self.tls.get_ref().stream).finish()
    }
}

impl Read for TlsStream {
    fn read(&mut self, into: &mut [u8]) -> io::Result<usize> {
        if into.is_empty() {
            return Ok(0);
        }
        let count = self.in_tls(|tls| tls.ssl_read(into))?;
        self.has_read = true;
        // What has begun goes on, though slowly.
        self.tls.get_mut().part = None;
        Ok(count)
    }
}

impl Write for TlsStream {
    fn write(&mut self, bytes: &[u8]) -> io::Result<usize> {
        if bytes.is_empty() {
            return Ok(0);
        }
        self.in_tls(|tls| tls.ssl_write(bytes)).map_err(|error| self.alert_or(error))
    }

    fn flush(&mut self) -> io::Result<()> {
        self.tls.get_mut().flush()
    }
}

impl Drop for TlsStream {
    fn drop(&mut self) {
        let timed = self.tls.get_mut();
        if !self.process.is_this() {
            // A thread that is not here may have a lock of OpenSSL, of which nothing is freed. Nor is
            // the descriptor held, by which the parent's end of the connection would be none.
            // Safety: what has the descriptor is never dropped, nor used again.
            drop(unsafe { OwnedFd::from_raw_fd(timed.stream.as_raw_fd()) });
            return;
        }
        // The connection ends, whether the server gets to know it or not.
        (timed.time, timed.part) = (Time::new(Some(Duration::from_secs(1))), None);
        if timed.wait(false).is_ok() {
            let _ = self.tls.shutdown();
        }
        // Safety: this is the end of it.
        unsafe { ManuallyDrop::drop(&mut self.tls) };
    }
}

#[cfg(test)]
mod tests {
    use super::*;
    use crate::connector::strict_context;
    use openssl::asn1::Asn1Time;
    use openssl::ec::{EcGroup, EcKey};
    use openssl::hash::MessageDigest;
    use openssl::nid::Nid;
    use openssl::pkey::{PKey, Private};
    use openssl::ssl::{SslAcceptor, SslMethod};
    use openssl::x509::extension::SubjectAlternativeName;
    use openssl::x509::{X509Name, X509};
    use std::net::TcpListener;
    use std::thread;

    /// A certificate that signs itself, with a common name and perhaps an alternative one.
    fn certificate(key: &PKey<Private>, common: &str, alternative: Option<&str>) -> X509 {
        let mut name = X509Name::builder().unwrap();
        name.append_entry_by_text("CN", common).unwrap();
        let name = name.build();
        let mut made = X509::builder().unwrap();
        made.set_version(2).unwrap();
        made.set_subject_name(&name).unwrap();
        made.set_issuer_name(&name).unwrap();
        made.set_pubkey(key).unwrap();
        made.set_not_before(&Asn1Time::days_from_now(0).unwrap()).unwrap();
        made.set_not_after(&Asn1Time::days_from_now(1).unwrap()).unwrap();
        if let Some(alternative) = alternative {
            let mut names = SubjectAlternativeName::new();
            let names = names.dns(alternative).build(&made.x509v3_context(None, None)).unwrap();
            made.append_extension(names).unwrap();
        }
        made.sign(key, MessageDigest::sha256()).unwrap();
        made.build()
    }

    /// The handshake with a server that has this certificate, which is trusted, as this host.
    fn handshake(common: &str, alternative: Option<&str>, host: &str) -> io::Result<TlsStream> {
        let group = EcGroup::from_curve_name(Nid::X9_62_PRIME256V1).unwrap();
        let key = PKey::from_ec_key(EcKey::generate(&group).unwrap()).unwrap();
        let certificate = certificate(&key, common, alternative);
        let mut server = SslAcceptor::mozilla_intermediate_v5(SslMethod::tls()).unwrap();
        server.set_private_key(&key).unwrap();
        server.set_certificate(&certificate).unwrap();
        let server = server.build();
        let listener = TcpListener::bind(("127.0.0.1", 0)).unwrap();
        let port = listener.local_addr().unwrap().port();
        // What a client that is content with it waits for; it ends where the client is not.
        thread::spawn(move || server.accept(listener.accept().unwrap().0).map(drop));
        let mut context = strict_context().unwrap();
        context.cert_store_mut().add_cert(certificate).unwrap();
        let mut ssl = Ssl::new(&context.build()).unwrap();
        let name = name_of(host).unwrap();
        check_name(&mut ssl, name).unwrap();
        let stream = TcpStream::connect(("127.0.0.1", port)).unwrap();
        let time = Time::new(Some(Duration::from_secs(100)));
        TlsStream::connect(ssl, stream, time, name, false)
    }

    #[test]
    fn a_name_is_an_alternative_one_and_whole() {
        let rows = [
            ("server", Some("kms.example.test"), "kms.example.test", true),
            ("server", Some("kms.example.test"), "kms.example.test.", true),
            ("server", Some("*.example.test"), "kms.example.test", true),
            ("server", Some("k*.example.test"), "kms.example.test", false),
            ("kms.example.test", Some("other.example.test"), "kms.example.test", false),
            ("kms.example.test", None, "kms.example.test", false),
        ];
        for (common, alternative, host, is_taken) in rows {
            match handshake(common, alternative, host) {
                Ok(_) => assert!(is_taken, "{common} {alternative:?} {host}"),
                Err(error) => {
                    let text = error.to_string().to_lowercase();
                    assert!(!is_taken && text.ends_with("hostname mismatch"), "{error}");
                }
            }
        }
    }
}
