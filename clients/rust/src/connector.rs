//! What connects over TLS to one server, or to the next of several.
use crate::carrier::Carrier;
use crate::client::ClientBuilder;
use crate::error::{Error, Result};
use crate::identity::{self, Pem};
use crate::race::Race;
use crate::servers::{Order, Server, Servers};
use crate::time::Time;
use crate::tls::TlsStream;
use openssl::error::ErrorStack;
use openssl::ssl::{
    Ssl, SslContext, SslContextBuilder, SslMethod, SslMode, SslOptions, SslRef, SslVerifyMode,
    SslVersion,
};
use openssl::x509::verify::{X509CheckFlags, X509VerifyFlags};
use std::fmt::{self, Debug, Formatter};
use std::io;
use std::net::{IpAddr, TcpStream};
use std::path::PathBuf;
use std::sync::Arc;
use std::time::Duration;

/// The most time of the opening, and of each call, where no other is given: 30 seconds.
pub const DEFAULT_TIMEOUT: Duration = Duration::from_secs(30);

/// Connects to a server, or to the next of several where one fails. A server is trusted where its
/// certificate is of the given authority, and of no other, and names the host. `Debug` shows no
/// passphrase.
///
/// Several servers have one set of objects; docs/SEVERAL.md says what else a program has to know of
/// them.
///
/// Clones have the servers in common, and what is known of them: so have the clients of a
/// [`Pool`](crate::Pool) which one connector opens.
#[derive(Clone)]
pub struct TlsConnector {
    /// None: they are no list.
    servers: Result<Arc<Servers>>,
    name: Option<String>,
    identity: Option<(Pem, Pem)>,
    authority: Option<Pem>,
    context: Option<SslContext>,
    passphrase: Option<String>,
    timeout: Option<Duration>,
    reconnects: bool,
    max_age: Option<Duration>,
}

impl Debug for TlsConnector {
    fn fmt(&self, f: &mut Formatter<'_>) -> fmt::Result {
        f.debug_struct("TlsConnector")
            .field("servers", &self.servers.as_ref().ok())
            .field("identity", &self.identity)
            .field("authority", &self.authority)
            .field("timeout", &self.timeout)
            .finish_non_exhaustive()
    }
}

impl TlsConnector {
    /// To the server at this host, a name or an address, as `::1`, that its certificate has to
    /// have. The certificate and the authority are needed too.
    pub fn new(host: impl Into<String>, port: u16) -> Self {
        TlsConnector::of(Ok(Servers::one(Server::new(&host.into(), port))))
    }

    /// To one of several servers, at most 16, which have one set of objects. Each text is one, as
    /// `a.example:5696` or `[::1]:5697`, or several with a comma between two; their port is 5696 where
    /// none stands. A list that is none is a `ConfigurationError` of [`connect`](Self::connect).
    ///
    /// All have one deadline. Each has an equal part of what is left, for connecting and TLS at most
    /// 5 seconds, and the last has all; so it is the slowest answer times the servers. It goes on to
    /// the next server where there is no connection, where nothing of a request was sent, and where a
    /// call that changes nothing was not answered in its part of the time, but for a server that has
    /// answered another call meanwhile. What makes or changes is sent to no second server once a byte
    /// of it was sent; then the error says to which it was. What was answered is answered, refusals
    /// too. A server that failed is left out for 1 second, twice as long at each failure more, at most
    /// 60, until it answers. `poll` and `cancel` go to the server of the call that is pending. A
    /// connection that is lost [is opened again](Self::with_reconnect).
    ///
    /// Under KMIP's Usage Limits a `sign`, `encrypt`, `decrypt` or `mac` that is made again may count
    /// twice.
    ///
    /// ```no_run
    /// # use metsuwan::{Result, TlsConnector};
    /// # fn main() -> Result<()> {
    /// let client = TlsConnector::of_servers(["a.example:5696,b.example", "[::1]:5697"])
    ///     .with_server_name("kms.example")
    ///     .with_certificate("client.pem", "client.key")
    ///     .with_authority("ca.pem")
    ///     .connect()?
    ///     .build();
    /// # Ok(()) }
    /// ```
    pub fn of_servers<S: AsRef<str>>(servers: impl IntoIterator<Item = S>) -> Self {
        TlsConnector::of(Servers::of_texts(servers))
    }

    fn of(servers: Result<Servers>) -> Self {
        TlsConnector {
            reconnects: servers.as_ref().is_ok_and(Servers::are_several),
            servers: servers.map(Arc::new),
            name: None,
            identity: None,
            authority: None,
            context: None,
            passphrase: None,
            timeout: Some(DEFAULT_TIMEOUT),
            max_age: None,
        }
    }

    /// In which order several servers are asked: [`Order::First`] where no other is given.
    pub fn with_order(self, order: Order) -> Self {
        TlsConnector { servers: self.servers.map(|servers| Arc::new(servers.anew(order))), ..self }
    }

    /// A name or an address that each certificate has to have in the place of the host, and that is
    /// asked for (SNI).
    pub fn with_server_name(self, name: impl Into<String>) -> Self {
        TlsConnector { name: Some(name.into()), ..self }
    }

    /// The longest that a connection is used which is opened again: then the order of several servers
    /// begins in front. As long as it lasts, where no age is given.
    pub fn with_max_age(self, max_age: Duration) -> Self {
        TlsConnector { max_age: Some(max_age), ..self }
    }

    /// With another identity or another authority nothing is known of the servers yet.
    fn anew(self) -> Self {
        let anew = |servers: Arc<Servers>| Arc::new(servers.anew(servers.order()));
        TlsConnector { servers: self.servers.map(anew), ..self }
    }

    /// PEM files of the client's certificate, with those of authorities between after it, and of
    /// its private key.
    pub fn with_certificate(
        self,
        certificate: impl Into<PathBuf>,
        key: impl Into<PathBuf>,
    ) -> Self {
        let (certificate, key) = (Pem::File(certificate.into()), Pem::File(key.into()));
        TlsConnector { identity: Some((certificate, key)), ..self.anew() }
    }

    /// The same in memory, as texts of PEM. They are not overwritten when they are let go.
    pub fn with_certificate_pem(
        self,
        certificate: impl AsRef<[u8]>,
        key: impl AsRef<[u8]>,
    ) -> Self {
        let pem = |text: &[u8]| Pem::Memory(text.into());
        let identity = Some((pem(certificate.as_ref()), pem(key.as_ref())));
        TlsConnector { identity, ..self.anew() }
    }

    /// The PEM file of the authority of the server's certificate; no other is trusted.
    pub fn with_authority(self, authority: impl Into<PathBuf>) -> Self {
        TlsConnector { authority: Some(Pem::File(authority.into())), ..self.anew() }
    }

    /// The same in memory, as a text of PEM.
    pub fn with_authority_pem(self, authority: impl AsRef<[u8]>) -> Self {
        let authority = Some(Pem::Memory(authority.as_ref().into()));
        TlsConnector { authority, ..self.anew() }
    }

    /// A context in the place of certificate, authority and passphrase, as for a key in hardware or
    /// lists of revoked certificates. Nothing of it is changed, and each connection has the deadline,
    /// the name and the check after the handshake that [`TlsStream::from_ssl`] has.
    pub fn with_context(self, context: SslContext) -> Self {
        TlsConnector { context: Some(context), ..self.anew() }
    }

    /// The passphrase of a private key that is encrypted; no terminal is asked.
    pub fn with_passphrase(self, passphrase: impl Into<String>) -> Self {
        TlsConnector { passphrase: Some(passphrase.into()), ..self }
    }

    /// The most time of the opening, and of each call, whatever the server does: 30 seconds where
    /// no other is given; `None` or zero is no deadline. Servers, their addresses and a connection
    /// that is opened again have it together.
    pub fn with_timeout(self, timeout: Option<Duration>) -> Self {
        TlsConnector { timeout: timeout.filter(|time| !time.is_zero()), ..self }
    }

    /// With `true` a connection that is lost is opened again for the next call, with no file read
    /// again; [`ClientBuilder::with_reconnect`] says which calls are made again themselves. With
    /// several servers it is always so.
    pub fn with_reconnect(self, reconnects: bool) -> Self {
        let several = self.servers.as_ref().is_ok_and(|servers| servers.are_several());
        TlsConnector { reconnects: reconnects || several, ..self }
    }

    /// Connects, and gives the builder of a client on this connection.
    ///
    /// # Errors
    /// - `ConfigurationError`: a setting is missing, or is none
    /// - `ConnectError`: a file cannot be read, or there is no connection to a server that is
    ///   trusted
    pub fn connect(&self) -> Result<ClientBuilder<TlsStream>> {
        let servers = Arc::clone(self.servers.as_ref().map_err(Clone::clone)?);
        for server in &servers.all {
            name_of(&server.host)?;
        }
        let name =
            self.name.as_deref().map(|name| name_of(name).map(str::to_string)).transpose()?;
        let (context, is_callers) = (self.context()?, self.context.is_some());
        let way = Way { context, is_callers, name };
        let open = move |server: &Server, time| {
            let stream = way.open(server, time);
            stream.map_err(|error| Error::connect_of(error.to_string(), error))
        };
        let mut carrier = Carrier::new(None, TlsStream::uses(), servers);
        (carrier.timeout, carrier.max_age) = (self.timeout, self.max_age);
        Ok(ClientBuilder::of(carrier.opened_by(Box::new(open), self.reconnects)?))
    }

    fn context(&self) -> Result<SslContext> {
        if let Some(context) = &self.context {
            let has_other = self.identity.is_some() || self.authority.is_some();
            if has_other || self.passphrase.is_some() {
                let text = "a context stands in the place of certificate, authority and passphrase";
                return Err(Error::configuration(text));
            }
            return Ok(context.clone());
        }
        let missing = |what| Error::configuration(format!("{what} is not given"));
        let (certificate, key) = self.identity.as_ref().ok_or_else(|| missing("certificate"))?;
        let authority = self.authority.as_ref().ok_or_else(|| missing("authority"))?;
        identity::context_of((certificate, key), authority, self.passphrase.as_deref())
    }
}

/// A host without the brackets of an address.
fn bare(host: &str) -> &str {
    let inner = host.strip_prefix('[').and_then(|inner| inner.strip_suffix(']'));
    inner.unwrap_or(host)
}

/// What the server's certificate has to have: the host without the zone of an address, and without
/// the dot that ends a name that is complete. OpenSSL takes an empty name for none, and one that
/// begins with a dot for any below it.
pub(crate) fn name_of(host: &str) -> Result<&str> {
    let name = bare(host).split('%').next().unwrap_or("");
    let name = name.strip_suffix('.').unwrap_or(name);
    if name.is_empty() || name.starts_with('.') || name.contains('\0') {
        return Err(Error::configuration(format!("{host:?} is no host")));
    }
    Ok(name)
}

/// What opens connections: with no file read again, and no passphrase kept.
struct Way {
    context: SslContext,
    /// Whether the context is the caller's.
    is_callers: bool,
    /// None: that of the server's host.
    name: Option<String>,
}

impl Way {
    /// A connection to the first address for which TLS comes about, within this time, of which each
    /// has its share. A refused certificate ends it: the addresses are those of one server.
    fn open(&self, server: &Server, time: Time) -> io::Result<TlsStream> {
        let host = bare(&server.host);
        let own =
            name_of(&server.host).map_err(|_| io::Error::from(io::ErrorKind::InvalidInput))?;
        let name = self.name.as_deref().unwrap_or(own);
        let mut race = Race::begin(host, server.port, &time)?;
        loop {
            let stream = race.next(&time)?;
            let share = if race.left() > 0 { time.share(race.left() + 1, None) } else { time };
            match self.shake_hands(stream, share, name) {
                Err(error) if !crate::error::is_refusal(&error) => race.fails(error),
                done => return done,
            }
        }
    }

    fn shake_hands(&self, stream: TcpStream, time: Time, name: &str) -> io::Result<TlsStream> {
        stream.set_nodelay(true)?;
        let mut ssl = Ssl::new(&self.context)?;
        check_name(&mut ssl, name)?;
        TlsStream::connect(ssl, stream, time, name, self.is_callers)
    }
}

/// What OpenSSL says, without the places in its sources.
pub(crate) fn reasons(errors: &ErrorStack) -> String {
    let reasons: Vec<&str> = errors.errors().iter().filter_map(|one| one.reason()).collect();
    if reasons.is_empty() {
        return errors.to_string();
    }
    reasons.join(", ")
}

/// A context that trusts nobody yet: not even the authorities of the system.
pub(crate) fn strict_context() -> std::result::Result<SslContextBuilder, ErrorStack> {
    let mut context = SslContext::builder(SslMethod::tls_client())?;
    context.set_min_proto_version(Some(SslVersion::TLS1_2))?;
    context.set_verify(SslVerifyMode::PEER);
    // The authority is that of the server's certificate, which may be of another one itself.
    context.verify_param_mut().set_flags(X509VerifyFlags::PARTIAL_CHAIN)?;
    context.set_mode(SslMode::AUTO_RETRY);
    context.set_options(SslOptions::NO_COMPRESSION | SslOptions::NO_RENEGOTIATION);
    Ok(context)
}

/// The server's certificate has to have this name or address among its alternative names: a common
/// name is none, and `*` stands for a whole label.
pub(crate) fn check_name(ssl: &mut SslRef, name: &str) -> std::result::Result<(), ErrorStack> {
    match name.parse::<IpAddr>() {
        Ok(address) => ssl.param_mut().set_ip(address),
        Err(_) => {
            ssl.set_hostname(name)?;
            let flags = X509CheckFlags::NO_PARTIAL_WILDCARDS | X509CheckFlags::NEVER_CHECK_SUBJECT;
            ssl.param_mut().set_hostflags(flags);
            ssl.param_mut().set_host(name)
        }
    }
}
