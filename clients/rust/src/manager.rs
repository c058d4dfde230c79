//! Clients in a pool of r2d2.
use crate::client::Client;
use crate::error::{Error, Result};
use std::fmt::{self, Debug, Formatter};
use std::io::{Read, Write};

type Open<T> = Box<dyn Fn() -> Result<Client<T>> + Send + Sync>;

/// Opens the clients of a pool of the crate [r2d2](::r2d2), each of which is one connection, and
/// looks after them. With the feature `r2d2`; [`Pool`](crate::Pool) is this crate's own pool.
///
/// When a client is taken, the pool asks whether it is good, but where
/// [`test_on_check_out`](::r2d2::Builder::test_on_check_out) is `false`. No call is made, and nothing
/// is sent: the stream is looked at as before a call, which over TLS finds that the server has ended
/// it. One that is not good is not given out, and one that a call has lost is not taken back, but
/// where it is [opened again](crate::ClientBuilder::with_reconnect).
///
#[cfg_attr(feature = "openssl", doc = "```no_run")]
#[cfg_attr(not(feature = "openssl"), doc = "```ignore")]
/// # fn example() -> Result<(), Box<dyn std::error::Error>> {
/// use metsuwan::{Manager, TlsConnector};
///
/// let server = TlsConnector::new("localhost", 5696)
///     .with_certificate("client.pem", "client.key")
///     .with_authority("ca.pem");
/// let manager = Manager::new(move || Ok(server.connect()?.build()));
/// let pool = r2d2::Pool::builder().max_size(4).build(manager)?;
/// let signature = pool.get()?.sign("42", b"hello")?.signature_data;
/// # let _ = signature; Ok(()) }
/// ```
pub struct Manager<T> {
    open: Open<T>,
}

impl<T: Read + Write> Manager<T> {
    /// Of clients each of which is opened by this.
    pub fn new(open: impl Fn() -> Result<Client<T>> + Send + Sync + 'static) -> Self {
        Manager { open: Box::new(open) }
    }
}

impl<T> Debug for Manager<T> {
    fn fmt(&self, f: &mut Formatter<'_>) -> fmt::Result {
        f.debug_struct("Manager").finish_non_exhaustive()
    }
}

impl<T: Read + Write + Send + 'static> r2d2::ManageConnection for Manager<T> {
    type Connection = Client<T>;
    type Error = Error;

    fn connect(&self) -> Result<Client<T>> {
        (self.open)()
    }

    /// Makes no call: the stream is looked at as before one.
    fn is_valid(&self, client: &mut Client<T>) -> Result<()> {
        client.look()
    }

    /// Whether a call has lost the connection, and it is not opened again.
    fn has_broken(&self, client: &mut Client<T>) -> bool {
        !client.is_open()
    }
}
