//! Calls that are awaited, each of which takes a thread of tokio's.
use crate::client::Client;
use crate::error::{Error, Result};
use crate::pool::Pool;
use crate::process::Process;
use std::fmt::{self, Debug, Formatter};
use std::future::Future;
use std::io::{Read, Write};
use std::sync::Arc;
use tokio::sync::Semaphore;

/// A client whose calls are awaited in a runtime of tokio. With the feature `tokio`.
///
/// There is no second client below it: each call is one of [`Client`], which
/// [`call`](Self::call) makes in a thread of its own, by tokio's `spawn_blocking`, and so it takes a
/// thread as long as it lasts. The next call waits for its turn without one. For many calls at once
/// take an [`AsyncPool`], whose size is that of its threads, too.
///
/// A clone is of the same connection.
///
#[cfg_attr(feature = "openssl", doc = "```no_run")]
#[cfg_attr(not(feature = "openssl"), doc = "```ignore")]
/// # use metsuwan::{AsyncClient, Result, TlsConnector};
/// # async fn example(connector: TlsConnector, key: String) -> Result<()> {
/// let client = AsyncClient::open(move || Ok(connector.connect()?.build())).await?;
/// let signed = client.call(move |client| client.sign(&key, b"hello")).await?;
/// # let _ = signed; Ok(()) }
/// ```
pub struct AsyncClient<T> {
    client: Arc<Client<T>>,
    turns: Arc<Semaphore>,
}

impl<T> Clone for AsyncClient<T> {
    fn clone(&self) -> Self {
        AsyncClient { client: Arc::clone(&self.client), turns: Arc::clone(&self.turns) }
    }
}

impl<T> Debug for AsyncClient<T> {
    fn fmt(&self, f: &mut Formatter<'_>) -> fmt::Result {
        f.debug_tuple("AsyncClient").field(&self.client).finish()
    }
}

impl<T: Read + Write + Send + 'static> AsyncClient<T> {
    /// Of this client.
    pub fn new(client: Client<T>) -> Self {
        AsyncClient { client: Arc::new(client), turns: Arc::new(Semaphore::new(1)) }
    }

    /// Of the client that this opens, which is called in a thread of its own.
    ///
    /// # Errors
    /// - those of what opens it
    /// - `ConfigurationError`: the runtime has ended
    ///
    /// # Panics
    /// In no runtime of tokio, and where what opens it panics.
    pub fn open(
        open: impl FnOnce() -> Result<Client<T>> + Send + 'static,
    ) -> impl Future<Output = Result<Self>> + Send + 'static {
        let turns = Arc::new(Semaphore::new(1));
        let opened = in_thread(Arc::clone(&turns), open);
        async move { Ok(AsyncClient { client: Arc::new(opened.await?), turns }) }
    }

    /// Makes a call, or several, in a thread of its own. Meanwhile no other is made on this
    /// connection. Nothing is done before the future is polled.
    ///
    /// Where the future is dropped before its turn has come, nothing is sent. From then on the call
    /// goes on to its end in its thread, whatever becomes of the future, and the connection stays in
    /// step: the next call waits for that end. So a time that is awaited, as by tokio's `timeout`,
    /// ends the waiting, and not the call, whose time is that of the stream. A runtime that ends
    /// waits for it, too.
    ///
    /// What makes the call and what it gives go from thread to thread, so they are `Send`, and borrow
    /// nothing. The client is not to be kept.
    ///
    /// # Errors
    /// - those of the call
    /// - `ConfigurationError`: the runtime has ended; nothing was sent
    ///
    /// # Panics
    /// In no runtime of tokio, and where what makes the call panics.
    pub fn call<R: Send + 'static>(
        &self,
        make: impl FnOnce(&Client<T>) -> Result<R> + Send + 'static,
    ) -> impl Future<Output = Result<R>> + Send + 'static {
        let client = Arc::clone(&self.client);
        // In the child of a fork nobody gives a turn back, and the call is refused.
        let turns = if client.is_own() { Arc::clone(&self.turns) } else { own_turn() };
        in_thread(turns, move || make(&client))
    }
}

/// A [`Pool`] whose calls are awaited in a runtime of tokio. With the feature `tokio`.
///
/// As of an [`AsyncClient`], each call takes a thread of tokio's, and a connection, as long as it
/// lasts. As many are made at once as the pool has connections; those that wait for their turn take
/// no thread. A clone is of the same pool.
///
#[cfg_attr(feature = "openssl", doc = "```no_run")]
#[cfg_attr(not(feature = "openssl"), doc = "```ignore")]
/// # use metsuwan::{AsyncPool, Pool, Result, TlsConnector};
/// # async fn example(connector: TlsConnector) -> Result<()> {
/// let pool = AsyncPool::new(Pool::new(4, move || Ok(connector.connect()?.build()))?);
/// let signing = ["1", "2", "3"].map(|key| {
///     tokio::spawn(pool.call(move |client| client.sign(key, b"hello")))
/// });
/// # let _ = signing; Ok(()) }
/// ```
pub struct AsyncPool<T> {
    pool: Arc<Pool<T>>,
    turns: Arc<Semaphore>,
    process: Process,
}

impl<T> Clone for AsyncPool<T> {
    fn clone(&self) -> Self {
        let (pool, turns) = (Arc::clone(&self.pool), Arc::clone(&self.turns));
        AsyncPool { pool, turns, process: self.process }
    }
}

impl<T> Debug for AsyncPool<T> {
    fn fmt(&self, f: &mut Formatter<'_>) -> fmt::Result {
        f.debug_tuple("AsyncPool").field(&self.pool).finish()
    }
}

impl<T> AsyncPool<T> {
    /// As [`Pool::close`]; the calls that wait for their turn get the error.
    pub fn close(&self) {
        self.pool.close();
        self.turns.close();
    }
}

impl<T: Read + Write + Send + 'static> AsyncPool<T> {
    /// Of this pool.
    pub fn new(pool: Pool<T>) -> Self {
        let turns = pool.size().min(Semaphore::MAX_PERMITS);
        let (pool, turns) = (Arc::new(pool), Arc::new(Semaphore::new(turns)));
        AsyncPool { pool, turns, process: Process::this() }
    }

    /// As [`AsyncClient::call`], on a client of the pool, which is opened in that thread where it
    /// has to be.
    ///
    /// # Errors
    /// - those of [`Pool::client`]
    /// - those of the call
    /// - `ConfigurationError`: the runtime has ended; nothing was sent
    ///
    /// # Panics
    /// In no runtime of tokio, and where what makes the call, or opens a client, panics.
    pub fn call<R: Send + 'static>(
        &self,
        make: impl FnOnce(&Client<T>) -> Result<R> + Send + 'static,
    ) -> impl Future<Output = Result<R>> + Send + 'static {
        let pool = Arc::clone(&self.pool);
        // In the child of a fork nobody gives a turn back, and threads wait in the pool.
        let turns = if self.process.is_this() { Arc::clone(&self.turns) } else { own_turn() };
        in_thread(turns, move || make(&*pool.client()?))
    }
}

/// A turn that comes at once.
fn own_turn() -> Arc<Semaphore> {
    Arc::new(Semaphore::new(1))
}

/// Makes it in a thread of its own, when its turn has come, which ends with it.
async fn in_thread<R: Send + 'static>(
    turns: Arc<Semaphore>,
    make: impl FnOnce() -> Result<R> + Send + 'static,
) -> Result<R> {
    // (only those of a pool are closed)
    let turn = turns.acquire_owned().await.map_err(|_| Error::pool_is_closed())?;
    let made = tokio::task::spawn_blocking(move || {
        let _turn = turn;
        make()
    });
    match made.await {
        Ok(made) => made,
        Err(error) if error.is_panic() => std::panic::resume_unwind(error.into_panic()),
        Err(_) => Err(Error::configuration("the runtime has ended; nothing was sent")),
    }
}
