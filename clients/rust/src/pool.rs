//! Several connections to one server, which threads share.
use crate::client::Client;
use crate::error::{Error, Result};
use crate::process::Process;
use std::collections::VecDeque;
use std::fmt::{self, Debug, Formatter};
use std::io::{Read, Write};
use std::ops::Deref;
use std::sync::atomic::{AtomicBool, Ordering::SeqCst};
use std::sync::{Condvar, Mutex, MutexGuard, OnceLock, PoisonError};
use std::time::{Duration, Instant};

/// The most time that a thread waits for a connection where no other is given.
const DEFAULT_WAIT: Duration = Duration::from_secs(30);

type Open<T> = Box<dyn Fn() -> Result<Client<T>> + Send + Sync>;

/// Clients of one server. Each is one connection, on which one call at a time is made: so threads
/// that share a pool wait for none of each other up to its size. A connection is opened when it is
/// first wanted, and looked at as before a call when it is given out again: one that a call has lost,
/// or that the server has ended, is not. The child of a fork has connections of its own.
#[cfg_attr(feature = "openssl", doc = "```no_run")]
#[cfg_attr(not(feature = "openssl"), doc = "```ignore")]
/// # use metsuwan::{Pool, Result, TlsConnector};
/// # fn example(connector: TlsConnector) -> Result<()> {
/// let pool = Pool::new(4, move || Ok(connector.connect()?.build()))?;
/// std::thread::scope(|scope| {
///     for key in ["1", "2", "3"] {
///         let pool = &pool;
///         scope.spawn(move || pool.client()?.sign(key, b"hello"));
///     }
/// });
/// # Ok(()) }
/// ```
pub struct Pool<T> {
    size: usize,
    timeout: Option<Duration>,
    max_age: Option<Duration>,
    open: Open<T>,
    places: Places<T>,
}

/// What one process has of a pool. A child of a fork touches nothing of its parent's, of which a
/// thread that is not there may have the lock.
struct Places<T> {
    process: Process,
    state: Mutex<State<T>>,
    given_back: Condvar,
    /// Set with the lock.
    is_closed: AtomicBool,
    /// Those of a child of this process.
    of_child: OnceLock<Box<Places<T>>>,
}

impl<T> Places<T> {
    fn new(is_closed: bool) -> Self {
        Places {
            process: Process::this(),
            state: Mutex::new(State { free: VecDeque::new(), used: 0 }),
            given_back: Condvar::new(),
            is_closed: AtomicBool::new(is_closed),
            of_child: OnceLock::new(),
        }
    }

    fn is_closed(&self) -> bool {
        self.is_closed.load(SeqCst)
    }

    /// The one of those that are free which was used last; where servers go by turns, the one that
    /// was idle longest.
    fn taken(&self) -> Option<(Client<T>, Instant)> {
        let free = &mut self.state().free;
        let by_turns = free.front().is_some_and(|(client, _)| client.goes_by_turns());
        if by_turns {
            free.pop_front()
        } else {
            free.pop_back()
        }
    }

    fn state(&self) -> MutexGuard<'_, State<T>> {
        self.state.lock().unwrap_or_else(PoisonError::into_inner)
    }
}

struct State<T> {
    /// Those that nobody uses, and when each was opened.
    free: VecDeque<(Client<T>, Instant)>,
    /// How many are used.
    used: usize,
}

impl<T> Debug for Pool<T> {
    fn fmt(&self, f: &mut Formatter<'_>) -> fmt::Result {
        let state = self.places().state();
        f.debug_struct("Pool")
            .field("size", &self.size)
            .field("free", &state.free.len())
            .field("used", &state.used)
            .finish_non_exhaustive()
    }
}

impl<T> Pool<T> {
    /// Those of this process.
    fn places(&self) -> &Places<T> {
        let mut places = &self.places;
        while !places.process.is_this() {
            places = places.of_child.get_or_init(|| Box::new(Places::new(places.is_closed())));
        }
        places
    }

    /// How many connections there are at most.
    #[cfg(feature = "tokio")]
    pub(crate) fn size(&self) -> usize {
        self.size
    }

    /// Ends the connections that nobody uses, and each other when it is given back. Threads that
    /// wait for one get the error.
    pub fn close(&self) {
        let places = self.places();
        let mut state = places.state();
        places.is_closed.store(true, SeqCst);
        let free = std::mem::take(&mut state.free);
        drop(state);
        places.given_back.notify_all();
        drop(free);
    }
}

impl<T: Read + Write> Pool<T> {
    /// Of so many connections at most, each of which is opened by this.
    ///
    /// # Errors
    /// `ConfigurationError`: the size is 0.
    pub fn new(
        size: usize,
        open: impl Fn() -> Result<Client<T>> + Send + Sync + 'static,
    ) -> Result<Self> {
        if size == 0 {
            return Err(Error::configuration("a size is 1 or more"));
        }
        let (open, places) = (Box::new(open), Places::new(false));
        Ok(Pool { size, timeout: Some(DEFAULT_WAIT), max_age: None, open, places })
    }

    /// The most time that a thread waits for a connection of its own: 30 seconds where no other is
    /// given; `None` or zero is no deadline.
    #[must_use]
    pub fn with_timeout(self, timeout: Option<Duration>) -> Self {
        Pool { timeout: timeout.filter(|time| !time.is_zero()), ..self }
    }

    /// The longest that a connection is given out after it was opened: as long as it lasts, where no
    /// age is given.
    #[must_use]
    pub fn with_max_age(self, max_age: Duration) -> Self {
        Pool { max_age: Some(max_age), ..self }
    }

    /// A client for the caller alone, until it is dropped. Where all are used, the thread waits.
    ///
    /// # Errors
    /// - `ConfigurationError`: the pool is closed
    /// - `ConnectError`: no connection was free within the time
    /// - those of what opens a connection
    pub fn client(&self) -> Result<PooledClient<'_, T>> {
        let places = self.places();
        let mut state = self.with_place(places)?;
        state.used += 1;
        drop(state);
        // From here on its place is given back, whatever becomes of it.
        let mut place = PooledClient { places, client: None, since: Instant::now() };
        while let Some((client, since)) = places.taken() {
            // One that is not good ends here.
            let is_young = self.max_age.map_or(true, |age| since.elapsed() <= age);
            if is_young && client.look().is_ok() {
                (place.client, place.since) = (Some(client), since);
                return Ok(place);
            }
        }
        place.client = Some((self.open)()?);
        place.since = Instant::now();
        Ok(place)
    }

    /// The state, once there is room for one more.
    fn with_place<'a>(&self, places: &'a Places<T>) -> Result<MutexGuard<'a, State<T>>> {
        let end = self.timeout.and_then(|time| Instant::now().checked_add(time));
        let mut state = places.state();
        while !places.is_closed() && state.used == self.size {
            state = match end {
                None => places.given_back.wait(state).unwrap_or_else(PoisonError::into_inner),
                Some(end) => {
                    let left = end.saturating_duration_since(Instant::now());
                    if left.is_zero() {
                        let seconds = self.timeout.map_or(0.0, |time| time.as_secs_f64());
                        return Err(Error::connect(format!(
                            "no connection of the pool is free within {seconds} seconds"
                        )));
                    }
                    let waited = places.given_back.wait_timeout(state, left);
                    waited.unwrap_or_else(PoisonError::into_inner).0
                }
            };
        }
        if places.is_closed() {
            return Err(Error::pool_is_closed());
        }
        Ok(state)
    }
}

/// A client of a pool, which goes back to it when this is dropped.
pub struct PooledClient<'a, T> {
    places: &'a Places<T>,
    /// There is one, once it is the caller's.
    client: Option<Client<T>>,
    /// When its connection was opened.
    since: Instant,
}

impl<T> Deref for PooledClient<'_, T> {
    type Target = Client<T>;

    fn deref(&self) -> &Client<T> {
        self.client.as_ref().expect("a client that was given out is there until it is dropped")
    }
}

impl<T> Debug for PooledClient<'_, T> {
    fn fmt(&self, f: &mut Formatter<'_>) -> fmt::Result {
        f.debug_tuple("PooledClient").field(&self.client).finish()
    }
}

impl<T> Drop for PooledClient<'_, T> {
    fn drop(&mut self) {
        if !self.places.process.is_this() {
            return; // it was given out before a fork
        }
        // One that is not kept ends when nobody is kept from the pool by it.
        let mut client = self.client.take().filter(Client::is_open);
        let mut state = self.places.state();
        state.used -= 1;
        if !self.places.is_closed() {
            state.free.extend(client.take().map(|client| (client, self.since)));
        }
        drop(state);
        self.places.given_back.notify_one();
    }
}
