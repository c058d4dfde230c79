//! The way to a server: the addresses of its host, to which connections are made side by side.
use crate::time::Time;
use std::collections::VecDeque;
use std::io::{self, ErrorKind};
use std::net::{IpAddr, SocketAddr, TcpStream, ToSocketAddrs};
use std::sync::mpsc::{self, Receiver, RecvTimeoutError, Sender};
use std::thread;
use std::time::{Duration, Instant};

/// Each address begins so long after the one before, or once that has failed (RFC 8305, 5).
const NEXT_ADDRESS: Duration = Duration::from_millis(250);
const MOST_ADDRESSES: usize = 16;

/// Connections to the addresses of a host, of which the first that is there is taken.
pub(crate) struct Race {
    /// Those that have not begun.
    waiting: VecDeque<SocketAddr>,
    /// How many are under way, each in a thread.
    under_way: usize,
    /// When the next begins.
    next: Instant,
    sender: Sender<io::Result<TcpStream>>,
    receiver: Receiver<io::Result<TcpStream>>,
    failed: Failed,
}

/// Why addresses failed.
#[derive(Default)]
struct Failed {
    texts: Vec<String>,
    last: Option<io::Error>,
    /// Whether one was there, and its handshake failed.
    is_reached: bool,
}

impl Failed {
    fn add(&mut self, error: io::Error) {
        let text = error.to_string();
        if !self.texts.contains(&text) {
            self.texts.push(text);
        }
        self.last = Some(error);
    }

    /// The last error, where there was no other, or one of its kind that says all of them.
    fn take(&mut self) -> io::Error {
        let texts = std::mem::take(&mut self.texts);
        match self.last.take() {
            Some(error) if texts.len() == 1 => error,
            Some(error) => io::Error::new(error.kind(), texts.join(", ")),
            None => io::Error::new(ErrorKind::NotFound, "the host has no address"),
        }
    }
}

impl Race {
    /// To the addresses of this host, which are looked for within this time.
    pub(crate) fn begin(host: &str, port: u16, time: &Time) -> io::Result<Race> {
        Ok(Race::to(addresses(host, port, time)?))
    }

    fn to(addresses: Vec<SocketAddr>) -> Race {
        let (sender, receiver) = mpsc::channel();
        let waiting = in_turns(addresses);
        let (next, failed) = (Instant::now(), Failed::default());
        Race { waiting, under_way: 0, next, sender, receiver, failed }
    }

    /// How many addresses are left.
    pub(crate) fn left(&self) -> usize {
        self.waiting.len() + self.under_way
    }

    /// Of the one that was there the handshake has failed, of which more is known than of those that
    /// were not reached. The next begins at once.
    pub(crate) fn fails(&mut self, error: io::Error) {
        if !self.failed.is_reached {
            self.failed = Failed { is_reached: true, ..Failed::default() };
        }
        self.failed.add(error);
        self.next = Instant::now();
    }

    /// One was not reached.
    fn is_not_there(&mut self, error: io::Error) {
        if !self.failed.is_reached {
            self.failed.add(error);
        }
        self.next = Instant::now();
    }

    /// The next connection that is there.
    ///
    /// # Errors
    /// There is none, or the time is over: with all that failed before
    pub(crate) fn next(&mut self, time: &Time) -> io::Result<TcpStream> {
        while self.left() > 0 {
            let reached = match self.step(time) {
                Ok(reached) => reached,
                Err(late) => {
                    self.is_not_there(late);
                    break;
                }
            };
            match reached {
                Some(Ok(stream)) => return Ok(stream),
                Some(Err(error)) => self.is_not_there(error),
                None => {}
            }
        }
        Err(self.failed.take())
    }

    /// Has a thread connect to this address.
    fn begin_one(&mut self, address: SocketAddr, left: Option<Duration>) -> io::Result<()> {
        let sender = self.sender.clone();
        let reach = move || {
            // Nobody waits for it where another one was faster.
            let _ = sender.send(connect(&address, left));
        };
        thread::Builder::new().name("metsuwan: address".into()).spawn(reach)?;
        self.under_way += 1;
        self.next = Instant::now() + NEXT_ADDRESS;
        Ok(())
    }

    /// Begins the next one where it is its turn, and waits until one is there, has failed, or the
    /// next is to begin.
    fn step(&mut self, time: &Time) -> io::Result<Option<io::Result<TcpStream>>> {
        let left = time.left()?;
        let is_turn = self.under_way == 0 || Instant::now() >= self.next;
        let address = if is_turn { self.waiting.pop_front() } else { None };
        if let Some(address) = address {
            if self.left() == 0 {
                return Ok(Some(connect(&address, left)));
            }
            self.begin_one(address, left)?;
        }
        let until_next = self.next.saturating_duration_since(Instant::now());
        let wait = if self.waiting.is_empty() { None } else { Some(until_next) };
        let reached = match [wait, left].into_iter().flatten().min() {
            None => self.receiver.recv().map_err(|_| RecvTimeoutError::Disconnected),
            Some(wait) => self.receiver.recv_timeout(wait),
        };
        // (a sender is kept here, so none is ever gone)
        Ok(reached.ok().map(|reached| {
            self.under_way -= 1;
            reached
        }))
    }
}

/// Connects to an address in this thread.
fn connect(address: &SocketAddr, left: Option<Duration>) -> io::Result<TcpStream> {
    match left {
        None => TcpStream::connect(address),
        Some(left) => TcpStream::connect_timeout(address, left),
    }
}

/// The addresses in their order: the first as the system has them, and then one of each family in
/// turn (RFC 8305, 4).
fn in_turns(addresses: Vec<SocketAddr>) -> VecDeque<SocketAddr> {
    let is_first = addresses.first().map(SocketAddr::is_ipv4);
    let (first, second): (Vec<_>, Vec<_>) =
        addresses.into_iter().partition(|address| Some(address.is_ipv4()) == is_first);
    let (mut first, mut second) = (first.into_iter(), second.into_iter());
    let mut ordered = VecDeque::new();
    loop {
        let pair = [first.next(), second.next()];
        if pair == [None, None] {
            ordered.truncate(MOST_ADDRESSES);
            return ordered;
        }
        ordered.extend(pair.into_iter().flatten());
    }
}

/// The addresses of a host. A search has no deadline, and so has a thread of its own.
fn addresses(host: &str, port: u16, time: &Time) -> io::Result<Vec<SocketAddr>> {
    if let Ok(address) = host.parse::<IpAddr>() {
        return Ok(vec![SocketAddr::new(address, port)]);
    }
    let (sender, receiver) = mpsc::channel();
    let host = host.to_string();
    thread::Builder::new().name("metsuwan: addresses".into()).spawn(move || {
        let found = (host.as_str(), port).to_socket_addrs().map(Iterator::collect);
        // Nobody waits for it past the deadline.
        let _ = sender.send(found);
    })?;
    let found = match time.left()? {
        None => receiver.recv().map_err(|_| RecvTimeoutError::Disconnected),
        Some(left) => receiver.recv_timeout(left),
    };
    found.map_err(|error| match error {
        RecvTimeoutError::Timeout => time.over(),
        RecvTimeoutError::Disconnected => {
            io::Error::new(ErrorKind::Other, "the search of the host's address broke off")
        }
    })?
}

#[cfg(test)]
mod tests {
    use super::*;
    use std::net::TcpListener;
    use std::os::fd::AsRawFd;
    use std::os::raw::c_int;

    extern "C" {
        fn listen(socket: c_int, backlog: c_int) -> c_int;
    }

    /// A listener whose queue is full, so that a connection to it hangs, and what fills it.
    fn dead() -> (TcpListener, Vec<TcpStream>) {
        let listener = TcpListener::bind("127.0.0.1:0").unwrap();
        // Safety: the descriptor is that of a listener.
        assert_eq!(unsafe { listen(listener.as_raw_fd(), 0) }, 0);
        let address = listener.local_addr().unwrap();
        let fill = || TcpStream::connect_timeout(&address, Duration::from_millis(200)).ok();
        let filled = std::iter::from_fn(fill).collect();
        (listener, filled)
    }

    fn time(seconds: u64) -> Time {
        Time::new(Some(Duration::from_secs(seconds)))
    }

    /// An address where nobody listens.
    fn nobody() -> SocketAddr {
        TcpListener::bind("127.0.0.1:0").unwrap().local_addr().unwrap()
    }

    #[test]
    fn a_dead_address_costs_a_quarter_of_a_second() {
        let (dead, _filled) = dead();
        let good = TcpListener::bind("127.0.0.1:0").unwrap();
        let good = good.local_addr().map(|address| (good, address)).unwrap();
        let mut addresses = vec![dead.local_addr().unwrap(); 3];
        addresses.push(good.1);
        let begun = Instant::now();
        let mut race = Race::to(addresses);
        let reached = race.next(&time(100)).unwrap();
        assert_eq!(reached.peer_addr().unwrap(), good.1);
        let took = begun.elapsed();
        assert!(took >= 3 * NEXT_ADDRESS && took < Duration::from_secs(50), "{took:?}");
        // The others are still under way.
        assert_eq!(race.left(), 3);
    }

    #[test]
    fn after_one_that_fails_the_next_begins_at_once() {
        let good = TcpListener::bind("127.0.0.1:0").unwrap();
        let address = good.local_addr().unwrap();
        let mut race = Race::to(vec![nobody(), address, nobody(), address]);
        let reached = race.next(&time(100)).unwrap();
        assert_eq!((reached.peer_addr().unwrap(), race.left()), (address, 2));
        // So it is where the handshake fails.
        race.fails(io::Error::new(ErrorKind::Other, "TLS"));
        assert_eq!(race.next(&time(100)).unwrap().peer_addr().unwrap(), address);
        race.fails(io::Error::new(ErrorKind::Other, "TLS"));
        // More is known of the one that was reached.
        assert_eq!(race.next(&time(100)).unwrap_err().to_string(), "TLS");
    }

    #[test]
    fn all_that_failed_is_told() {
        let error = Race::to(vec![nobody(); 3]).next(&time(100)).unwrap_err();
        assert_eq!(error.raw_os_error(), Some(111));
        let error = Race::to(Vec::new()).next(&time(100)).unwrap_err();
        assert_eq!(error.to_string(), "the host has no address");
        let (dead, _filled) = dead();
        let address = dead.local_addr().unwrap();
        let error = Race::to(vec![nobody(), address]).next(&time(1)).unwrap_err();
        assert_eq!(error.kind(), ErrorKind::TimedOut);
        let wanted = "Connection refused (os error 111), no answer within 1 seconds";
        assert!(error.to_string().starts_with("Connection refused (os error 111), "), "{error}");
        assert!(error.to_string() == wanted || error.to_string().ends_with("timed out"), "{error}");
    }

    #[test]
    fn families_take_turns() {
        let all = ["1.1.1.1", "2.2.2.2", "3.3.3.3", "[::1]", "[::2]"];
        let all = all.map(|host| format!("{host}:1").parse().unwrap()).to_vec();
        let ordered: Vec<_> = in_turns(all).iter().map(ToString::to_string).collect();
        assert_eq!(ordered, ["1.1.1.1:1", "[::1]:1", "2.2.2.2:1", "[::2]:1", "3.3.3.3:1"]);
        let many = vec!["1.1.1.1:1".parse().unwrap(); 40];
        assert_eq!(in_turns(many).len(), 16);
        assert!(in_turns(Vec::new()).is_empty());
    }
}
