//! The servers of a client, or of the clients of a pool: their list, whose turn it is, and which are
//! left out for a while.
use crate::error::{Error, Result};
use crate::library;
use crate::process::OfProcess;
use std::fmt::{self, Debug, Formatter};
use std::sync::{Mutex, MutexGuard, PoisonError};
use std::time::{Duration, Instant};

/// The port of a server with which none stands.
const PORT: u16 = 5696;
const MOST: usize = 16;
/// The most bytes of one place in the list.
const LONGEST: usize = 300;

/// A server is left out for 1 second after a failure, and twice as long after each one more without
/// an answer between; a fifth more or less, so that clients do not come back at once.
const FIRST_PAUSE: f64 = 1.0;
const LAST_PAUSE: f64 = 60.0;
const VARIES: f64 = 0.2;

/// How long others leave the one to which a call goes to see whether it is back.
const TRIAL: Duration = Duration::from_secs(5);

/// In which order the servers of a list are asked.
#[derive(Clone, Copy, Debug, Default, PartialEq, Eq, Hash)]
#[non_exhaustive]
pub enum Order {
    /// Each connection is to the first server that is not left out.
    #[default]
    First,
    /// Each connection is to the next server, the first to any, by chance.
    Turns,
}

/// A server of a list.
#[derive(Clone, Debug, PartialEq, Eq)]
pub(crate) struct Server {
    /// A name or an address, which may have brackets.
    pub(crate) host: String,
    pub(crate) port: u16,
    /// Both, as `a.example:5696`; that of a stream of the caller's is empty.
    pub(crate) text: String,
}

impl Server {
    pub(crate) fn new(host: &str, port: u16) -> Server {
        Server { host: host.into(), port, text: format!("{host}:{port}") }
    }

    /// That of a stream of the caller's.
    pub(crate) fn nameless() -> Server {
        Server { host: String::new(), port: 0, text: String::new() }
    }

    /// HOST, HOST:PORT or [ADDRESS]:PORT. An address with colons has to have its brackets, since else
    /// its end may be a port.
    fn of_text(text: &str) -> std::result::Result<Server, &'static str> {
        let no_form = "what is no HOST, HOST:PORT or [ADDRESS]:PORT";
        if text.is_empty() {
            return Err("an empty place");
        }
        if text.len() > LONGEST {
            return Err("a place that is too long");
        }
        if text.contains(|sign: char| sign.is_whitespace() || sign == '\0') {
            return Err("a space");
        }
        let host_end = match text.strip_prefix('[') {
            Some(inner) => match inner.find(']') {
                Some(at) if at > 0 => at + 2,
                _ => return Err("a bracket without an address"),
            },
            None => text.find(':').unwrap_or(text.len()),
        };
        let (host, rest) = text.split_at(host_end);
        let port = match rest.strip_prefix(':') {
            None if rest.is_empty() => PORT,
            Some(digits) if !digits.is_empty() && !digits.contains(':') => {
                port_of(digits).ok_or("a port that is no number of 1 to 65535")?
            }
            _ => return Err(no_form),
        };
        match host {
            "" => Err(no_form),
            _ if host.starts_with('.') => Err("a host that begins with a dot"),
            _ => Ok(Server::new(host, port)),
        }
    }
}

/// The number that these digits are, and no sign.
fn port_of(digits: &str) -> Option<u16> {
    let is_number = digits.bytes().all(|byte| byte.is_ascii_digit());
    digits.parse().ok().filter(|port| is_number && *port > 0)
}

/// How a server does.
#[derive(Clone, Default)]
struct State {
    /// Until when others are asked before it.
    out_until: Option<Instant>,
    answered_at: Option<Instant>,
    failed_at: Option<Instant>,
    /// Since it last answered.
    failures: u32,
    /// The last of them was that it refused the certificate, ..
    refuses: bool,
    /// .. and why it failed.
    why: String,
}

impl State {
    /// For how long it is still left out.
    fn out(&self, now: Instant) -> Duration {
        self.out_until.map_or(Duration::ZERO, |until| until.saturating_duration_since(now))
    }
}

struct States {
    of: Vec<State>,
    turn: usize,
}

impl States {
    fn begin(count: usize) -> Mutex<States> {
        let mut start = [0];
        // (without random bytes all begin with the first)
        let turn = library::random(&mut start).map_or(0, |()| usize::from(start[0]));
        Mutex::new(States { of: vec![State::default(); count], turn })
    }
}

/// For how long a server is still left out, why, and whether it refused the certificate.
pub(crate) struct Out {
    pub(crate) time: Duration,
    pub(crate) why: String,
    pub(crate) refuses: bool,
}

/// The servers in their order, and how they do. A child of a fork knows nothing of that yet.
pub(crate) struct Servers {
    pub(crate) all: Vec<Server>,
    order: Order,
    states: OfProcess<Mutex<States>>,
}

impl Debug for Servers {
    fn fmt(&self, f: &mut Formatter<'_>) -> fmt::Result {
        f.debug_list().entries(self.all.iter().map(|server| &server.text)).finish()
    }
}

impl Servers {
    pub(crate) fn new(all: Vec<Server>, order: Order) -> Servers {
        let states = OfProcess::new(States::begin(all.len()));
        Servers { all, order, states }
    }

    /// This one alone.
    pub(crate) fn one(server: Server) -> Servers {
        Servers::new(vec![server], Order::First)
    }

    /// The same, of which nothing is known yet.
    pub(crate) fn anew(&self, order: Order) -> Servers {
        Servers::new(self.all.clone(), order)
    }

    /// Those of these texts, each of which may have several with a comma between two.
    ///
    /// # Errors
    /// `ConfigurationError`: they are none
    pub(crate) fn of_texts<S: AsRef<str>>(texts: impl IntoIterator<Item = S>) -> Result<Servers> {
        let wrong = |what| Error::configuration(format!("server has {what}"));
        let mut all: Vec<Server> = Vec::new();
        for text in texts {
            for place in text.as_ref().split(',') {
                let server = Server::of_text(place).map_err(wrong)?;
                if all.len() == MOST {
                    return Err(wrong("more than 16"));
                }
                if all.iter().any(|other| other.text.eq_ignore_ascii_case(&server.text)) {
                    return Err(wrong("one twice"));
                }
                all.push(server);
            }
        }
        if all.is_empty() {
            return Err(wrong("an empty place"));
        }
        Ok(Servers::new(all, Order::First))
    }

    pub(crate) fn are_several(&self) -> bool {
        self.all.len() > 1
    }

    pub(crate) fn order(&self) -> Order {
        self.order
    }

    pub(crate) fn go_by_turns(&self) -> bool {
        self.order == Order::Turns
    }

    fn states(&self) -> MutexGuard<'_, States> {
        let states = self.states.get(|| States::begin(self.all.len()));
        states.lock().unwrap_or_else(PoisonError::into_inner)
    }

    /// The first that was not tried and is not left out; or else the one that is left out for the
    /// least time, but for those that refused the certificate.
    pub(crate) fn next(&self, tried: &[bool]) -> Option<usize> {
        let (count, now) = (self.all.len(), Instant::now());
        let mut states = self.states();
        let start = if self.go_by_turns() { states.turn % count } else { 0 };
        states.turn = states.turn.wrapping_add(1);
        let left = (0..count).map(|at| (start + at) % count).filter(|at| !tried[*at]);
        let left: Vec<usize> = left.collect();
        let out = |at: &usize| states.of[*at].out(now);
        let free = left.iter().copied().find(|at| out(at).is_zero());
        let found = free.or_else(|| {
            left.iter().copied().filter(|at| !states.of[*at].refuses).min_by_key(out)
        })?;
        if states.of[found].failures > 0 {
            // One call goes to see; the others have others meanwhile.
            states.of[found].out_until = now.checked_add(TRIAL);
        }
        Some(found)
    }

    /// A stream of it has failed, or the try of one, that began at this time: for how long it is left
    /// out. All streams that a server had end with it, and that is one failure: what began before the
    /// last one has failed with it.
    pub(crate) fn failed(
        &self,
        which: usize,
        began: Instant,
        refuses: bool,
        why: &str,
    ) -> Duration {
        let mut byte = [128];
        // (without random bytes it is the pause itself)
        let _ = library::random(&mut byte);
        let mut states = self.states();
        let (state, now) = (&mut states.of[which], Instant::now());
        if state.failures > 0 && state.failed_at.is_some_and(|at| began < at) {
            return state.out(now);
        }
        let pause = pause_after(state.failures, byte[0]);
        state.failures = state.failures.saturating_add(1);
        state.refuses = refuses;
        state.why = why.into();
        state.failed_at = Some(now);
        state.out_until = now.checked_add(pause);
        pause
    }

    /// It has answered: whether it had failed before.
    pub(crate) fn answered(&self, which: usize) -> bool {
        let mut states = self.states();
        let state = &mut states.of[which];
        let is_back = state.failures > 0;
        *state = State {
            answered_at: Some(Instant::now()),
            failed_at: state.failed_at,
            ..State::default()
        };
        is_back
    }

    /// Whether it has answered at this time or later.
    pub(crate) fn answered_since(&self, which: usize, when: Instant) -> bool {
        self.states().of[which].answered_at.is_some_and(|at| at >= when)
    }

    /// Whether it has failed at this time or later.
    pub(crate) fn failed_since(&self, which: usize, when: Instant) -> bool {
        self.states().of[which].failed_at.is_some_and(|at| at >= when)
    }

    pub(crate) fn out(&self, which: usize) -> Out {
        let states = self.states();
        let state = &states.of[which];
        Out { time: state.out(Instant::now()), why: state.why.clone(), refuses: state.refuses }
    }
}

/// The pause after so many failures before, longer or shorter by this chance.
fn pause_after(failures: u32, chance: u8) -> Duration {
    let doubled = FIRST_PAUSE * f64::from(1_u32 << failures.min(10));
    let varied = 1.0 + VARIES * (f64::from(chance) / 127.5 - 1.0);
    Duration::from_secs_f64(doubled.min(LAST_PAUSE) * varied)
}

#[cfg(test)]
mod tests {
    use super::*;

    fn texts(list: &[&str]) -> Result<Vec<String>> {
        Ok(Servers::of_texts(list)?.all.into_iter().map(|server| server.text).collect())
    }

    #[test]
    fn what_a_list_says() {
        let whole = ["a.example:5696", "b.example:5696", "[::1]:5697"];
        assert_eq!(texts(&["a.example:5696,b.example,[::1]:5697"]).unwrap(), whole);
        assert_eq!(texts(&["a.example", "b.example,[::1]:5697"]).unwrap(), whole);
        assert_eq!(texts(&["[::1]"]).unwrap(), ["[::1]:5696"]);
        let many: Vec<String> = (0..17).map(|at| format!("a{at}")).collect();
        assert_eq!(texts(&[&many[..16].join(",")]).unwrap().len(), 16);
        let error = texts(&[&many.join(",")]).unwrap_err().to_string();
        assert_eq!(error, "ConfigurationError: server has more than 16");
    }

    #[test]
    fn lists_that_are_none() {
        let (empty, no_form) = ("an empty place", "what is no HOST, HOST:PORT or [ADDRESS]:PORT");
        let no_port = "a port that is no number of 1 to 65535";
        let (no_address, long) = ("a bracket without an address", "a".repeat(301));
        for (list, wanted) in [
            ("", empty),
            (",", empty),
            ("a,", empty),
            ("a,,b", empty),
            ("a b", "a space"),
            ("a, b", "a space"),
            ("a\0", "a space"),
            ("::1", no_form),
            ("a:", no_form),
            (":5", no_form),
            ("a:1:2", no_form),
            ("[::1]5697", no_form),
            ("[::1]:", no_form),
            ("[]:1", no_address),
            ("[::1", no_address),
            ("a,A:5696", "one twice"),
            (".a:1", "a host that begins with a dot"),
            ("a:0", no_port),
            ("a:65536", no_port),
            ("a:+1", no_port),
            ("a:kmip", no_port),
            (&long, "a place that is too long"),
        ] {
            let error = texts(&[list]).unwrap_err();
            assert_eq!(error.to_string(), format!("ConfigurationError: server has {wanted}"));
            assert!(!error.is_lost());
        }
        assert!(texts(&[]).is_err());
    }

    #[test]
    fn the_first_that_is_not_left_out() {
        let servers = Servers::of_texts(["a,b,c"]).unwrap();
        let not = |tried: &[usize]| [0, 1, 2].map(|at| tried.contains(&at));
        let next = |tried: &[usize]| servers.next(&not(tried));
        assert_eq!([next(&[]), next(&[0]), next(&[0, 1, 2])], [Some(0), Some(1), None]);
        let fails = |at, refuses| servers.failed(at, Instant::now(), refuses, "why");
        let pause = fails(0, false).as_secs_f64();
        assert!((0.8..=1.2).contains(&pause), "{pause}");
        let out = servers.out(0);
        assert!(!out.time.is_zero() && out.why == "why" && !out.refuses);
        assert_eq!(next(&[]), Some(1));
        for _ in 0..2 {
            fails(1, false);
        }
        fails(2, true);
        // All are left out: the soonest, but not one that refused the certificate.
        assert_eq!([next(&[]), next(&[0, 1])], [Some(0), None]);
        // One call goes to see; the others have others.
        assert_eq!(next(&[]), Some(1));
        assert!(servers.answered(0) && !servers.answered(0));
        assert_eq!(next(&[]), Some(0));
    }

    #[test]
    fn what_was_since_then() {
        let servers = Servers::of_texts(["a,b"]).unwrap();
        let before = Instant::now();
        servers.failed(0, before, false, "why");
        servers.answered(1);
        assert!(servers.failed_since(0, before) && !servers.answered_since(0, before));
        assert!(servers.answered_since(1, before) && !servers.failed_since(1, before));
        let after = Instant::now() + Duration::from_secs(1);
        assert!(!servers.failed_since(0, after) && !servers.answered_since(1, after));
    }

    #[test]
    fn all_streams_that_end_with_their_server_are_one_failure() {
        let servers = Servers::of_texts(["a,b"]).unwrap();
        let began = Instant::now();
        for _ in 0..40 {
            assert!(servers.failed(0, began, false, "why").as_secs_f64() <= 1.2);
        }
        assert_eq!(servers.states().of[0].failures, 1);
        // One that began since then has failed by itself.
        assert!(servers.failed(0, Instant::now(), false, "why").as_secs_f64() >= 1.6);
        assert_eq!(servers.states().of[0].failures, 2);
        // That of a server which has answered since then is a first one.
        servers.answered(0);
        assert!(servers.failed(0, began, false, "why").as_secs_f64() <= 1.2);
    }

    #[test]
    fn pauses_are_doubled_up_to_a_minute() {
        // A chance in the middle changes nothing, and those at the ends a fifth.
        let middle = |failures| pause_after(failures, 128).as_secs_f64().round();
        let pauses: Vec<f64> = (0..8).map(middle).collect();
        assert_eq!(pauses, [1.0, 2.0, 4.0, 8.0, 16.0, 32.0, 60.0, 60.0]);
        assert_eq!(middle(u32::MAX), 60.0);
        assert_eq!(pause_after(0, 0), Duration::from_millis(800));
        assert_eq!(pause_after(9, 255), Duration::from_secs(72));
    }

    #[test]
    fn by_turns_each_connection_goes_to_the_next() {
        let servers = Servers::new(Servers::of_texts(["a,b,c"]).unwrap().all, Order::Turns);
        let taken: Vec<_> = (0..6).map(|_| servers.next(&[false; 3]).unwrap()).collect();
        let mut once = taken[..3].to_vec();
        once.sort_unstable();
        assert_eq!(once, [0, 1, 2]);
        assert_eq!(taken[..3], taken[3..]);
    }
}
