//! Several servers: which is asked, and what becomes of a call where one fails.
mod fakes;
mod two_servers;

use fakes::{connector, folder, port_of};
use metsuwan::{
    Batch, Error, EventKind, Order, Pool, Result, TlsClient, TlsConnector, TlsStream, Word,
};
use std::collections::HashSet;
use std::sync::atomic::{AtomicUsize, Ordering::SeqCst};
use std::sync::{Arc, Barrier, Mutex};
use std::thread;
use std::time::{Duration, Instant};
use two_servers::TwoServers;

const MAY_BE_DONE: &str = "; it may have been done there, and was sent to no other server";

/// What a log was told.
type Seen = Arc<Mutex<Vec<(EventKind, String)>>>;

fn place(fake: &str) -> String {
    format!("localhost:{}", port_of(fake))
}

fn with_files(server: TlsConnector, seconds: u64) -> TlsConnector {
    let file = |name: &str| folder().join(name);
    server
        .with_certificate(file("client.pem"), file("client.key"))
        .with_authority(file("ca.pem"))
        .with_timeout(Some(Duration::from_secs(seconds)))
}

fn several(fakes: &[&str], seconds: u64) -> TlsConnector {
    with_files(TlsConnector::of_servers(fakes.iter().map(|fake| place(fake))), seconds)
}

fn opened(server: &TlsConnector) -> (TlsClient, Seen) {
    let seen = Seen::default();
    let log = Arc::clone(&seen);
    let builder = server.connect().unwrap();
    let told = move |event: &metsuwan::Event<'_>| {
        log.lock().unwrap().push((event.kind, event.to_string()));
    };
    (builder.with_log(told).build(), seen)
}

fn texts(seen: &Seen, kind: EventKind) -> Vec<String> {
    let seen = seen.lock().unwrap();
    seen.iter().filter(|event| event.0 == kind).map(|event| event.1.clone()).collect()
}

/// The server that made the last call.
fn last_at(seen: &Seen) -> String {
    let last = texts(seen, EventKind::Call).pop().unwrap();
    last.splitn(3, ':').take(2).collect::<Vec<_>>().join(":")
}

#[test]
#[ignore = "it needs the fake servers"]
fn a_server_that_is_not_reached() {
    for (bad, why) in [
        ("nobody", "Connection refused"),
        ("other/server", "issuer"),
        ("no_tls", "wrong version"),
        ("wrong_host", "mismatch"),
        ("refuses_early", "the server refused the certificate: unknown CA"),
        ("no_certificate", ""),
    ] {
        let (client, seen) = opened(&several(&[bad, "good"], 60));
        client.activate_key("k").unwrap();
        let out = texts(&seen, EventKind::ServerOut);
        assert!(out.len() == 1 && out[0].starts_with(&format!("{}: ", place(bad))), "{out:?}");
        assert!(out[0].to_lowercase().contains(&why.to_lowercase()), "{out:?}");
        let (_, time) = out[0].rsplit_once(": it is left out for ").unwrap();
        assert!(time.starts_with("0.") || time.starts_with("1."), "{time}");
        assert_eq!(last_at(&seen), place("good"));
    }
}

#[test]
#[ignore = "it needs the fake servers"]
fn one_error_says_what_failed_with_each() {
    let error = several(&["nobody", "other/server"], 60).connect().unwrap_err();
    let text = error.details().text();
    let (first, second) = text.split_once("; ").unwrap();
    let refused = format!("{}: Connection refused (os error 111)", place("nobody"));
    assert!(matches!(error, Error::ConnectError(_)) && !error.was_sent());
    assert_eq!(first, refused);
    assert!(second.starts_with(&format!("{}: ", place("other/server"))), "{second}");
    assert!(second.contains("issuer") && error.details().io_error().is_some());
    // That of one server is as it was.
    let error = several(&["nobody"], 60).connect().unwrap_err();
    assert_eq!(error.to_string(), "ConnectError: Connection refused (os error 111)");
}

#[test]
#[ignore = "it needs the fake servers"]
fn servers_that_hang_in_the_handshake() {
    for bad in ["unanswered", "unaccepting"] {
        let begun = Instant::now();
        let (client, _) = opened(&several(&[bad, "good"], 12));
        client.activate_key("k").unwrap();
        assert!(begun.elapsed() < Duration::from_secs(12), "{bad}: {:?}", begun.elapsed());
    }
    let begun = Instant::now();
    let error = several(&["unanswered", "unaccepting", "nobody"], 3).connect().unwrap_err();
    let wanted = format!("{}: no answer within 1 seconds; ", place("unanswered"));
    assert!(error.details().text().starts_with(&wanted), "{error}");
    assert!(begun.elapsed() < Duration::from_secs(30));
}

#[test]
#[ignore = "it needs the fake servers"]
fn a_certificate_that_is_refused() {
    // Nothing was read of what was sent, so it may change something.
    for bad in ["refuses", "refuses_early"] {
        let (client, seen) = opened(&several(&[bad, "good"], 60));
        client.activate_key("k").unwrap();
        assert_eq!(last_at(&seen), place("good"));
    }
    let client = several(&["refuses"], 60).with_reconnect(true).connect().unwrap().build();
    let error = client.activate_key("k").unwrap_err();
    let refused = "the server refused the certificate: unknown CA";
    assert_eq!(error.to_string(), format!("ConnectError: {refused}"));
    let error = client.activate_key("k").unwrap_err();
    let text = error.details().text();
    let (out, why) = text.split_once(" s more: ").unwrap();
    assert!(out.starts_with("left out for ") && why == refused && !error.was_sent(), "{error}");
    // With another identity it is another matter.
    let server = several(&["refuses_early"], 60);
    let refuses = |server: &TlsConnector| server.connect().map(drop).unwrap_err().to_string();
    assert!(refuses(&server).starts_with("ConnectError: the server refused"));
    assert!(refuses(&server).starts_with("ConnectError: left out for "));
    let file = |name: &str| folder().join(name);
    let server = server.with_certificate(file("client.pem"), file("client.key"));
    assert!(refuses(&server).starts_with("ConnectError: the server refused"));
}

#[test]
#[ignore = "it needs the fake servers"]
fn a_name_apart_from_the_host() {
    let address = format!("127.0.0.1:{}", port_of("good"));
    let server = with_files(TlsConnector::of_servers([&address]), 60);
    let named = |server: &TlsConnector, name: &str| {
        let client = server.clone().with_server_name(name).connect()?.build();
        client.query().map(drop)
    };
    named(&server, "localhost").unwrap();
    named(&connector("good", "127.0.0.1", "client"), "localhost").unwrap();
    let fails = |error: Error| error.to_string().to_lowercase();
    assert!(fails(server.connect().map(drop).unwrap_err()).ends_with("ip address mismatch"));
    assert!(fails(named(&server, "other.example").unwrap_err()).ends_with("hostname mismatch"));
    for name in ["", ".localhost", "a\0"] {
        let wanted = format!("ConfigurationError: {name:?} is no host");
        assert_eq!(named(&server, name).unwrap_err().to_string(), wanted);
    }
}

#[test]
fn lists_that_are_none() {
    for list in ["", "a,,b", "a b", "::1", "a:0", "a,A:5696"] {
        let error = TlsConnector::of_servers([list]).connect().unwrap_err();
        assert!(error.to_string().starts_with("ConfigurationError: server has "), "{error}");
    }
}

#[test]
#[ignore = "it needs the fake servers"]
fn what_changes_nothing_is_asked_of_the_next() {
    for bad in ["end", "reset", "half"] {
        let (client, seen) = opened(&several(&[bad, "good"], 60));
        assert_eq!(client.sign("k", b"x").unwrap().signature_data, b"signature by k");
        assert_eq!(texts(&seen, EventKind::Repeated).len(), 1);
        client.activate_key("k").unwrap(); // by the other
        client.rng_retrieve(5).unwrap();
        let mut batch = client.batch();
        batch.call("query", &[]).unwrap();
        assert!(batch.send().is_ok(), "{bad}");
        assert_eq!(last_at(&seen), place("good"));
    }
    let (client, _) = opened(&several(&["end", "good"], 60));
    client.rng_retrieve(5).unwrap();
}

#[test]
#[ignore = "it needs the fake servers"]
fn what_makes_or_changes_is_sent_to_no_other() {
    let (client, seen) = opened(&several(&["end", "good"], 60));
    let error = client.activate_key("k").unwrap_err();
    let wanted = format!("ResponseReadError: {}: end of input{MAY_BE_DONE}", place("end"));
    assert!(error.to_string() == wanted && error.was_sent() && error.is_lost(), "{error}");
    assert!(texts(&seen, EventKind::Repeated).is_empty());
    client.activate_key("k").unwrap(); // the next call goes to the other
    let (client, _) = opened(&several(&["end", "good"], 60));
    let mut batch: Batch<'_, TlsStream> = client.batch();
    batch.call("query", &[]).unwrap().call("activate", &[Word::Text("k")]).unwrap();
    assert!(batch.send().unwrap_err().to_string().ends_with(MAY_BE_DONE));
}

#[test]
#[ignore = "it needs the fake servers"]
fn after_an_idle_end_nothing_is_left_out() {
    let (client, seen) = opened(&several(&["end_after", "good"], 60));
    for _ in 0..3 {
        client.activate_key("k").unwrap();
        assert_eq!(last_at(&seen), place("end_after"));
    }
    assert!(texts(&seen, EventKind::ServerOut).is_empty());
}

#[test]
#[ignore = "it needs the fake servers"]
fn an_answer_is_an_answer() {
    let (client, _) = opened(&several(&["no_batches", "good"], 60));
    assert!(matches!(client.sign("k", b"x"), Err(Error::ServerError(_))));
    let (client, _) = opened(&several(&["rubbish", "good"], 60));
    assert!(matches!(client.sign("k", b"x"), Err(Error::DeserializeError(_))));
}

#[test]
#[ignore = "it needs the fake servers"]
fn a_server_that_hangs() {
    let begun = Instant::now();
    let (client, _) = opened(&several(&["silent", "good"], 12));
    assert_eq!(client.sign("k", b"x").unwrap().signature_data, b"signature by k");
    assert!(begun.elapsed() < Duration::from_secs(12), "{:?}", begun.elapsed());
    // Later calls go to the other at once.
    let (client, seen) = opened(&several(&["silent", "good"], 3));
    let error = client.activate_key("k").unwrap_err();
    let wanted = format!("no answer within 3 seconds{MAY_BE_DONE}");
    assert!(error.to_string().ends_with(&wanted), "{error}");
    let begun = Instant::now();
    client.activate_key("k").unwrap();
    assert!(begun.elapsed() < Duration::from_secs(3) && last_at(&seen) == place("good"));
    // One deadline for all.
    let begun = Instant::now();
    let (client, _) = opened(&several(&["silent", "half_hold"], 3));
    let error = client.query().unwrap_err();
    assert!(error.details().text().contains("; ") && error.was_sent(), "{error}");
    assert!(begun.elapsed() < Duration::from_secs(30));
}

#[test]
#[ignore = "it needs the fake servers"]
fn one_that_has_begun_to_answer_is_slow_and_not_dead() {
    let (client, _) = opened(&several(&["drip", "silent"], 3));
    let error = client.query().unwrap_err().to_string();
    let (first, second) = error.split_once("; ").unwrap();
    assert!(first.ends_with(": no answer within 3 seconds"), "{error}");
    assert_eq!(second, format!("{}: not tried within the time", place("silent")));
}

fn pool_of(server: TlsConnector, size: usize) -> Pool<TlsStream> {
    Pool::new(size, move || Ok(server.connect()?.build())).unwrap()
}

#[test]
#[ignore = "it needs the fake servers"]
fn so_is_one_that_answers_others() {
    // Half of the time is over before the answer comes, but not before that of another call.
    let pool = pool_of(several(&["slow", "silent"], 5), 2);
    let (first, second) = (pool.client().unwrap(), pool.client().unwrap());
    thread::scope(|scope| {
        scope.spawn(|| {
            thread::sleep(Duration::from_secs(1));
            second.sign("k", b"x").unwrap();
        });
        assert_eq!(first.sign("slow", b"x").unwrap().signature_data, b"signature by slow");
    });
}

#[test]
#[ignore = "it needs the fake servers"]
fn an_old_connection_begins_in_front() {
    let turns = several(&["good", "slow"], 60).with_order(Order::Turns);
    let (client, seen) = opened(&turns.with_max_age(Duration::from_millis(200)));
    let mut used = HashSet::new();
    for _ in 0..4 {
        client.query().unwrap();
        used.insert(last_at(&seen));
        thread::sleep(Duration::from_millis(300));
    }
    assert_eq!(used.len(), 2);
    let told = texts(&seen, EventKind::Reopened);
    let wanted = "the connection was old, and another one is opened";
    assert!(told.len() == 3 && told.iter().all(|it| it.ends_with(wanted)), "{told:?}");
}

#[test]
#[ignore = "it needs the fake servers"]
fn a_pending_call_is_asked_about_where_it_is() {
    let turns = several(&["pending", "good"], 60).with_order(Order::Turns);
    let (client, seen) = opened(&turns.with_max_age(Duration::from_millis(1)));
    while {
        let _ = client.activate_key("k");
        last_at(&seen) != place("pending")
    } {}
    for _ in 0..3 {
        thread::sleep(Duration::from_millis(5));
        // (it says of each call that it is pending)
        client.call("poll", &[Word::Bytes(b"1")]).unwrap_err();
        assert_eq!(last_at(&seen), place("pending"));
    }
}

#[test]
#[ignore = "it needs the fake servers"]
fn the_clients_of_a_pool_know_what_each_has_found() {
    let pool = pool_of(several(&["end", "good"], 60), 2);
    let idle = pool.client().unwrap();
    drop((pool.client().unwrap(), idle)); // two connections to the first
    assert!(pool.client().unwrap().activate_key("k").is_err());
    // The other one was opened before its server failed, so it is not used.
    pool.client().unwrap().activate_key("k").unwrap();
}

#[test]
#[ignore = "it needs the certificates"]
fn by_turns_a_pool_gives_out_the_one_that_was_idle_longest() {
    for (order, wanted) in [(Order::First, 1), (Order::Turns, 2)] {
        let servers = TwoServers::begin();
        let pool = pool_of(servers.connector().with_order(order), 2);
        drop((pool.client().unwrap(), pool.client().unwrap()));
        for name in ["a", "b"] {
            pool.client().unwrap().activate_key(name).unwrap();
        }
        let used: HashSet<_> = servers.came().into_iter().map(|(number, _)| number).collect();
        assert_eq!(used.len(), wanted);
    }
}

#[test]
#[ignore = "it needs the certificates"]
fn while_servers_die_by_turns_no_change_is_read_twice() {
    const THREADS: usize = 200;
    const EACH: usize = 3;
    let servers = TwoServers::begin();
    let server = servers.connector().with_order(Order::Turns);
    let (done, lost, are_open) =
        (AtomicUsize::new(0), AtomicUsize::new(0), Barrier::new(THREADS + 1));
    let work = &|at: usize| {
        let client = server.connect().unwrap().build();
        are_open.wait();
        for number in 0..EACH {
            let made: Result<()> = client.activate_key(&format!("k{at}.{number}"));
            match made {
                Ok(()) => done.fetch_add(1, SeqCst),
                Err(error) => {
                    assert!(error.is_lost(), "{error}");
                    lost.fetch_add(1, SeqCst)
                }
            };
            // It is lost where both die within it.
            match client.sign(&format!("s{at}.{number}"), b"x") {
                Ok(signed) => assert_eq!(signed.signature_data, b"x"),
                Err(error) => assert!(error.is_lost(), "{error}"),
            }
        }
    };
    thread::scope(|scope| {
        let threads: Vec<_> = (0..THREADS).map(|at| scope.spawn(move || work(at))).collect();
        are_open.wait();
        while threads.iter().any(|thread| !thread.is_finished()) {
            servers.die_or_live();
            thread::sleep(Duration::from_millis(300));
        }
    });
    let came = servers.came();
    let changes: Vec<_> = came.iter().filter(|(_, name)| name.starts_with('k')).collect();
    let different: HashSet<_> = changes.iter().map(|(_, name)| name).collect();
    assert_eq!(changes.len(), different.len(), "no change is read twice");
    let (done, lost) = (done.into_inner(), lost.into_inner());
    assert_eq!(done + lost, THREADS * EACH);
    assert!(changes.len() >= done && done > THREADS, "{done} done, {lost} lost");
}
