//! Threads that call several servers, each so often:
//!
//!     crowd clients|pool HOW-MANY CALLS SECONDS SERVERS CERTIFICATE KEY AUTHORITY
//!
//! For each change, and each signature, whose name begins with s, there is a line `NAME STATUS SENT`.
use metsuwan::{Order, Pool, Result, TlsClient, TlsConnector, TlsStream};
use std::thread;
use std::time::Duration;

const SIZE: usize = 50;

fn call(client: &TlsClient, name: &str) -> Result<bool> {
    if name.starts_with('s') {
        let signed = client.sign(name, b"x")?.signature_data;
        return Ok(signed == format!("signature by {name}").as_bytes());
    }
    client.activate_key(name).map(|()| true)
}

/// A client, once a server is there: both may be dead at once.
fn opened(server: &TlsConnector) -> TlsClient {
    for _ in 0..100 {
        if let Ok(builder) = server.connect() {
            return builder.build();
        }
        thread::sleep(Duration::from_millis(200));
    }
    panic!("no server is there");
}

fn work(at: usize, calls: usize, server: &TlsConnector, pool: Option<&Pool<TlsStream>>) {
    let own = match pool {
        None => Some(opened(server)),
        Some(_) => None,
    };
    for number in 0..calls {
        for kind in ["c", "s"] {
            let name = format!("{kind}{at}.{number}");
            let made = match (&own, pool) {
                (Some(client), _) => call(client, &name),
                (None, Some(pool)) => pool.client().and_then(|client| call(&client, &name)),
                (None, None) => return,
            };
            let (status, sent) = match made {
                Ok(is_right) => (if is_right { 0 } else { 3 }, true),
                Err(error) => (3, error.was_sent()),
            };
            println!("{name} {status} {}", u8::from(sent));
        }
    }
}

fn main() {
    let words: Vec<String> = std::env::args().skip(1).collect();
    let [way, count, calls, seconds, servers, certificate, key, authority] = &words[..] else {
        panic!("words are missing");
    };
    let number = |text: &String| text.parse().expect("a number");
    let server = TlsConnector::of_servers([servers])
        .with_order(Order::Turns)
        .with_certificate(certificate, key)
        .with_authority(authority)
        .with_timeout(Some(Duration::from_secs(seconds.parse().expect("seconds"))));
    let pool = (way == "pool").then(|| {
        let server = server.clone();
        let pool = Pool::new(SIZE, move || Ok(server.connect()?.build())).expect("a size");
        pool.with_timeout(Some(Duration::from_secs(seconds.parse().expect("seconds"))))
    });
    thread::scope(|scope| {
        for at in 0..number(count) {
            let (server, pool) = (&server, pool.as_ref());
            let calls = number(calls);
            scope.spawn(move || work(at, calls, server, pool));
        }
    });
}
