//! Calls of several servers: several SERVERS CERTIFICATE KEY AUTHORITY [NAME=VALUE].., with settings.
//! Each line of standard input is a call, or `sleep SECONDS`. What is written stands in
//! tools/live/several.sh.
use metsuwan::{Event, EventKind, Order, TlsClient, TlsConnector};
use std::error::Error;
use std::io::BufRead;
use std::thread;
use std::time::Duration;

fn set(server: TlsConnector, word: &str) -> Result<TlsConnector, Box<dyn Error>> {
    let (name, value) = word.split_once('=').ok_or("a setting is NAME=VALUE")?;
    let seconds = || value.parse().map(Duration::from_secs_f64);
    Ok(match (name, value) {
        ("seconds", _) => server.with_timeout(Some(seconds()?)),
        ("max_age", _) => server.with_max_age(seconds()?),
        ("server_name", name) => server.with_server_name(name),
        ("reconnect", _) => server.with_reconnect(true),
        ("order", "first") => server.with_order(Order::First),
        ("order", "turns") => server.with_order(Order::Turns),
        ("order", _) => return Err("ConfigurationError: order is first or turns".into()),
        _ => return Err("there is no such setting".into()),
    })
}

fn connected(words: &[String]) -> Result<TlsClient, Box<dyn Error>> {
    let [servers, certificate, key, authority, settings @ ..] = words else {
        return Err("words are missing".into());
    };
    let server = TlsConnector::of_servers([servers])
        .with_certificate(certificate, key)
        .with_authority(authority);
    let server = settings.iter().try_fold(server, |server, word| set(server, word))?;
    let told = |event: &Event<'_>| {
        if event.kind != EventKind::Call {
            println!("  log {event}");
        }
    };
    Ok(server.connect()?.with_log(told).build())
}

fn make_call(client: &TlsClient, line: &str) {
    let words: Vec<&str> = line.split_whitespace().collect();
    let (name, words) = words.split_first().expect("a line has a name");
    if *name == "sleep" {
        thread::sleep(Duration::from_secs_f64(words[0].parse().expect("seconds")));
        return;
    }
    let made = client.call_texts(name, words);
    let (status, sent, said) = match &made {
        Ok(_) => (0, true, String::new()),
        Err(error) if error.is_lost() => (3, error.was_sent(), error.to_string()),
        Err(error) => (1, error.was_sent(), error.to_string()),
    };
    println!("{name} {status} sent={} at {} {said}", u8::from(sent), client.server());
}

fn main() {
    let words: Vec<String> = std::env::args().skip(1).collect();
    match connected(&words) {
        Err(error) => println!("open {error}"),
        Ok(client) => {
            println!("open {}", client.server());
            for line in std::io::stdin().lock().lines() {
                make_call(&client, &line.expect("a line"));
            }
        }
    }
}
