//! Sessions over TLS with servers that make it hard.
mod fakes;

use fakes::{client, connector, folder, port_of, LONG};
use metsuwan::{BatchErrorContinuationOption, Error, EventKind, Item, Pool, Result, Word};
use metsuwan::{TlsClient, TlsConnector, TlsStream};
use openssl::ssl::{Ssl, SslContext, SslFiletype, SslMethod, SslVerifyMode};
use std::io::ErrorKind;
use std::net::TcpStream;
use std::sync::{Arc, Mutex};
use std::thread;
use std::time::{Duration, Instant, SystemTime};

/// The next call ends so, and each later one says that the connection is closed.
fn is_lost(client: &TlsClient, wanted: &str) {
    let error = client.sign("mine", b"x").unwrap_err();
    assert!(error.is_lost() && error.to_string() == wanted, "{error}");
    let closed = client.query().unwrap_err().to_string();
    assert_eq!(closed, "RequestWriteError: the connection is closed; nothing was sent");
}

#[test]
#[ignore = "it needs the fake servers"]
fn an_answer_about_another_object() {
    is_lost(&client("other_object"), "OtherObject: answer for another object");
}

#[test]
#[ignore = "it needs the fake servers"]
fn any_operation() {
    let client = client("good");
    let payload = r#"{"tag":"RequestPayload","value":[{"tag":"UniqueIdentifier","type":"TextString","value":"k1"}]}"#;
    let nothing = payload.replace("k1", "");
    let answer = client.operation("Encrypt", "1.2", payload).unwrap();
    assert_eq!(answer.text_at("tag").unwrap(), "ResponsePayload");
    assert_eq!(answer.text_at("value.0.value").unwrap(), "k1");
    for (name, version, payload, wanted) in [
        ("encrypt", "1.2", payload, "KMIP 1.2 has no operation of this name"),
        ("Encrypt", "1.3", payload, "the version is none of 1.0, 1.1 and 1.2"),
        (
            "Encrypt",
            "1.2",
            "{}",
            "the payload: line 1, column 1, tag: expected the name of a tag, or 0x and six hex \
             digits, found nothing",
        ),
        (
            "Get",
            "1.2",
            &nothing,
            "the payload: an identifier or an AsynchronousCorrelationValue in it is empty",
        ),
    ] {
        let error = client.operation(name, version, payload).unwrap_err();
        assert_eq!(error.to_string(), format!("GrammarError: {wanted}"));
    }
    client.query().unwrap();
}

#[test]
#[ignore = "it needs the fake servers"]
fn calls_of_the_table() {
    let words = |name| [Word::Text(name), Word::Bytes(b"\0x")];
    let client = client("ids");
    let ids = [1, 2].map(|_| client.call("encrypt", &words("k \u{e9}%")).unwrap());
    for answer in &ids {
        assert_eq!(answer.text_at("unique_identifier").unwrap(), "k \u{e9}%");
        assert_eq!(answer.bytes_at("data").unwrap().len(), 8);
    }
    assert_ne!(ids[0], ids[1]);
    for fake in ["no_id", "other_id"] {
        for name in ["k", "failing"] {
            let client = self::client(fake);
            let error = client.call("decrypt", &words(name)).unwrap_err();
            let text = "OtherObject: Response does not have the request's Unique Batch Item ID";
            assert!(error.is_lost() && error.to_string() == text, "{error}");
            assert!(!client.is_open());
        }
    }
    let client = self::client("unread");
    let error = client.call("archive", &[Word::Text("k")]).unwrap_err();
    assert!(!error.is_lost() && error.details().message() == Some("not read"), "{error}");
    assert!(client.is_open());
}

#[test]
#[ignore = "it needs the fake servers"]
fn bytes_that_no_call_asked_for() {
    let text = "the server sent bytes that no call had asked for; nothing was sent";
    for fake in ["two", "trailing"] {
        let client = client(fake);
        client.query().unwrap();
        is_lost(&client, &format!("RequestWriteError: {text}"));
    }
    is_lost(&client("early"), &format!("RequestWriteError: {text}"));
}

#[test]
#[ignore = "it needs the fake servers"]
fn a_connection_that_ends_between_calls() {
    let client = client("end_after");
    client.query().unwrap();
    is_lost(&client, "RequestWriteError: end of input; nothing was sent");
}

/// A client whose calls have this timeout, and have had more than that together.
fn client_in_time(timeout: Duration) -> Result<TlsClient> {
    let connector = connector("slow", "localhost", "client").with_timeout(Some(timeout));
    let client = connector.connect()?.build();
    for _ in 0..3 {
        thread::sleep(timeout * 2 / 5);
        client.sign("mine", b"x")?;
    }
    Ok(client)
}

#[test]
#[ignore = "it needs the fake servers"]
fn each_call_has_its_own_deadline() {
    let in_time = |seconds| Some((seconds, client_in_time(Duration::from_secs(seconds)).ok()?));
    let (seconds, client) = [2, 10, 40].into_iter().find_map(in_time).expect("one that is in time");
    let started = Instant::now();
    let error = client.sign("never", b"x").unwrap_err();
    let text = format!("ResponseReadError: no answer within {seconds} seconds");
    assert_eq!(error.to_string(), text);
    assert_eq!(error.details().io_kind(), Some(ErrorKind::TimedOut));
    assert!(started.elapsed() >= Duration::from_secs(seconds) * 9 / 10, "{:?}", started.elapsed());
    assert!(started.elapsed() < LONG, "{:?}", started.elapsed());
    assert!(matches!(client.query(), Err(Error::RequestWriteError(_))));
}

#[test]
#[ignore = "it needs the fake servers"]
fn a_flood_of_session_tickets_ends_with_the_deadline() {
    let started = Instant::now();
    let in_time = |fake: &str, seconds: u64| {
        let connector = connector(fake, "localhost", "client");
        let client = connector.with_timeout(Some(Duration::from_secs(seconds))).connect();
        client.ok().map(|builder| builder.build())
    };
    let open =
        |fake: &str| [2, 10, 40].into_iter().find_map(|seconds| in_time(fake, seconds)).unwrap();
    let error = open("tickets").query().unwrap_err();
    assert_eq!(error.details().io_kind(), Some(ErrorKind::TimedOut), "{error}");
    let client = open("tickets_after");
    client.query().unwrap();
    // It comes in the look before the call, or while its answer is waited for.
    let error = client.query().unwrap_err();
    assert!(error.is_lost() && error.details().io_kind() == Some(ErrorKind::TimedOut), "{error}");
    let client = open("tickets_after");
    client.query().unwrap();
    drop(client);
    assert!(started.elapsed() < LONG, "{:?}", started.elapsed());
}

#[test]
#[ignore = "it needs the fake servers"]
fn tls_that_the_caller_has_set_up() {
    let file = |name: &str| folder().join(name);
    let mut context = SslContext::builder(SslMethod::tls_client()).unwrap();
    context.set_verify(SslVerifyMode::PEER);
    context.set_ca_file(file("ca.pem")).unwrap();
    context.set_certificate_chain_file(file("client.pem")).unwrap();
    context.set_private_key_file(file("client.key"), SslFiletype::PEM).unwrap();
    let context = context.build();
    let open = |fake: &str, timeout| {
        let ssl = Ssl::new(&context).unwrap();
        let stream = TcpStream::connect(("127.0.0.1", port_of(fake))).unwrap();
        TlsStream::from_ssl(ssl, "localhost", stream, timeout)
    };
    let client = open("certificate", None).unwrap().into_builder().build();
    assert_eq!(client.query().unwrap().vendor_identification.as_deref(), Some("alice"));
    let error = open("other/server", None).unwrap_err();
    assert!(
        matches!(&error, Error::ConnectError(details) if details.text().contains("issuer")),
        "{error}"
    );
    let error = open("unanswered", Some(Duration::from_secs(1))).unwrap_err();
    assert_eq!(error.details().io_kind(), Some(ErrorKind::TimedOut));
    let client = open("two", Some(LONG)).unwrap().into_builder().build();
    client.query().unwrap();
    let text = "the server sent bytes that no call had asked for; nothing was sent";
    is_lost(&client, &format!("RequestWriteError: {text}"));
}

/// A context as the caller has set it up.
fn callers_context() -> SslContext {
    let file = |name: &str| folder().join(name);
    let mut context = SslContext::builder(SslMethod::tls_client()).unwrap();
    context.set_ca_file(file("ca.pem")).unwrap();
    context.set_certificate_chain_file(file("client.pem")).unwrap();
    context.set_private_key_file(file("client.key"), SslFiletype::PEM).unwrap();
    context.build()
}

#[test]
#[ignore = "it needs the fake servers"]
fn a_context_of_the_callers() {
    // It looks at no certificate: that is done after the handshake.
    let of = |fake: &str| {
        let server = TlsConnector::new("localhost", port_of(fake));
        server.with_context(callers_context()).with_timeout(Some(LONG))
    };
    let client = of("certificate").connect().unwrap().build();
    assert_eq!(client.query().unwrap().vendor_identification.as_deref(), Some("alice"));
    for (fake, wanted) in [
        ("other/server", "the server's certificate: "),
        ("wrong_host", ""),
        ("refuses_early", "the server refused the certificate: unknown CA"),
    ] {
        let error = of(fake).connect().map(drop).unwrap_err();
        assert!(matches!(error, Error::ConnectError(_)) && !error.was_sent(), "{error}");
        assert!(error.to_string().contains(wanted), "{error}");
    }
    let error = of("unanswered").with_timeout(Some(Duration::from_secs(1))).connect().unwrap_err();
    assert_eq!(error.details().io_kind(), Some(ErrorKind::TimedOut));
    // It is opened again, and other servers are asked.
    let client = of("end_after").with_reconnect(true).connect().unwrap().build();
    for _ in 0..3 {
        client.activate_key("k").unwrap();
    }
    let several = ["nobody", "good"].map(|fake| format!("localhost:{}", port_of(fake)));
    let several = TlsConnector::of_servers(several).with_context(callers_context());
    several.connect().unwrap().build().query().unwrap();
    for both in [of("good").with_authority("ca.pem"), of("good").with_passphrase("")] {
        let text = "a context stands in the place of certificate, authority and passphrase";
        let error = both.connect().unwrap_err().to_string();
        assert_eq!(error, format!("ConfigurationError: {text}"));
    }
}

#[test]
#[ignore = "it needs the fake servers"]
fn an_identity_in_memory() {
    let pem = |name: &str| std::fs::read(folder().join(name)).unwrap();
    let of = |fake: &str, client: &str, authority: &[u8]| {
        TlsConnector::new("localhost", port_of(fake))
            .with_certificate_pem(pem(&format!("{client}.pem")), pem(&format!("{client}.key")))
            .with_authority_pem(authority)
            .with_timeout(Some(LONG))
    };
    let named = |connector: TlsConnector| {
        connector.connect().map(|builder| builder.build().query().unwrap().vendor_identification)
    };
    let ca = pem("ca.pem");
    assert_eq!(named(of("certificate", "client", &ca)).unwrap().as_deref(), Some("alice"));
    // One of an authority between, whose certificate comes after it.
    assert_eq!(named(of("certificate", "chained", &ca)).unwrap().as_deref(), Some("carol"));
    let both = [pem("other/ca.pem"), ca.clone()].concat();
    assert_eq!(named(of("certificate", "client", &both)).unwrap().as_deref(), Some("alice"));
    let encrypted = of("certificate", "encrypted", &ca);
    assert!(named(encrypted.clone().with_passphrase("geheim & co")).is_ok());
    let fails = |connector: TlsConnector| named(connector).unwrap_err().to_string();
    let text = "ConnectError: key in memory: it is encrypted, and no passphrase is given";
    assert_eq!(fails(encrypted), text);
    let wanted = "certificate verify failed: self-signed certificate in certificate chain";
    let other = fails(of("good", "client", &pem("other/ca.pem")));
    assert!(other == format!("ConnectError: {wanted}") || other.contains("issuer"), "{other}");
    let text = "ConnectError: authority in memory: there is no certificate in PEM";
    assert_eq!(fails(of("good", "client", b"none")), text);
    let strange =
        of("good", "client", &ca).with_certificate_pem(pem("client.pem"), pem("server.key"));
    assert!(fails(strange).starts_with("ConnectError: certificate in memory, key in memory: "));
    let shown = format!("{:?}", of("good", "client", &ca));
    assert!(shown.contains("in memory") && !shown.contains("BEGIN"), "{shown}");
}

#[test]
#[ignore = "it needs the fake servers"]
fn names_are_alternative_ones() {
    let error = connector("cn_only", "localhost", "client").connect().map(drop).unwrap_err();
    let text = error.to_string().to_lowercase();
    assert_eq!(text, "connecterror: certificate verify failed: hostname mismatch");
}

#[test]
#[ignore = "it needs the fake servers"]
fn a_certificate_that_is_encrypted() {
    let block = "-----BEGIN CERTIFICATE-----\nProc-Type: 4,ENCRYPTED\n                 DEK-Info: AES-256-CBC,00112233445566778899AABBCCDDEEFF\n\nAAAA\n                 -----END CERTIFICATE-----\n";
    let path = std::env::temp_dir().join(format!("metsuwan-{}.pem", std::process::id()));
    std::fs::write(&path, block).unwrap();
    for connector in [
        connector("good", "localhost", "client").with_authority(&path),
        connector("good", "localhost", "client")
            .with_certificate(&path, folder().join("client.key")),
    ] {
        let error = connector.connect().map(drop).unwrap_err().to_string();
        assert!(error.ends_with("a block of it is encrypted"), "{error}");
    }
    std::fs::remove_file(&path).unwrap();
}

#[test]
#[ignore = "it needs the fake servers"]
fn no_deadline() {
    for timeout in [None, Some(Duration::ZERO), Some(Duration::MAX)] {
        let connector = connector("slow", "localhost", "client").with_timeout(timeout);
        connector.connect().unwrap().build().sign("slow", b"x").unwrap();
    }
}

#[test]
#[ignore = "it needs the fake servers"]
fn closing_waits_for_nothing() {
    let connector = connector("no_close", "localhost", "client").with_timeout(Some(2 * LONG));
    let client = connector.connect().unwrap().build();
    client.query().unwrap();
    let started = Instant::now();
    drop(client);
    assert!(started.elapsed() < LONG, "{:?}", started.elapsed());
}

#[test]
#[ignore = "it needs the fake servers"]
fn threads_get_their_own_answers() {
    let client = client("good");
    thread::scope(|scope| {
        for at in 0..8 {
            let client = &client;
            scope.spawn(move || {
                for _ in 0..20 {
                    let name = format!("k{at}");
                    let signed = client.sign(&name, b"x").unwrap();
                    let data = format!("signature by {name}");
                    assert_eq!(signed.signature_data, data.as_bytes());
                    assert_eq!(signed.unique_identifier, name);
                }
            });
        }
    });
}

#[test]
#[ignore = "it needs the fake servers"]
fn a_credential_is_sent() {
    let builder = connector("credential", "localhost", "client").connect().unwrap();
    let client = builder.with_credentials("alice", "s\u{e9}cret").build();
    let server = client.query().unwrap();
    assert_eq!(server.vendor_identification.as_deref(), Some("alice:s\u{e9}cret"));
}

#[test]
#[ignore = "it needs the fake servers"]
fn a_host_is_a_name_or_an_address() {
    let fails = |fake: &str, host: &str| {
        connector(fake, host, "client").connect().map(drop).unwrap_err().to_string()
    };
    connector("address", "127.0.0.1", "client").connect().unwrap().build().query().unwrap();
    let wanted = "ConnectError: certificate verify failed: hostname mismatch";
    assert_eq!(fails("address", "localhost").to_lowercase(), wanted.to_lowercase());
    let wanted = "ConnectError: certificate verify failed: IP address mismatch";
    assert_eq!(fails("good", "127.0.0.1").to_lowercase(), wanted.to_lowercase());
    for host in ["", "[]", "%lo", ".localhost", "local\0host"] {
        assert_eq!(fails("good", host), format!("ConfigurationError: {host:?} is no host"));
    }
}

#[test]
#[ignore = "it needs the fake servers"]
fn settings_that_are_missing() {
    let certificate = folder().join("client.pem");
    let key = folder().join("client.key");
    let fails = |connector: TlsConnector| connector.connect().map(drop).unwrap_err().to_string();
    let bare = TlsConnector::new("localhost", port_of("good"));
    assert_eq!(fails(bare.clone()), "ConfigurationError: certificate is not given");
    let one = bare.with_certificate(certificate, key);
    assert_eq!(fails(one), "ConfigurationError: authority is not given");
}

#[test]
#[ignore = "it needs the fake servers"]
fn an_encrypted_key() {
    let connector = connector("certificate", "localhost", "encrypted");
    let with = |connector: TlsConnector| {
        connector.connect().map(|connector| connector.build().query().unwrap())
    };
    let server = with(connector.clone().with_passphrase("geheim & co")).unwrap();
    assert_eq!(server.vendor_identification.as_deref(), Some("alice"));
    let long = "x".repeat(100_000);
    for wrong in ["geheim", "", &long] {
        let error = with(connector.clone().with_passphrase(wrong)).unwrap_err().to_string();
        assert!(error.ends_with("it is encrypted, and this is not its passphrase"), "{error}");
    }
    let error = with(connector.clone()).unwrap_err().to_string();
    assert!(error.ends_with("it is encrypted, and no passphrase is given"), "{error}");
    let shown = format!("{:?}", connector.with_passphrase("geheim & co"));
    assert!(!shown.contains("geheim") && shown.contains("encrypted.key"), "{shown}");
}

/// What a log was told.
type Seen = Arc<Mutex<Vec<(EventKind, String)>>>;

/// A client that reconnects, and its log. No fake has seen its user, also where these tests are run
/// again: some count what came of each.
fn reconnecting(fake: &str, user: &str) -> (TlsClient, Seen) {
    let now = SystemTime::now().duration_since(SystemTime::UNIX_EPOCH).unwrap();
    let user = format!("{user} {} {}", std::process::id(), now.as_nanos());
    let seen = Seen::default();
    let log = Arc::clone(&seen);
    let builder = connector(fake, "localhost", "client").with_reconnect(true).connect().unwrap();
    let builder = builder.with_credentials(user, "");
    let client = builder
        .with_log(move |event| log.lock().unwrap().push((event.kind, event.to_string())))
        .build();
    (client, seen)
}

/// How many requests the server had of this user.
fn came(client: &TlsClient) -> String {
    client.query().unwrap().vendor_identification.unwrap()
}

#[test]
#[ignore = "it needs the fake servers"]
fn where_nothing_was_sent_the_call_is_made_again() {
    use EventKind::{Call, Reopened, Repeated};
    let (client, seen) = reconnecting("end_after", "Rust");
    for _ in 0..3 {
        client.activate_key("k").unwrap();
    }
    let seen = seen.lock().unwrap();
    let kinds: Vec<_> = seen.iter().map(|event| event.0).collect();
    assert_eq!(kinds, [Call, Repeated, Reopened, Call, Repeated, Reopened, Call]);
    let server = format!("localhost:{}: ", port_of("end_after"));
    let wanted = format!("{server}end of input; nothing was sent: the call is made again");
    assert_eq!(seen[1].1, wanted);
    assert_eq!(seen[2].1, format!("{server}the connection was lost, and is opened again"));
    assert!(seen[3].1.starts_with(&format!("{server}activate: status 0, ")), "{}", seen[3].1);
}

#[test]
#[ignore = "it needs the fake servers"]
fn what_changes_nothing_is_made_again() {
    let (client, _) = reconnecting("first_lost", "Rust changeless");
    assert_eq!(client.sign("k", b"x").unwrap().signature_data, b"signature by k");
    assert_eq!(came(&client), "3");
    let payload = || vec![Item::new("UniqueIdentifier", "k")];
    let (client, _) = reconnecting("first_lost", "Rust by operation");
    client.do_operation("MAC", "1.2", payload()).unwrap();
    assert_eq!(came(&client), "3");
    let (client, _) = reconnecting("first_lost", "Rust by words");
    client.call("mac", &[Word::Text("k"), Word::Bytes(b"x")]).unwrap();
    assert_eq!(came(&client), "3");
    let (client, _) = reconnecting("first_lost", "Rust changing");
    assert!(matches!(client.activate_key("k"), Err(Error::ResponseReadError(_))));
    assert!(client.is_open());
    assert_eq!(came(&client), "2");
    let (client, seen) = reconnecting("end", "Rust");
    assert!(matches!(client.query(), Err(Error::ResponseReadError(_))));
    assert_eq!(seen.lock().unwrap().len(), 3);
}

#[test]
#[ignore = "it needs the fake servers"]
fn several_calls_in_one_message() {
    let client = client("batches");
    let archive = || vec![Item::new("UniqueIdentifier", "a")];
    let mut batch = client.batch();
    batch.call("query", &[]).unwrap();
    batch.call("sign", &[Word::Text("k"), Word::Bytes(b"x")]).unwrap();
    batch.do_operation("Archive", "1.2", archive()).unwrap();
    batch.call("get", &[Word::Text("PublicKey.EC")]).unwrap();
    batch.call("archive", &[Word::Text("a")]).unwrap();
    let answers = batch.send().unwrap();
    let (good, keys) = (self::client("good"), self::client("transparent"));
    let json = |answer: &Result<metsuwan::Answer>| answer.as_ref().unwrap().json().clone();
    assert_eq!(json(&answers[0]), json(&good.call("query", &[])));
    assert_eq!(json(&answers[1]), json(&good.call("sign", &[Word::Text("k"), Word::Bytes(b"x")])));
    let archived = answers[2].as_ref().unwrap().tree();
    assert_eq!(archived, good.do_operation("Archive", "1.2", archive()).ok());
    assert_eq!(json(&answers[3]), json(&keys.call("get", &[Word::Text("PublicKey.EC")])));
    assert_eq!(json(&answers[4]), json(&good.call("archive", &[Word::Text("a")])));
    for on_error in [BatchErrorContinuationOption::Stop, BatchErrorContinuationOption::Continue] {
        let mut batch = client.batch().on_error(on_error);
        for name in ["a", "failing", "k"] {
            batch.call("activate", &[Word::Text(name)]).unwrap();
        }
        let answers = batch.send().unwrap();
        assert!(answers[0].is_ok() && matches!(answers[1], Err(Error::ItemNotFound(_))));
        let goes_on = on_error == BatchErrorContinuationOption::Continue;
        assert!(if goes_on {
            answers[2].is_ok()
        } else {
            matches!(answers[2], Err(Error::NotDone(_)))
        });
    }
    client.query().unwrap();
}

#[test]
#[ignore = "it needs the fake servers"]
fn responses_that_are_none_to_a_batch() {
    let send = |fake: &str, names: &[&str]| {
        let client = client(fake);
        let mut batch = client.batch();
        for name in names {
            batch.call("activate", &[Word::Text(name)]).unwrap();
        }
        let answers = batch.send();
        (answers, client)
    };
    for name in ["unknown", "twice", "unnamed", "left out"] {
        let (answers, client) = send("batches", &["a", name]);
        assert!(matches!(answers, Err(Error::OtherObject(_))), "{answers:?}");
        assert!(!client.is_open());
    }
    for fake in ["rubbish", "half", "batch_two", "batch_none", "other_operation", "echo", "deep"] {
        let (answers, client) = send(fake, &["a", "k"]);
        // Where it has an item for each of them, each is lost.
        let is_lost = |error: &Error| error.is_lost();
        let each = |answers: Vec<Result<_>>| {
            answers.iter().all(|answer| answer.as_ref().is_err_and(is_lost))
        };
        assert!(answers.map_or_else(|error| is_lost(&error), each), "{fake}");
        assert!(!client.is_open(), "{fake}");
    }
    let (answers, client) = send("no_batches", &["a", "k"]);
    for answer in answers.unwrap() {
        assert_eq!(answer.unwrap_err().details().message(), Some("no batches"));
    }
    assert!(client.is_open());
}

#[test]
#[ignore = "it needs the fake servers"]
fn threads_share_a_pool() {
    let server = connector("good", "localhost", "client");
    let pool = Pool::new(2, move || Ok(server.connect()?.build())).unwrap();
    thread::scope(|scope| {
        for at in 0..4 {
            let pool = &pool;
            scope.spawn(move || {
                for _ in 0..3 {
                    let name = format!("k{at}");
                    let signed = pool.client().unwrap().sign(&name, b"x").unwrap();
                    assert_eq!(signed.signature_data, format!("signature by {name}").as_bytes());
                }
            });
        }
    });
    let nobody = connector("nobody", "localhost", "client");
    let pool = Pool::new(1, move || Ok(nobody.connect()?.build())).unwrap();
    for _ in 0..2 {
        assert!(matches!(pool.client(), Err(Error::ConnectError(_))));
    }
}

/// What the optional features make of TLS; tests/live/features.sh runs these.
mod features {
    #[allow(unused_imports)] // each feature has its own
    use super::*;

    #[test]
    #[ignore = "it needs the fake servers"]
    #[cfg(feature = "r2d2")]
    fn one_that_the_server_has_ended_is_not_given_out() {
        let opened = Arc::new(Mutex::new(0));
        let (server, count) = (connector("end_after", "localhost", "client"), Arc::clone(&opened));
        let manager = metsuwan::Manager::new(move || {
            *count.lock().unwrap() += 1;
            Ok(server.connect()?.build())
        });
        let pool = r2d2::Pool::builder().max_size(1).build(manager).unwrap();
        for _ in 0..3 {
            pool.get().unwrap().query().unwrap();
        }
        assert_eq!(*opened.lock().unwrap(), 3);
    }

    #[test]
    #[ignore = "it needs the fake servers"]
    #[cfg(feature = "tokio")]
    fn tasks_get_their_own_answers() {
        let signs = |at: usize| {
            move |client: &TlsClient| {
                let signed = client.sign(&format!("k{at}"), b"x")?;
                assert_eq!(signed.signature_data, format!("signature by k{at}").as_bytes());
                Ok(())
            }
        };
        let server = connector("good", "localhost", "client");
        let runtime = tokio::runtime::Builder::new_current_thread().build().unwrap();
        runtime.block_on(async {
            let other = server.clone();
            let client = metsuwan::AsyncClient::open(move || Ok(other.connect()?.build()));
            let client = client.await.unwrap();
            let pool = Pool::new(2, move || Ok(server.connect()?.build())).unwrap();
            let pool = metsuwan::AsyncPool::new(pool);
            let calls = (0..40).map(|at| match at % 2 {
                0 => tokio::spawn(client.call(signs(at))),
                _ => tokio::spawn(pool.call(signs(at))),
            });
            for call in calls.collect::<Vec<_>>() {
                call.await.unwrap().unwrap();
            }
        });
    }
}
