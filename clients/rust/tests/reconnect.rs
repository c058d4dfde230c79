//! Streams that are opened again, and what the log is told.
mod script;
mod ttlv;

use metsuwan::{Client, ClientBuilder, Error, Event, EventKind, Item, Word};
use script::{Does, Script, Sent};
use std::collections::VecDeque;
use std::io::{self, ErrorKind};
use std::sync::{Arc, Mutex};
use std::time::Duration;
use ttlv::{batch_item, bytes, identifier, response, response_of_items, success};

const ACTIVATE: u32 = 0x12;
const ENCRYPT: u32 = 0x1F;
const QUERY: u32 = 0x18;
const SIGN: u32 = 0x21;

/// What the log was told.
type Seen = Arc<Mutex<Vec<(EventKind, String, Option<&'static str>, String)>>>;

fn kinds(seen: &Seen) -> Vec<EventKind> {
    seen.lock().unwrap().iter().map(|event| event.0).collect()
}

fn keep(seen: &Seen) -> impl FnMut(&Event<'_>) + Send + 'static {
    let seen = Arc::clone(seen);
    move |event| {
        assert!(event.elapsed < Duration::from_secs(1000));
        let text = event.to_string();
        seen.lock().unwrap().push((event.kind, event.operation.into(), event.error, text));
    }
}

/// A client whose streams do these one after the other.
fn client(streams: &[&[Does]]) -> (Client<Script>, Sent, Seen) {
    let (sent, seen) = (Sent::default(), Seen::default());
    let mut scripts: VecDeque<_> =
        streams.iter().map(|stream| Script::new(stream, &sent)).collect();
    let first = scripts.pop_front().unwrap();
    let builder = ClientBuilder::new(first).with_log(keep(&seen)).with_reconnect(move || {
        // As a stream that is asked for a query, and has none.
        let none = || ClientBuilder::new(Script::new(&[], &Sent::default())).build().query();
        scripts.pop_front().ok_or_else(|| none().unwrap_err())
    });
    (builder.build(), sent, seen)
}

fn answer(operation: u32) -> Does {
    Does::Answer(response(operation, &[identifier("k"), bytes(0x4200C3, b"signature")]))
}

fn is_read_error<T>(made: metsuwan::Result<T>) -> bool {
    matches!(made, Err(Error::ResponseReadError(_)))
}

#[test]
fn what_changes_nothing_is_made_again() {
    let (client, sent, seen) = client(&[&[], &[answer(SIGN), answer(QUERY)]]);
    client.sign("k", b"x").unwrap();
    client.query().unwrap();
    let requests = sent.all();
    assert!(requests.len() == 3 && requests[0] == requests[1]);
    use EventKind::{Call, Reopened, Repeated};
    assert_eq!(kinds(&seen), [Repeated, Reopened, Call, Call]);
    let seen = seen.lock().unwrap();
    assert_eq!(seen[0].3, "end of input: the call is made again");
    assert_eq!((seen[0].1.as_str(), seen[0].2), ("sign", Some("ResponseReadError")));
    assert_eq!(seen[1].3, "the connection was lost, and is opened again");
}

#[test]
fn an_operation_that_changes_nothing_is_made_again() {
    let payload = || vec![Item::new("UniqueIdentifier", "k")];
    let (client, sent, _) = self::client(&[&[], &[answer(ENCRYPT)]]);
    client.do_operation("Encrypt", "1.2", payload()).unwrap();
    assert_eq!(sent.count(), 2);
    let (client, sent, _) = self::client(&[&[], &[answer(QUERY)]]);
    assert!(is_read_error(client.do_operation("Archive", "1.2", payload())));
    assert_eq!(sent.count(), 1);
    client.query().unwrap();
}

#[test]
fn so_is_a_call_of_the_table() {
    let (key, data) = (Word::Text("k"), Word::Bytes(b"x"));
    let calls: [(&str, u32, &[Word<'_>]); 9] = [
        ("encrypt", ENCRYPT, &[key, data]),
        ("decrypt", 0x20, &[key, data]),
        ("mac", 0x23, &[key, data]),
        ("mac-verify", 0x24, &[key, data, data]),
        ("verify", 0x22, &[key, data, data]),
        ("hash", 0x27, &[data, Word::Option("hash", "SHA_256")]),
        ("check", 0x09, &[key]),
        ("attribute-list", 0x0C, &[key]),
        ("validate", 0x17, &[key, key]),
    ];
    for (name, operation, words) in calls {
        let (client, sent, _) = client(&[&[], &[answer(operation)]]);
        client.call(name, words).unwrap();
        // The same request, and so the same ID.
        let requests = sent.all();
        assert!(requests.len() == 2 && requests[0] == requests[1], "{name}");
    }
    let others: [(&str, &[Word<'_>]); 10] = [
        ("archive", &[key]),
        ("recover", &[key]),
        ("lease", &[key]),
        ("usage-allocation", &[key, Word::Number(1)]),
        ("rekey", &[key]),
        ("rekey-pair", &[key]),
        ("certify", &[key]),
        ("rng-seed", &[data]),
        ("create-key", &[Word::Text("HMAC_SHA256"), Word::Number(256), Word::Text("n")]),
        ("create-ec", &[Word::Text("P_256"), Word::Text("a"), Word::Text("b")]),
    ];
    for (name, words) in others {
        let (client, sent, _) = client(&[&[], &[]]);
        assert!(is_read_error(client.call(name, words)), "{name}");
        assert_eq!(sent.count(), 1, "{name}");
    }
}

#[test]
fn what_may_have_been_done_is_not() {
    for stream in [&[][..], &[Does::RefuseWrite], &[Does::Fail(ErrorKind::ConnectionReset)]] {
        let (client, sent, seen) = client(&[stream, &[answer(ACTIVATE)]]);
        let before = sent.count();
        assert!(client.activate_key("k").unwrap_err().is_lost());
        assert!(client.is_open());
        client.activate_key("k").unwrap();
        assert!(sent.count() - before <= 2);
        use EventKind::{Call, Reopened};
        assert_eq!(kinds(&seen), [Call, Reopened, Call]);
    }
}

#[test]
fn where_nothing_was_sent_the_call_is_made_again() {
    let sent = Sent::default();
    let stream = Script::new(&[answer(ACTIVATE)], &sent);
    let mut again = vec![Script::new(&[answer(ACTIVATE)], &sent)];
    let mut looks = 0;
    let client = ClientBuilder::new(stream)
        .with_before_call(move |_| {
            looks += 1;
            // The first stream has ended after its first call.
            if looks == 2 {
                Err(ErrorKind::UnexpectedEof.into())
            } else {
                Ok(())
            }
        })
        .with_reconnect(move || Ok(again.pop().unwrap()))
        .build();
    client.activate_key("k").unwrap();
    client.activate_key("k").unwrap();
    assert_eq!(sent.count(), 2);
}

#[test]
fn it_is_made_again_once() {
    let (client, sent, _) = client(&[&[], &[], &[answer(QUERY)]]);
    assert!(is_read_error(client.query()));
    assert_eq!(sent.count(), 2);
    client.query().unwrap();
    // A stream that is new, as this call's, is not opened once more for it.
    let (client, sent, _) = self::client(&[&[], &[], &[answer(QUERY)]]);
    assert!(client.activate_key("k").unwrap_err().is_lost());
    assert!(is_read_error(client.query()));
    assert_eq!(sent.count(), 2);
}

#[test]
fn what_is_late_or_no_message_is_not_made_again() {
    let rubbish = Does::Answer(b"HTTP/1.1 400 Bad".to_vec());
    for does in [Does::Fail(ErrorKind::TimedOut), Does::Fail(ErrorKind::WouldBlock), rubbish] {
        let (client, sent, _) = client(&[&[does], &[answer(QUERY)]]);
        assert!(client.query().unwrap_err().is_lost());
        assert_eq!(sent.count(), 1);
        client.query().unwrap();
    }
}

#[test]
fn a_stream_that_is_not_opened_again() {
    let (client, _, seen) = client(&[&[]]);
    assert!(is_read_error(client.query()));
    assert!(client.is_open() && is_read_error(client.query()));
    assert_eq!(kinds(&seen).last(), Some(&EventKind::Call));
    assert!(client.into_inner().is_none());
    let bare = ClientBuilder::new(Script::new(&[], &Sent::default())).build();
    assert!(bare.is_open() && bare.query().is_err() && !bare.is_open());
    assert!(matches!(bare.query(), Err(Error::RequestWriteError(_))));
}

#[test]
fn a_batch_is_made_again_where_all_of_it_changes_nothing() {
    let of_query = response(QUERY, &[]);
    let items = |second| {
        let query = batch_item(&[0], QUERY, &success(&[]));
        let other = batch_item(&[1], second, &success(&[identifier("k")]));
        Does::AnswerBatch(response_of_items(&[query, other]))
    };
    for by_words in [false, true] {
        let (client, sent, _) = client(&[&[], &[items(ENCRYPT)]]);
        let mut batch = client.batch();
        batch.call("query", &[]).unwrap();
        if by_words {
            batch.call("encrypt", &[Word::Text("k"), Word::Bytes(b"x")]).unwrap();
        } else {
            let payload = vec![Item::new("UniqueIdentifier", "k")];
            batch.do_operation("Encrypt", "1.2", payload).unwrap();
        }
        assert!(batch.send().unwrap().iter().all(Result::is_ok));
        assert_eq!(sent.count(), 2);
    }
    let (client, sent, _) = self::client(&[&[], &[items(ACTIVATE), Does::Answer(of_query)]]);
    let mut batch = client.batch();
    batch.call("query", &[]).unwrap().call("activate", &[Word::Text("k")]).unwrap();
    assert!(is_read_error(batch.send()));
    assert_eq!(sent.count(), 1);
    assert!(batch.send().unwrap().iter().all(Result::is_ok));
}

#[test]
fn a_call_that_panics_is_followed_by_another_stream() {
    let sent = Sent::default();
    let mut again = vec![Script::new(&[answer(QUERY), answer(QUERY)], &sent)];
    let mut panics = true;
    let client = ClientBuilder::new(Script::new(&[answer(QUERY)], &sent))
        .with_before_call(move |_| {
            assert!(!std::mem::take(&mut panics), "as wanted");
            io::Result::Ok(())
        })
        .with_reconnect(move || Ok(again.pop().unwrap()))
        .build();
    std::thread::scope(|scope| assert!(scope.spawn(|| client.query()).join().is_err()));
    client.query().unwrap();
    client.query().unwrap();
    assert_eq!(sent.count(), 2);
}

#[test]
fn the_log_tells_of_each_call_and_shows_no_value() {
    let no = ttlv::failure(ACTIVATE, 1, "no such key: the key");
    let signed = response(SIGN, &[identifier("the key"), bytes(0x4200C3, b"signature")]);
    let sealed = Does::Answer(response(ENCRYPT, &[identifier("the key")]));
    let does = [Does::Answer(signed), Does::Answer(no), sealed.clone(), sealed];
    let (client, _, seen) = client(&[&does]);
    client.sign("the key", b"the data").unwrap();
    client.activate_key("the key").unwrap_err();
    let items = vec![Item::new("UniqueIdentifier", "the key")];
    client.do_operation("Encrypt", "1.2", items).unwrap();
    client.call("encrypt", &[Word::Text("the key"), Word::Bytes(b"the data")]).unwrap();
    client.call("sign the key", &[]).unwrap_err();
    client.query().unwrap_err();
    let seen = seen.lock().unwrap();
    let said = |at: usize, operation: &str, error, text: &str| {
        let (kind, name, found, words) = &seen[at];
        assert_eq!((*kind, name.as_str(), *found), (EventKind::Call, operation, error));
        assert!(words.starts_with(text) && words.ends_with(" ms"), "{words}");
    };
    said(0, "sign", None, "sign: status 0, ");
    assert!(seen[0].3.contains(" bytes sent, ") && seen[0].3.contains(" read, "));
    said(1, "activate", Some("ItemNotFound"), "activate: status 1, ");
    said(2, "Encrypt", None, "Encrypt: status 0, ");
    said(3, "encrypt", None, "encrypt: status 0, ");
    said(seen.len() - 1, "query", Some("ResponseReadError"), "query: ResponseReadError, ");
    let all: String = seen.iter().map(|event| format!("{event:?}")).collect();
    for secret in ["the key", "the%20key", "the data", "signature"] {
        assert!(!all.contains(secret), "{all}");
    }
}

#[test]
fn the_log_has_the_skeleton_of_what_is_no_answer() {
    // Its signature is a text.
    let no_answer = response(SIGN, &[identifier("k"), ttlv::text(0x4200C3, "walrus")]);
    let (sent, seen) = (Sent::default(), Arc::new(Mutex::new(Vec::new())));
    let log = Arc::clone(&seen);
    let script = Script::new(&[answer(QUERY), Does::Answer(no_answer)], &sent);
    let told = move |event: &Event<'_>| {
        log.lock().unwrap().push(event.response().map(str::to_string));
    };
    let client = ClientBuilder::new(script).with_log(told).build();
    client.query().unwrap();
    client.sign("k", b"x").unwrap_err();
    let seen = seen.lock().unwrap();
    let skeleton = seen[1].as_deref().unwrap();
    assert!(seen[0].is_none() && skeleton.starts_with("7B[") && !skeleton.contains("walrus"));
}
