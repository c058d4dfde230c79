//! Calls over a stream whose answers are written down here.
mod ttlv;

use metsuwan::library::{self, KmipWord};
use metsuwan::{Client, ClientBuilder, Error, Json, Word};
use std::collections::VecDeque;
use std::io::{self, Read, Write};
use std::slice::from_ref;
use std::sync::{Arc, Mutex};
use std::time::{Duration, Instant};
use ttlv::{bytes, enumeration, failure, identifier, integer, response, response_with};
use ttlv::{structure, text};

const CREATE: u32 = 0x01;
const CREATE_KEY_PAIR: u32 = 0x02;
const LOCATE: u32 = 0x08;
const GET: u32 = 0x0A;
const GET_ATTRIBUTES: u32 = 0x0B;
const MODIFY_ATTRIBUTE: u32 = 0x0E;
const ACTIVATE: u32 = 0x12;
const QUERY: u32 = 0x18;
const DISCOVER_VERSIONS: u32 = 0x1E;
const RNG_RETRIEVE: u32 = 0x25;
const SIGN: u32 = 0x21;

/// How many requests were sent, and whether the stream was dropped.
#[derive(Clone, Default)]
struct Seen(Arc<Mutex<(usize, bool)>>);

impl Seen {
    fn requests(&self) -> usize {
        self.0.lock().unwrap().0
    }

    fn is_dropped(&self) -> bool {
        self.0.lock().unwrap().1
    }
}

/// A stream that answers each request with the next of these, and then ends. It gives no more than
/// 7 bytes at a time.
struct Script {
    answers: VecDeque<Vec<u8>>,
    left: VecDeque<u8>,
    seen: Seen,
    panics: bool,
}

impl Write for Script {
    fn write(&mut self, bytes: &[u8]) -> io::Result<usize> {
        assert!(!self.panics, "as wanted");
        Ok(bytes.len())
    }

    fn flush(&mut self) -> io::Result<()> {
        self.seen.0.lock().unwrap().0 += 1;
        self.left = self.answers.pop_front().unwrap_or_default().into();
        Ok(())
    }
}

impl Read for Script {
    fn read(&mut self, into: &mut [u8]) -> io::Result<usize> {
        let count = into.len().min(7);
        self.left.read(&mut into[..count])
    }
}

impl Drop for Script {
    fn drop(&mut self) {
        self.seen.0.lock().unwrap().1 = true;
    }
}

fn script(answers: &[Vec<u8>]) -> (ClientBuilder<Script>, Seen) {
    let seen = Seen::default();
    let answers = answers.iter().cloned().collect();
    let left = VecDeque::new();
    let script = Script { answers, left, seen: seen.clone(), panics: false };
    (ClientBuilder::new(script), seen)
}

fn client(answers: &[Vec<u8>]) -> Client<Script> {
    script(answers).0.build()
}

fn is_missing<T>(made: metsuwan::Result<T>) -> bool {
    matches!(made, Err(Error::MissingValue(_)))
}

fn key_of(kind: u32, object: u32, format: u32, value: Vec<u8>) -> Vec<Vec<u8>> {
    let block = structure(0x420040, &[enumeration(0x420042, format), value]);
    vec![enumeration(0x420057, kind), identifier("k"), structure(object, &[block])]
}

fn material(value: &[u8]) -> Vec<u8> {
    structure(0x420045, &[bytes(0x420043, value)])
}

#[test]
fn values_are_those_of_the_answer() {
    let pair = |name: &str| {
        [text(0x420066, &format!("{name}private")), text(0x42006F, &format!("{name}public"))]
    };
    let evil = structure(0x540001, &pair("evil-"));
    let in_front = [from_ref(&evil), &pair("")].concat();
    let signed = [identifier("k"), bytes(0x4200C3, b"signature")];
    let evil_signed = structure(0x540001, &[bytes(0x4200C3, b"evil"), identifier("evil")]);
    let client = client(&[
        response(CREATE_KEY_PAIR, &in_front),
        response_with(&evil, CREATE_KEY_PAIR, &pair("")),
        response(SIGN, &[from_ref(&evil_signed), &signed].concat()),
        response_with(&evil_signed, SIGN, &signed),
    ]);
    for _ in 0..2 {
        let made = client.create_rsa_key_pair(2048, "a".into(), "b".into()).unwrap();
        assert_eq!(made, ("private".into(), "public".into()));
    }
    for _ in 0..2 {
        let made = client.sign("k", b"x").unwrap();
        assert_eq!(made.unique_identifier, "k");
        assert_eq!(made.signature_data, b"signature");
    }
}

#[test]
fn a_value_by_its_path_is_that_of_the_library() {
    let evil = structure(0x540001, &[bytes(0x420043, b"evil"), identifier("evil")]);
    let payload = [vec![evil], key_of(3, 0x42006D, 3, material(b"\x01\xAB"))].concat();
    let response = response(GET, &payload);
    let answer = client(from_ref(&response)).get_key("k").unwrap().answer;
    let (_, line) = library::answer(&["get", "k"].map(KmipWord::text), &[], &response);
    let block = "cryptographic_object.PublicKey.key_block";
    for path in ["object_type", "unique_identifier", &format!("{block}.key_format_type")] {
        let wanted = library::value(&line, path, false).unwrap();
        assert_eq!(answer.text_at(path).unwrap().as_bytes(), wanted, "{path}");
    }
    let path = format!("{block}.key_value.key_material.Bytes");
    assert_eq!(library::value(&line, &path, true), Ok(vec![1, 0xAB]));
    assert_eq!(answer.bytes_at(&path).unwrap(), [1, 0xAB]);
    for path in ["", "x", "object_type.x", block] {
        let none = library::value(&line, path, false);
        assert_eq!(none, Err(library::NoValue::Missing), "{path}");
        assert!(is_missing(answer.text_at(path)), "{path}");
    }
}

#[test]
fn calls_have_types() {
    let version = |minor| structure(0x420069, &[integer(0x42006A, 1), integer(0x42006B, minor)]);
    let name = text(0x42000A, "x-a");
    let attribute = structure(0x420008, &[name, integer(0x420009, 3), integer(0x42000B, 7)]);
    let client = client(&[
        response(LOCATE, &[identifier("6"), identifier("7")]),
        response(LOCATE, &[]),
        response(GET_ATTRIBUTES, &[identifier("6"), attribute.clone()]),
        response(CREATE, &[enumeration(0x420057, 2), identifier("8")]),
        response(DISCOVER_VERSIONS, &[version(2), version(1)]),
        response(RNG_RETRIEVE, &[bytes(0x4200C2, b"\x00\xFF")]),
        response(MODIFY_ATTRIBUTE, &[identifier("6"), attribute]),
    ]);
    assert_eq!(client.locate("n").unwrap(), ["6", "7"]);
    assert!(client.locate("n").unwrap().is_empty());
    let attributes = client.attributes("6").unwrap();
    let is_it = |attribute: &metsuwan::Attribute| {
        attribute.name == "x-a"
            && attribute.index == Some(3)
            && attribute.value.to_string() == "{\"Integer\":7}"
    };
    assert!(attributes.len() == 1 && is_it(&attributes[0]));
    assert_eq!(client.create_aes(256, "n").unwrap(), "8");
    let versions = client.discover().unwrap();
    let versions: Vec<_> = versions.iter().map(|version| (version.major, version.minor)).collect();
    assert_eq!(versions, [(1, 2), (1, 1)]);
    assert_eq!(client.rng_retrieve(2).unwrap().data, [0, 0xFF]);
    let renamed = client.rename_key("6", "n".into()).unwrap();
    assert!(renamed.unique_identifier == "6" && is_it(&renamed.attribute));
}

#[test]
fn a_missing_value_is_an_error_and_the_connection_good() {
    let certificate = structure(0x420013, &[enumeration(0x42001D, 1), bytes(0x42001E, b"der")]);
    let client = client(&[
        response(GET_ATTRIBUTES, &[identifier("1")]),
        response(DISCOVER_VERSIONS, &[]),
        response(GET, &[enumeration(0x420057, 1), identifier("k"), certificate]),
        response(GET, &key_of(4, 0x420064, 4, bytes(0x420045, b"wrapped"))),
        response(QUERY, &[]),
    ]);
    assert!(is_missing(client.attributes("1")));
    assert!(is_missing(client.discover()));
    let certificate = client.get_key("k").unwrap();
    assert_eq!(certificate.certificate_type().unwrap(), "X509");
    assert_eq!(certificate.certificate_value().unwrap(), b"der");
    assert!(is_missing(certificate.key_material()) && is_missing(certificate.key_format_type()));
    let wrapped = client.get_key("k").unwrap();
    assert!(is_missing(wrapped.key_material()) && is_missing(wrapped.pem()));
    let server = client.query().unwrap();
    assert_eq!((server.operations, server.object_types), (None, None));
    assert_eq!(server.vendor_identification, None);
}

#[test]
fn a_query_is_one_pass() {
    let operations: Vec<_> = (0..60_000).map(|at| enumeration(0x42005C, 1 + at % 40)).collect();
    let response = response(QUERY, &operations);
    let quick = || {
        let started = Instant::now();
        let (status, _) = library::answer(&[KmipWord::text("query")], &[], &response);
        assert_eq!(status, library::Status::Answered);
        let once = started.elapsed();
        let client = client(from_ref(&response));
        let started = Instant::now();
        let operations = client.query().unwrap().operations.unwrap();
        assert_eq!((operations.len(), operations[1].as_str()), (60_000, "CreateKeyPair"));
        started.elapsed() < 4 * once + Duration::from_secs(1)
    };
    // A busy machine may slow some of them, and not all.
    assert!((0..10).any(|_| quick()));
}

/// This call ends so, the stream is dropped, and later calls send nothing.
fn is_lost(answers: &[Vec<u8>], is_it: fn(&Error) -> bool) {
    let (builder, seen) = script(answers);
    let client = builder.build();
    let error = client.sign("mine", b"x").unwrap_err();
    assert!(is_it(&error) && error.is_lost(), "{error:?}");
    assert!(seen.is_dropped());
    for _ in 0..2 {
        let error = client.query().unwrap_err();
        assert!(matches!(error, Error::RequestWriteError(_)), "{error:?}");
        assert_eq!(error.details().text(), "the connection is closed; nothing was sent");
    }
    assert_eq!(seen.requests(), 1);
    assert!(client.into_inner().is_none());
}

#[test]
fn what_loses_the_connection() {
    let later = response(QUERY, &[]);
    let other = response(SIGN, &[identifier("other"), bytes(0x4200C3, b"signature")]);
    is_lost(&[other, later.clone()], |error| {
        matches!(error, Error::OtherObject(_))
            && error.kind() == "OtherObject"
            && error.details().text() == "answer for another object"
    });
    is_lost(&[b"HTTP/1.1 400 Bad".to_vec(), later.clone()], |error| {
        matches!(error, Error::DeserializeError(_)) && error.details().text() == "not a structure"
    });
    let good = response(SIGN, &[identifier("mine"), bytes(0x4200C3, b"signature")]);
    is_lost(&[good[..good.len() - 1].to_vec(), later.clone()], |error| {
        matches!(error, Error::ResponseReadError(_))
            && error.details().text() == "end of input"
            && error.details().io_kind() == Some(io::ErrorKind::UnexpectedEof)
    });
    is_lost(&[vec![], later], |error| matches!(error, Error::ResponseReadError(_)));
}

#[test]
fn what_does_not() {
    let (builder, seen) = script(&[
        failure(ACTIVATE, 0x100, "not today"),
        failure(ACTIVATE, 1, "no such \"key\""),
        failure(ACTIVATE, 0x7FFF, "in no table"),
        response(ACTIVATE, &[identifier("1")]),
    ]);
    let client = builder.build();
    let error = client.activate_key("1").unwrap_err();
    assert!(matches!(error, Error::ServerError(_)) && !error.is_lost(), "{error:?}");
    let error = client.activate_key("1").unwrap_err();
    assert!(matches!(error, Error::ItemNotFound(_)), "{error:?}");
    assert!(error.details().text().ends_with("no such \"key\""), "{error:?}");
    let error = client.activate_key("1").unwrap_err();
    assert!(matches!(error, Error::InternalError(_)) && !error.is_lost(), "{error:?}");
    for refused in [client.activate_key(""), client.call("sign -", &[]).map(drop)] {
        assert!(matches!(refused, Err(Error::GrammarError(_))));
    }
    client.activate_key("1").unwrap();
    assert!(!seen.is_dropped() && client.into_inner().is_some());
}

/// An answer to another call: the next one may belong to another, too.
#[test]
fn an_answer_to_another_call() {
    let answers =
        [(response(QUERY, &[]), "Some(Query)"), (failure(QUERY, 1, "no such key"), "Query")];
    for (answer, shown) in answers {
        let (builder, seen) = script(&[answer, response(ACTIVATE, &[identifier("1")])]);
        let client = builder.build();
        let error = client.activate_key("1").unwrap_err();
        assert!(matches!(error, Error::OtherObject(_)) && error.is_lost(), "{error:?}");
        let wanted =
            format!("Response operation {shown} does not match request operation Activate");
        assert_eq!(error.details().text(), wanted);
        assert!(seen.is_dropped() && client.into_inner().is_none());
    }
}

#[test]
fn a_response_has_a_limit() {
    let answer = response(QUERY, &[text(0x42009D, &"x".repeat(1 << 20))]);
    let length = u32::try_from(answer.len()).unwrap();
    let error = client(from_ref(&answer)).query().unwrap_err();
    let wanted = "the response is longer than the limit of 1048576 bytes";
    assert!(matches!(error, Error::DeserializeError(_)) && error.details().text() == wanted);
    let with = |limit| script(from_ref(&answer)).0.with_max_bytes(limit).build().query();
    assert!(with(length).is_ok() && with(length - 1).is_err());
    assert!(with(0).is_ok(), "0 is no limit");
}

#[test]
fn an_error_before_a_call_sends_nothing() {
    let (builder, seen) = script(&[response(QUERY, &[])]);
    let client = builder
        .with_before_call(|_| Err(io::Error::new(io::ErrorKind::TimedOut, "too late")))
        .build();
    let error = client.query().unwrap_err();
    assert_eq!(error.to_string(), "RequestWriteError: too late; nothing was sent");
    assert_eq!(error.details().io_kind(), Some(io::ErrorKind::TimedOut));
    assert!(seen.is_dropped() && seen.requests() == 0);
}

#[test]
fn what_is_done_before_a_call_may_keep_a_state() {
    let (builder, _) = script(&[response(QUERY, &[]), response(QUERY, &[])]);
    let mut calls = 0;
    let (sender, receiver) = std::sync::mpsc::channel();
    let client = builder
        .with_before_call(move |_| {
            calls += 1;
            sender.send(calls).map_err(|_| io::Error::from(io::ErrorKind::BrokenPipe))
        })
        .build();
    client.query().unwrap();
    std::thread::scope(|scope| scope.spawn(|| client.query().unwrap()).join()).unwrap();
    assert_eq!(receiver.try_iter().collect::<Vec<_>>(), [1, 2]);
}

#[test]
fn a_call_that_panics_loses_the_connection() {
    let seen = Seen::default();
    let (answers, left) = (VecDeque::new(), VecDeque::new());
    let script = Script { answers, left, seen: seen.clone(), panics: true };
    let client = Arc::new(ClientBuilder::new(script).build());
    let other = Arc::clone(&client);
    assert!(std::thread::spawn(move || other.query()).join().is_err());
    assert!(matches!(client.query(), Err(Error::RequestWriteError(_))));
    assert!(seen.is_dropped());
}

#[test]
fn debug_shows_no_secret() {
    let key = || response(GET, &key_of(2, 0x42008F, 1, material(b"Geheim")));
    let (builder, _) =
        script(&[key(), key(), response(RNG_RETRIEVE, &[bytes(0x4200C2, b"Geheim")])]);
    let builder = builder.with_credentials("alice", "Geheim");
    let mut shown = format!("{builder:?}");
    let client = builder.build();
    shown += &format!("{client:?}");
    assert_eq!(shown.matches("alice").count(), 2);
    let got = client.get_key("k").unwrap();
    assert_eq!(got.key_material().unwrap(), b"Geheim");
    assert!(got.answer.json().to_string().contains("47656865696D"));
    shown += &format!("{got:?}{:?}{:?}", got.answer, got.answer.json());
    shown += &format!("{:?}", client.call("get", &[Word::Text("k")]));
    shown += &format!("{:?}", client.rng_retrieve(6));
    shown += &format!("{:?}", [Word::Bytes(b"Geheim")]);
    shown += &format!("{:?}", Json::text("Geheim"));
    let bytes = format!("{:?}", b"Geheim");
    let bytes = bytes.trim_matches(['[', ']']);
    for secret in ["Geheim", "47656865696D", bytes] {
        assert!(!shown.contains(secret), "{secret}: {shown}");
    }
}

#[test]
fn errors_can_go_to_other_threads() {
    fn is_error<E: std::error::Error + Send + Sync + 'static>() {}
    is_error::<Error>();
}
