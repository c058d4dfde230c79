//! What `tracing` is told of the calls of a client.
mod script;
mod subscriber;
mod ttlv;

use metsuwan::{Client, ClientBuilder, Item, Word};
use script::{Does, Script, Sent};
use std::io::ErrorKind;
use std::sync::{Arc, Mutex};
use subscriber::{told_by, Told};
use tracing::Level;
use ttlv::{batch_item, bytes, failure, identifier, response, response_of_items, success, text};

const ACTIVATE: u32 = 0x12;
const ENCRYPT: u32 = 0x1F;
const QUERY: u32 = 0x18;
const SIGN: u32 = 0x21;

/// The values of the calls below, each of which is told to nobody.
const KEY: &str = "zebras-are-a-key";
const DATA: &[u8] = b"quokka of a call";
const ANSWER: &[u8] = b"walrus of a server";
const MESSAGE: &str = "osprey of a server";
const USER: &str = "ferret-of-a-client";
const PASSWORD: &str = "lizard-of-a-user";

fn builder(does: &[Does]) -> ClientBuilder<Script> {
    let script = Script::new(does, &Sent::default());
    ClientBuilder::new(script).with_credentials(USER, PASSWORD)
}

fn client(does: &[Does]) -> Client<Script> {
    builder(does).build()
}

fn answer(operation: u32) -> Does {
    let (signature, data) = (bytes(0x4200C3, ANSWER), bytes(0x4200C2, ANSWER));
    let result = if operation == SIGN { signature } else { data };
    Does::Answer(response(operation, &[identifier(KEY), result]))
}

/// A response to Sign that is no answer: its signature is a text.
fn no_answer() -> Does {
    let signature = text(0x4200C3, std::str::from_utf8(ANSWER).unwrap());
    Does::Answer(response(SIGN, &[identifier(KEY), signature]))
}

fn texts(told: &Told) -> [Option<&str>; 4] {
    ["operation", "status", "error", "message"].map(|name| told.field(name))
}

/// What is told has the fields that are documented, and no value of the calls above, neither as it is
/// nor in hex nor as a list of bytes.
fn has_no_value(told: &[Told]) {
    let all = "elapsed_ms error message operation response server status";
    let values = [KEY.as_bytes(), DATA, ANSWER, MESSAGE.as_bytes(), USER.as_bytes()];
    let values = values.into_iter().chain([PASSWORD.as_bytes()]);
    let values: Vec<_> = values.flat_map(|value| forms_of(&value[..6])).collect();
    for told in told {
        assert_eq!(told.target, "metsuwan");
        let elapsed: f64 = told.field("elapsed_ms").unwrap().parse().unwrap();
        assert!((0.0..1e6).contains(&elapsed));
        for (name, field) in &told.fields {
            assert!(all.split(' ').any(|known| known == *name), "{name}");
            let field = field.to_lowercase();
            assert!(values.iter().all(|value| !field.contains(value.as_str())), "{told:?}");
        }
    }
}

fn forms_of(value: &[u8]) -> [String; 3] {
    let text = String::from_utf8(value.to_vec()).unwrap();
    let hex = value.iter().map(|byte| format!("{byte:02x}")).collect();
    let list = format!("{value:?}");
    [text, hex, list[1..list.len() - 1].to_string()]
}

#[test]
fn calls_are_told() {
    let told = told_by(|| {
        let client = client(&[answer(SIGN), answer(ENCRYPT), answer(ENCRYPT)]);
        client.sign(KEY, DATA).unwrap();
        client.call("encrypt", &[Word::Text(KEY), Word::Bytes(DATA)]).unwrap();
        let items = vec![Item::new("UniqueIdentifier", KEY), Item::new("Data", DATA)];
        client.do_operation("Encrypt", "1.2", items).unwrap();
    });
    has_no_value(&told);
    let good = |operation| [Some(operation), Some("0"), None, Some("the call is answered")];
    let all: Vec<_> = told.iter().map(texts).collect();
    assert_eq!(all, [good("sign"), good("encrypt"), good("Encrypt")]);
    assert!(told.iter().all(|told| told.level == Level::DEBUG && told.field("server").is_none()));
}

#[test]
fn errors_are_told_without_what_the_server_said() {
    let told = told_by(|| {
        let not_found = Does::Answer(failure(SIGN, 1, MESSAGE));
        let client = client(&[not_found, no_answer(), Does::Fail(ErrorKind::TimedOut)]);
        let error = client.sign(KEY, DATA).unwrap_err();
        assert_eq!(error.details().message(), Some(MESSAGE));
        assert!(client.sign(KEY, DATA).is_err() && client.sign(KEY, DATA).is_err());
    });
    has_no_value(&told);
    let bad =
        |status, error| [Some("sign"), Some(status), Some(error), Some("the call is not answered")];
    let all: Vec<_> = told.iter().map(texts).collect();
    let wanted = [("1", "ItemNotFound"), ("1", "InternalError"), ("3", "ResponseReadError")];
    assert_eq!(all, wanted.map(|(status, error)| bad(status, error)));
    assert!(told.iter().all(|told| told.level == Level::WARN));
    // The skeleton of what is no answer.
    let skeletons: Vec<_> = told.iter().map(|told| told.field("response")).collect();
    assert!(skeletons[0].is_none() && skeletons[2].is_none());
    assert!(skeletons[1].unwrap().starts_with("7B["), "{skeletons:?}");
}

#[test]
fn a_batch_is_told() {
    let item = batch_item(&[0], ACTIVATE, &success(&[identifier(KEY)]));
    let told = told_by(|| {
        let client = client(&[Does::AnswerBatch(response_of_items(&[item]))]);
        let mut batch = client.batch();
        batch.call("activate", &[Word::Text(KEY)]).unwrap();
        batch.send().unwrap().remove(0).unwrap();
    });
    has_no_value(&told);
    assert_eq!(told.len(), 1);
    assert_eq!((told[0].field("operation"), told[0].level), (Some("batch"), Level::DEBUG));
}

#[test]
fn connections_that_are_opened_again_are_told() {
    let seen = Arc::new(Mutex::new(Vec::new()));
    let events = Arc::clone(&seen);
    let told = told_by(|| {
        let builder = builder(&[Does::Fail(ErrorKind::ConnectionReset)])
            .with_reconnect(|| Ok(Script::new(&[answer(SIGN)], &Sent::default())))
            .with_log(move |event| events.lock().unwrap().push(event.error));
        builder.build().sign(KEY, DATA).unwrap();
    });
    has_no_value(&told);
    let lost = "the connection was lost, and the call is made again";
    let all: Vec<_> = told.iter().map(|told| (told.level, texts(told))).collect();
    let opened = "the connection was lost, and is opened again";
    let wanted = [
        (Level::WARN, [Some("sign"), None, Some("ResponseReadError"), Some(lost)]),
        (Level::INFO, [Some("sign"), None, None, Some(opened)]),
        (Level::DEBUG, [Some("sign"), Some("0"), None, Some("the call is answered")]),
    ];
    assert_eq!(all, wanted);
    // The log is told the same.
    assert_eq!(*seen.lock().unwrap(), [Some("ResponseReadError"), None, None]);
}

#[test]
fn what_is_no_call_is_not_told() {
    let told = told_by(|| {
        let client = client(&[Does::Answer(response(QUERY, &[]))]);
        assert!(client.call("no-such-call", &[Word::Text(KEY)]).is_err());
    });
    assert!(told.is_empty(), "{told:?}");
}

/// It is here since `tracing` may pass over what is told in one thread, where another one without a
/// subscriber was the first to tell it: every call of this file has one.
#[cfg(feature = "openssl")]
#[test]
#[ignore = "it needs the fake servers"]
fn the_server_is_told() {
    let of = |name| std::path::PathBuf::from(std::env::var_os(name).expect(name));
    let certs = of("METSUWAN_CERTS");
    let ports = std::fs::read_to_string(of("METSUWAN_FAKES")).unwrap();
    let port = ports.lines().find_map(|line| line.strip_prefix("good ")).unwrap();
    let client = metsuwan::TlsConnector::new("localhost", port.parse().unwrap())
        .with_certificate(certs.join("client.pem"), certs.join("client.key"))
        .with_authority(certs.join("ca.pem"))
        .connect()
        .unwrap()
        .build();
    let told = told_by(|| drop(client.query().unwrap()));
    assert_eq!(told.len(), 1);
    assert_eq!(told[0].field("server"), Some(format!("localhost:{port}").as_str()));
}
