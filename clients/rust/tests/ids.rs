//! The Unique Batch Item IDs of operations, by which the answer is known.
mod script;
mod ttlv;

use metsuwan::{library, Client, ClientBuilder, Error, Item, Register, Result, SecretDataType};
use script::{Does, Script, Sent};
use ttlv::{bytes, enumeration, failed, failure, identifier, integer, item_id, response};
use ttlv::{response_of_items, structure, with_item_id};

const REGISTER: u32 = 0x03;
const ACTIVATE: u32 = 0x12;
const QUERY: u32 = 0x18;
const ENCRYPT: u32 = 0x1F;

fn client(does: &[Does]) -> (Client<Script>, Sent) {
    let sent = Sent::default();
    (ClientBuilder::new(Script::new(does, &sent)).build(), sent)
}

fn encrypt(client: &Client<Script>) -> Result<Item> {
    client.do_operation("Encrypt", "1.2", vec![Item::new("UniqueIdentifier", "k")])
}

#[test]
fn each_operation_has_an_id_of_its_own() {
    let answer = |operation| Does::Answer(response(operation, &[identifier("k")]));
    let does = [ENCRYPT, ENCRYPT, REGISTER, ACTIVATE].map(answer);
    let (client, sent) = client(&does);
    encrypt(&client).unwrap();
    encrypt(&client).unwrap();
    let none = Register::default();
    client.register_secret(SecretDataType::Password, b"secret", none).unwrap();
    client.activate_key("k").unwrap();
    let ids: Vec<_> = sent.all().iter().map(|request| item_id(request)).collect();
    assert!(ids[..3].iter().all(Option::is_some), "{ids:?}");
    assert!(ids[0] != ids[1] && ids[0] != ids[2] && ids[1] != ids[2], "{ids:?}");
    assert_eq!(ids[3], None, "a call of words has none");
}

/// The request of KMIP 1.0, 7.1 and 7.2.
#[test]
fn the_id_stands_behind_the_operation() {
    let payload = r#"{"tag":"RequestPayload","value":[]}"#;
    let call = library::Operation::new("Query", "1.0", payload);
    let request = |id| library::operation_request(&call.with_item_id(id), None).unwrap();
    let version = structure(0x420069, &[integer(0x42006A, 1), integer(0x42006B, 0)]);
    let header = structure(0x420077, &[version, integer(0x42000D, 1)]);
    let message = |id: &[Vec<u8>]| {
        let items = [&[enumeration(0x42005C, QUERY)], id, &[structure(0x420079, &[])]].concat();
        structure(0x420078, &[header.clone(), structure(0x42000F, &items)])
    };
    assert_eq!(request(&[0, 0xFF, 1]), message(&[bytes(0x420093, &[0, 0xFF, 1])]));
    assert_eq!(request(&[]), message(&[]), "no bytes are no ID");
}

#[test]
fn an_answer_that_has_another_id_or_none_is_lost() {
    let (good, no) = (response(ENCRYPT, &[identifier("k")]), failure(ENCRYPT, 1, "no such key"));
    let others = [with_item_id(&good, b"12345678"), with_item_id(&no, b"12345678")];
    for answer in [good, no].into_iter().chain(others) {
        let (client, _) = client(&[Does::AnswerAsItIs(answer)]);
        let error = encrypt(&client).unwrap_err();
        assert!(matches!(error, Error::OtherObject(_)) && error.is_lost(), "{error:?}");
        let wanted = "Response does not have the request's Unique Batch Item ID";
        assert_eq!(error.details().text(), wanted);
        assert!(!client.is_open());
    }
}

/// A server that could not read a request knows neither its operation nor its ID.
#[test]
fn a_failure_of_the_message_is_that_of_the_call() {
    let unread = response_of_items(&[structure(0x42000F, &failed(4, "not read"))]);
    let (client, _) = client(&[Does::AnswerAsItIs(unread.clone()), Does::AnswerAsItIs(unread)]);
    for _ in 0..2 {
        let error = encrypt(&client).unwrap_err();
        assert!(matches!(error, Error::ServerError(_)) && !error.is_lost(), "{error:?}");
        let details = error.details();
        assert_eq!((details.reason(), details.message()), (Some(4), Some("not read")));
    }
}
