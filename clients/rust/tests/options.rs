//! Calls with options by their types send what the same words send.
mod ttlv;

use metsuwan::library::{self, KmipWord};
use metsuwan::{AttributeValue, Create, CreateRsa, Get, KeyKind, NewKey, Register, Revoke, Sign};
use metsuwan::{Client, ClientBuilder, Error, Item};
use metsuwan::{
    CryptographicAlgorithm, CryptographicUsageMask, HashingAlgorithm, KeyFormatType, ObjectType,
    PaddingMethod, RevocationReasonCode, State,
};
use std::fmt::Debug;
use std::io::{self, Cursor, Read, Write};
use std::sync::{Arc, Mutex};
use ttlv::{bytes, enumeration, response, structure, text};

const GET_ATTRIBUTES: u32 = 0x0B;
const ENCRYPT: u32 = 0x1F;

/// A stream that keeps what is sent, and gives one answer, which has the request's ID.
struct Recorder {
    sent: Arc<Mutex<Vec<u8>>>,
    answer: Cursor<Vec<u8>>,
}

impl Write for Recorder {
    fn write(&mut self, bytes: &[u8]) -> io::Result<usize> {
        self.sent.lock().unwrap().write(bytes)
    }

    fn flush(&mut self) -> io::Result<()> {
        let answer = self.answer.get_ref();
        let answer = ttlv::identified(answer, &self.sent.lock().unwrap());
        self.answer = Cursor::new(answer);
        Ok(())
    }
}

impl Read for Recorder {
    fn read(&mut self, into: &mut [u8]) -> io::Result<usize> {
        self.answer.read(into)
    }
}

fn client(answer: Vec<u8>) -> (Client<Recorder>, Arc<Mutex<Vec<u8>>>) {
    let sent = Arc::new(Mutex::new(Vec::new()));
    let recorder = Recorder { sent: sent.clone(), answer: Cursor::new(answer) };
    (ClientBuilder::new(recorder).build(), sent)
}

/// What a call sends.
fn sent_by<T: Debug>(call: impl Fn(&Client<Recorder>) -> metsuwan::Result<T>) -> Vec<u8> {
    let (client, sent) = client(vec![]);
    let error = call(&client).unwrap_err();
    assert!(matches!(error, Error::ResponseReadError(_)), "{error}");
    let sent = sent.lock().unwrap();
    sent.clone()
}

/// The request of these words.
fn request_of(words: &[&str]) -> Vec<u8> {
    let given: Vec<_> = words.iter().map(|text| KmipWord::text(text)).collect();
    library::request(&given, &[], None).unwrap_or_else(|_| panic!("{words:?} are no call"))
}

fn are_words<T: Debug>(words: &[&str], call: impl Fn(&Client<Recorder>) -> metsuwan::Result<T>) {
    assert!(sent_by(call) == request_of(words), "{words:?}");
}

/// The same of words that have no spaces.
fn is_line<T: Debug>(line: &str, call: impl Fn(&Client<Recorder>) -> metsuwan::Result<T>) {
    are_words(&line.split(' ').collect::<Vec<_>>(), call);
}

#[test]
fn options_of_sign() {
    is_line("sign k 00", |client| client.sign_with("k", b"\0", Sign::default()));
    is_line("sign k 00 hash=SHA384 padding=PSS algorithm=RSA", |client| {
        let how = Sign::default().with_hash(HashingAlgorithm::SHA384);
        let how = how.with_padding(PaddingMethod::PSS).with_algorithm(CryptographicAlgorithm::RSA);
        client.sign_with("k", b"\0", how)
    });
    is_line("sign k 00 prehashed", |client| {
        client.sign_with("k", b"\0", Sign::default().prehashed())
    });
    let (client, sent) = client(vec![]);
    let both = Sign::default().prehashed().with_hash(HashingAlgorithm::MD5);
    let error = client.sign_with("k", b"\0", both).unwrap_err();
    assert!(matches!(error, Error::GrammarError(_)) && sent.lock().unwrap().is_empty(), "{error}");
}

#[test]
fn defaults_are_those_that_are_documented() {
    use CryptographicUsageMask as Usage;
    is_line("sign k 00", |client| {
        let how = Sign::default().with_hash(HashingAlgorithm::SHA256);
        let how = how.with_padding(PaddingMethod::PKCS1_v1_5);
        client.sign_with("k", b"\0", how.with_algorithm(CryptographicAlgorithm::RSA))
    });
    is_line("revoke k", |client| {
        let why = Revoke::default().with_reason(RevocationReasonCode::CessationOfOperation);
        client.revoke_key_with("k", why)
    });
    is_line("create AES 256 n", |client| {
        let uses = Create::default().with_usage(Usage::Encrypt | Usage::Decrypt);
        client.create_with(CryptographicAlgorithm::AES, 256, "n", uses)
    });
    is_line("create-rsa 2048 a b", |client| {
        let uses = CreateRsa::default().with_private_usage(Usage::Sign);
        let uses = uses.with_public_usage(Usage::Verify);
        client.create_rsa_key_pair_with(2048, "a".into(), "b".into(), uses)
    });
}

#[test]
fn options_of_other_calls() {
    use CryptographicUsageMask as Usage;
    let words = ["revoke", "k", "reason=KeyCompromise", "message=a b", "since=5"];
    are_words(&words, |client| {
        let why = Revoke::default().with_reason(RevocationReasonCode::KeyCompromise);
        client.revoke_key_with("k", why.with_message("a b").with_since(5))
    });
    is_line("get k format=PKCS8 wrap=7", |client| {
        client.get_key_with("k", Get::default().with_format(KeyFormatType::PKCS8).with_wrap("7"))
    });
    is_line("create TRIPLE_DES 168 n usage=Sign,MacVerify", |client| {
        let uses = Create::default().with_usage(Usage::MacVerify | Usage::Sign);
        client.create_with(CryptographicAlgorithm::TRIPLE_DES, 168, "n", uses)
    });
    is_line("create AES 128 n", |client| client.create(CryptographicAlgorithm::AES, 128, "n"));
    is_line("create-rsa 2048 a b private-usage=Decrypt public-usage=Encrypt,WrapKey", |client| {
        let uses = CreateRsa::default().with_private_usage(Usage::Decrypt);
        let uses = uses.with_public_usage(Usage::Encrypt | Usage::WrapKey);
        client.create_rsa_key_pair_with(2048, "a".into(), "b".into(), uses)
    });
    are_words(&["attributes", "k", "State", "x-y z"], |client| {
        client.attributes_with("k", &["State", "x-y z"])
    });
    is_line("attributes k", |client| client.attributes_with("k", &[]));
}

#[test]
fn keys_are_registered() {
    let (kind, format) = (KeyKind::SymmetricKey, KeyFormatType::Raw);
    let algorithm = CryptographicAlgorithm::AES;
    let aes = NewKey::new(kind, format, algorithm, 8, &[0xAB]);
    is_line("register symmetric AB format=Raw algorithm=AES length=8", |client| {
        client.register(&aes)
    });
    let words = "register symmetric AB format=Raw algorithm=AES length=8 usage=Encrypt,Decrypt";
    let words: Vec<_> = words.split(' ').chain(["name=a b"]).collect();
    are_words(&words, |client| {
        let uses = CryptographicUsageMask::Encrypt | CryptographicUsageMask::Decrypt;
        client.register_with(&aes, Register::default().with_usage(uses).with_name("a b"))
    });
    for (kind, word) in [(KeyKind::PublicKey, "public"), (KeyKind::PrivateKey, "private")] {
        let (format, algorithm) = (KeyFormatType::PKCS1, CryptographicAlgorithm::RSA);
        let key = NewKey::new(kind, format, algorithm, 2048, b"key");
        let line = format!("register {word} 6B6579 format=PKCS1 algorithm=RSA length=2048");
        is_line(&line, |client| client.register(&key));
        assert!(format!("{key:?}").ends_with("length: 2048, material: of length 3 }"));
    }
}

#[test]
fn attributes_have_types() {
    let all = [
        (AttributeValue::Name("a=b"), "name=a=b"),
        (AttributeValue::ObjectGroup("g"), "group=g"),
        (AttributeValue::ContactInformation(""), "contact="),
        (AttributeValue::ObjectType(ObjectType::PrivateKey), "type=PrivateKey"),
        (AttributeValue::State(State::Active), "state=Active"),
        (AttributeValue::CryptographicAlgorithm(CryptographicAlgorithm::RSA), "algorithm=RSA"),
        (AttributeValue::CryptographicLength(2048), "length=2048"),
        (AttributeValue::ActivationDate(1_700_000_000), "activation=1700000000"),
    ];
    for (value, word) in all {
        is_line(&format!("attribute-add k {word}"), |client| client.add_attribute("k", value));
        is_line(&format!("attribute-modify k {word}"), |client| {
            client.modify_attribute("k", value, None)
        });
        is_line(&format!("attribute-modify k {word} index=2"), |client| {
            client.modify_attribute("k", value, Some(2))
        });
    }
    let words = all.map(|(_, word)| word).join(" ");
    is_line(&format!("locate where {words}"), |client| {
        client.locate_with(&all.map(|(value, _)| value))
    });
    is_line("locate", |client| client.locate_with(&[]));
    are_words(&["attribute-delete", "k", "Object Group"], |client| {
        client.delete_attribute("k", "Object Group", None)
    });
    is_line("attribute-delete k x-a index=1", |client| {
        client.delete_attribute("k", "x-a", Some(1))
    });
}

/// The names of the client are those of the library, and none is left out: the request by each name
/// has the name's number, and of the requests with another number in this place, which differ in
/// nothing else, the library takes those alone whose numbers have names.
#[test]
fn names_are_those_of_the_library() {
    macro_rules! are_named {
        ($($kind:ident $tag:literal $call:literal)+) => {$(
            let by_name = |value: &$kind| {
                request_of(&format!($call, value.name()).split(' ').collect::<Vec<_>>())
            };
            let request = by_name(&$kind::ALL[0]);
            for value in $kind::ALL {
                assert!(by_name(value) == with_number(&request, $tag, value.number()), "{}", value.name());
            }
            let is_taken = |number: &u32| takes(&with_number(&request, $tag, *number));
            let taken: Vec<u32> = (0..0x100).chain(0x8000_0000..0x8000_0010).filter(is_taken).collect();
            assert_eq!(taken, $kind::ALL.iter().map(|value| value.number()).collect::<Vec<_>>());
        )+};
    }
    /// The request with this number in its first enumeration with this tag.
    fn with_number(request: &[u8], tag: u32, number: u32) -> Vec<u8> {
        let head = &enumeration(tag, 0)[..8];
        let at = request.windows(8).position(|window| window == head).unwrap() + 8;
        let mut made = request.to_vec();
        made[at..at + 4].copy_from_slice(&number.to_be_bytes());
        made
    }
    fn takes(request: &[u8]) -> bool {
        library::request(&[KmipWord::text("raw"), KmipWord::data(request)], &[], None).is_ok()
    }
    are_named! {
        HashingAlgorithm 0x42_0038 "sign k 00 hash={}"
        PaddingMethod 0x42_005F "sign k 00 padding={}"
        CryptographicAlgorithm 0x42_0028 "sign k 00 algorithm={}"
        KeyFormatType 0x42_0042 "get k format={}"
        ObjectType 0x42_000B "locate where type={}"
        State 0x42_000B "locate where state={}"
        RevocationReasonCode 0x42_0082 "revoke k reason={}"
    }
}

#[test]
fn uses_have_the_bits_of_the_library() {
    assert_eq!(CryptographicUsageMask::ALL.len(), 20);
    for (at, usage) in CryptographicUsageMask::ALL.iter().enumerate() {
        assert_eq!(usage.bits(), 1 << at);
        let request = request_of(&["create", "AES", "256", "n", &format!("usage={usage}")]);
        let item = [&[0x42, 0, 0x0B, 2, 0, 0, 0, 4][..], &usage.bits().to_be_bytes()].concat();
        assert!(request.windows(item.len()).any(|window| window == item), "{usage}");
    }
}

/// Whether this is what the operation with this payload sends, with an ID of eight bytes.
fn is_request(sent: &[u8], name: &str, version: &str, payload: &str) -> bool {
    let id = ttlv::item_id(sent).unwrap();
    let call = library::Operation::new(name, version, payload).with_item_id(&id);
    library::operation_request(&call, None).as_deref() == Ok(sent)
}

#[test]
fn certificates_are_registered() {
    let (pem, der) = (include_str!("certificate.pem"), include_bytes!("certificate.der"));
    let hex: String = der.iter().map(|byte| format!("{byte:02X}")).collect();
    let payload = |attributes: &str| {
        format!(
            r#"{{"tag":"RequestPayload","value":[
            {{"tag":"ObjectType","type":"Enumeration","value":"0x00000001"}},
            {{"tag":"TemplateAttribute","value":[{attributes}]}},
            {{"tag":"Certificate","value":[
                {{"tag":"CertificateType","type":"Enumeration","value":"0x00000001"}},
                {{"tag":"CertificateValue","type":"ByteString","value":"{hex}"}}]}}]}}"#
        )
    };
    let registers =
        |sent: Vec<u8>, attributes| is_request(&sent, "Register", "1.0", &payload(attributes));
    assert!(registers(sent_by(|client| client.register_certificate(der)), ""));
    assert!(registers(sent_by(|client| client.register_certificate(pem.as_bytes())), ""));
    let attributes = r#"
        {"tag":"Attribute","value":[
            {"tag":"AttributeName","type":"TextString","value":"Cryptographic Usage Mask"},
            {"tag":"AttributeValue","type":"Integer","value":4098}]},
        {"tag":"Attribute","value":[
            {"tag":"AttributeName","type":"TextString","value":"Name"},
            {"tag":"AttributeValue","value":[
                {"tag":"NameValue","type":"TextString","value":"the \"root\""},
                {"tag":"NameType","type":"Enumeration","value":"0x00000001"}]}]}"#;
    let uses = CryptographicUsageMask::Verify | CryptographicUsageMask::CertificateSign;
    let options = Register::default().with_usage(uses).with_name("the \"root\"");
    assert!(registers(
        sent_by(|client| client.register_certificate_with(der, options)),
        attributes
    ));
    let (client, sent) = client(vec![]);
    let error = client.register_certificate(b"none").unwrap_err();
    assert_eq!(error.to_string(), "GrammarError: the certificate is neither DER nor PEM");
    assert!(sent.lock().unwrap().is_empty() && !error.is_lost());
}

#[test]
fn any_operation_takes_and_gives_items() {
    let answer = response(ENCRYPT, &[text(0x42_0094, "k"), bytes(0x42_00C2, b"\0\xFF")]);
    let (client, sent) = client(answer);
    let how = Item::new("CryptographicParameters", vec![Item::enumeration("0x420011", "CBC")]);
    let items = vec![Item::new("UniqueIdentifier", "k"), how, Item::new("Data", b"\x01")];
    let answer = client.do_operation("Encrypt", "1.2", items).unwrap();
    let payload = r#"{"tag":"RequestPayload","value":[
        {"tag":"UniqueIdentifier","type":"TextString","value":"k"},
        {"tag":"CryptographicParameters","value":[
            {"tag":"BlockCipherMode","type":"Enumeration","value":"0x00000001"}]},
        {"tag":"Data","type":"ByteString","value":"01"}]}"#;
    assert!(is_request(&sent.lock().unwrap(), "Encrypt", "1.2", payload));
    assert_eq!(answer.tag, "ResponsePayload");
    assert_eq!(answer.text_at("UniqueIdentifier").unwrap(), "k");
    assert_eq!(answer.bytes_at("Data").unwrap(), b"\0\xFF");
    assert!(matches!(answer.number_at("Data"), Err(Error::MissingValue(_))));
}

#[test]
fn items_of_an_answer_have_their_types() {
    let item = |tag: u32, kind: u8, value: &[u8]| ttlv::item(tag, kind, value);
    let long = (1_i64 << 53) + 1;
    let answer = structure(
        0x42_0008,
        &[
            item(0x42_0092, 9, &0x47DA_67F8_i64.to_be_bytes()),
            item(0x42_009A, 3, &long.to_be_bytes()),
            item(0x42_0049, 10, &864_000_u32.to_be_bytes()),
            item(0x42_0052, 4, &[0, 0, 0, 0, 0, 0, 1, 0]),
            enumeration(0x42_0057, 2),
            enumeration(0x42_0057, 0x7F),
        ],
    );
    let (client, _) = client(response(GET_ATTRIBUTES, &[answer]));
    let answer = client.do_operation("GetAttributes", "1.0", vec![]).unwrap();
    assert_eq!(answer.number_at("Attribute.TimeStamp").unwrap(), 0x47DA_67F8);
    assert_eq!(answer.number_at("Attribute.ValidityDate").unwrap(), long);
    assert_eq!(answer.number_at("Attribute.LeaseTime").unwrap(), 864_000);
    assert_eq!(answer.bytes_at("Attribute.Modulus").unwrap(), [0, 0, 0, 0, 0, 0, 1, 0]);
    assert_eq!(answer.name_at("Attribute.ObjectType").unwrap(), "SymmetricKey");
    assert_eq!(answer.name_at("Attribute.ObjectType.1").unwrap(), "0x0000007F");
}
