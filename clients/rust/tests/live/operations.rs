//! Operations, keys and certificates past the calls of words, against PyKMIP. It prints its checks.
//!
//! operations HOST PORT CERTIFICATE KEY AUTHORITY OBJECTS FOLDER
//!
//! OBJECTS is the folder of certs.sh that has them; what was got of them is left in FOLDER.
mod settings;

use metsuwan::{AttributeValue, CryptographicAlgorithm, CryptographicUsageMask as Usage};
use metsuwan::{Create, Error, Get, Item, TlsClient, Value, Word};
use metsuwan::{HashingAlgorithm, PaddingMethod, Register, Sign};
use openssl::hash::MessageDigest;
use openssl::pkey::PKey;
use openssl::sign::Signer;
use openssl::symm::{encrypt, Cipher};
use settings::Failure;
use std::path::Path;
use std::process::ExitCode;
use std::time::{SystemTime, UNIX_EPOCH};

type Outcome<T> = Result<T, Box<dyn std::error::Error>>;

const NAME: &str = "operations, rust";
const HMAC_SHA256: &str = "HMAC_SHA256";
const ECDSA: &str = "ECDSA";

fn check(holds: bool, what: &str) {
    println!("{} rust: {what}", if holds { "ok     " } else { "FAILED " });
}

fn identifier(value: &str) -> Item {
    Item::new("UniqueIdentifier", value)
}

fn attribute(name: &str, value: impl Into<Value>) -> Item {
    let parts = vec![Item::new("AttributeName", name), Item::new("AttributeValue", value)];
    Item::new("Attribute", parts)
}

/// A key of an algorithm that calls of words do not have.
struct Key<'a> {
    tag: &'a str,
    format: &'a str,
    algorithm: &'a str,
    usage: Usage,
    material: &'a [u8],
}

impl Key<'_> {
    fn register(&self, client: &TlsClient) -> Outcome<String> {
        let value = Item::new("KeyValue", vec![Item::new("KeyMaterial", self.material)]);
        let block = vec![
            Item::enumeration("KeyFormatType", self.format),
            value,
            Item::enumeration("CryptographicAlgorithm", self.algorithm),
            Item::new("CryptographicLength", 256),
        ];
        let uses = vec![attribute("Cryptographic Usage Mask", self.usage.bits())];
        let items = vec![
            Item::enumeration("ObjectType", self.tag),
            Item::new("TemplateAttribute", uses),
            Item::new(self.tag, vec![Item::new("KeyBlock", block)]),
        ];
        let answer = client.do_operation("Register", "1.2", items)?;
        Ok(answer.text_at("UniqueIdentifier")?.to_string())
    }

    /// The attributes and the bytes of a key are those that were registered.
    fn is_kept(&self, client: &TlsClient, key: &str) -> Outcome<Vec<u8>> {
        let Key { tag, algorithm, .. } = self;
        let what = |text: &str| format!("a key of the algorithm {algorithm} {text}");
        let name = Item::new("AttributeName", "Cryptographic Algorithm");
        let answer = client.do_operation("GetAttributes", "1.2", vec![identifier(key), name])?;
        check(answer.text_at("UniqueIdentifier")? == key, &what("has its own attributes"));
        let found = answer.name_at("Attribute.AttributeValue")?;
        check(found == *algorithm, &what("has it as an attribute"));
        let got = client.do_operation("Get", "1.2", vec![identifier(key)])?;
        check(got.name_at("ObjectType")? == *tag, &what("is got"));
        let material = got.bytes_at(&format!("{tag}.KeyBlock.KeyValue.KeyMaterial"))?;
        check(material == self.material, &what("is as it was"));
        let by_words = client.get_key(key)?;
        let is_same = by_words.key_material()? == self.material;
        check(by_words.tree.is_some() && is_same, &what("is got by the call of words"));
        let names = client.attributes(key)?;
        let is_there = names.iter().any(|attribute| attribute.name == "Cryptographic Algorithm");
        check(is_there, &what("has its attributes by that call"));
        Ok(material.to_vec())
    }
}

fn keys(client: &TlsClient, objects: &Path, folder: &Path) -> Outcome<()> {
    let secret: Vec<u8> = (0..32).collect();
    let key = Key {
        tag: "SymmetricKey",
        format: "Raw",
        algorithm: HMAC_SHA256,
        usage: Usage::MacGenerate,
        material: &secret,
    };
    let made = key.register(client)?;
    key.is_kept(client, &made)?;
    client.activate_key(&made)?;
    let items = vec![identifier(&made), Item::new("Data", b"hello")];
    let answer = client.do_operation("MAC", "1.2", items)?;
    let secret = PKey::hmac(&secret)?;
    let wanted = Signer::new(MessageDigest::sha256(), &secret)?.sign_oneshot_to_vec(b"hello")?;
    check(answer.bytes_at("MACData")? == wanted, "a MAC is that of the key");
    let words = [Word::Text(&made), Word::Bytes(b"hello")];
    let mac = client.call("mac", &words)?.bytes_at("mac_data")?;
    check(mac == wanted, "so is the MAC by words");
    let der = std::fs::read(objects.join("EC.PKCS8.der"))?;
    let key = Key {
        tag: "PrivateKey",
        format: "PKCS8",
        algorithm: ECDSA,
        usage: Usage::Sign,
        material: &der,
    };
    let got = key.is_kept(client, &key.register(client)?)?;
    std::fs::write(folder.join("ec.der"), got)?;
    Ok(())
}

fn signatures(client: &TlsClient) -> Outcome<()> {
    let name = format!("{NAME}, public");
    let (private, public) = client.create_rsa_key_pair(2048, NAME.into(), name)?;
    client.activate_key(&private)?;
    client.activate_key(&public)?;
    let how = Sign::default().with_hash(HashingAlgorithm::SHA512).with_padding(PaddingMethod::PSS);
    let signature = client.sign_with(&private, b"hello", how)?.signature_data;
    for (data, wanted) in [(b"hello", "Valid"), (b"Hello", "Invalid")] {
        let how = vec![
            Item::enumeration("PaddingMethod", "PSS"),
            Item::enumeration("HashingAlgorithm", "SHA512"),
            Item::enumeration("CryptographicAlgorithm", "RSA"),
        ];
        let items = vec![
            identifier(&public),
            Item::new("CryptographicParameters", how),
            Item::new("Data", data),
            Item::new("SignatureData", signature.clone()),
        ];
        let answer = client.do_operation("SignatureVerify", "1.2", items)?;
        let is_it = answer.name_at("ValidityIndicator")? == wanted;
        check(is_it, &format!("the server says of a signature: {wanted}"));
        let words = [Word::Text(&public), Word::Bytes(data), Word::Bytes(&signature)];
        let how = [("padding", "PSS"), ("hash", "SHA_512"), ("algorithm", "RSA")];
        let answer = client.call_with("verify", &words, &how)?;
        let is_it = answer.text_at("validity_indicator")? == wanted;
        check(is_it, &format!("it says so by words: {wanted}"));
    }
    Ok(())
}

fn encryption(client: &TlsClient) -> Outcome<()> {
    let uses = Create::default().with_usage(Usage::Encrypt | Usage::Decrypt | Usage::WrapKey);
    let key = client.create_with(CryptographicAlgorithm::AES, 256, NAME, uses)?;
    client.activate_key(&key)?;
    let data_of = |operation, data: &[u8]| -> Outcome<Vec<u8>> {
        let how = vec![
            Item::enumeration("BlockCipherMode", "CBC"),
            Item::enumeration("PaddingMethod", "PKCS5"),
            Item::enumeration("CryptographicAlgorithm", "AES"),
        ];
        let items = vec![
            identifier(&key),
            Item::new("CryptographicParameters", how),
            Item::new("Data", data),
            Item::new("IVCounterNonce", &[0; 16]),
        ];
        Ok(client.do_operation(operation, "1.2", items)?.bytes_at("Data")?.to_vec())
    };
    let sealed = data_of("Encrypt", b"hello")?;
    let opened = data_of("Decrypt", &sealed)?;
    check(sealed.len() == 16 && opened == b"hello", "what was encrypted is decrypted");
    let how = [
        ("mode", "CBC"),
        ("padding", "PKCS5"),
        ("algorithm", "AES"),
        ("iv", "00000000000000000000000000000000"),
    ];
    let by_words = |name, data| {
        let words = [Word::Text(&key), Word::Bytes(data)];
        client.call_with(name, &words, &how)?.bytes_at("data")
    };
    let secret = client.get_key(&key)?.key_material()?;
    let wanted = encrypt(Cipher::aes_256_cbc(), &secret, Some(&[0; 16]), b"\0hello\0")?;
    check(by_words("encrypt", b"\0hello\0")? == wanted, "data is encrypted by words as by openssl");
    check(by_words("decrypt", &wanted)? == b"\0hello\0", "and decrypted");
    check(by_words("encrypt", b"hello")? == sealed, "as by the operation");
    refused_wrapping(client, &key)
}

/// PyKMIP wraps only where the request says that the encoding is none, and else has a reason of KMIP
/// 1.2 that is past the table.
fn refused_wrapping(client: &TlsClient, key: &str) -> Outcome<()> {
    let got = client.get_key_with(key, Get::default().with_wrap(key));
    let error = got.err().ok_or("a key is wrapped")?;
    check(matches!(error, Error::InternalError(_)), "a reason past the table");
    let message = Some("Encoding option 'None' is not supported.");
    let is_told = error.details().reason() == Some(0x12) && error.details().message() == message;
    check(is_told, "the reason and the server's message are told");
    let wrapping = vec![
        Item::enumeration("WrappingMethod", "Encrypt"),
        Item::new("EncryptionKeyInformation", vec![identifier(key)]),
    ];
    let items = vec![identifier(key), Item::new("KeyWrappingSpecification", wrapping)];
    let got = client.do_operation("Get", "1.2", items);
    let error = got.err().ok_or("a key is wrapped")?;
    check(matches!(error, Error::ServerError(_)), "the same of any operation");
    check(error.to_string().contains("Encoding option 'None'"), "and the server's message");
    Ok(())
}

fn dates(client: &TlsClient) -> Outcome<()> {
    let made = |first, last| -> Outcome<Vec<String>> {
        let items = vec![
            attribute("Initial Date", Value::DateTime(first)),
            attribute("Initial Date", Value::DateTime(last)),
            attribute(
                "Name",
                vec![
                    Item::new("NameValue", NAME),
                    Item::enumeration("NameType", "UninterpretedTextString"),
                ],
            ),
        ];
        let answer = client.do_operation("Locate", "1.2", items)?;
        let items = answer.items().iter().map(|item| match &item.value {
            Value::TextString(text) => Ok(text.clone()),
            _ => Err("an identifier is no text".into()),
        });
        items.collect()
    };
    let now = i64::try_from(SystemTime::now().duration_since(UNIX_EPOCH)?.as_secs())?;
    let mut both = client.locate_with(&[AttributeValue::Name(NAME)])?;
    let mut found = made(now - 600, now + 600)?;
    both.sort();
    found.sort();
    let is_it = both.len() == 2 && found == both;
    check(is_it, "objects are located by the date that they were made at");
    check(made(now - 1200, now - 600)?.is_empty(), "and none that were made at another");
    Ok(())
}

fn certificates(client: &TlsClient, objects: &Path, folder: &Path) -> Outcome<()> {
    let der = std::fs::read(objects.join("Certificate.X509.der"))?;
    let name = format!("{NAME}, certificate");
    let uses = Usage::Verify | Usage::CertificateSign;
    let options = Register::default().with_name(&name).with_usage(uses);
    let made = client.register_certificate_with(&der, options)?;
    let got = client.get_key(&made)?;
    let is_one = got.object_type == "Certificate" && got.certificate_type()? == "X509";
    check(is_one, "a certificate is registered");
    check(got.certificate_value()? == der, "and given back as it was");
    let pem = got.pem()?;
    std::fs::write(folder.join("certificate.pem"), &pem)?;
    check(client.locate(&name)? == [made.clone()], "it is found by its name");
    let uses = client.attributes_with(&made, &["Cryptographic Usage Mask"])?;
    let is_it = uses.len() == 1 && uses[0].value.to_string() == r#"{"Integer":4098}"#;
    check(is_it, "it has its uses");
    let again = client.register_certificate(pem.as_bytes())?;
    check(client.get_key(&again)?.certificate_value()? == der, "its PEM is registered too");
    client.destroy_key(&made)?;
    client.destroy_key(&again)?;
    let is_gone = matches!(client.get_key(&made), Err(Error::ItemNotFound(_)));
    check(is_gone, "after it was destroyed it is gone");
    Ok(())
}

fn run() -> Outcome<()> {
    let words = settings::arguments()?;
    let Some((server, [objects, folder])) = settings::server_of(&words)? else {
        let usage = "usage: operations HOST PORT CERTIFICATE KEY AUTHORITY OBJECTS FOLDER";
        return Err(settings::wrong(usage).into());
    };
    let (objects, folder) = (Path::new(objects), Path::new(folder));
    let client = server.with_timeout(None).connect()?.build();
    keys(&client, objects, folder)?;
    signatures(&client)?;
    encryption(&client)?;
    dates(&client)?;
    certificates(&client, objects, folder)?;
    println!("the end");
    Ok(())
}

fn main() -> ExitCode {
    match run() {
        Ok(()) => ExitCode::SUCCESS,
        Err(error) => {
            settings::say(&error);
            ExitCode::from(error.downcast_ref().map_or(1, |failure: &Failure| failure.1))
        }
    }
}
