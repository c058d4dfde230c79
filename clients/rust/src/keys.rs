//! Keys as DER (X.690): what a key that OpenSSL wrote is for KMIP, and what a key of KMIP is for
//! OpenSSL.
use crate::error::{Error, Result};
use crate::item::{Item, Value};
use crate::pem::{self, element};

/// The type of a secret that is no key (KMIP 1.2, 9.1.3.2.9).
#[derive(Clone, Copy, Debug, PartialEq, Eq, Hash)]
#[non_exhaustive]
pub enum SecretDataType {
    /// A password.
    Password,
    /// The seed of one.
    Seed,
}

impl SecretDataType {
    pub(crate) fn name(self) -> &'static str {
        match self {
            SecretDataType::Password => "Password",
            SecretDataType::Seed => "Seed",
        }
    }
}

const INTEGER: u8 = 0x02;
const BIT_STRING: u8 = 0x03;
const OCTET_STRING: u8 = 0x04;
const IDENTIFIER: u8 = 0x06;
const SEQUENCE: u8 = 0x30;
const FIRST: u8 = 0xA0;

const RSA: &[u8] = &[0x2A, 0x86, 0x48, 0x86, 0xF7, 0x0D, 1, 1, 1];
const EC: &[u8] = &[0x2A, 0x86, 0x48, 0xCE, 0x3D, 2, 1];
const DSA: &[u8] = &[0x2A, 0x86, 0x48, 0xCE, 0x38, 4, 1];

/// KMIP's names of curves, with the object identifier and the bits of each.
const CURVES: [(&str, &[u8], usize); 9] = [
    ("P_192", &[0x2A, 0x86, 0x48, 0xCE, 0x3D, 3, 1, 1], 192),
    ("P_224", &[0x2B, 0x81, 4, 0, 0x21], 224),
    ("P_256", &[0x2A, 0x86, 0x48, 0xCE, 0x3D, 3, 1, 7], 256),
    ("P_384", &[0x2B, 0x81, 4, 0, 0x22], 384),
    ("P_521", &[0x2B, 0x81, 4, 0, 0x23], 521),
    ("SECP256K1", &[0x2B, 0x81, 4, 0, 0x0A], 256),
    ("BRAINPOOLP256R1", &[0x2B, 0x24, 3, 3, 2, 8, 1, 1, 7], 256),
    ("BRAINPOOLP384R1", &[0x2B, 0x24, 3, 3, 2, 8, 1, 1, 0x0B], 384),
    ("BRAINPOOLP512R1", &[0x2B, 0x24, 3, 3, 2, 8, 1, 1, 0x0D], 512),
];

/// KMIP's formats of keys, by their labels in PEM.
const FORMATS: [(&str, &str, &str); 5] = [
    ("RSA PUBLIC KEY", "PublicKey", "PKCS1"),
    ("PUBLIC KEY", "PublicKey", "X509"),
    ("RSA PRIVATE KEY", "PrivateKey", "PKCS1"),
    ("PRIVATE KEY", "PrivateKey", "PKCS8"),
    ("EC PRIVATE KEY", "PrivateKey", "ECPrivateKey"),
];

/// The contents of elements that begin with these tags.
fn elements<const N: usize>(mut der: &[u8], tags: [u8; N]) -> Option<[&[u8]; N]> {
    let mut found = [&der[..0]; N];
    for (into, wanted) in found.iter_mut().zip(tags) {
        let (tag, contents, rest) = element(der)?;
        if tag != wanted {
            return None;
        }
        *into = contents;
        der = rest;
    }
    Some(found)
}

/// The bits of a number that is not negative.
fn bits(number: &[u8]) -> Option<i32> {
    let number = unpadded(number);
    let first = 8 - number.first()?.leading_zeros();
    i32::try_from(8 * (number.len() - 1) + first as usize).ok()
}

fn unpadded(number: &[u8]) -> &[u8] {
    &number[number.iter().take_while(|byte| **byte == 0).count()..]
}

fn curve_bits(identifier: &[u8]) -> Option<i32> {
    let curve = CURVES.iter().find(|curve| curve.1 == identifier)?;
    i32::try_from(curve.2).ok()
}

type Known = (&'static str, i32);

fn of_rsa(contents: &[u8], is_private: bool) -> Option<Known> {
    let [first, second] = elements(contents, [INTEGER, INTEGER])?;
    Some(("RSA", bits(if is_private { second } else { first })?))
}

/// The algorithm and the length of a key in X.509 or PKCS#8.
fn of_algorithm(algorithm: &[u8], key: &[u8], is_private: bool) -> Option<Known> {
    let (tag, identifier, parameters) = element(algorithm)?;
    match identifier {
        _ if tag != IDENTIFIER => None,
        RSA => of_rsa(elements(key, [SEQUENCE])?[0], is_private),
        EC => Some(("ECDSA", curve_bits(elements(parameters, [IDENTIFIER])?[0])?)),
        DSA => Some(("DSA", bits(elements(elements(parameters, [SEQUENCE])?[0], [INTEGER])?[0])?)),
        _ => None,
    }
}

/// The algorithm and the length of the key that a block of PEM with this label has.
fn of_format(label: &str, der: &[u8]) -> Option<Known> {
    let (SEQUENCE, whole, []) = element(der)? else { return None };
    match label {
        "PUBLIC KEY" => {
            let [algorithm, key] = elements(whole, [SEQUENCE, BIT_STRING])?;
            of_algorithm(algorithm, key.get(1..)?, false)
        }
        "PRIVATE KEY" => {
            let [_, algorithm, key] = elements(whole, [INTEGER, SEQUENCE, OCTET_STRING])?;
            of_algorithm(algorithm, key, true)
        }
        "EC PRIVATE KEY" => {
            let [_, _, parameters] = elements(whole, [INTEGER, OCTET_STRING, FIRST])?;
            Some(("ECDSA", curve_bits(elements(parameters, [IDENTIFIER])?[0])?))
        }
        _ => of_rsa(whole, label == "RSA PRIVATE KEY"),
    }
}

/// The blocks of a text of PEM, but for parameters of curves, each with its label.
fn blocks(mut text: &str) -> Vec<(&str, &str)> {
    let mut found = Vec::new();
    while let Some((_, rest)) = text.split_once("-----BEGIN ") {
        let Some((label, rest)) = rest.split_once("-----") else { break };
        let end = format!("-----END {label}-----");
        let Some((body, rest)) = rest.split_once(end.as_str()) else { break };
        if !label.ends_with("PARAMETERS") {
            found.push((label, body));
        }
        text = rest;
    }
    found
}

/// Whether bytes begin as a text of PEM does, also behind white space.
pub(crate) fn is_pem(bytes: &[u8]) -> bool {
    let blank = bytes.iter().take_while(|byte| byte.is_ascii_whitespace()).count();
    bytes[blank..].starts_with(b"-----BEGIN ")
}

/// The key block of the key of this kind that a text of PEM holds, and nothing else.
pub(crate) fn block_of_pem(text: &[u8], kind: &str) -> Result<Item> {
    let text = String::from_utf8_lossy(text);
    let blocks = blocks(&text);
    let [(label, body)] = blocks[..] else {
        let several = "the key is several blocks of PEM, and one at a time is registered";
        return Err(Error::grammar(if blocks.is_empty() { "the key is no PEM" } else { several }));
    };
    if label.contains("ENCRYPTED") || body.contains("ENCRYPTED") {
        let text = "the key is encrypted: decrypt it before, as by openssl pkey";
        return Err(Error::grammar(text));
    }
    let format = FORMATS.iter().find(|row| row.0 == label && row.1 == kind);
    let (_, _, format) =
        format.ok_or_else(|| Error::grammar(format!("the PEM has no {kind}: it is a {label}")))?;
    let der = pem::bytes_of_base64(body).ok_or_else(|| Error::grammar("the key is not base64"))?;
    let none = "the key is no DER of its kind, or KMIP 1.2 has no name for its algorithm or curve";
    let (algorithm, length) = of_format(label, &der).ok_or_else(|| Error::grammar(none))?;
    let known = vec![
        Item::enumeration("CryptographicAlgorithm", algorithm),
        Item::new("CryptographicLength", length),
    ];
    Ok(block(format, der, known))
}

/// A key block with these bytes.
pub(crate) fn block(format: &str, material: Vec<u8>, known: Vec<Item>) -> Item {
    let value = Item::new("KeyValue", vec![Item::new("KeyMaterial", material)]);
    let parts = vec![Item::enumeration("KeyFormatType", format), value];
    Item::new("KeyBlock", [parts, known].concat())
}

fn put(tag: u8, parts: &[&[u8]]) -> Vec<u8> {
    let contents = parts.concat();
    let mut made = vec![tag];
    match contents.len() {
        length @ 0..=0x7F => made.push(length as u8),
        length => {
            let digits = length.to_be_bytes();
            let digits = unpadded(&digits);
            made.push(0x80 | digits.len() as u8);
            made.extend(digits);
        }
    }
    made.extend(contents);
    made
}

fn put_integer(number: &[u8]) -> Vec<u8> {
    let number = unpadded(number);
    let zero: &[u8] = if number.first().map_or(true, |first| *first >= 0x80) { &[0] } else { &[] };
    put(INTEGER, &[zero, number])
}

/// What a private key of RSA has in PKCS#1, in this order.
const RSA_PARTS: [&str; 8] = [
    "Modulus",
    "PublicExponent",
    "PrivateExponent",
    "P",
    "Q",
    "PrimeExponentP",
    "PrimeExponentQ",
    "CRTCoefficient",
];

fn put_rsa(material: &Item, version: Option<&[u8]>, tags: &[&str]) -> Result<Vec<u8>> {
    let mut numbers: Vec<_> = version.map(put_integer).into_iter().collect();
    for tag in tags {
        numbers.push(put_integer(material.bytes_at(tag)?));
    }
    Ok(put(SEQUENCE, &numbers.iter().map(Vec::as_slice).collect::<Vec<_>>()))
}

/// The label in PEM, and the DER, of a key whose parts are told one by one.
fn of_parts(format: &str, material: &Item) -> Result<(&'static str, Vec<u8>)> {
    let none = || Error::missing(format!("{format} has no PEM form"));
    let curve = || {
        let name = material.name_at("RecommendedCurve")?;
        CURVES.iter().find(|curve| curve.0 == name).ok_or_else(none)
    };
    match format {
        "TransparentRSAPublicKey" => {
            Ok(("RSA PUBLIC KEY", put_rsa(material, None, &RSA_PARTS[..2])?))
        }
        "TransparentRSAPrivateKey" => {
            Ok(("RSA PRIVATE KEY", put_rsa(material, Some(&[]), &RSA_PARTS)?))
        }
        "TransparentECDSAPublicKey" | "TransparentECDHPublicKey" => {
            let identifiers = [put(IDENTIFIER, &[EC]), put(IDENTIFIER, &[curve()?.1])].concat();
            let point = put(BIT_STRING, &[&[0], material.bytes_at("QString")?]);
            Ok(("PUBLIC KEY", put(SEQUENCE, &[&put(SEQUENCE, &[&identifiers]), &point])))
        }
        "TransparentECDSAPrivateKey" | "TransparentECDHPrivateKey" => {
            let (_, identifier, bits) = curve()?;
            let number = unpadded(material.bytes_at("D")?);
            let zeros = ((bits + 7) / 8).checked_sub(number.len()).ok_or_else(none)?;
            let number = put(OCTET_STRING, &[&vec![0; zeros], number]);
            let parameters = put(FIRST, &[&put(IDENTIFIER, &[identifier])]);
            Ok(("EC PRIVATE KEY", put(SEQUENCE, &[&put_integer(&[1]), &number, &parameters])))
        }
        _ => Err(none()),
    }
}

/// The PEM of the object in a response's payload to Get.
///
/// # Errors
/// `MissingValue`: it has no PEM form, as a symmetric key, or one that is wrapped.
pub(crate) fn pem_of_payload(payload: &Item) -> Result<String> {
    let kind = payload.name_at("ObjectType")?;
    // KMIP's encodings put a sign for others, as in PKCS_8.
    let name_at = |path: &str| Ok::<_, Error>(payload.name_at(path)?.replace('_', ""));
    let at = |path| format!("{kind}.{path}");
    if kind == "Certificate" {
        let format = name_at(&at("CertificateType"))?;
        let label = pem::label_of(kind, &format);
        let none = || Error::missing(format!("{kind} in {format} has no PEM form"));
        let der = payload.bytes_at(&at("CertificateValue"))?;
        return Ok(pem::text_of(label.ok_or_else(none)?, der));
    }
    let format = name_at(&at("KeyBlock.KeyFormatType"))?;
    let material = payload.item_at(&at("KeyBlock.KeyValue.KeyMaterial"))?;
    let (label, der) = match (&material.value, pem::label_of(kind, &format)) {
        (Value::ByteString(der), Some(label)) => (label, der.clone()),
        _ => of_parts(&format, material)?,
    };
    Ok(pem::text_of(label, &der))
}
