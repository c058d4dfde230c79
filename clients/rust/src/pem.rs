//! Keys and certificates as texts (RFC 7468).
use crate::error::{Error, Result};
use std::borrow::Cow;

/// What an object of this type and format is called in PEM: the labels of RFC 7468, and OpenSSL's
/// own for PKCS#1 and SEC 1.
pub(crate) fn label_of(object_type: &str, format: &str) -> Option<&'static str> {
    Some(match (object_type, format) {
        ("PublicKey", "PKCS1") => "RSA PUBLIC KEY",
        ("PublicKey", "X509") => "PUBLIC KEY",
        ("PrivateKey", "PKCS1") => "RSA PRIVATE KEY",
        ("PrivateKey", "PKCS8") => "PRIVATE KEY",
        ("PrivateKey", "ECPrivateKey") => "EC PRIVATE KEY",
        ("Certificate", "X509") => "CERTIFICATE",
        _ => return None,
    })
}

/// The text of these bytes under a label.
pub(crate) fn text_of(label: &str, der: &[u8]) -> String {
    let mut made = format!("-----BEGIN {label}-----\n");
    // 48 bytes are a line of 64 characters.
    for line in der.chunks(48) {
        for group in line.chunks(3) {
            push_group(&mut made, group);
        }
        made.push('\n');
    }
    made.push_str(&format!("-----END {label}-----\n"));
    made
}

const DIGITS: &[u8; 64] = b"ABCDEFGHIJKLMNOPQRSTUVWXYZabcdefghijklmnopqrstuvwxyz0123456789+/";

/// One to three bytes as four characters of base64.
fn push_group(made: &mut String, group: &[u8]) {
    let number = (0..3)
        .fold(0, |number: u32, at| number << 8 | u32::from(group.get(at).copied().unwrap_or(0)));
    for at in 0..4 {
        let digit = (number >> (18 - 6 * at) & 63) as usize;
        made.push(if at <= group.len() { char::from(DIGITS[digit]) } else { '=' });
    }
}

const BEGIN: &str = "-----BEGIN CERTIFICATE-----";
const END: &str = "-----END CERTIFICATE-----";

/// The DER of a certificate: the bytes themselves, or those of the one certificate in a text, with
/// whatever else stands around it.
pub(crate) fn certificate_der(given: &[u8]) -> Result<Cow<'_, [u8]>> {
    let der = whole_der(given)?;
    if !is_certificate(&der) {
        return Err(no("is none of X.509"));
    }
    Ok(der)
}

fn no(why: &str) -> Error {
    Error::grammar(format!("the certificate {why}"))
}

/// The bytes themselves, or those of the one certificate in a text.
fn whole_der(given: &[u8]) -> Result<Cow<'_, [u8]>> {
    if is_whole(given) {
        return Ok(Cow::Borrowed(given));
    }
    let text = String::from_utf8_lossy(given);
    let mut parts = text.split(BEGIN).skip(1);
    let Some(part) = parts.next() else {
        let is_der = given.first() == Some(&0x30);
        let torn = "is not one whole structure of DER";
        return Err(no(if is_der { torn } else { "is neither DER nor PEM" }));
    };
    if parts.next().is_some() {
        return Err(no("is several in one PEM, and one at a time is registered"));
    }
    let (base64, _) = part.split_once(END).ok_or_else(|| no("has no end in its PEM"))?;
    let der = bytes_of_base64(base64).ok_or_else(|| no("is not base64 in its PEM"))?;
    if !is_whole(&der) {
        return Err(no("is not one whole structure of DER in its PEM"));
    }
    Ok(Cow::Owned(der))
}

/// The first element of DER (X.690, 8.1): its tag, its contents, and what stands after it.
pub(crate) fn element(der: &[u8]) -> Option<(u8, &[u8], &[u8])> {
    let [tag, first, rest @ ..] = der else { return None };
    let (length, rest) = match *first {
        length @ 0..=0x7F => (usize::from(length), rest),
        count @ 0x81..=0x84 => {
            let count = usize::from(count - 0x80);
            let bytes = rest.get(..count)?;
            let length = bytes.iter().fold(0, |length: u64, byte| length << 8 | u64::from(*byte));
            (usize::try_from(length).ok()?, &rest[count..])
        }
        _ => return None,
    };
    Some((*tag, rest.get(..length)?, &rest[length..]))
}

/// Whether bytes are a sequence of DER and nothing after it.
fn is_whole(der: &[u8]) -> bool {
    matches!(element(der), Some((SEQUENCE, _, [])))
}

const INTEGER: u8 = 0x02;
const BIT_STRING: u8 = 0x03;
const SEQUENCE: u8 = 0x30;
const VERSION: u8 = 0xA0;

/// The tags of the elements of a sequence, and the contents of the first.
fn elements(contents: &[u8]) -> Option<(Vec<u8>, &[u8])> {
    let (mut tags, mut left) = (Vec::new(), contents);
    while !left.is_empty() {
        let (tag, _, rest) = element(left)?;
        tags.push(tag);
        left = rest;
    }
    Some((tags, element(contents)?.1))
}

/// Whether bytes have the outline of an X.509 certificate (RFC 5280, 4.1), and where the crate has
/// OpenSSL, whether that reads one in them. No private key has, which servers would show to
/// everybody.
fn is_certificate(der: &[u8]) -> bool {
    let Some((SEQUENCE, contents, [])) = element(der) else { return false };
    let Some((parts, signed)) = elements(contents) else { return false };
    let Some((mut tags, _)) = elements(signed) else { return false };
    if tags.first() == Some(&VERSION) {
        tags.remove(0);
    }
    // The serial number, the signature's algorithm, issuer, validity, subject, and its key.
    let first = [INTEGER, SEQUENCE, SEQUENCE, SEQUENCE, SEQUENCE, SEQUENCE];
    parts == [SEQUENCE, SEQUENCE, BIT_STRING] && tags.starts_with(&first) && is_read(der)
}

#[cfg(feature = "openssl")]
fn is_read(der: &[u8]) -> bool {
    openssl::x509::X509::from_der(der).is_ok()
}

#[cfg(not(feature = "openssl"))]
fn is_read(_: &[u8]) -> bool {
    true
}

/// The bytes of base64 (RFC 4648, 4) with white space anywhere.
pub(crate) fn bytes_of_base64(base64: &str) -> Option<Vec<u8>> {
    let digits: Vec<u8> = base64.bytes().filter(|byte| !byte.is_ascii_whitespace()).collect();
    let padding = digits.iter().rev().take_while(|byte| **byte == b'=').count();
    if digits.len() % 4 != 0 || padding > 2 {
        return None;
    }
    let mut bytes = Vec::with_capacity(digits.len() / 4 * 3);
    for group in digits[..digits.len() - padding].chunks(4) {
        let number = group.iter().try_fold(0, |number: u32, byte| {
            let digit = DIGITS.iter().position(|digit| digit == byte)?;
            Some(number << 6 | u32::try_from(digit).ok()?)
        })?;
        let number = number << (6 * (4 - group.len()));
        bytes.extend(&number.to_be_bytes()[1..group.len()]);
    }
    Some(bytes)
}

#[cfg(test)]
mod tests {
    use super::*;

    /// The test vectors of RFC 4648, section 10.
    #[test]
    fn base64() {
        for (bytes, wanted) in [
            ("f", "Zg=="),
            ("fo", "Zm8="),
            ("foo", "Zm9v"),
            ("foob", "Zm9vYg=="),
            ("fooba", "Zm9vYmE="),
            ("foobar", "Zm9vYmFy"),
        ] {
            let pem = text_of("X", bytes.as_bytes());
            assert_eq!(pem, format!("-----BEGIN X-----\n{wanted}\n-----END X-----\n"));
            assert_eq!(bytes_of_base64(wanted).as_deref(), Some(bytes.as_bytes()));
        }
        assert_eq!(bytes_of_base64("\r\n Zm9v\tYg\n=="), Some(b"foob".to_vec()));
        assert_eq!(bytes_of_base64(""), Some(vec![]));
        for wrong in ["Zg", "Zg=", "Z===", "====", "Zg==Zg==", "Zm9*", "=Zg="] {
            assert_eq!(bytes_of_base64(wrong), None, "{wrong}");
        }
    }

    /// A certificate that openssl made, with a key of Ed25519.
    const CERTIFICATE: &str = include_str!("../tests/certificate.pem");
    /// Private keys that openssl made: in PKCS#8, by Ed25519; and in SEC 1, of P-256.
    const KEYS: [&str; 2] = [
        "MC4CAQAwBQYDK2VwBCIEIJXOj6NUcaEtYRf/6EpuOo8pCsrY8fhSUgG53kMGD9vb",
        "\
         MHcCAQEEIBBiL3yCFq1G3+54JpribToEEiWT/MKbxY/GzOyaMyPLoAoGCCqGSM49AwEHoUQDQgAEtnl/U9cM\
         3oDNWIXZg/0ASLXkhgPAA7aBo+ukeeuoW+eX5Z7ie+EDCCOyRCIxPpciNjOekkVX5VaPa00BC2tNww==",
    ];

    #[test]
    fn certificates_are_der_or_pem() {
        let der = certificate_der(CERTIFICATE.as_bytes()).unwrap().into_owned();
        assert_eq!(certificate_der(&der).unwrap(), der);
        let pem = text_of("CERTIFICATE", &der);
        assert_eq!(pem, CERTIFICATE);
        let pem = format!("0: \u{e9}\r\n{}after", pem.replace('\n', "\r\n"));
        assert_eq!(certificate_der(pem.as_bytes()).unwrap(), der);
    }

    #[test]
    fn no_other_structure_is_a_certificate() {
        let mut ders: Vec<_> = KEYS.iter().map(|pem| bytes_of_base64(pem).unwrap()).collect();
        ders.extend([vec![0x30, 0x00], vec![0x30, 0x01, 0xFF], vec![0x30, 0x02, 0x30, 0x00]]);
        ders.push([vec![0x30, 0x82, 0x01, 0x00], vec![7; 256]].concat());
        for der in ders {
            refused(&der, "is none of X.509");
            refused(text_of("CERTIFICATE", &der).as_bytes(), "is none of X.509");
            refused(text_of("PRIVATE KEY", &der).as_bytes(), "is neither DER nor PEM");
        }
        let der = certificate_der(CERTIFICATE.as_bytes()).unwrap().into_owned();
        for at in 0..der.len() {
            // Nothing that is cut or changed makes it panic.
            let _ = certificate_der(&der[..at]);
            let mut changed = der.clone();
            changed[at] ^= 0xFF;
            let _ = certificate_der(&changed);
        }
    }

    fn refused(given: &[u8], why: &str) {
        let error = certificate_der(given).unwrap_err().to_string();
        assert_eq!(error, format!("GrammarError: the certificate {why}"));
    }

    #[test]
    fn what_is_no_certificate_is_refused() {
        let one = text_of("CERTIFICATE", &[0x30, 0x00]);
        let neither = "is neither DER nor PEM";
        for given in ["", "x", &text_of("PRIVATE KEY", &[0x30, 0x00])] {
            refused(given.as_bytes(), neither);
        }
        refused(b"\xFF", neither);
        refused(one.repeat(2).as_bytes(), "is several in one PEM, and one at a time is registered");
        refused(&one.as_bytes()[..40], "has no end in its PEM");
        refused(one.replace("MAA", "MA*").as_bytes(), "is not base64 in its PEM");
        for der in [&[0x30][..], &[0x30, 0x01], &[0x30, 0x00, 0x00], &[0x30, 0x80, 0x00, 0x00]] {
            refused(der, "is not one whole structure of DER");
            let why = "is not one whole structure of DER in its PEM";
            refused(text_of("CERTIFICATE", der).as_bytes(), why);
        }
    }

    #[test]
    fn lines_have_64_characters() {
        let lengths =
            |count| text_of("X", &vec![0xFF; count]).lines().map(str::len).collect::<Vec<_>>();
        assert_eq!(lengths(48), [17, 64, 15]);
        assert_eq!(lengths(49), [17, 64, 4, 15]);
        assert_eq!(lengths(0), [17, 15]);
    }
}
