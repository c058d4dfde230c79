//! Calls that are no rows of the table: the client makes their requests of what they are given.
use crate::row::{given, value, Call, Given, Kind, Value, Word};
use crate::table::CALLS;
use crate::values::CRYPTOGRAPHIC_USAGE_MASK;

static SECRET_DATA_TYPE: [Value; 2] = [value("Password", &[]), value("Seed", &[])];
static VERSION: [Value; 3] = [value("1.0", &[]), value("1.1", &[]), value("1.2", &[])];
static KEY: [Word; 1] = [Word { name: "DATA", kind: Kind::Data }];

const fn registers(
    name: &'static str,
    help: &'static str,
    options: &'static [Given],
    example: &'static str,
) -> Call {
    Call {
        name,
        operation: "Register",
        group: "new",
        help,
        words: &KEY,
        more: None,
        options,
        gives: "unique_identifier",
        is_secret: false,
        says_valid: false,
        example,
    }
}

static OF_KEY: [Given; 2] =
    [given("name", Kind::Text), given("usage", Kind::Names(&CRYPTOGRAPHIC_USAGE_MASK))];
static OF_SECRET: [Given; 3] = [
    given("name", Kind::Text),
    given("usage", Kind::Names(&CRYPTOGRAPHIC_USAGE_MASK)),
    given("kind", Kind::Name(&SECRET_DATA_TYPE)),
];

pub static EXTRA: [Call; 5] = [
    registers(
        "register-private",
        "the private key that a PEM file of OpenSSL's holds",
        &OF_KEY,
        "kmip register-private @key.pem --name issuing --usage Sign",
    ),
    registers(
        "register-public",
        "the public key that a PEM file of OpenSSL's holds",
        &OF_KEY,
        "kmip register-public @public.pem --name 'issuing, public'",
    ),
    registers(
        "register-certificate",
        "a certificate, in PEM or DER",
        &OF_KEY,
        "kmip register-certificate @ca.pem --name root",
    ),
    registers(
        "register-secret",
        "a password or a seed, whatever its bytes",
        &OF_SECRET,
        "kmip register-secret - --name door --kind Password",
    ),
    Call {
        name: "operation",
        operation: "",
        group: "server",
        help: "any operation of KMIP, by its name, with its payload in JSON",
        words: &[
            Word { name: "NAME", kind: Kind::Text },
            Word { name: "PAYLOAD", kind: Kind::Data },
        ],
        more: None,
        options: &[given("version", Kind::Name(&VERSION))],
        gives: "",
        is_secret: false,
        says_valid: false,
        example: "kmip operation Query @query.json --version 1.2",
    },
];

/// All calls.
pub fn calls() -> impl Iterator<Item = &'static Call> {
    CALLS.iter().chain(&EXTRA)
}

/// The call of this name.
pub fn call_of(name: &str) -> Option<&'static Call> {
    calls().find(|it| it.name == name)
}
