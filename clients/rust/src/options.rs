//! The options of calls, by their types. What is not given is as the call has it without options.
use crate::item::{Item, Value};
use crate::names::{
    CryptographicAlgorithm, CryptographicUsageMask, HashingAlgorithm, KeyFormatType, ObjectType,
    PaddingMethod, RevocationReasonCode, State,
};
use std::borrow::Cow;
use std::fmt::{self, Debug, Formatter};

/// An option as a word has it: its name and its value.
pub(crate) type Pair<'a> = (&'static str, Cow<'a, str>);
pub(crate) type Given<'a> = Vec<Pair<'a>>;

fn given_of<'a, const N: usize>(options: [Option<Pair<'a>>; N]) -> Given<'a> {
    options.into_iter().flatten().collect()
}

fn uses_of(mask: CryptographicUsageMask) -> Cow<'static, str> {
    mask.to_string().into()
}

/// How [`Client::sign_with`](crate::Client::sign_with) signs.
///
/// ```
/// use metsuwan::{HashingAlgorithm, PaddingMethod, Sign};
///
/// let how = Sign::default().with_hash(HashingAlgorithm::SHA384).with_padding(PaddingMethod::PSS);
/// # let _ = how;
/// ```
#[derive(Clone, Copy, Debug, Default, PartialEq, Eq)]
#[must_use]
pub struct Sign {
    hash: Option<HashingAlgorithm>,
    padding: Option<PaddingMethod>,
    algorithm: Option<CryptographicAlgorithm>,
    prehashed: bool,
}

impl Sign {
    /// With this digest: `SHA256` where none is given, and none where the bytes are
    /// [`prehashed`](Self::prehashed). The two together are a `GrammarError`.
    pub fn with_hash(self, hash: HashingAlgorithm) -> Self {
        Sign { hash: Some(hash), ..self }
    }

    /// With this padding: `PKCS1_v1_5` where none is given.
    pub fn with_padding(self, padding: PaddingMethod) -> Self {
        Sign { padding: Some(padding), ..self }
    }

    /// By this algorithm: `RSA` where none is given.
    pub fn with_algorithm(self, algorithm: CryptographicAlgorithm) -> Self {
        Sign { algorithm: Some(algorithm), ..self }
    }

    /// The bytes are a digest already, and the request names none: KMIP 1.2 has no digested data
    /// in Sign, so the server would hash the digest again.
    pub fn prehashed(self) -> Self {
        Sign { prehashed: true, ..self }
    }

    pub(crate) fn given(self) -> Given<'static> {
        given_of([
            self.hash.map(|value| ("hash", value.name().into())),
            self.padding.map(|value| ("padding", value.name().into())),
            self.algorithm.map(|value| ("algorithm", value.name().into())),
            self.prehashed.then_some(("prehashed", "".into())),
        ])
    }
}

/// Why [`Client::revoke_key_with`](crate::Client::revoke_key_with) revokes.
#[derive(Clone, Copy, Debug, Default, PartialEq, Eq)]
#[must_use]
pub struct Revoke<'a> {
    reason: Option<RevocationReasonCode>,
    message: Option<&'a str>,
    since: Option<i64>,
}

impl<'a> Revoke<'a> {
    /// For this reason: `CessationOfOperation` where none is given.
    pub fn with_reason(self, reason: RevocationReasonCode) -> Self {
        Revoke { reason: Some(reason), ..self }
    }

    /// With this message: none where none is given.
    pub fn with_message(self, message: &'a str) -> Self {
        Revoke { message: Some(message), ..self }
    }

    /// When the object was compromised, in seconds since 1970-01-01 UTC, from 0 to 2^63 - 1: no
    /// date where none is given. For `KeyCompromise` and `CACompromise` KMIP says that one should
    /// be (1.0, 4.19).
    pub fn with_since(self, seconds: i64) -> Self {
        Revoke { since: Some(seconds), ..self }
    }

    pub(crate) fn given(self) -> Given<'a> {
        given_of([
            self.reason.map(|value| ("reason", value.name().into())),
            self.message.map(|value| ("message", value.into())),
            self.since.map(|value| ("since", value.to_string().into())),
        ])
    }
}

/// How [`Client::get_key_with`](crate::Client::get_key_with) gets an object.
#[derive(Clone, Copy, Debug, Default, PartialEq, Eq)]
#[must_use]
pub struct Get<'a> {
    format: Option<KeyFormatType>,
    wrap: Option<&'a str>,
}

impl<'a> Get<'a> {
    /// In this format: in that of the object where none is given.
    pub fn with_format(self, format: KeyFormatType) -> Self {
        Get { format: Some(format), ..self }
    }

    /// Wrapped, by NIST's key wrap, under the key with this identifier: as it is where none is
    /// given.
    pub fn with_wrap(self, key_id: &'a str) -> Self {
        Get { wrap: Some(key_id), ..self }
    }

    pub(crate) fn given(self) -> Given<'a> {
        given_of([
            self.format.map(|value| ("format", value.name().into())),
            self.wrap.map(|value| ("wrap", value.into())),
        ])
    }
}

/// What [`Client::create_with`](crate::Client::create_with) makes a key for.
#[derive(Clone, Copy, Debug, Default, PartialEq, Eq)]
#[must_use]
pub struct Create {
    usage: Option<CryptographicUsageMask>,
}

impl Create {
    /// For these uses: `Encrypt | Decrypt` where none are given.
    pub fn with_usage(self, usage: CryptographicUsageMask) -> Self {
        Create { usage: Some(usage) }
    }

    pub(crate) fn given(self) -> Given<'static> {
        given_of([self.usage.map(|value| ("usage", uses_of(value)))])
    }
}

/// What [`Client::create_rsa_key_pair_with`](crate::Client::create_rsa_key_pair_with) makes the
/// two keys for.
#[derive(Clone, Copy, Debug, Default, PartialEq, Eq)]
#[must_use]
pub struct CreateRsa {
    private_usage: Option<CryptographicUsageMask>,
    public_usage: Option<CryptographicUsageMask>,
}

impl CreateRsa {
    /// The private key for these uses: `Sign` where none are given.
    pub fn with_private_usage(self, usage: CryptographicUsageMask) -> Self {
        CreateRsa { private_usage: Some(usage), ..self }
    }

    /// The public key for these uses: `Verify` where none are given.
    pub fn with_public_usage(self, usage: CryptographicUsageMask) -> Self {
        CreateRsa { public_usage: Some(usage), ..self }
    }

    pub(crate) fn given(self) -> Given<'static> {
        given_of([
            self.private_usage.map(|value| ("private-usage", uses_of(value))),
            self.public_usage.map(|value| ("public-usage", uses_of(value))),
        ])
    }
}

/// What [`Client::register_with`](crate::Client::register_with) and
/// [`Client::register_certificate_with`](crate::Client::register_certificate_with) say of an
/// object.
#[derive(Clone, Copy, Debug, Default, PartialEq, Eq)]
#[must_use]
pub struct Register<'a> {
    usage: Option<CryptographicUsageMask>,
    name: Option<&'a str>,
}

impl<'a> Register<'a> {
    /// That it is for these uses: nothing where none are given.
    pub fn with_usage(self, usage: CryptographicUsageMask) -> Self {
        Register { usage: Some(usage), ..self }
    }

    /// That it has this name: none where none is given.
    pub fn with_name(self, name: &'a str) -> Self {
        Register { name: Some(name), ..self }
    }

    pub(crate) fn given(self) -> Given<'a> {
        given_of([
            self.usage.map(|value| ("usage", uses_of(value))),
            self.name.map(|value| ("name", value.into())),
        ])
    }

    /// The same as items of a message.
    pub(crate) fn attributes(self) -> Vec<Item> {
        let usage = self.usage.map(|value| attribute("Cryptographic Usage Mask", value.bits()));
        let name = self.name.map(|name| {
            let kind = Item::enumeration("NameType", "UninterpretedTextString");
            attribute("Name", vec![Item::new("NameValue", name), kind])
        });
        [usage, name].into_iter().flatten().collect()
    }
}

fn attribute(name: &str, value: impl Into<Value>) -> Item {
    let parts = vec![Item::new("AttributeName", name), Item::new("AttributeValue", value)];
    Item::new("Attribute", parts)
}

/// What kind of key is registered.
#[derive(Clone, Copy, Debug, PartialEq, Eq, Hash)]
#[non_exhaustive]
pub enum KeyKind {
    /// KMIP's `PublicKey`
    PublicKey,
    /// KMIP's `PrivateKey`
    PrivateKey,
    /// KMIP's `SymmetricKey`
    SymmetricKey,
}

impl KeyKind {
    pub(crate) fn word(self) -> &'static str {
        match self {
            KeyKind::PublicKey => "public",
            KeyKind::PrivateKey => "private",
            KeyKind::SymmetricKey => "symmetric",
        }
    }
}

/// A key that was made elsewhere. `Debug` shows how many bytes it has.
#[derive(Clone, Copy, PartialEq, Eq)]
pub struct NewKey<'a> {
    pub(crate) kind: KeyKind,
    format: KeyFormatType,
    algorithm: CryptographicAlgorithm,
    length: i32,
    pub(crate) material: &'a [u8],
}

impl<'a> NewKey<'a> {
    /// A key of this kind and this algorithm, of so many bits. What its bytes are says the format,
    /// as `Raw` or `PKCS8`.
    pub fn new(
        kind: KeyKind,
        format: KeyFormatType,
        algorithm: CryptographicAlgorithm,
        length: i32,
        material: &'a [u8],
    ) -> Self {
        NewKey { kind, format, algorithm, length, material }
    }

    pub(crate) fn given(&self) -> Given<'static> {
        given_of([
            Some(("format", self.format.name().into())),
            Some(("algorithm", self.algorithm.name().into())),
            Some(("length", self.length.to_string().into())),
        ])
    }
}

impl Debug for NewKey<'_> {
    fn fmt(&self, f: &mut Formatter<'_>) -> fmt::Result {
        f.debug_struct("NewKey")
            .field("kind", &self.kind)
            .field("format", &self.format)
            .field("algorithm", &self.algorithm)
            .field("length", &self.length)
            .field("material", &format_args!("of length {}", self.material.len()))
            .finish()
    }
}

/// An attribute with a value: what objects are located by, and what one is given. The variants are
/// named as KMIP names the attributes.
#[derive(Clone, Copy, Debug, PartialEq, Eq)]
#[non_exhaustive]
pub enum AttributeValue<'a> {
    /// A name, as an uninterpreted text.
    Name(&'a str),
    /// The name of a group of objects.
    ObjectGroup(&'a str),
    /// Whom to ask about the object.
    ContactInformation(&'a str),
    /// What the object is.
    ObjectType(ObjectType),
    /// Its state.
    State(State),
    /// Its algorithm.
    CryptographicAlgorithm(CryptographicAlgorithm),
    /// Its length in bits.
    CryptographicLength(i32),
    /// When it becomes active, in seconds since 1970-01-01 UTC, from 0 to 2^63 - 1.
    ActivationDate(i64),
}

impl<'a> AttributeValue<'a> {
    pub(crate) fn given(self) -> Pair<'a> {
        match self {
            AttributeValue::Name(text) => ("name", text.into()),
            AttributeValue::ObjectGroup(text) => ("group", text.into()),
            AttributeValue::ContactInformation(text) => ("contact", text.into()),
            AttributeValue::ObjectType(value) => ("type", value.name().into()),
            AttributeValue::State(value) => ("state", value.name().into()),
            AttributeValue::CryptographicAlgorithm(value) => ("algorithm", value.name().into()),
            AttributeValue::CryptographicLength(value) => ("length", value.to_string().into()),
            AttributeValue::ActivationDate(value) => ("activation", value.to_string().into()),
        }
    }
}
