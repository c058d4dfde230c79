//! What calls give. The names are those of kmip-protocol.
use crate::answer::Answer;
use crate::error::{Error, Result};
use crate::item::Item;
use crate::json::Json;
use crate::library::{self, Operation, Status};
use crate::{keys, pem};
use std::fmt::{self, Debug, Formatter};

/// What the server can do (KMIP 1.2, 4.25). What it does not say is `None`.
#[derive(Clone, Debug, PartialEq, Eq)]
#[non_exhaustive]
pub struct QueryResponsePayload {
    /// The names of its operations, as `CreateKeyPair`.
    pub operations: Option<Vec<String>>,
    /// The names of the types of its objects, as `SymmetricKey`.
    pub object_types: Option<Vec<String>>,
    /// Who made it.
    pub vendor_identification: Option<String>,
    /// The whole answer.
    pub answer: Answer,
}

impl QueryResponsePayload {
    pub(crate) fn of(answer: Answer) -> Result<Self> {
        let texts = |path| answer.has(path).then(|| answer.texts_at(path)).transpose();
        let vendor = "vendor_identification";
        Ok(QueryResponsePayload {
            operations: texts("operations")?,
            object_types: texts("object_types")?,
            vendor_identification: answer
                .has(vendor)
                .then(|| answer.text_at(vendor).map(str::to_string))
                .transpose()?,
            answer,
        })
    }
}

/// Random bytes. `Debug` shows how many.
#[derive(Clone, PartialEq, Eq)]
#[non_exhaustive]
pub struct RNGRetrieveResponsePayload {
    /// The bytes.
    pub data: Vec<u8>,
}

impl Debug for RNGRetrieveResponsePayload {
    fn fmt(&self, f: &mut Formatter<'_>) -> fmt::Result {
        write!(f, "RNGRetrieveResponsePayload(of length {})", self.data.len())
    }
}

/// A signature, and the key that made it.
#[derive(Clone, Debug, PartialEq, Eq)]
#[non_exhaustive]
pub struct SignResponsePayload {
    /// The identifier of the key.
    pub unique_identifier: String,
    /// The signature.
    pub signature_data: Vec<u8>,
}

/// An attribute of an object (KMIP 1.2, 2.1.1).
#[derive(Clone, Debug, PartialEq, Eq)]
#[non_exhaustive]
pub struct Attribute {
    /// Its name, as `Cryptographic Length`.
    pub name: String,
    /// Its index among those of the same name, where the server says it.
    pub index: Option<i64>,
    /// Its value: an object with one member, as `{"Integer":256}`.
    pub value: Json,
}

impl Attribute {
    /// The attribute that an item of a response is; its value is then in the JSON of KMIP's
    /// Additional Message Encodings.
    pub(crate) fn of_item(item: &Item) -> Result<Attribute> {
        Ok(Attribute {
            name: item.text_at("AttributeName")?.to_string(),
            index: item.number_at("AttributeIndex").ok(),
            value: item.item_at("AttributeValue")?.to_json(),
        })
    }

    /// The attribute that stands at a path.
    pub(crate) fn at(answer: &Answer, path: &str) -> Result<Attribute> {
        let none = |what| Error::missing(format!("the answer has no {what} of {path}"));
        let found = answer.value_at(path)?;
        Ok(Attribute {
            name: found
                .member("name")
                .and_then(Json::as_text)
                .ok_or_else(|| none("name"))?
                .to_string(),
            index: found
                .member("index")
                .map(|json| json.as_number().ok_or_else(|| none("index")))
                .transpose()?,
            value: found.member("value").ok_or_else(|| none("value"))?.clone(),
        })
    }
}

/// An object that has another name now.
#[derive(Clone, Debug, PartialEq, Eq)]
#[non_exhaustive]
pub struct ModifyAttributeResponsePayload {
    /// The identifier of the object.
    pub unique_identifier: String,
    /// The attribute as it is now.
    pub attribute: Attribute,
}

/// A version of KMIP.
#[derive(Clone, Copy, Debug, PartialEq, Eq)]
#[non_exhaustive]
pub struct ProtocolVersion {
    /// 1, as in 1.2
    pub major: i64,
    /// 2, as in 1.2
    pub minor: i64,
}

/// An object of the server: a key, a certificate, secret data or other. `Debug` shows its
/// identifier and its type alone.
#[derive(Clone, PartialEq, Eq)]
#[non_exhaustive]
pub struct GetResponsePayload {
    /// Its identifier.
    pub unique_identifier: String,
    /// KMIP's name of its type, as `PublicKey`.
    pub object_type: String,
    /// The whole answer, with what the object keeps secret.
    pub answer: Answer,
    /// The response's payload, where the tables of this call have no words for the object, as for a
    /// key of EC or HMAC, or for secret data.
    pub tree: Option<Item>,
}

impl Debug for GetResponsePayload {
    fn fmt(&self, f: &mut Formatter<'_>) -> fmt::Result {
        f.debug_struct("GetResponsePayload")
            .field("unique_identifier", &self.unique_identifier)
            .field("object_type", &self.object_type)
            .finish_non_exhaustive()
    }
}

impl GetResponsePayload {
    pub(crate) fn of(answer: Answer) -> Result<Self> {
        if let Some(tree) = answer.tree() {
            return Ok(GetResponsePayload {
                unique_identifier: tree.text_at("UniqueIdentifier")?.to_string(),
                object_type: tree.name_at("ObjectType")?.to_string(),
                answer,
                tree: Some(tree),
            });
        }
        Ok(GetResponsePayload {
            unique_identifier: answer.text_at("unique_identifier")?.to_string(),
            object_type: answer.text_at("object_type")?.to_string(),
            answer,
            tree: None,
        })
    }

    /// The response's payload, whichever of the two the answer is.
    fn payload(&self) -> Result<Item> {
        if let Some(tree) = &self.tree {
            return Ok(tree.clone());
        }
        let call = Operation::new("Get", "1.2", library::NO_ITEMS);
        let (status, line) = library::operation_answer(&call, self.answer.response());
        let answer = (status == Status::Answered).then(|| Answer::of_line(line, Vec::new()));
        let tree = answer.flatten().and_then(|answer| answer.tree());
        tree.ok_or_else(|| Error::missing("the answer has no PEM form"))
    }

    fn in_key_block(&self, path: &str) -> String {
        format!("cryptographic_object.{}.key_block.{path}", self.object_type)
    }

    /// The format of a key, as `PKCS1`.
    ///
    /// # Errors
    /// `MissingValue`: it is no key.
    pub fn key_format_type(&self) -> Result<&str> {
        if let Some(tree) = &self.tree {
            return tree.name_at(&format!("{}.KeyBlock.KeyFormatType", self.object_type));
        }
        self.answer.text_at(&self.in_key_block("key_format_type"))
    }

    /// The bytes of a key whose format is Raw, Opaque, PKCS1, PKCS8, X509 or ECPrivateKey.
    ///
    /// # Errors
    /// `MissingValue`: it is no key, has another format, or is wrapped.
    pub fn key_material(&self) -> Result<Vec<u8>> {
        if let Some(tree) = &self.tree {
            let path = format!("{}.KeyBlock.KeyValue.KeyMaterial", self.object_type);
            return Ok(tree.bytes_at(&path)?.to_vec());
        }
        self.answer.bytes_at(&self.in_key_block("key_value.key_material.Bytes"))
    }

    /// The type of a certificate, `X509` or `PGP`.
    ///
    /// # Errors
    /// `MissingValue`: it is no certificate.
    pub fn certificate_type(&self) -> Result<&str> {
        self.answer.text_at("cryptographic_object.Certificate.certificate_type")
    }

    /// The bytes of a certificate.
    ///
    /// # Errors
    /// `MissingValue`: it is no certificate.
    pub fn certificate_value(&self) -> Result<Vec<u8>> {
        self.answer.bytes_at("cryptographic_object.Certificate.certificate_value")
    }

    /// A key in X.509, PKCS#1, PKCS#8 or ECPrivateKey, one of RSA or of a curve whose parts are told
    /// one by one (Transparent), or a certificate in X.509, as PEM.
    ///
    /// # Errors
    /// `MissingValue`: it is none of these, or is wrapped.
    pub fn pem(&self) -> Result<String> {
        if self.tree.is_some() {
            return keys::pem_of_payload(&self.payload()?);
        }
        let is_certificate = self.object_type == "Certificate";
        let format =
            if is_certificate { self.certificate_type()? } else { self.key_format_type()? };
        let Some(label) = pem::label_of(&self.object_type, format) else {
            return keys::pem_of_payload(&self.payload()?);
        };
        let der = if is_certificate { self.certificate_value()? } else { self.key_material()? };
        Ok(pem::text_of(label, &der))
    }
}
