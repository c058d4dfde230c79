//! The calls of a client, by their types.
use crate::client::Client;
use crate::error::{Error, Result};
use crate::item::Item;
use crate::json::Json;
use crate::keys::SecretDataType;
use crate::names::CryptographicAlgorithm;
use crate::options::{
    AttributeValue, Create, CreateRsa, Get, NewKey, Pair, Register, Revoke, Sign,
};
use crate::payload::{
    Attribute, GetResponsePayload, ModifyAttributeResponsePayload, ProtocolVersion,
    QueryResponsePayload, RNGRetrieveResponsePayload, SignResponsePayload,
};
use crate::word::Word;
use crate::{keys, pem};
use std::io::{Read, Write};

/// The identifiers of the private and the public key of a new pair.
type KeyPair = (String, String);

impl<T: Read + Write> Client<T> {
    /// What can the server do?
    pub fn query(&self) -> Result<QueryResponsePayload> {
        QueryResponsePayload::of(self.call("query", &[])?)
    }

    /// Makes an RSA pair of so many bits, under these names, and gives the identifiers of the
    /// private and the public key. The private key is to sign with, the public one to verify.
    pub fn create_rsa_key_pair(
        &self,
        key_length: i32,
        private_key_name: String,
        public_key_name: String,
    ) -> Result<KeyPair> {
        let options = CreateRsa::default();
        self.create_rsa_key_pair_with(key_length, private_key_name, public_key_name, options)
    }

    /// The same for other uses.
    pub fn create_rsa_key_pair_with(
        &self,
        key_length: i32,
        private_key_name: String,
        public_key_name: String,
        options: CreateRsa,
    ) -> Result<KeyPair> {
        let names = [Word::Text(&private_key_name), Word::Text(&public_key_name)];
        let words = [Word::Number(key_length), names[0], names[1]];
        let answer = self.call_given("create-rsa", &words, &options.given())?;
        Ok((answer.text_at("private_key")?.into(), answer.text_at("public_key")?.into()))
    }

    /// Makes an AES key of so many bits to encrypt and decrypt with, under this name, and gives its
    /// identifier.
    pub fn create_aes(&self, key_length: i32, name: &str) -> Result<String> {
        let answer = self.call("create-aes", &[Word::Number(key_length), Word::Text(name)])?;
        Ok(answer.text_at("unique_identifier")?.into())
    }

    /// Makes a symmetric key of this algorithm and so many bits, under this name, to encrypt and
    /// decrypt with, and gives its identifier.
    pub fn create(
        &self,
        algorithm: CryptographicAlgorithm,
        key_length: i32,
        name: &str,
    ) -> Result<String> {
        self.create_with(algorithm, key_length, name, Create::default())
    }

    /// The same for other uses.
    pub fn create_with(
        &self,
        algorithm: CryptographicAlgorithm,
        key_length: i32,
        name: &str,
        options: Create,
    ) -> Result<String> {
        let words = [Word::Text(algorithm.name()), Word::Number(key_length), Word::Text(name)];
        let answer = self.call_given("create", &words, &options.given())?;
        Ok(answer.text_at("unique_identifier")?.into())
    }

    /// Has the server keep a key that was made elsewhere, and gives its identifier.
    pub fn register(&self, key: &NewKey<'_>) -> Result<String> {
        self.register_with(key, Register::default())
    }

    /// The same with a name or with uses.
    pub fn register_with(&self, key: &NewKey<'_>, options: Register<'_>) -> Result<String> {
        let words = [Word::Text(key.kind.word()), Word::Bytes(key.material)];
        let given = [key.given(), options.given()].concat();
        let answer = self.call_given("register", &words, &given)?;
        Ok(answer.text_at("unique_identifier")?.into())
    }

    /// Has the server keep an X.509 certificate, and gives its identifier. The certificate is DER,
    /// or a PEM that holds it and no other.
    ///
    /// # Errors
    /// `GrammarError`: it is neither, and nothing was sent; and those of every call.
    pub fn register_certificate(&self, certificate: &[u8]) -> Result<String> {
        self.register_certificate_with(certificate, Register::default())
    }

    /// The same with a name or with uses.
    pub fn register_certificate_with(
        &self,
        certificate: &[u8],
        options: Register<'_>,
    ) -> Result<String> {
        let der = pem::certificate_der(certificate)?;
        let object = vec![
            Item::enumeration("CertificateType", "X509"),
            Item::new("CertificateValue", der.as_ref()),
        ];
        self.register_object("Certificate", object, options)
    }

    /// Has the server keep the private key of RSA, of DSA or of a curve that a text of PEM holds, as
    /// OpenSSL writes it (PKCS#8, PKCS#1, ECPrivateKey), and gives its identifier.
    ///
    /// # Errors
    /// `GrammarError`: it has none, another block too, or an encrypted one; or KMIP 1.2 has no name
    /// for its algorithm or its curve, and nothing was sent; and those of every call.
    pub fn register_private_key(&self, pem: &[u8], options: Register<'_>) -> Result<String> {
        let block = keys::block_of_pem(pem, "PrivateKey")?;
        self.register_object("PrivateKey", vec![block], options)
    }

    /// The same with a public key (X.509's SubjectPublicKeyInfo, or PKCS#1).
    pub fn register_public_key(&self, pem: &[u8], options: Register<'_>) -> Result<String> {
        let block = keys::block_of_pem(pem, "PublicKey")?;
        self.register_object("PublicKey", vec![block], options)
    }

    /// Has the server keep a secret that is no key, whatever its bytes, and gives its identifier.
    pub fn register_secret(
        &self,
        kind: SecretDataType,
        data: &[u8],
        options: Register<'_>,
    ) -> Result<String> {
        let kind = Item::enumeration("SecretDataType", kind.name());
        let block = keys::block("Opaque", data.to_vec(), Vec::new());
        self.register_object("SecretData", vec![kind, block], options)
    }

    fn register_object(
        &self,
        kind: &str,
        parts: Vec<Item>,
        options: Register<'_>,
    ) -> Result<String> {
        let items = vec![
            Item::enumeration("ObjectType", kind),
            Item::new("TemplateAttribute", options.attributes()),
            Item::new(kind, parts),
        ];
        let answer = self.do_operation("Register", "1.0", items)?;
        Ok(answer.text_at("UniqueIdentifier")?.into())
    }

    /// So many random bytes.
    pub fn rng_retrieve(&self, num_bytes: i32) -> Result<RNGRetrieveResponsePayload> {
        let answer = self.call("rng", &[Word::Number(num_bytes)])?;
        Ok(RNGRetrieveResponsePayload { data: answer.bytes_at("random_bytes")? })
    }

    /// Signs these bytes with this private key: by RSA with PKCS#1 v1.5 and SHA-256.
    pub fn sign(&self, private_key_id: &str, in_bytes: &[u8]) -> Result<SignResponsePayload> {
        self.sign_with(private_key_id, in_bytes, Sign::default())
    }

    /// The same in another way.
    pub fn sign_with(
        &self,
        private_key_id: &str,
        in_bytes: &[u8],
        options: Sign,
    ) -> Result<SignResponsePayload> {
        let words = [Word::Text(private_key_id), Word::Bytes(in_bytes)];
        let answer = self.call_given("sign", &words, &options.given())?;
        Ok(SignResponsePayload {
            unique_identifier: answer.text_at("unique_identifier")?.into(),
            signature_data: answer.bytes_at("signature_data")?,
        })
    }

    /// Makes a key active.
    pub fn activate_key(&self, private_key_id: &str) -> Result<()> {
        self.call("activate", &[Word::Text(private_key_id)]).map(drop)
    }

    /// Takes a key out of use, since its operation ceases.
    pub fn revoke_key(&self, private_key_id: &str) -> Result<()> {
        self.revoke_key_with(private_key_id, Revoke::default())
    }

    /// The same for another reason.
    pub fn revoke_key_with(&self, private_key_id: &str, options: Revoke<'_>) -> Result<()> {
        self.call_given("revoke", &[Word::Text(private_key_id)], &options.given()).map(drop)
    }

    /// Destroys a key that is not active.
    pub fn destroy_key(&self, key_id: &str) -> Result<()> {
        self.call("destroy", &[Word::Text(key_id)]).map(drop)
    }

    /// Gives a key another name.
    pub fn rename_key(
        &self,
        key_id: &str,
        new_name: String,
    ) -> Result<ModifyAttributeResponsePayload> {
        let answer = self.call("rename", &[Word::Text(key_id), Word::Text(&new_name)])?;
        Ok(ModifyAttributeResponsePayload {
            unique_identifier: answer.text_at("unique_identifier")?.into(),
            attribute: Attribute::at(&answer, "attribute")?,
        })
    }

    /// Gives an object one more attribute, and gives the attribute as it is then.
    pub fn add_attribute(&self, object_id: &str, value: AttributeValue<'_>) -> Result<Attribute> {
        let words = [Word::Text(object_id)];
        let answer = self.call_given("attribute-add", &words, &vec![value.given()])?;
        Attribute::at(&answer, "attribute")
    }

    /// Gives an attribute of an object another value: the one with this index among those of its
    /// name, or where there is no index the first. It gives the attribute as it is then.
    pub fn modify_attribute(
        &self,
        object_id: &str,
        value: AttributeValue<'_>,
        index: Option<i32>,
    ) -> Result<Attribute> {
        let given = [Some(value.given()), index.map(index_given)];
        let given = given.into_iter().flatten().collect();
        let answer = self.call_given("attribute-modify", &[Word::Text(object_id)], &given)?;
        Attribute::at(&answer, "attribute")
    }

    /// Takes an attribute with this name, as `Object Group`, from an object: the one with this
    /// index, or where there is no index the first. It gives the attribute as it was.
    pub fn delete_attribute(
        &self,
        object_id: &str,
        name: &str,
        index: Option<i32>,
    ) -> Result<Attribute> {
        let words = [Word::Text(object_id), Word::Text(name)];
        let given = index.map(index_given).into_iter().collect();
        let answer = self.call_given("attribute-delete", &words, &given)?;
        Attribute::at(&answer, "attribute")
    }

    /// An object itself, in the format that it has.
    pub fn get_key(&self, key_id: &str) -> Result<GetResponsePayload> {
        self.get_key_with(key_id, Get::default())
    }

    /// The same in another format, or wrapped.
    pub fn get_key_with(&self, key_id: &str, options: Get<'_>) -> Result<GetResponsePayload> {
        let words = [Word::Text(key_id)];
        GetResponsePayload::of(self.call_given("get", &words, &options.given())?)
    }

    /// The identifiers of the objects with this name; none, where there are no such objects.
    pub fn locate(&self, name: &str) -> Result<Vec<String>> {
        self.call("locate", &[Word::Text(name)])?.texts_at("unique_identifiers")
    }

    /// The identifiers of the objects with all of these attributes; of all objects, where there are
    /// none.
    pub fn locate_with(&self, attributes: &[AttributeValue<'_>]) -> Result<Vec<String>> {
        let given = attributes.iter().map(|attribute| attribute.given()).collect();
        self.call_given("locate", &[], &given)?.texts_at("unique_identifiers")
    }

    /// All attributes of an object. Where one of them is none of this call's tables, the value of each
    /// is an item in the JSON of KMIP's Additional Message Encodings.
    pub fn attributes(&self, object_id: &str) -> Result<Vec<Attribute>> {
        self.attributes_with(object_id, &[])
    }

    /// The attributes of an object with these names, as `Cryptographic Length`; all, where there are
    /// none.
    pub fn attributes_with(&self, object_id: &str, names: &[&str]) -> Result<Vec<Attribute>> {
        let names = names.iter().map(|name| Word::Text(name));
        let words: Vec<_> = [Word::Text(object_id)].into_iter().chain(names).collect();
        let answer = self.call("attributes", &words)?;
        if let Some(tree) = answer.tree() {
            let items = tree.items().iter().filter(|item| item.tag == "Attribute");
            return items.map(Attribute::of_item).collect();
        }
        let count = answer.list_at("attributes")?.len();
        (0..count).map(|at| Attribute::at(&answer, &format!("attributes.{at}"))).collect()
    }

    /// The versions of KMIP that the server speaks.
    pub fn discover(&self) -> Result<Vec<ProtocolVersion>> {
        let answer = self.call("discover", &[])?;
        let none = || Error::missing("the answer has no number of a version");
        let part = |json: &Json, name| json.member(name).and_then(Json::as_number).ok_or_else(none);
        let version = |json: &Json| {
            Ok(ProtocolVersion { major: part(json, "major")?, minor: part(json, "minor")? })
        };
        answer.list_at("supported_versions")?.iter().map(version).collect()
    }
}

fn index_given(index: i32) -> Pair<'static> {
    ("index", index.to_string().into())
}
