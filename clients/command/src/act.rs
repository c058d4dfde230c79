//! A call with its words as they were read, which can be made.
use crate::commands::MORE;
use crate::extra::call_of;
use crate::failure::{grammar, Failure};
use crate::names::{resolve, Found};
use crate::row::{Call, Given, Kind, Word as Place};
use crate::table::ATTRIBUTES;
use crate::words::{self, seconds_of, Input, Object};
use clap::parser::ValueSource;
use clap::ArgMatches;
use metsuwan::{
    Answer, Batch, Client, CryptographicUsageMask, Get, GetResponsePayload, Json, KeyFormatType,
    Register, SecretDataType, Word,
};
use std::ffi::{OsStr, OsString};
use std::io::{Read, Write};

/// A word or an option. `Debug` is not there: some are secret.
#[derive(Clone, PartialEq, Eq)]
pub enum Value {
    Object(Object),
    Text(String),
    Bytes(Vec<u8>),
    Option(String, String),
    ObjectOption(String, Object),
}

/// A call that can be made.
#[derive(Clone)]
pub struct Act {
    pub call: &'static Call,
    pub values: Vec<Value>,
}

/// What a call gave.
pub enum Reply {
    Answer(Answer),
    Object(Box<GetResponsePayload>),
    /// The identifier of what was registered.
    Made(String),
}

impl Reply {
    pub fn json(&self) -> Json {
        match self {
            Reply::Answer(answer) => answer.json().clone(),
            Reply::Object(object) => object.answer.json().clone(),
            Reply::Made(id) => {
                Json::Object(vec![("unique_identifier".into(), Json::text(id.as_str()))])
            }
        }
    }
}

fn typed<'a>(found: &'a ArgMatches, name: &str) -> Vec<&'a OsStr> {
    let values = found.try_get_many::<OsString>(name).ok().flatten();
    values.into_iter().flatten().map(OsString::as_os_str).collect()
}

/// The value that is sent for one of an option or an attribute that is no data and no identifier.
fn value_of(what: &str, kind: Kind, text: &str) -> Result<String, Failure> {
    if kind.values().is_empty() {
        return match kind {
            Kind::Date => {
                let none = || {
                    let forms = "2026-01-31, 2026-01-31T12:30 or seconds since 1970";
                    grammar(format!("{what} is no date: {forms} are, in UTC"))
                };
                seconds_of(text).map(|it| it.to_string()).ok_or_else(none)
            }
            _ => Ok(text.into()),
        };
    }
    let none = || {
        let all = kind.values().iter().map(|it| it.name).collect::<Vec<_>>().join(", ");
        grammar(format!("{what} is none of {all}"))
    };
    let names: Option<Vec<_>> = text.split(',').map(|it| kind.name_of(it)).collect();
    names.map(|names| names.join(",")).ok_or_else(none)
}

fn attribute_names() -> String {
    ATTRIBUTES.iter().map(|it| format!("{}=", it.name)).collect::<Vec<_>>().join(", ")
}

/// An attribute, as `state=Active`.
pub fn attribute(word: &OsStr) -> Result<Value, Failure> {
    let text = word.to_str().ok_or_else(|| grammar("an attribute is not UTF-8"))?;
    let none =
        || grammar(format!("{text} is no attribute, as state=Active; {}", attribute_names()));
    let (name, value) = text.split_once('=').ok_or_else(none)?;
    let row = ATTRIBUTES.iter().find(|it| it.name.eq_ignore_ascii_case(name));
    let row = row.ok_or_else(|| {
        let all = attribute_names();
        grammar(format!("there is no attribute {name}=; there are {all}"))
    })?;
    let value = words::text(name, OsStr::new(value))?;
    let value = value_of(&format!("{name}={value}"), row.kind, &value)?;
    Ok(Value::Option(row.name.into(), value))
}

/// What stands behind `locate`: one word that is no attribute is a name.
fn located(all: &[&OsStr]) -> Result<Vec<Value>, Failure> {
    let is_attribute = |word: &OsStr| {
        let name = word.to_str().and_then(|it| it.split_once('='));
        name.is_some_and(|(name, _)| ATTRIBUTES.iter().any(|it| it.name.eq_ignore_ascii_case(name)))
    };
    match all {
        [one] if !is_attribute(one) => {
            let word = one.to_str().and_then(|it| it.strip_prefix("name:")).map(OsStr::new);
            let name = words::text("NAME", word.unwrap_or(one))?;
            Ok(vec![Value::Option("name".into(), name)])
        }
        [first, rest @ ..] if *first == "where" => rest.iter().map(|it| attribute(it)).collect(),
        all => all.iter().map(|it| attribute(it)).collect(),
    }
}

/// The values of a word that clap knows by this name.
fn word_values(
    id: &str,
    place: &Place,
    found: &ArgMatches,
    input: &mut Input,
) -> Result<Vec<Value>, Failure> {
    let (name, kind) = (place.name, place.kind);
    match kind {
        Kind::Number => {
            let all = found.get_many::<i64>(id).into_iter().flatten();
            return Ok(all.map(|it| Value::Text(it.to_string())).collect());
        }
        Kind::Name(_) | Kind::Names(_) => {
            let all = found.get_many::<String>(id).into_iter().flatten();
            return all.map(|it| value_of(name, kind, it).map(Value::Text)).collect();
        }
        _ => {}
    }
    let one = |word: &&OsStr| match kind {
        Kind::Id => words::object(name, word).map(Value::Object),
        Kind::Data => words::data(name, word, input).map(Value::Bytes),
        Kind::Attribute => attribute(word),
        _ => words::text(name, word).map(Value::Text),
    };
    typed(found, id).iter().map(one).collect()
}

fn option_value(given: &Given, found: &ArgMatches, input: &mut Input) -> Result<Value, Failure> {
    let (name, kind) = (given.name.to_string(), given.kind);
    let what = format!("--{name}");
    let texts = |found: &ArgMatches| -> Vec<String> {
        found.get_many::<String>(given.name).into_iter().flatten().cloned().collect()
    };
    let word = |found| typed(found, given.name).first().copied().unwrap_or_default();
    Ok(match kind {
        Kind::Flag => Value::Option(name, String::new()),
        Kind::Number => {
            let number = found.get_one::<i64>(given.name).map_or(String::new(), i64::to_string);
            Value::Option(name, number)
        }
        Kind::Name(_) | Kind::Names(_) | Kind::Truth | Kind::Date => {
            Value::Option(name, value_of(&what, kind, &texts(found).join(","))?)
        }
        Kind::Id => Value::ObjectOption(name, words::object(&what, word(found))?),
        Kind::Data => {
            let bytes = words::data(&what, word(found), input)?;
            Value::Option(name, bytes.iter().map(|it| format!("{it:02X}")).collect())
        }
        Kind::Text | Kind::Attribute => Value::Option(name, words::text(&what, word(found))?),
    })
}

impl Act {
    /// Of the words that clap found.
    pub fn read(name: &str, found: &ArgMatches, input: &mut Input) -> Result<Act, Failure> {
        let call = call_of(name).ok_or_else(|| grammar(format!("there is no call {name}")))?;
        let mut values = Vec::new();
        for place in call.words {
            values.extend(word_values(place.name, place, found, input)?);
        }
        match call.more {
            Some(_) if call.name == "locate" => values.extend(located(&typed(found, MORE))?),
            Some(more) => values.extend(word_values(MORE, more, found, input)?),
            None => {}
        }
        for given in call.options {
            if found.value_source(given.name) == Some(ValueSource::CommandLine) {
                values.push(option_value(given, found, input)?);
            }
        }
        Ok(Act { call, values })
    }

    /// The objects that it is about.
    pub fn objects(&self) -> impl Iterator<Item = &Object> {
        self.values.iter().filter_map(|value| match value {
            Value::Object(object) | Value::ObjectOption(_, object) => Some(object),
            _ => None,
        })
    }

    /// Names are looked up; what the first stands for is said.
    pub fn resolve<T: Read + Write>(
        &mut self,
        client: &Client<T>,
        found: &mut Found,
    ) -> Result<String, Failure> {
        let mut about = String::new();
        for value in &mut self.values {
            if let Value::Object(object) | Value::ObjectOption(_, object) = value {
                *object = Object::Id(resolve(client, object, found, &mut about)?);
            }
        }
        Ok(about)
    }

    /// The value of an option.
    fn option(&self, wanted: &str) -> Option<&str> {
        self.values.iter().find_map(|value| match value {
            Value::Option(name, value) if name == wanted => Some(value.as_str()),
            Value::ObjectOption(name, object) if name == wanted => Some(object.word()),
            _ => None,
        })
    }

    fn bytes(&self) -> &[u8] {
        let mut all = self.values.iter();
        let found = all.find_map(|value| match value {
            Value::Bytes(bytes) => Some(bytes.as_slice()),
            _ => None,
        });
        found.unwrap_or_default()
    }

    /// As the client takes them.
    fn given(&self) -> Vec<Word<'_>> {
        let words = self.values.iter().map(|value| match value {
            Value::Object(object) => Word::Text(object.word()),
            Value::Text(text) => Word::Text(text),
            Value::Bytes(bytes) => Word::Bytes(bytes),
            Value::Option(name, value) => Word::Option(name, value),
            Value::ObjectOption(name, object) => Word::Option(name, object.word()),
        });
        words.collect()
    }

    fn get<T: Read + Write>(&self, client: &Client<T>) -> metsuwan::Result<Reply> {
        let mut how = Get::default();
        let format = self.option("format").and_then(|it| it.parse::<KeyFormatType>().ok());
        if let Some(format) = format {
            how = how.with_format(format);
        }
        if let Some(key) = self.option("wrap") {
            how = how.with_wrap(key);
        }
        let id = self.objects().next().map_or("", Object::word);
        client.get_key_with(id, how).map(|object| Reply::Object(Box::new(object)))
    }

    fn register<T: Read + Write>(&self, client: &Client<T>) -> metsuwan::Result<Reply> {
        let mut how = Register::default();
        if let Some(name) = self.option("name") {
            how = how.with_name(name);
        }
        let usage = self.option("usage").and_then(|it| it.parse::<CryptographicUsageMask>().ok());
        if let Some(usage) = usage {
            how = how.with_usage(usage);
        }
        let kind = match self.option("kind") {
            Some("Seed") => SecretDataType::Seed,
            _ => SecretDataType::Password,
        };
        let bytes = self.bytes();
        let made = match self.call.name {
            "register-private" => client.register_private_key(bytes, how),
            "register-public" => client.register_public_key(bytes, how),
            "register-certificate" => client.register_certificate_with(bytes, how),
            _ => client.register_secret(kind, bytes, how),
        };
        made.map(Reply::Made)
    }

    /// The name, the version and the payload of an operation.
    fn operation(&self) -> (String, &str, String) {
        let name = self.given().first().map_or(String::new(), |word| match word {
            Word::Text(name) => name.to_string(),
            _ => String::new(),
        });
        let payload = String::from_utf8_lossy(self.bytes()).into_owned();
        (name, self.option("version").unwrap_or("1.2"), payload)
    }

    /// Makes the call.
    pub fn perform<T: Read + Write>(&self, client: &Client<T>) -> metsuwan::Result<Reply> {
        match self.call.name {
            "get" => self.get(client),
            "operation" => {
                let (name, version, payload) = self.operation();
                client.operation(&name, version, &payload).map(Reply::Answer)
            }
            name if name.starts_with("register-") => self.register(client),
            name => client.call(name, &self.given()).map(Reply::Answer),
        }
    }

    /// Why it was not answered.
    pub fn failed(&self, error: metsuwan::Error) -> Failure {
        let operation = self.call.operation;
        Failure::of(error, if operation.is_empty() { "this operation" } else { operation })
    }

    /// Whether it can be one of several in a message.
    pub fn is_of_batch(&self) -> bool {
        !self.call.name.starts_with("register-")
    }

    /// Adds it to a batch.
    pub fn add_to<T: Read + Write>(&self, batch: &mut Batch<'_, T>) -> metsuwan::Result<()> {
        if self.call.name == "operation" {
            let (name, version, payload) = self.operation();
            return batch.operation(&name, version, &payload).map(drop);
        }
        batch.call(self.call.name, &self.given()).map(drop)
    }

    /// The status of an answer: 1 where the server says that what was asked about is not valid, or
    /// does not say that it is.
    pub fn status(&self, reply: &Json) -> u8 {
        let is_valid = || {
            reply
                .member("validity_indicator")
                .and_then(Json::as_text)
                .is_some_and(|it| it == "Valid")
        };
        u8::from(self.call.says_valid && !is_valid())
    }
}

#[cfg(test)]
mod tests {
    use super::*;
    use crate::commands::command;

    fn act(line: &str) -> Result<Act, Failure> {
        let words = shlex::split(line).unwrap();
        let found = command().try_get_matches_from(words).unwrap();
        let (name, below) = found.subcommand().unwrap();
        Act::read(name, below, &mut Input::default())
    }

    fn option(name: &str, value: &str) -> Value {
        Value::Option(name.into(), value.into())
    }

    #[test]
    fn words_are_those_of_the_call() {
        let id = |word: &str| Value::Object(Object::Either(word.into()));
        let rows = [
            ("kmip sign k text:a", vec![id("k"), Value::Bytes(b"a".to_vec())]),
            (
                "kmip sign k hex:00 --hash sha_384 --prehashed",
                vec![
                    id("k"),
                    Value::Bytes(vec![0]),
                    option("hash", "SHA384"),
                    option("prehashed", ""),
                ],
            ),
            ("kmip rng 5", vec![Value::Text("5".into())]),
            ("kmip rng -5", vec![Value::Text("-5".into())]),
            ("kmip locate 'a=b'", vec![option("name", "a=b")]),
            ("kmip locate state=active", vec![option("state", "Active")]),
            (
                "kmip locate where name=a=b length=5",
                vec![option("name", "a=b"), option("length", "5")],
            ),
            ("kmip locate name:state=Active", vec![option("name", "state=Active")]),
            ("kmip locate", vec![]),
            (
                "kmip create AES 8 n --usage sign,Verify",
                vec![
                    Value::Text("AES".into()),
                    Value::Text("8".into()),
                    Value::Text("n".into()),
                    option("usage", "Sign,Verify"),
                ],
            ),
            (
                "kmip encrypt 5 hex: --iv hex:0aFF --random-iv true",
                vec![
                    id("5"),
                    Value::Bytes(vec![]),
                    option("random-iv", "true"),
                    option("iv", "0AFF"),
                ],
            ),
            ("kmip revoke 5 --since 2026-01-31", vec![id("5"), option("since", "1769817600")]),
            (
                "kmip get 5 --wrap name:w",
                vec![id("5"), Value::ObjectOption("wrap".into(), Object::Name("w".into()))],
            ),
            ("kmip validate 1 2", vec![id("1"), id("2")]),
            (
                "kmip attribute-add k activation=1970-01-02",
                vec![id("k"), option("activation", "86400")],
            ),
        ];
        for (line, wanted) in rows {
            assert!(act(line).unwrap_or_else(|_| panic!("{line}")).values == wanted, "{line}");
        }
    }

    #[test]
    fn words_that_are_none_are_refused() {
        let rows = [
            ("kmip sign k 00", "DATA has to be @FILE, "),
            ("kmip locate where a", "a is no attribute, as state=Active; name=, "),
            ("kmip locate a b", "a is no attribute"),
            ("kmip locate state=Lost a=b", "state=Lost is none of PreActive, Active, "),
            ("kmip attribute-add k size=5", "there is no attribute size=; there are name=, "),
            ("kmip revoke k --since soon", "--since is no date: "),
            ("kmip encrypt k text:a --iv 00", "--iv has to be @FILE, "),
            ("kmip get ''", "ID is empty"),
        ];
        for (line, wanted) in rows {
            let said = act(line).err().unwrap_or_else(|| panic!("{line}")).text;
            assert!(said.starts_with(wanted), "{line}: {said}");
        }
    }

    #[test]
    fn what_is_not_said_to_be_valid_is_not() {
        let of =
            |line: &str, json: &str| act(line).ok().unwrap().status(&Json::parse(json).unwrap());
        assert_eq!(of("kmip verify k text:a text:b", r#"{"validity_indicator":"Valid"}"#), 0);
        assert_eq!(of("kmip verify k text:a text:b", r#"{"validity_indicator":"Invalid"}"#), 1);
        assert_eq!(of("kmip mac-verify k text:a text:b", r#"{"validity_indicator":"Unknown"}"#), 1);
        assert_eq!(of("kmip validate k", "{}"), 1);
        assert_eq!(of("kmip activate k", "{}"), 0);
    }
}
