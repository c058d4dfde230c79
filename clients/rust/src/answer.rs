//! What a response answers.
use crate::error::{Error, Result};
use crate::item::Item;
use crate::json::Json;
use std::fmt::{self, Debug, Formatter};

/// The answer to a call: a checked response of success. Its values are those of the answer alone,
/// whatever else the response has. `Debug` shows none of them.
#[derive(Clone, PartialEq, Eq)]
pub struct Answer {
    response: Vec<u8>,
    json: Json,
}

impl Answer {
    /// The answer of a line `{"answer":..}`.
    pub(crate) fn of_line(line: String, response: Vec<u8>) -> Option<Answer> {
        match Json::of_line(line)? {
            Json::Object(members) => match <[_; 1]>::try_from(members) {
                Ok([(name, json)]) if &*name == "answer" => Some(Answer { response, json }),
                _ => None,
            },
            _ => None,
        }
    }

    /// The bytes of the response.
    pub fn response(&self) -> &[u8] {
        &self.response
    }

    /// The whole answer, as the library's line has it after `"answer":`.
    pub fn json(&self) -> &Json {
        &self.json
    }

    /// The response's payload, where this is an answer to an operation, or to a call whose tables
    /// have no words for it.
    pub fn tree(&self) -> Option<Item> {
        self.json.member("tag").and_then(|_| Item::of_json(&self.json))
    }

    /// The value at a path of names, with a dot between two; an item of a list is named by its
    /// index, counted from 0: `attributes.0.name`.
    ///
    /// # Errors
    /// `MissingValue`: there is none.
    pub fn value_at(&self, path: &str) -> Result<&Json> {
        self.json.at(path).ok_or_else(|| Error::missing(format!("the answer has no {path}")))
    }

    /// The text at a path.
    ///
    /// # Errors
    /// `MissingValue`: there is none.
    pub fn text_at(&self, path: &str) -> Result<&str> {
        let none = || Error::missing(format!("the answer has no text at {path}"));
        self.value_at(path)?.as_text().ok_or_else(none)
    }

    /// The whole number of 64 bits at a path.
    ///
    /// # Errors
    /// `MissingValue`: there is none.
    pub fn number_at(&self, path: &str) -> Result<i64> {
        let none = || Error::missing(format!("the answer has no number at {path}"));
        self.value_at(path)?.as_number().ok_or_else(none)
    }

    /// The bytes at a path, which stand there in hex.
    ///
    /// # Errors
    /// `MissingValue`: there are none.
    pub fn bytes_at(&self, path: &str) -> Result<Vec<u8>> {
        let none = || Error::missing(format!("the answer has no bytes at {path}"));
        self.value_at(path)?.as_bytes().ok_or_else(none)
    }

    /// The list at a path.
    ///
    /// # Errors
    /// `MissingValue`: there is none.
    pub fn list_at(&self, path: &str) -> Result<&[Json]> {
        let none = || Error::missing(format!("the answer has no list at {path}"));
        self.value_at(path)?.as_list().ok_or_else(none)
    }

    /// The texts of the list at a path.
    pub(crate) fn texts_at(&self, path: &str) -> Result<Vec<String>> {
        let none = || Error::missing(format!("the answer has no list of texts at {path}"));
        let texts = self.list_at(path)?.iter().map(|item| item.as_text().map(str::to_string));
        texts.collect::<Option<_>>().ok_or_else(none)
    }

    /// Whether there is a value at a path.
    pub(crate) fn has(&self, path: &str) -> bool {
        self.json.at(path).is_some()
    }
}

impl Debug for Answer {
    fn fmt(&self, f: &mut Formatter<'_>) -> fmt::Result {
        let length = format_args!("of length {}", self.response.len());
        f.debug_struct("Answer").field("response", &length).field("json", &self.json).finish()
    }
}
