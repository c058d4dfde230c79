//! Names in place of identifiers.
use crate::failure::{grammar, Failure};
use crate::words::Object;
use metsuwan::{Answer, Client, Json, Word};
use std::collections::HashMap;
use std::io::{Read, Write};

/// Identifiers of names that were looked up.
#[derive(Default)]
pub struct Found(HashMap<String, String>);

impl Found {
    /// Whether this object has to be looked up.
    pub fn lacks(&self, object: &Object) -> bool {
        match object {
            Object::Id(_) => false,
            Object::Name(name) => !self.0.contains_key(name),
            Object::Either(word) => !is_usual(word) && !self.0.contains_key(word),
        }
    }
}

/// Whether a word has the form of the identifiers that servers make: digits, or a UUID. So no name
/// can stand for such a one, and scripts that use identifiers ask the server nothing more.
pub fn is_usual(word: &str) -> bool {
    let is_of_uuid = |(at, it): (usize, char)| match at {
        8 | 13 | 18 | 23 => it == '-',
        _ => it.is_ascii_hexdigit(),
    };
    let is_uuid = word.len() == 36 && word.char_indices().all(is_of_uuid);
    is_uuid || (!word.is_empty() && word.bytes().all(|it| it.is_ascii_digit()))
}

/// The identifiers that an answer to `locate` has.
pub fn identifiers(answer: &Answer) -> Vec<String> {
    let list = answer.json().member("unique_identifiers").and_then(Json::as_list);
    list.unwrap_or_default().iter().filter_map(Json::as_text).map(str::to_string).collect()
}

/// The answers to two calls, in one message where the server takes that.
fn both<T: Read + Write>(
    client: &Client<T>,
    word: &str,
) -> metsuwan::Result<[metsuwan::Result<Answer>; 2]> {
    let (named, own) = ([Word::Option("name", word)], [Word::Text(word)]);
    let mut batch = client.batch();
    batch.call("locate", &named)?;
    batch.call("attribute-list", &own)?;
    match batch.send().map(<[_; 2]>::try_from) {
        Ok(Ok(answers)) => Ok(answers),
        Err(error) if error.is_lost() => Err(error),
        // It takes no batches.
        _ => Ok([client.call("locate", &named), client.call("attribute-list", &own)]),
    }
}

/// What the server knows of a word: the objects that have it as name, and whether one has it as
/// identifier.
fn look_up<T: Read + Write>(
    client: &Client<T>,
    word: &str,
    is_name: bool,
) -> Result<(Vec<String>, bool), Failure> {
    if is_name {
        let answer = client.call("locate", &[Word::Option("name", word)])?;
        return Ok((identifiers(&answer), false));
    }
    let [named, own] = both(client, word)?;
    match own {
        Err(error) if error.is_lost() => Err(error.into()),
        own => Ok((identifiers(&named?), own.is_ok())),
    }
}

/// The identifier that a word stands for, by what the server knows of it.
fn chosen(word: &str, named: &[String], is_id: bool, is_name: bool) -> Result<String, Failure> {
    match (named, is_id) {
        ([one], false) => Ok(one.clone()),
        ([one], true) if one == word => Ok(one.clone()),
        ([], true) => Ok(word.into()),
        ([], false) => {
            let what = if is_name { "name" } else { "name or the identifier" };
            Err(Failure::new(1, "ItemNotFound", format!("no object has the {what} {word}")))
        }
        (many, false) => {
            let all = many.iter().map(|it| format!("id:{it}")).collect::<Vec<_>>().join(", ");
            Err(grammar(format!("{} objects have the name {word}: {all}", many.len())))
        }
        (_, true) => Err(grammar(format!(
            "{word} is an identifier, and another object's name: say id:{word} or name:{word}"
        ))),
    }
}

/// The identifier of an object. A name is looked up, and then `about` says which object it is.
pub fn resolve<T: Read + Write>(
    client: &Client<T>,
    object: &Object,
    found: &mut Found,
    about: &mut String,
) -> Result<String, Failure> {
    let (word, is_name) = match object {
        Object::Id(id) => return Ok(id.clone()),
        Object::Either(word) if is_usual(word) => return Ok(word.clone()),
        Object::Name(name) => (name, true),
        Object::Either(word) => (word, false),
    };
    let known = found.0.get(word).cloned();
    let id = match known {
        Some(id) => id,
        None => {
            let (named, is_id) = look_up(client, word, is_name)?;
            chosen(word, &named, is_id, is_name)?
        }
    };
    if about.is_empty() {
        *about = if id == *word { format!("id:{id}") } else { format!("id:{id} ({word})") };
    }
    found.0.insert(word.clone(), id.clone());
    Ok(id)
}

#[cfg(test)]
mod tests {
    use super::*;

    #[test]
    fn digits_and_uuids_are_identifiers() {
        let rows = [
            ("5", true),
            ("0123", true),
            ("1b4e28ba-2fa1-11d2-883f-0016d3cca427", true),
            ("1B4E28BA-2FA1-11D2-883F-0016D3CCA427", true),
            ("1b4e28ba-2fa1-11d2-883f-0016d3cca42", false),
            ("1b4e28ba02fa1-11d2-883f-0016d3cca427", false),
            ("", false),
            ("5a", false),
            ("-5", false),
            ("issuing", false),
        ];
        for (word, wanted) in rows {
            assert_eq!(is_usual(word), wanted, "{word}");
        }
    }

    #[test]
    fn a_word_stands_for_one_object() {
        let texts = |all: &[&str]| all.iter().map(|it| it.to_string()).collect::<Vec<_>>();
        type Row = (&'static [&'static str], bool, bool, Result<&'static str, &'static str>);
        let rows: [Row; 7] = [
            (&["2"], false, false, Ok("2")),
            (&["k"], true, false, Ok("k")),
            (&[], true, false, Ok("k")),
            (&[], false, false, Err("no object has the name or the identifier k")),
            (&[], false, true, Err("no object has the name k")),
            (&["3", "4"], false, true, Err("2 objects have the name k: id:3, id:4")),
            (
                &["3"],
                true,
                false,
                Err("k is an identifier, and another object's name: say id:k or name:k"),
            ),
        ];
        for (named, is_id, is_name, wanted) in rows {
            let made = chosen("k", &texts(named), is_id, is_name);
            let made = made.map_err(|failure| failure.text);
            assert_eq!(made.as_deref().map_err(String::as_str), wanted);
        }
    }
}
