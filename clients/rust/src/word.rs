//! The words of calls. The library takes them as they are, and it alone says what is a call; the
//! tables here say which of them are bytes, so that bytes are taken for no text.
use crate::error::{Error, Result};
use crate::json::bytes_of_hex;
use crate::keys::is_pem;
use crate::library::KmipWord;
use std::fmt::{self, Debug, Formatter};
use std::iter;

/// A word of a call. `Debug` shows no bytes, since they may be of a key.
#[derive(Clone, Copy, PartialEq, Eq)]
#[non_exhaustive]
pub enum Word<'a> {
    /// A text, as an identifier or a name: any text, as it is.
    Text(&'a str),
    /// Bytes, as those that are signed.
    Bytes(&'a [u8]),
    /// A number, as that of the bits of a key.
    Number(i32),
    /// An option, which stands after the other words: its name and its value, as
    /// `("hash", "SHA384")`. The value of `prehashed` is empty, and one of bytes, as of `iv`, is in
    /// hex digits.
    Option(&'a str, &'a str),
}

impl Debug for Word<'_> {
    fn fmt(&self, f: &mut Formatter<'_>) -> fmt::Result {
        match self {
            Word::Text(text) => f.debug_tuple("Text").field(text).finish(),
            Word::Bytes(bytes) => write!(f, "Bytes(of length {})", bytes.len()),
            Word::Number(number) => f.debug_tuple("Number").field(number).finish(),
            Word::Option(name, value) => f.debug_tuple("Option").field(name).field(value).finish(),
        }
    }
}

/// A call, how many of its first words are no options, and which of them are bytes, counted from 0.
type Call = (&'static str, usize, &'static [usize]);
// clients/grammar.py: calls
const CALLS: [Call; 19] = [
    ("query", 0, &[]),
    ("discover", 0, &[]),
    ("create-rsa", 3, &[]),
    ("create-aes", 2, &[]),
    ("create", 3, &[]),
    ("register", 2, &[1]),
    ("locate", 0, &[]),
    ("attributes", usize::MAX, &[]),
    ("attribute-add", 1, &[]),
    ("attribute-modify", 1, &[]),
    ("attribute-delete", 2, &[]),
    ("activate", 1, &[]),
    ("sign", 2, &[1]),
    ("rename", 2, &[]),
    ("get", 1, &[]),
    ("revoke", 1, &[]),
    ("destroy", 1, &[]),
    ("rng", 1, &[]),
    ("raw", 1, &[0]),
];
// clients/grammar.py: end

/// The same of the calls of the table, `kmip_call --operations`.
// clients/grammar.py: operations
const TABLE: [Call; 24] = [
    ("encrypt", 2, &[1]),
    ("decrypt", 2, &[1]),
    ("mac", 2, &[1]),
    ("mac-verify", 3, &[1, 2]),
    ("verify", 3, &[1, 2]),
    ("hash", 1, &[0]),
    ("derive-key", 2, &[]),
    ("rekey", 1, &[]),
    ("rekey-pair", 1, &[]),
    ("certify", 1, &[]),
    ("recertify", 1, &[]),
    ("create-ec", 3, &[]),
    ("create-pair", 4, &[]),
    ("create-key", 3, &[]),
    ("check", 1, &[]),
    ("attribute-list", 1, &[]),
    ("lease", 1, &[]),
    ("usage-allocation", 2, &[]),
    ("archive", 1, &[]),
    ("recover", 1, &[]),
    ("validate", usize::MAX, &[]),
    ("cancel", 1, &[0]),
    ("poll", 1, &[0]),
    ("rng-seed", 1, &[0]),
];
// clients/grammar.py: end

/// That each word is one where the call has bytes, a text or an option.
fn check(name: &str, words: &[Word<'_>]) -> Result<()> {
    let mut calls = CALLS.iter().chain(&TABLE);
    let Some((_, count, bytes)) = calls.find(|(call, ..)| *call == name) else {
        return Err(Error::grammar(format!("there is no call {name}")));
    };
    let is_option = |word: &Word<'_>| matches!(word, Word::Option(..));
    if name == "locate" && words.len() > 1 && !words.iter().all(is_option) {
        // A name as `state=Active` would be taken for an attribute.
        let text = "locate: a name stands alone; beside attributes it is one, name=";
        return Err(Error::grammar(text));
    }
    for (at, word) in words.iter().enumerate() {
        let wrong = match word {
            Word::Option(..) if at < *count => "may not be an option",
            Word::Bytes(_) if !bytes.contains(&at) => "may not be bytes",
            Word::Text(_) | Word::Number(_) if bytes.contains(&at) => "has to be bytes",
            _ => continue,
        };
        return Err(Error::grammar(format!("{name}: word {} after it {wrong}", at + 1)));
    }
    Ok(())
}

/// Words, and after them options by their names.
pub(crate) fn with_options<'a>(
    words: &[Word<'a>],
    options: impl Iterator<Item = (&'a str, &'a str)>,
) -> Vec<Word<'a>> {
    let options = options.map(|(name, value)| Word::Option(name, value));
    words.iter().copied().chain(options).collect()
}

/// A word that is kept.
enum Kept {
    Text(String),
    Data(Vec<u8>),
}

impl Kept {
    fn of(word: &Word<'_>) -> Kept {
        Kept::Text(match word {
            Word::Bytes(bytes) => return Kept::Data(bytes.to_vec()),
            Word::Text(text) => (*text).to_string(),
            Word::Number(number) => number.to_string(),
            Word::Option("prehashed", "") => "prehashed".to_string(),
            Word::Option(name, value) => format!("{name}={value}"),
        })
    }

    fn given(&self) -> KmipWord<'_> {
        match self {
            Kept::Text(text) => KmipWord::text(text),
            Kept::Data(bytes) => KmipWord::data(bytes),
        }
    }
}

/// The words of a call, its name first, which are kept.
pub(crate) struct Words(Vec<Kept>);

impl Words {
    /// Those of the call with this name.
    ///
    /// # Errors
    /// `GrammarError`: bytes, or an option, stand where the call has another word, or the other way
    /// round; or the bytes of a key are PEM.
    pub(crate) fn new(name: &str, words: &[Word<'_>]) -> Result<Words> {
        check(name, words)?;
        // One word alone is a name.
        let is_where = name == "locate" && matches!(words, [Word::Option(..), ..]);
        let front = is_where.then_some(Word::Text("where"));
        Words::of(name, front.iter().chain(words))
    }

    /// Those of a call that was typed: bytes are in hex digits.
    pub(crate) fn of_texts(name: &str, texts: &[&str]) -> Result<Words> {
        let words: Vec<_> = texts.iter().map(|text| Word::Text(text)).collect();
        Words::of(name, &words)
    }

    fn of<'a>(name: &str, words: impl IntoIterator<Item = &'a Word<'a>>) -> Result<Words> {
        let words = words.into_iter().map(Kept::of);
        let words: Vec<_> = iter::once(Kept::Text(name.into())).chain(words).collect();
        let is_pem = |word: &Kept| match word {
            Kept::Text(digits) => bytes_of_hex(digits).is_some_and(|bytes| is_pem(&bytes)),
            Kept::Data(bytes) => is_pem(bytes),
        };
        if name == "register" && words.iter().any(is_pem) {
            let text = "register: the key is PEM, which would be kept as its bytes: \
                        register_private_key and register_public_key take it";
            return Err(Error::grammar(text));
        }
        Ok(Words(words))
    }

    /// The name of the call, and the texts after it.
    pub(crate) fn texts(&self) -> impl Iterator<Item = &str> {
        self.0.iter().filter_map(|word| match word {
            Kept::Text(text) => Some(text.as_str()),
            Kept::Data(_) => None,
        })
    }

    /// Whether the call is a typed one, whose request has no Unique Batch Item ID.
    pub(crate) fn is_typed(&self) -> bool {
        CALLS.iter().any(|(call, ..)| self.texts().next() == Some(*call))
    }

    /// As the library takes them.
    pub(crate) fn given(&self) -> Vec<KmipWord<'_>> {
        self.0.iter().map(Kept::given).collect()
    }
}

#[cfg(test)]
mod tests {
    use super::*;
    use crate::library;

    fn refusal(words: &[&str]) -> String {
        let given: Vec<_> = words.iter().map(|text| KmipWord::text(text)).collect();
        library::refusal(&given).unwrap_or_else(|| panic!("{words:?} are a call"))
    }

    #[test]
    fn the_table_is_that_of_the_library() {
        for (name, count, places) in TABLE {
            let said = refusal(&[name]);
            let (_, form) = said.split_once(&format!("; its form is: {name} ")).expect(name);
            let is_word = |word: &&str| !word.contains(['[', '=']);
            let words: Vec<_> = form.split(' ').take_while(is_word).collect();
            let is_bytes = |at: &usize| ["DATA", "MAC", "SIGNATURE", "HEX"].contains(&words[*at]);
            assert_eq!((0..words.len()).filter(is_bytes).collect::<Vec<_>>(), places, "{name}");
            let wanted = if form.ends_with("..]") { usize::MAX } else { words.len() };
            assert_eq!(count, wanted, "{name}");
        }
    }

    #[test]
    fn which_word_is_wrong_is_said() {
        let registered = ["register", "public", "", "format=Raw", "length=8"];
        let rows: [(&[&str], &str); 15] = [
            (
                &["sign", "k", "", "padding=PSS", "hash=SHA3"],
                "sign: hash= is none of MD2, MD4, MD5, SHA1, ",
            ),
            (&["get", "k", "format=Raw", "format=Raw"], "get: format= is given twice"),
            (
                &["create", "HMAC_SHA256", "8", "n"],
                "create: ALGORITHM is none of DES, TRIPLE_DES, AES, RSA",
            ),
            (
                &["create", "AES", "8", "n", "usage=Sing"],
                "create: usage= is none of Sign, Verify, ",
            ),
            (&["register", "secret", ""], "register: KIND is none of public"),
            (&registered, "register: algorithm= is missing"),
            (&["locate", "name=a", "state=x"], "locate: state= is none of PreActive, Active, "),
            (&["locate", "a", "name=a"], "locate: ATTRIBUTE is none of name=, group=, "),
            (&["attribute-add", "k"], "the words are not those of attribute-add ID ATTRIBUTE"),
            (&["raw", "00"], "raw: the bytes are not the one canonical message of a request"),
            (
                &["sign", "k", "00", "prehashed", "hash=SHA256"],
                "prehashed and hash= exclude each other: ",
            ),
            (&["get", "k", "wrap="], "an identifier is empty; "),
            (&["encrypt", "k", "0"], "encrypt: DATA has to be an even number of hex digits"),
            (&["encrypt", "", "00"], "encrypt: ID has to be a text that is not empty; "),
            (&["hash", "00"], "hash: hash= has to be one of MD2, MD4, "),
        ];
        for (words, wanted) in rows {
            let said = refusal(words);
            assert!(said.starts_with(wanted), "{words:?}: {said}");
        }
    }

    fn refused(name: &str, words: &[Word<'_>], wanted: &str) {
        match Words::new(name, words) {
            Err(Error::GrammarError(error)) => assert_eq!(error.text(), wanted),
            Err(error) => panic!("{error} in place of {wanted}"),
            Ok(_) => panic!("there is no {wanted}"),
        }
    }

    #[test]
    fn bytes_stand_where_the_call_has_them() {
        let (key, data) = (Word::Text("k"), Word::Bytes(b"8"));
        for name in ["activate", "get", "attributes", "revoke", "destroy", "archive", "validate"] {
            let wanted = format!("{name}: word 1 after it may not be bytes");
            refused(name, &[data], &wanted);
            refused(name, &[Word::Bytes(&[])], &wanted);
            assert!(Words::new(name, &[key]).is_ok());
        }
        for name in ["sign", "encrypt", "decrypt", "mac", "mac-verify", "verify"] {
            refused(name, &[data, data], &format!("{name}: word 1 after it may not be bytes"));
            for text in [Word::Text("00"), Word::Number(10)] {
                refused(name, &[key, text], &format!("{name}: word 2 after it has to be bytes"));
            }
            assert!(Words::new(name, &[key, data]).is_ok());
        }
        refused("verify", &[key, data, key], "verify: word 3 after it has to be bytes");
        refused("sign", &[key, data, data], "sign: word 3 after it may not be bytes");
        refused("locate", &[data], "locate: word 1 after it may not be bytes");
        refused("attributes", &[key, data], "attributes: word 2 after it may not be bytes");
    }

    #[test]
    fn options_stand_behind_the_words() {
        let (key, option) = (Word::Text("k"), Word::Option("a", "b"));
        refused("rename", &[key, option], "rename: word 2 after it may not be an option");
        refused("sign", &[key, option], "sign: word 2 after it may not be an option");
        refused("encrypt", &[option], "encrypt: word 1 after it may not be an option");
        refused("attributes", &[key, option], "attributes: word 2 after it may not be an option");
        refused("validate", &[key, option], "validate: word 2 after it may not be an option");
        for name in ["get", "archive", "attribute-add"] {
            assert!(Words::new(name, &[key, option]).is_ok());
        }
        let alone = "locate: a name stands alone; beside attributes it is one, name=";
        let name = Word::Text("state=Active");
        for words in [[key, option], [name, Word::Option("group", "g")], [name, name]] {
            refused("locate", &words, alone);
        }
        assert!(Words::new("locate", &[option, option]).is_ok());
    }

    #[test]
    fn a_call_has_the_name_of_one() {
        for name in ["", "sing", "sign -", "sign k1", " query", "query ", "Query", "query\n"] {
            refused(name, &[Word::Bytes(&[0])], &format!("there is no call {name}"));
        }
    }

    fn texts(name: &str, words: &[Word<'_>]) -> Vec<String> {
        Words::new(name, words).unwrap().texts().map(str::to_string).collect()
    }

    #[test]
    fn options_and_numbers_are_texts() {
        let name = Word::Option("name", "a=b c");
        assert_eq!(texts("locate", &[name]), ["locate", "where", "name=a=b c"]);
        let state = Word::Option("state", "Active");
        assert_eq!(texts("locate", &[state, name])[1..], ["where", "state=Active", "name=a=b c"]);
        assert_eq!(texts("locate", &[Word::Text("name=x")]), ["locate", "name=x"]);
        assert_eq!(texts("rng", &[Word::Number(-5)]), ["rng", "-5"]);
        let hashed = [Word::Text("k"), Word::Bytes(&[]), Word::Option("prehashed", "")];
        assert_eq!(texts("sign", &hashed), ["sign", "k", "prehashed"]);
        let contact = [Word::Text("k"), Word::Option("contact", "")];
        assert_eq!(texts("attribute-add", &contact), ["attribute-add", "k", "contact="]);
    }

    #[test]
    fn debug_shows_no_bytes() {
        assert_eq!(format!("{:?}", Word::Bytes(b"5EC4E7")), "Bytes(of length 6)");
    }
}
