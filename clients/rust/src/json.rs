//! JSON (RFC 8259), as answers have it.
use crate::error::acts_on_a_terminal;
use std::fmt::{self, Debug, Display, Formatter, Write};
use std::ops::Deref;
use std::sync::Arc;

/// The most levels of lists and objects within each other. Messages have at most 64 levels.
const LEVELS: usize = 512;

/// A text of JSON: a part of the line that it was read from, so that a long one is kept once. It is
/// used as a `str`. `Debug` shows nothing of it.
#[derive(Clone)]
pub struct Text(Part);

#[derive(Clone)]
enum Part {
    Own(String),
    /// From one byte of a line to before another.
    Of(Arc<String>, u32, u32),
}

impl Text {
    /// The part of a line from one byte to before another.
    fn of(line: &Arc<String>, from: usize, to: usize) -> Text {
        Text(match (u32::try_from(from), u32::try_from(to)) {
            (Ok(from), Ok(to)) => Part::Of(Arc::clone(line), from, to),
            _ => Part::Own(line[from..to].to_string()),
        })
    }

    /// The text.
    pub fn as_str(&self) -> &str {
        match &self.0 {
            Part::Own(text) => text,
            Part::Of(line, from, to) => &line[*from as usize..*to as usize],
        }
    }
}

impl Deref for Text {
    type Target = str;

    fn deref(&self) -> &str {
        self.as_str()
    }
}

impl From<String> for Text {
    fn from(text: String) -> Text {
        Text(Part::Own(text))
    }
}

impl From<&str> for Text {
    fn from(text: &str) -> Text {
        Text(Part::Own(text.to_string()))
    }
}

impl PartialEq for Text {
    fn eq(&self, other: &Text) -> bool {
        self.as_str() == other.as_str()
    }
}

impl Eq for Text {}

impl Display for Text {
    fn fmt(&self, f: &mut Formatter<'_>) -> fmt::Result {
        f.write_str(self)
    }
}

impl Debug for Text {
    fn fmt(&self, f: &mut Formatter<'_>) -> fmt::Result {
        f.write_str("text")
    }
}

/// A value of JSON. `Display` writes it as JSON. `Debug` shows the names of its members and no
/// value, since that may be of a key.
#[derive(Clone, PartialEq, Eq)]
#[non_exhaustive]
pub enum Json {
    /// `null`
    Null,
    /// `true` or `false`
    Bool(bool),
    /// A number, as it is written: some have more digits than a float keeps.
    Number(String),
    /// A string. Bytes are strings of upper-case hex digits.
    Text(Text),
    /// A list
    List(Vec<Json>),
    /// An object: its members in order, no two of the same name
    Object(Vec<(Text, Json)>),
}

impl Json {
    /// The value that a text is, with nothing but spaces around it.
    pub fn parse(text: &str) -> Option<Json> {
        Json::of_line(text.to_string())
    }

    /// The same of a text that its value keeps.
    pub(crate) fn of_line(line: String) -> Option<Json> {
        let line = Arc::new(line);
        let mut reader = Reader { text: &line, line: &line, at: 0 };
        let value = reader.value(LEVELS)?;
        reader.skip_spaces();
        (reader.at == line.len()).then_some(value)
    }

    /// A text.
    pub fn text(text: impl Into<Text>) -> Json {
        Json::Text(text.into())
    }

    /// The member of an object with this name.
    pub fn member(&self, name: &str) -> Option<&Json> {
        match self {
            Json::Object(members) => {
                members.iter().find(|(key, _)| key.as_str() == name).map(|(_, value)| value)
            }
            _ => None,
        }
    }

    /// The value at a path of names, with a dot between two; an item of a list is named by its
    /// index, counted from 0.
    pub fn at(&self, path: &str) -> Option<&Json> {
        path.split('.').try_fold(self, |found, name| match found {
            Json::List(items) if name.bytes().all(|byte| byte.is_ascii_digit()) => {
                items.get(name.parse::<usize>().ok()?)
            }
            _ => found.member(name),
        })
    }

    /// The text that it is.
    pub fn as_text(&self) -> Option<&str> {
        match self {
            Json::Text(text) => Some(text.as_str()),
            _ => None,
        }
    }

    /// The whole number of 64 bits that it is.
    pub fn as_number(&self) -> Option<i64> {
        match self {
            Json::Number(number) => number.parse().ok(),
            _ => None,
        }
    }

    /// The list that it is.
    pub fn as_list(&self) -> Option<&[Json]> {
        match self {
            Json::List(items) => Some(items),
            _ => None,
        }
    }

    /// The bytes that stand there in hex.
    pub fn as_bytes(&self) -> Option<Vec<u8>> {
        bytes_of_hex(self.as_text()?)
    }
}

/// The bytes that hex digits stand for.
pub(crate) fn bytes_of_hex(hex: &str) -> Option<Vec<u8>> {
    let nibble = |byte: u8| char::from(byte).to_digit(16).and_then(|byte| u8::try_from(byte).ok());
    let digits = hex.as_bytes();
    (digits.len() % 2 == 0).then(|| {
        digits.chunks(2).map(|pair| Some(nibble(pair[0])? << 4 | nibble(pair[1])?)).collect()
    })?
}

impl Debug for Json {
    fn fmt(&self, f: &mut Formatter<'_>) -> fmt::Result {
        match self {
            Json::Null => f.write_str("null"),
            Json::Bool(_) => f.write_str("bool"),
            Json::Number(_) => f.write_str("number"),
            Json::Text(_) => f.write_str("text"),
            Json::List(items) => f.debug_list().entries(items).finish(),
            Json::Object(members) => {
                f.debug_map().entries(members.iter().map(|(name, value)| (&**name, value))).finish()
            }
        }
    }
}

impl Display for Json {
    fn fmt(&self, f: &mut Formatter<'_>) -> fmt::Result {
        match self {
            Json::Null => f.write_str("null"),
            Json::Bool(value) => write!(f, "{value}"),
            Json::Number(number) => f.write_str(number),
            Json::Text(text) => write_text(f, text),
            Json::List(items) => {
                f.write_char('[')?;
                for (at, item) in items.iter().enumerate() {
                    write!(f, "{}{item}", if at == 0 { "" } else { "," })?;
                }
                f.write_char(']')
            }
            Json::Object(members) => {
                f.write_char('{')?;
                for (at, (name, value)) in members.iter().enumerate() {
                    f.write_str(if at == 0 { "" } else { "," })?;
                    write_text(f, name)?;
                    write!(f, ":{value}")?;
                }
                f.write_char('}')
            }
        }
    }
}

/// A text, in which each sign is escaped that a terminal would act on: a server may have written it.
fn write_text(f: &mut Formatter<'_>, text: &str) -> fmt::Result {
    f.write_char('"')?;
    for character in text.chars() {
        match character {
            '"' | '\\' => write!(f, "\\{character}")?,
            _ if acts_on_a_terminal(character) => {
                let units = character.encode_utf16(&mut [0; 2]).to_vec();
                units.iter().try_for_each(|unit| write!(f, "\\u{unit:04X}"))?;
            }
            _ => f.write_char(character)?,
        }
    }
    f.write_char('"')
}

struct Reader<'a> {
    text: &'a str,
    line: &'a Arc<String>,
    at: usize,
}

impl<'a> Reader<'a> {
    fn peek(&self) -> Option<u8> {
        self.text.as_bytes().get(self.at).copied()
    }

    fn skip_spaces(&mut self) {
        while matches!(self.peek(), Some(b' ' | b'\n' | b'\r' | b'\t')) {
            self.at += 1;
        }
    }

    /// Goes past a sign, which has to be next.
    fn sign(&mut self, sign: u8) -> Option<()> {
        (self.peek()? == sign).then(|| self.at += 1)
    }

    /// What is next, after spaces, if it is this sign.
    fn is_next(&mut self, sign: u8) -> bool {
        self.skip_spaces();
        self.sign(sign).is_some()
    }

    fn value(&mut self, levels: usize) -> Option<Json> {
        self.skip_spaces();
        match self.peek()? {
            b'{' => self.object(levels.checked_sub(1)?),
            b'[' => self.list(levels.checked_sub(1)?),
            b'"' => self.string().map(Json::Text),
            b'n' => self.word("null", Json::Null),
            b't' => self.word("true", Json::Bool(true)),
            b'f' => self.word("false", Json::Bool(false)),
            _ => self.number(),
        }
    }

    fn word(&mut self, word: &str, value: Json) -> Option<Json> {
        self.text[self.at..].starts_with(word).then(|| {
            self.at += word.len();
            value
        })
    }

    fn digits(&mut self) -> Option<()> {
        let from = self.at;
        while self.peek().is_some_and(|byte| byte.is_ascii_digit()) {
            self.at += 1;
        }
        (self.at > from).then_some(())
    }

    fn number(&mut self) -> Option<Json> {
        let from = self.at;
        let _minus = self.sign(b'-');
        if self.sign(b'0').is_none() {
            self.digits()?;
        }
        if self.sign(b'.').is_some() {
            self.digits()?;
        }
        if matches!(self.peek(), Some(b'e' | b'E')) {
            self.at += 1;
            if matches!(self.peek(), Some(b'+' | b'-')) {
                self.at += 1;
            }
            self.digits()?;
        }
        Some(Json::Number(self.text[from..self.at].to_string()))
    }

    fn list(&mut self, levels: usize) -> Option<Json> {
        self.sign(b'[')?;
        let mut items = Vec::new();
        if self.is_next(b']') {
            return Some(Json::List(items));
        }
        loop {
            items.push(self.value(levels)?);
            if self.is_next(b']') {
                items.shrink_to_fit();
                return Some(Json::List(items));
            }
            self.sign(b',')?;
        }
    }

    fn object(&mut self, levels: usize) -> Option<Json> {
        self.sign(b'{')?;
        let mut members: Vec<(Text, Json)> = Vec::new();
        if self.is_next(b'}') {
            return Some(Json::Object(members));
        }
        loop {
            self.skip_spaces();
            let name = self.string()?;
            if members.iter().any(|(key, _)| *key == name) || !self.is_next(b':') {
                return None;
            }
            members.push((name, self.value(levels)?));
            if self.is_next(b'}') {
                return Some(Json::Object(members));
            }
            self.sign(b',')?;
        }
    }

    fn string(&mut self) -> Option<Text> {
        self.sign(b'"')?;
        let mut made = String::new();
        loop {
            let from = self.at;
            while !matches!(self.peek()?, b'"' | b'\\' | 0..=0x1F) {
                self.at += 1;
            }
            if made.is_empty() && self.sign(b'"').is_some() {
                return Some(Text::of(self.line, from, self.at - 1));
            }
            made.push_str(&self.text[from..self.at]);
            if self.sign(b'"').is_some() {
                return Some(made.into());
            }
            self.sign(b'\\')?;
            made.push(self.escaped()?);
        }
    }

    /// The character that is escaped by what follows a backslash.
    fn escaped(&mut self) -> Option<char> {
        let sign = self.peek()?;
        self.at += 1;
        Some(match sign {
            b'"' | b'\\' | b'/' => char::from(sign),
            b'b' => '\u{8}',
            b'f' => '\u{C}',
            b'n' => '\n',
            b'r' => '\r',
            b't' => '\t',
            b'u' => {
                let first = self.four_digits()?;
                if !(0xD800..0xDC00).contains(&first) {
                    return char::from_u32(first);
                }
                self.sign(b'\\')?;
                self.sign(b'u')?;
                let second = self.four_digits()?.checked_sub(0xDC00).filter(|low| *low < 0x400)?;
                return char::from_u32(0x10000 + ((first - 0xD800) << 10) + second);
            }
            _ => return None,
        })
    }

    fn four_digits(&mut self) -> Option<u32> {
        let digits = self.text.get(self.at..self.at + 4)?;
        self.at += 4;
        digits.chars().try_fold(0, |number, digit| Some(number << 4 | digit.to_digit(16)?))
    }
}

#[cfg(test)]
mod tests {
    use super::*;

    fn text(text: &str) -> Option<Json> {
        Some(Json::Text(text.into()))
    }

    #[test]
    fn values_of_each_kind() {
        assert_eq!(Json::parse(" null\n"), Some(Json::Null));
        assert_eq!(Json::parse("true"), Some(Json::Bool(true)));
        assert_eq!(Json::parse("false"), Some(Json::Bool(false)));
        for number in ["0", "-0", "10", "-7", "1.50", "1e9", "2E-3", "18446744073709551616"] {
            assert_eq!(Json::parse(number), Some(Json::Number(number.into())));
        }
        assert_eq!(Json::parse("[]"), Some(Json::List(vec![])));
        assert_eq!(
            Json::parse("[null , true]"),
            Some(Json::List(vec![Json::Null, Json::Bool(true)]))
        );
        assert_eq!(Json::parse("{ }"), Some(Json::Object(vec![])));
        assert_eq!(
            Json::parse("{\"a\": 1,\"b\":{}}"),
            Some(Json::Object(vec![
                ("a".into(), Json::Number("1".into())),
                ("b".into(), Json::Object(vec![]))
            ]))
        );
    }

    #[test]
    fn strings_and_their_escapes() {
        assert_eq!(Json::parse("\"\""), text(""));
        assert_eq!(Json::parse("\"schlüssel\""), text("schlüssel"));
        assert_eq!(Json::parse(r#""a\"b\\c\/\b\f\n\r\t""#), text("a\"b\\c/\u{8}\u{C}\n\r\t"));
        assert_eq!(Json::parse(r#""\u001F\u00e9\uD83D\uDE00""#), text("\u{1F}é\u{1F600}"));
    }

    #[test]
    fn no_sign_of_a_text_acts_on_a_terminal() {
        let odd = "caf\u{E9} \u{1B}[2J \u{9B}31m \u{202E}gnp.exe \u{7F} \u{E0001}";
        let shown = Json::text(odd).to_string();
        let wanted = r#""caf# \u001B[2J \u009B31m \u202Egnp.exe \u007F \uDB40\uDC01""#;
        assert_eq!(shown, wanted.replace('#', "\u{E9}"));
        assert_eq!(Json::parse(&shown), text(odd));
    }

    #[test]
    fn what_is_no_json() {
        for wrong in [
            "",
            " ",
            "nul",
            "nulls",
            "01",
            "-",
            "+1",
            "1.",
            ".5",
            "1e",
            "1 2",
            "[",
            "[1",
            "[1,]",
            "[,1]",
            "[1 2]",
            "]",
            "{",
            "{\"a\"}",
            "{\"a\":}",
            "{\"a\":1,}",
            "{a:1}",
            "{\"a\":1 \"b\":2}",
            "{\"a\":1,\"a\":2}",
            "\"",
            "\"a",
            "\"\n\"",
            "\"\\x\"",
            "\"\\u12\"",
            "\"\\u12é\"",
            "\"\\u+123\"",
            "\"\\uD83D\"",
            "\"\\uD83Dx\"",
            "\"\\uD83D\\u0041\"",
            "\"\\uDE00\"",
            "'a'",
            "\u{A0}1",
            "NaN",
        ] {
            assert_eq!(Json::parse(wrong), None, "{wrong}");
        }
    }

    #[test]
    fn levels_have_an_end() {
        let nested = |levels: usize| "[".repeat(levels) + &"]".repeat(levels);
        assert!(Json::parse(&nested(LEVELS)).is_some());
        assert!(Json::parse(&nested(LEVELS + 1)).is_none());
        assert!(Json::parse(&"[".repeat(1_000_000)).is_none());
    }

    #[test]
    fn a_value_is_found_by_its_path() {
        let json = Json::parse(r#"{"a":{"b":["x",{"c":"0aFF"}]},"n":-5,"0":true}"#).unwrap();
        assert_eq!(json.at("a.b.0").and_then(Json::as_text), Some("x"));
        assert_eq!(json.at("a.b.1.c").and_then(Json::as_bytes), Some(vec![0x0A, 0xFF]));
        assert_eq!(json.at("n").and_then(Json::as_number), Some(-5));
        assert_eq!(json.at("0"), Some(&Json::Bool(true)));
        assert_eq!(json.at("a.b").and_then(Json::as_list).map(<[Json]>::len), Some(2));
        for path in ["", "x", "a.", "a.b.2", "a.b.-1", "a.b.+1", "a.b.x", "a.b.", "n.0", "a.b.0.c"]
        {
            assert_eq!(json.at(path), None, "{path}");
        }
        for path in ["a", "a.b.0", "n"] {
            assert_eq!(json.at(path).and_then(Json::as_bytes), None, "{path}");
        }
    }

    #[test]
    fn what_is_written_is_read_again() {
        let text = "{\"a\\\"\\\\\\u0001\\u007Fé\":[null,true,-5,\"x\",{}],\"b\":{\"c\":[]}}";
        let json = Json::parse(text).unwrap();
        assert_eq!(json.to_string(), text);
    }

    #[test]
    fn debug_shows_no_value() {
        let json = Json::parse(r#"{"key":["5EC4E7",{"it":77}]}"#).unwrap();
        assert_eq!(format!("{json:?}"), r#"{"key": [text, {"it": number}]}"#);
    }
}
