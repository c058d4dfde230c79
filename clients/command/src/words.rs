//! Words as they are typed: data, texts, identifiers, names and dates.
use crate::failure::{grammar, Failure};
use std::ffi::OsStr;
use std::io::Read;
use std::os::unix::ffi::OsStrExt;
use std::path::Path;

/// What stands in the place of an identifier.
#[derive(Clone, Debug, PartialEq, Eq)]
pub enum Object {
    Id(String),
    Name(String),
    /// A word that is either.
    Either(String),
}

impl Object {
    pub fn word(&self) -> &str {
        match self {
            Object::Id(word) | Object::Name(word) | Object::Either(word) => word,
        }
    }
}

/// Standard input, which one word alone may stand for.
#[derive(Default)]
pub struct Input {
    pub is_taken: bool,
}

impl Input {
    fn take(&mut self) -> Result<Vec<u8>, Failure> {
        if std::mem::replace(&mut self.is_taken, true) {
            return Err(grammar("- stands for standard input, which is read once"));
        }
        let mut bytes = Vec::new();
        let read = std::io::stdin().lock().read_to_end(&mut bytes);
        read.map(|_| bytes).map_err(|error| grammar(format!("standard input: {error}")))
    }
}

/// The bytes of a file.
pub fn file(what: &str, path: &Path) -> Result<Vec<u8>, Failure> {
    std::fs::read(path).map_err(|error| grammar(format!("{what}: {}: {error}", path.display())))
}

fn bytes_of_hex(what: &str, mark: &str, hex: &[u8]) -> Result<Vec<u8>, Failure> {
    let hex: Vec<u8> = hex.iter().copied().filter(|byte| !byte.is_ascii_whitespace()).collect();
    let nibble = |byte: u8| char::from(byte).to_digit(16).and_then(|it| u8::try_from(it).ok());
    let pair = |pair: &[u8]| match pair {
        [high, low] => Some(nibble(*high)? << 4 | nibble(*low)?),
        _ => None,
    };
    let bytes: Option<Vec<u8>> = hex.chunks(2).map(pair).collect();
    bytes.ok_or_else(|| {
        grammar(format!("{what}: what stands after {mark} is no even number of hex digits"))
    })
}

fn bytes_of_base64(what: &str, text: &[u8]) -> Result<Vec<u8>, Failure> {
    let wrong = || grammar(format!("{what}: what stands after base64: is no base64"));
    let text: Vec<u8> = text.iter().copied().filter(|byte| !byte.is_ascii_whitespace()).collect();
    let text = std::str::from_utf8(&text).map_err(|_| wrong())?;
    // OpenSSL takes a text of another length for a shorter one.
    if text.len() % 4 != 0 {
        return Err(wrong());
    }
    openssl::base64::decode_block(text).map_err(|_| wrong())
}

/// The bytes that a word with a mark stands for; `None`: it has no mark.
fn marked(what: &str, word: &[u8]) -> Result<Option<Vec<u8>>, Failure> {
    let after = |mark: &str| word.strip_prefix(mark.as_bytes());
    for mark in ["hex:", "0x"] {
        if let Some(hex) = after(mark) {
            return bytes_of_hex(what, mark, hex).map(Some);
        }
    }
    if let Some(text) = after("base64:") {
        return bytes_of_base64(what, text).map(Some);
    }
    Ok(after("text:").map(<[u8]>::to_vec))
}

/// Data: a word has to say how its bytes are written, since `68656C6C6F` may be hex or text.
pub fn data(what: &str, word: &OsStr, input: &mut Input) -> Result<Vec<u8>, Failure> {
    let bytes = word.as_bytes();
    if bytes == b"-" {
        return input.take();
    }
    if let Some(path) = bytes.strip_prefix(b"@") {
        return file(what, Path::new(OsStr::from_bytes(path)));
    }
    let none = || {
        let text = "has to be @FILE, - (standard input), hex:68656C6C6F, base64:aGVsbG8= or \
                    text:hello";
        grammar(format!("{what} {text}"))
    };
    marked(what, bytes)?.ok_or_else(none)
}

/// A text: as it stands, or with a mark. (`0x` begins many a name.)
pub fn text(what: &str, word: &OsStr) -> Result<String, Failure> {
    let word = word.as_bytes();
    let bytes = if word.starts_with(b"0x") { None } else { marked(what, word)? };
    let bytes = bytes.unwrap_or_else(|| word.to_vec());
    String::from_utf8(bytes).map_err(|_| grammar(format!("{what} is not UTF-8")))
}

/// An identifier or a name.
pub fn object(what: &str, word: &OsStr) -> Result<Object, Failure> {
    let after = |mark: &str| {
        let rest = word.as_bytes().strip_prefix(mark.as_bytes());
        rest.map(|rest| text(what, OsStr::from_bytes(rest))).transpose()
    };
    let made = match (after("id:")?, after("name:")?) {
        (Some(id), _) => Object::Id(id),
        (_, Some(name)) => Object::Name(name),
        _ => Object::Either(text(what, word)?),
    };
    if made.word().is_empty() {
        return Err(grammar(format!("{what} is empty")));
    }
    Ok(made)
}

/// The days since 1970-01-01 of a date; `None` where there is no such day.
fn days_of(year: i64, month: i64, day: i64) -> Option<i64> {
    let is_leap = (year % 4 == 0 && year % 100 != 0) || year % 400 == 0;
    let length = match month {
        2 => 28 + i64::from(is_leap),
        4 | 6 | 9 | 11 => 30,
        1 | 3 | 5 | 7 | 8 | 10 | 12 => 31,
        _ => return None,
    };
    if !(1..=length).contains(&day) || !(0..=9999).contains(&year) {
        return None;
    }
    // Years begin in March here, so that the day of a leap year is their last.
    let (year, month) = if month > 2 { (year, month - 3) } else { (year - 1, month + 9) };
    let (era, year) = (year.div_euclid(400), year.rem_euclid(400));
    let of_year = (153 * month + 2) / 5 + day - 1;
    Some(era * 146_097 + year * 365 + year / 4 - year / 100 + of_year - 719_468)
}

fn number(text: &str) -> Option<i64> {
    let is_number = !text.is_empty() && text.bytes().all(|byte| byte.is_ascii_digit());
    text.parse().ok().filter(|_| is_number)
}

/// The seconds since 1970-01-01 of `2026-01-31`, `2026-01-31T12:30`, `2026-01-31T12:30:59` (a `Z`
/// may stand behind it), all of UTC, or of the seconds themselves.
pub fn seconds_of(text: &str) -> Option<i64> {
    if let Some(seconds) = number(text.strip_prefix('-').unwrap_or(text)) {
        return Some(if text.starts_with('-') { -seconds } else { seconds });
    }
    let text = text.strip_suffix('Z').unwrap_or(text);
    let (date, time) = text.split_once(['T', ' ']).unwrap_or((text, "0:0"));
    let parts = |text: &str, mark| text.split(mark).map(number).collect::<Option<Vec<_>>>();
    let [year, month, day] = parts(date, '-')?[..] else { return None };
    let (hour, minute, second) = match parts(time, ':')?[..] {
        [hour, minute] => (hour, minute, 0),
        [hour, minute, second] => (hour, minute, second),
        _ => return None,
    };
    let is_time = hour < 24 && minute < 60 && second < 60;
    days_of(year, month, day)
        .filter(|_| is_time)
        .map(|days| ((days * 24 + hour) * 60 + minute) * 60 + second)
}

/// Seconds since 1970-01-01 as a person reads them, in UTC.
pub fn date_of(seconds: i64) -> String {
    let (days, rest) = (seconds.div_euclid(86_400), seconds.rem_euclid(86_400));
    let days = days + 719_468;
    let (era, day) = (days.div_euclid(146_097), days.rem_euclid(146_097));
    let year = (day - day / 1460 + day / 36_524 - day / 146_096) / 365;
    let day = day - (365 * year + year / 4 - year / 100);
    let month = (5 * day + 2) / 153;
    let day = day - (153 * month + 2) / 5 + 1;
    let (month, is_next) = if month < 10 { (month + 3, 0) } else { (month - 9, 1) };
    let year = era * 400 + year + is_next;
    format!("{year:04}-{month:02}-{day:02} {:02}:{:02}", rest / 3600, rest / 60 % 60)
}

#[cfg(test)]
mod tests {
    use super::*;

    #[test]
    fn data_say_how_they_are_written() {
        let rows: [(&str, Option<&[u8]>); 16] = [
            ("hex:68656C6C6F", Some(b"hello")),
            ("hex:68 65 6c\n6c6F", Some(b"hello")),
            ("hex:", Some(b"")),
            ("0x6865", Some(b"he")),
            ("base64:aGVsbG8=", Some(b"hello")),
            ("base64:aGVs\nbG8=", Some(b"hello")),
            ("text:hello", Some(b"hello")),
            ("text:hex:00", Some(b"hex:00")),
            ("text:", Some(b"")),
            ("hello", None),
            ("68656C6C6F", None),
            ("hex:0", None),
            ("hex:0g", None),
            ("base64:aGVsbG8", None),
            ("base64:!!!!", None),
            ("@/no/such/file", None),
        ];
        for (word, wanted) in rows {
            let made = data("DATA", OsStr::new(word), &mut Input::default());
            assert_eq!(made.ok().as_deref(), wanted, "{word}");
        }
        let said = data("DATA", OsStr::new("68656C6C6F"), &mut Input::default()).unwrap_err().text;
        assert!(said.starts_with("DATA has to be @FILE, - (standard input), hex:"), "{said}");
        assert!(!said.contains("DATA 68656C6C6F"), "the word, which may be secret, is shown");
    }

    #[test]
    fn standard_input_is_read_once() {
        let mut input = Input { is_taken: true };
        let said = data("DATA", OsStr::new("-"), &mut input).unwrap_err().text;
        assert_eq!(said, "- stands for standard input, which is read once");
    }

    #[test]
    fn texts_stand_as_they_are_or_have_a_mark() {
        let rows = [
            ("issuing, public", Some("issuing, public")),
            ("0x00", Some("0x00")),
            ("-", Some("-")),
            ("@file", Some("@file")),
            ("hex:610062", Some("a\0b")),
            ("text:hex:00", Some("hex:00")),
            ("hex:FF", None),
            ("", Some("")),
        ];
        for (word, wanted) in rows {
            assert_eq!(text("NAME", OsStr::new(word)).ok().as_deref(), wanted, "{word}");
        }
        assert!(text("NAME", OsStr::from_bytes(b"\xFF")).is_err());
    }

    #[test]
    fn objects_are_identifiers_or_names() {
        let id = |it: &str| Some(Object::Id(it.into()));
        let name = |it: &str| Some(Object::Name(it.into()));
        let either = |it: &str| Some(Object::Either(it.into()));
        let rows = [
            ("5", either("5")),
            ("issuing", either("issuing")),
            ("id:issuing", id("issuing")),
            ("name:5", name("5")),
            ("name:id:5", name("id:5")),
            ("name:hex:610062", name("a\0b")),
            ("hex:69643a35", either("id:5")),
            ("", None),
            ("id:", None),
            ("name:", None),
        ];
        for (word, wanted) in rows {
            assert_eq!(object("ID", OsStr::new(word)).ok(), wanted, "{word}");
        }
    }

    #[test]
    fn dates_are_seconds() {
        // (by `date -u -d .. +%s`)
        let rows = [
            ("0", Some(0)),
            ("1700000000", Some(1_700_000_000)),
            ("-5", Some(-5)),
            ("1970-01-01", Some(0)),
            ("2026-01-31", Some(1_769_817_600)),
            ("2024-02-29", Some(1_709_164_800)),
            ("2000-02-29T23:59:59Z", Some(951_868_799)),
            ("1969-12-31 23:59", Some(-60)),
            ("2026-12-02T03:45", Some(1_796_183_100)),
            ("9999-12-31", Some(253_402_214_400)),
            ("2026-02-29", None),
            ("1900-02-29", None),
            ("2026-13-01", None),
            ("2026-01-31T24:00", None),
            ("2026-01", None),
            ("now", None),
            ("", None),
        ];
        for (text, wanted) in rows {
            assert_eq!(seconds_of(text), wanted, "{text}");
        }
    }

    #[test]
    fn seconds_are_shown_as_dates() {
        let rows = [
            (0, "1970-01-01 00:00"),
            (1_709_164_800, "2024-02-29 00:00"),
            (951_868_799, "2000-02-29 23:59"),
            (-60, "1969-12-31 23:59"),
            (1_796_183_100, "2026-12-02 03:45"),
            (253_402_214_400, "9999-12-31 00:00"),
        ];
        for (seconds, wanted) in rows {
            assert_eq!(date_of(seconds), wanted);
        }
    }
}
