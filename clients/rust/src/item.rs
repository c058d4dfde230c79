//! Items of messages: what requests and responses of any operation are made of.
use crate::error::{Error, Result};
use crate::json::{bytes_of_hex, Json};
use crate::names::CryptographicUsageMask;
use std::fmt::{self, Debug, Formatter};

/// The most levels of items within each other that are read. Messages have at most 64.
const LEVELS: usize = 128;

/// An item of a message (KMIP 1.2, 9.1): a tag and a value. `Debug` shows tags and types alone,
/// since a value may be of a key.
///
/// ```
/// use metsuwan::Item;
///
/// let parameters = Item::new(
///     "CryptographicParameters",
///     vec![Item::enumeration("BlockCipherMode", "CBC"), Item::new("RandomIV", true)],
/// );
/// assert_eq!(parameters.name_at("BlockCipherMode")?, "CBC");
/// # Ok::<(), metsuwan::Error>(())
/// ```
#[derive(Clone, PartialEq, Eq)]
#[non_exhaustive]
pub struct Item {
    /// The name of KMIP's table without spaces, as `UniqueIdentifier`; or a number, as `0x420094`.
    pub tag: String,
    /// Its value, whose variant is the type of the item.
    pub value: Value,
}

/// The value of an item, by its type.
#[derive(Clone, PartialEq, Eq)]
#[non_exhaustive]
pub enum Value {
    /// Items, in order.
    Structure(Vec<Item>),
    /// A number of 32 bits.
    Integer(i32),
    /// A number of 64 bits.
    LongInteger(i64),
    /// A number of any length: its bytes in two's complement, the highest first. There have to be
    /// a multiple of eight.
    BigInteger(Vec<u8>),
    /// The name of a value in the table of the tag, as `CBC`, or its number, as `0x00000001`.
    Enumeration(String),
    /// True or false.
    Boolean(bool),
    /// A text.
    TextString(String),
    /// Bytes.
    ByteString(Vec<u8>),
    /// A date, in seconds since 1970-01-01 UTC.
    DateTime(i64),
    /// A number of seconds.
    Interval(u32),
}

impl From<Vec<Item>> for Value {
    fn from(items: Vec<Item>) -> Value {
        Value::Structure(items)
    }
}

impl From<i32> for Value {
    fn from(number: i32) -> Value {
        Value::Integer(number)
    }
}

impl From<bool> for Value {
    fn from(is_so: bool) -> Value {
        Value::Boolean(is_so)
    }
}

impl From<&str> for Value {
    fn from(text: &str) -> Value {
        Value::TextString(text.to_string())
    }
}

impl From<&String> for Value {
    fn from(text: &String) -> Value {
        Value::TextString(text.clone())
    }
}

impl From<String> for Value {
    fn from(text: String) -> Value {
        Value::TextString(text)
    }
}

impl From<&[u8]> for Value {
    fn from(bytes: &[u8]) -> Value {
        Value::ByteString(bytes.to_vec())
    }
}

impl<const N: usize> From<&[u8; N]> for Value {
    fn from(bytes: &[u8; N]) -> Value {
        Value::ByteString(bytes.to_vec())
    }
}

impl From<Vec<u8>> for Value {
    fn from(bytes: Vec<u8>) -> Value {
        Value::ByteString(bytes)
    }
}

impl Item {
    /// An item: a structure of a `Vec<Item>`, an Integer of an `i32`, a Boolean of a `bool`, a Text
    /// String of a text, a Byte String of bytes; or any [`Value`].
    pub fn new(tag: impl Into<String>, value: impl Into<Value>) -> Item {
        Item { tag: tag.into(), value: value.into() }
    }

    /// An Enumeration, by the name that KMIP's table of the tag has, as `CBC`; or by its number, as
    /// `0x00000001`.
    pub fn enumeration(tag: impl Into<String>, name: impl Into<String>) -> Item {
        Item { tag: tag.into(), value: Value::Enumeration(name.into()) }
    }

    /// A Date-Time, in seconds since 1970-01-01 UTC.
    pub fn date(tag: impl Into<String>, seconds: i64) -> Item {
        Item { tag: tag.into(), value: Value::DateTime(seconds) }
    }

    /// The items of a structure; none of any other item.
    pub fn items(&self) -> &[Item] {
        match &self.value {
            Value::Structure(items) => items,
            _ => &[],
        }
    }

    /// The item at a path of tags below this one, with a dot between two, as
    /// `KeyBlock.KeyFormatType`. A number after a tag counts, from 0, among the items with this
    /// tag: `Attribute.1.AttributeName`.
    ///
    /// # Errors
    /// `MissingValue`: there is none.
    pub fn item_at(&self, path: &str) -> Result<&Item> {
        let mut found = Some(self);
        let mut tags = path.split('.').peekable();
        while let (Some(item_above), Some(tag)) = (found, tags.next()) {
            let index = tags.next_if(|part| part.bytes().all(|byte| byte.is_ascii_digit()));
            let index = index.map_or(Ok(0), str::parse);
            let mut same = item_above.items().iter().filter(|item| item.tag == tag);
            found = index.ok().and_then(|index| same.nth(index));
        }
        found.ok_or_else(|| Error::missing(format!("{} has no {path}", self.tag)))
    }

    fn value_at<'a, T>(
        &'a self,
        path: &str,
        what: &str,
        take: impl Fn(&'a Value) -> Option<T>,
    ) -> Result<T> {
        let none = || Error::missing(format!("{} has no {what} at {path}", self.tag));
        take(&self.item_at(path)?.value).ok_or_else(none)
    }

    /// The text of the Text String at a path.
    ///
    /// # Errors
    /// `MissingValue`: there is none.
    pub fn text_at(&self, path: &str) -> Result<&str> {
        self.value_at(path, "text", |value| match value {
            Value::TextString(text) => Some(text.as_str()),
            _ => None,
        })
    }

    /// The bytes of the Byte String or Big Integer at a path.
    ///
    /// # Errors
    /// `MissingValue`: there are none.
    pub fn bytes_at(&self, path: &str) -> Result<&[u8]> {
        self.value_at(path, "bytes", |value| match value {
            Value::ByteString(bytes) | Value::BigInteger(bytes) => Some(bytes.as_slice()),
            _ => None,
        })
    }

    /// The name of the Enumeration at a path, or its number as `0x00000001` where its table is not
    /// among those of the library.
    ///
    /// # Errors
    /// `MissingValue`: there is none.
    pub fn name_at(&self, path: &str) -> Result<&str> {
        self.value_at(path, "enumeration", |value| match value {
            Value::Enumeration(name) => Some(name.as_str()),
            _ => None,
        })
    }

    /// The number of the Integer, Long Integer, Date-Time or Interval at a path.
    ///
    /// # Errors
    /// `MissingValue`: there is none.
    pub fn number_at(&self, path: &str) -> Result<i64> {
        self.value_at(path, "number", |value| match value {
            Value::Integer(number) => Some(i64::from(*number)),
            Value::LongInteger(number) | Value::DateTime(number) => Some(*number),
            Value::Interval(number) => Some(i64::from(*number)),
            _ => None,
        })
    }

    /// The item in the JSON of KMIP's Additional Message Encodings, as the library reads it.
    pub fn to_json(&self) -> Json {
        let (kind, value) = self.value.to_json();
        Json::Object(vec![
            ("tag".into(), Json::text(self.tag.as_str())),
            ("type".into(), Json::text(kind)),
            ("value".into(), value),
        ])
    }

    /// The item that JSON is, as the library writes it; `None` where it is none, or has more than
    /// 128 levels.
    pub fn of_json(json: &Json) -> Option<Item> {
        Item::of_levels(json, LEVELS)
    }

    fn of_levels(json: &Json, levels: usize) -> Option<Item> {
        let levels = levels.checked_sub(1)?;
        let tag = json.member("tag")?.as_text()?.to_string();
        let kind = json.member("type").map_or(Some("Structure"), Json::as_text)?;
        Some(Item { tag, value: Value::of_json(kind, json.member("value")?, levels)? })
    }
}

impl Value {
    /// The name of its type.
    fn kind(&self) -> &'static str {
        match self {
            Value::Structure(_) => "Structure",
            Value::Integer(_) => "Integer",
            Value::LongInteger(_) => "LongInteger",
            Value::BigInteger(_) => "BigInteger",
            Value::Enumeration(_) => "Enumeration",
            Value::Boolean(_) => "Boolean",
            Value::TextString(_) => "TextString",
            Value::ByteString(_) => "ByteString",
            Value::DateTime(_) => "DateTime",
            Value::Interval(_) => "Interval",
        }
    }

    fn to_json(&self) -> (&'static str, Json) {
        let json = match self {
            Value::Structure(items) => Json::List(items.iter().map(Item::to_json).collect()),
            Value::Integer(number) => Json::Number(number.to_string()),
            // A number past 2^52 has to be in hex, and any may be.
            Value::LongInteger(number) | Value::DateTime(number) => {
                Json::text(format!("0x{number:016X}"))
            }
            Value::BigInteger(bytes) => Json::text(format!("0x{}", hex_of(bytes))),
            Value::Enumeration(text) | Value::TextString(text) => Json::text(text.as_str()),
            Value::Boolean(is_so) => Json::Bool(*is_so),
            Value::ByteString(bytes) => Json::text(hex_of(bytes)),
            Value::Interval(number) => Json::Number(number.to_string()),
        };
        (self.kind(), json)
    }

    fn of_json(kind: &str, json: &Json, levels: usize) -> Option<Value> {
        let text = || json.as_text().map(str::to_string);
        Some(match kind {
            "Structure" => {
                let items = json.as_list()?.iter().map(|item| Item::of_levels(item, levels));
                Value::Structure(items.collect::<Option<_>>()?)
            }
            "Integer" => Value::Integer(match json.as_text() {
                Some(names) => mask_of(names)?,
                None => i32::try_from(json.as_number()?).ok()?,
            }),
            "LongInteger" => Value::LongInteger(json.as_number().or_else(|| hex_number(json))?),
            "BigInteger" => Value::BigInteger(bytes_of_hex(json.as_text()?.strip_prefix("0x")?)?),
            "Enumeration" => Value::Enumeration(text()?),
            "Boolean" => match json {
                Json::Bool(is_so) => Value::Boolean(*is_so),
                _ => return None,
            },
            "TextString" => Value::TextString(text()?),
            "ByteString" => Value::ByteString(json.as_bytes()?),
            "DateTime" => {
                Value::DateTime(hex_number(json).or_else(|| seconds_of(json.as_text()?))?)
            }
            "Interval" => Value::Interval(u32::try_from(json.as_number()?).ok()?),
            _ => return None,
        })
    }
}

pub(crate) fn hex_of(bytes: &[u8]) -> String {
    bytes.iter().map(|byte| format!("{byte:02X}")).collect()
}

/// The number of a mask as `Encrypt|Decrypt|0x00100000`: the names of its bits, and bits in hex.
fn mask_of(names: &str) -> Option<i32> {
    names.split('|').try_fold(0, |bits, name| Some(bits | bits_of(name)?))
}

/// The bits of a name, or of `0x` and eight digits.
fn bits_of(name: &str) -> Option<i32> {
    if let Some(digits) = hex_digits(name, 8) {
        let bits = u32::from_str_radix(digits, 16).ok()?;
        return Some(i32::from_be_bytes(bits.to_be_bytes()));
    }
    // KMIP's encodings have `MACGenerate` for `MacGenerate`.
    let is_it = |bit: &&CryptographicUsageMask| bit.names()[0].eq_ignore_ascii_case(name);
    match name {
        "OnLineStorage" => Some(1),
        "ArchivalStorage" => Some(2),
        _ => CryptographicUsageMask::ALL.iter().find(is_it).map(|bit| bit.bits()),
    }
}

/// The hex digits behind `0x`, where there are so many and nothing else: `from_str_radix` would take
/// a sign for one of them.
fn hex_digits(text: &str, count: usize) -> Option<&str> {
    let digits = text.strip_prefix("0x").filter(|digits| digits.len() == count)?;
    digits.bytes().all(|digit| digit.is_ascii_hexdigit()).then_some(digits)
}

/// The number of 64 bits that a text as `0x0000000047DA67F8` is.
fn hex_number(json: &Json) -> Option<i64> {
    let digits = hex_digits(json.as_text()?, 16)?;
    u64::from_str_radix(digits, 16).ok().map(|bits| i64::from_be_bytes(bits.to_be_bytes()))
}

/// The seconds since 1970-01-01 UTC of a date as `2008-03-14T11:56:40+00:00`, of the years 1 to
/// 9999.
fn seconds_of(date: &str) -> Option<i64> {
    let (date, time) = date.strip_suffix("+00:00")?.split_once('T')?;
    let [year, month, day] = numbers_of(date, '-', [4, 2, 2])?;
    let [hour, minute, second] = numbers_of(time, ':', [2, 2, 2])?;
    let is_day = year > 0 && (1..=12).contains(&month) && (1..=days_in(year, month)).contains(&day);
    if !is_day || hour > 23 || minute > 59 || second > 59 {
        return None;
    }
    Some(days_of(year, month, day) * 86_400 + hour * 3600 + minute * 60 + second)
}

/// Three numbers of so many decimal digits, with a sign between two.
fn numbers_of(text: &str, sign: char, lengths: [usize; 3]) -> Option<[i64; 3]> {
    let parts: [&str; 3] = text.split(sign).collect::<Vec<_>>().try_into().ok()?;
    let mut numbers = [0; 3];
    for ((number, part), length) in numbers.iter_mut().zip(parts).zip(lengths) {
        let is_one = part.len() == length && part.bytes().all(|byte| byte.is_ascii_digit());
        *number = is_one.then(|| part.parse().ok())??;
    }
    Some(numbers)
}

/// How many days a month has.
fn days_in(year: i64, month: i64) -> i64 {
    let is_leap = year % 4 == 0 && (year % 100 != 0 || year % 400 == 0);
    match month {
        2 if is_leap => 29,
        2 => 28,
        4 | 6 | 9 | 11 => 30,
        _ => 31,
    }
}

/// The days since 1970-01-01 of a day in the years 1 to 9999 of the Gregorian calendar.
fn days_of(year: i64, month: i64, day: i64) -> i64 {
    // A year that begins in March ends with the day that leap years add.
    let (year, month) = if month > 2 { (year, month - 3) } else { (year - 1, month + 9) };
    let before = 365 * year + year / 4 - year / 100 + year / 400;
    before + (153 * month + 2) / 5 + day - 1 - 719_468
}

impl Debug for Item {
    fn fmt(&self, f: &mut Formatter<'_>) -> fmt::Result {
        write!(f, "{}: {:?}", self.tag, self.value)
    }
}

impl Debug for Value {
    fn fmt(&self, f: &mut Formatter<'_>) -> fmt::Result {
        match self {
            Value::Structure(items) => f.debug_set().entries(items).finish(),
            _ => f.write_str(self.kind()),
        }
    }
}

#[cfg(test)]
mod tests {
    use super::*;

    fn of_text(text: &str) -> Option<Item> {
        Item::of_json(&Json::parse(text).unwrap())
    }

    #[test]
    fn items_are_read_as_they_are_written() {
        let values = [
            Value::Structure(vec![
                Item::new("Data", b"\0\xFF"),
                Item::new("State", Vec::<Item>::new()),
            ]),
            Value::Integer(i32::MIN),
            Value::LongInteger(i64::MIN),
            Value::LongInteger((1 << 53) + 1),
            Value::BigInteger(vec![0xFF; 8]),
            Value::BigInteger(vec![]),
            Value::Enumeration("CBC".into()),
            Value::Boolean(false),
            Value::TextString("a \"b\"\n\u{e9}".into()),
            Value::ByteString(vec![]),
            Value::DateTime(-1),
            Value::Interval(u32::MAX),
        ];
        for value in values {
            let item = Item { tag: "0x540001".into(), value };
            assert!(of_text(&item.to_json().to_string()).as_ref() == Some(&item), "{item:?}");
        }
    }

    #[test]
    fn masks_are_read() {
        let rows = [
            ("Encrypt|Decrypt|CertificateSign", 0x100C),
            ("MACGenerate|MACVerify|CRLSign|0x00100000", 0x10_2180),
            ("OnLineStorage|ArchivalStorage", 3),
            ("0x80000000", i32::MIN),
        ];
        for (names, bits) in rows {
            let text =
                format!(r#"{{"tag":"StorageStatusMask","type":"Integer","value":"{names}"}}"#);
            let item = of_text(&text).unwrap();
            assert!(item.value == Value::Integer(bits), "{names}");
        }
    }

    #[test]
    fn dates_are_read() {
        let rows = [
            ("2008-03-14T11:56:40+00:00", 0x47DA_67F8),
            ("1969-12-31T23:59:59+00:00", -1),
            ("2000-02-29T00:00:00+00:00", 0x38BB_0C00),
            ("1900-03-01T00:00:00+00:00", -0x835C_B600),
            ("0001-01-01T00:00:00+00:00", -62_135_596_800),
        ];
        for (date, seconds) in rows {
            let text = format!(r#"{{"tag":"TimeStamp","type":"DateTime","value":"{date}"}}"#);
            assert!(of_text(&text) == Some(Item::date("TimeStamp", seconds)), "{date}");
        }
    }

    #[test]
    fn what_is_no_date_is_none() {
        for date in [
            "9223372036854775807-01-01T00:00:00+00:00",
            "2008-99-99T99:99:99+00:00",
            "0000-01-01T00:00:00+00:00",
            "10000-01-01T00:00:00+00:00",
            "2008-00-01T00:00:00+00:00",
            "2008-13-01T00:00:00+00:00",
            "2008-01-00T00:00:00+00:00",
            "2007-02-29T00:00:00+00:00",
            "1900-02-29T00:00:00+00:00",
            "2008-04-31T00:00:00+00:00",
            "2008-01-01T24:00:00+00:00",
            "2008-01-01T00:60:00+00:00",
            "2008-01-01T00:00:60+00:00",
            "2008-1-01T00:00:00+00:00",
            "2008-+1-01T00:00:00+00:00",
            "2008-01-01T00:00+00:00",
            "2008-01-01T00:00:00:00+00:00",
            "2008-01-01T00:00:00Z",
            "-001-01-01T00:00:00+00:00",
            "T+00:00",
            "",
        ] {
            let text = format!(r#"{{"tag":"TimeStamp","type":"DateTime","value":"{date}"}}"#);
            assert!(of_text(&text).is_none(), "{date}");
        }
    }

    #[test]
    fn levels_have_an_end() {
        let nested = |levels: usize| {
            let mut json = Item::new("Data", Vec::<Item>::new()).to_json();
            for _ in 1..levels {
                json = Json::Object(vec![
                    ("tag".into(), Json::text("Data")),
                    ("value".into(), Json::List(vec![json])),
                ]);
            }
            json
        };
        assert!(Item::of_json(&nested(LEVELS)).is_some());
        assert!(Item::of_json(&nested(LEVELS + 1)).is_none());
        assert!(Item::of_json(&nested(5000)).is_none());
    }

    #[test]
    fn what_is_no_item_is_none() {
        for text in [
            "[]",
            r#"{"tag":"Data"}"#,
            r#"{"tag":"Data","type":"Bytes","value":"00"}"#,
            r#"{"tag":"Data","type":"ByteString","value":"0"}"#,
            r#"{"tag":"BatchCount","type":"Integer","value":2147483648}"#,
            r#"{"tag":"CryptographicUsageMask","type":"Integer","value":"Encrypt|"}"#,
            r#"{"tag":"CryptographicUsageMask","type":"Integer","value":"0x0000000G"}"#,
            r#"{"tag":"CryptographicUsageMask","type":"Integer","value":"0x+0000001"}"#,
            r#"{"tag":"ValidityDate","type":"LongInteger","value":"0x+000000000000001"}"#,
            r#"{"tag":"ValidityDate","type":"DateTime","value":"0x+000000000000001"}"#,
            r#"{"tag":"TimeStamp","type":"DateTime","value":"2008-03-14"}"#,
        ] {
            assert!(of_text(text).is_none(), "{text}");
        }
    }

    #[test]
    fn items_are_found_by_their_tags() {
        let attribute = |name: &str| Item::new("Attribute", vec![Item::new("AttributeName", name)]);
        let payload = Item::new(
            "ResponsePayload",
            vec![Item::new("UniqueIdentifier", "4"), attribute("State"), attribute("Name")],
        );
        assert_eq!(payload.text_at("UniqueIdentifier").unwrap(), "4");
        assert_eq!(payload.text_at("Attribute.AttributeName").unwrap(), "State");
        assert_eq!(payload.text_at("Attribute.1.AttributeName").unwrap(), "Name");
        for path in ["", "State", "Attribute.2", "Attribute.State", "UniqueIdentifier.0.0"] {
            let error = payload.item_at(path).unwrap_err();
            assert_eq!(error.to_string(), format!("MissingValue: ResponsePayload has no {path}"));
        }
        let error = payload.bytes_at("UniqueIdentifier").unwrap_err().to_string();
        assert_eq!(error, "MissingValue: ResponsePayload has no bytes at UniqueIdentifier");
    }

    #[test]
    fn debug_shows_no_value() {
        let item = Item::new("Attribute", vec![Item::new("Data", b"Geheim"), Item::new("D", "ge")]);
        assert_eq!(format!("{item:?}"), "Attribute: {Data: ByteString, D: TextString}");
    }
}
