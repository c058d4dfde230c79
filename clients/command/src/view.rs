//! An answer as a person reads it: a line for each value.
use crate::failure::plain;
use crate::words::date_of;
use metsuwan::Json;

/// The most columns of a line.
const WIDTH: usize = 96;

fn said(json: &Json) -> String {
    json.as_text().map_or_else(|| json.to_string(), plain)
}

/// Whether a number under this name is a date.
fn is_date(name: &str) -> bool {
    let last = name.rsplit(['.', '_', ' ']).next().unwrap_or("");
    last.eq_ignore_ascii_case("date") || last == "DateTime"
}

fn rows(out: &mut Vec<(String, String)>, path: &str, json: &Json) {
    let below = |name: &str| match path {
        "" => name.to_string(),
        _ => format!("{path}.{name}"),
    };
    match json {
        // A choice: its one member says no more than the value.
        Json::Object(members) if members.len() == 1 && !path.is_empty() => match &members[0] {
            (name, value) if name.as_str() == "DateTime" => out.push((path.into(), dated(value))),
            (_, value) => rows(out, path, value),
        },
        Json::Object(members) => {
            for (name, value) in members {
                rows(out, &below(name.as_str()), value);
            }
        }
        Json::List(items)
            if items.iter().all(|it| matches!(it, Json::Text(_) | Json::Number(_))) =>
        {
            let texts: Vec<_> = items.iter().map(said).collect();
            out.push((path.into(), texts.join(" ")));
        }
        Json::List(items) => {
            for (at, item) in items.iter().enumerate() {
                // Attributes: a name and a value.
                match (item.member("name"), item.member("value")) {
                    (Some(name), Some(value)) => rows(out, &said(name), value),
                    _ => rows(out, &below(&at.to_string()), item),
                }
            }
        }
        _ if is_date(path) => out.push((path.into(), dated(json))),
        _ => out.push((path.into(), said(json))),
    }
}

fn dated(json: &Json) -> String {
    json.as_number().map_or_else(|| said(json), date_of)
}

/// A value, cut where the line would be too long.
fn cut(value: &str, width: usize) -> String {
    let count = value.chars().count();
    let short: String = value.chars().take(width).collect();
    match count.saturating_sub(width) {
        0 => short,
        more => format!("{short}.. ({more} more)"),
    }
}

/// Lines of a name and a value.
pub fn lines(rows: &[(String, String)]) -> String {
    let width = rows.iter().map(|(name, _)| name.chars().count()).max().unwrap_or(0);
    rows.iter().map(|(name, value)| format!("{name:width$}  {value}\n")).collect()
}

/// The answer about an object that was named so.
pub fn table(json: &Json, about: &str) -> String {
    let mut found = Vec::new();
    if !about.is_empty() {
        found.push(("object".to_string(), plain(about)));
    }
    rows(&mut found, "", json);
    let width = found.iter().map(|(name, _)| name.chars().count()).max().unwrap_or(0);
    let wide = WIDTH.saturating_sub(width).max(16);
    for (name, value) in &mut found {
        *name = plain(name);
        *value = cut(value, wide);
    }
    lines(&found)
}

#[cfg(test)]
mod tests {
    use super::*;

    #[test]
    fn answers_are_tables() {
        let rows = [
            (r#"{"unique_identifier":"2"}"#, "", "unique_identifier  2\n"),
            ("{}", "id:2 (issuing)", "object  id:2 (issuing)\n"),
            (r#"{"operations":["Get","Sign"],"n":5}"#, "", "operations  Get Sign\nn           5\n"),
            (
                r#"{"attributes":[{"name":"Initial Date","value":{"DateTime":0}}]}"#,
                "",
                "Initial Date  1970-01-01 00:00\n",
            ),
            (
                r#"{"attributes":[{"name":"Cryptographic Length","value":{"Integer":256}}]}"#,
                "",
                "Cryptographic Length  256\n",
            ),
            (r#"{"a":"\u001b[2J"}"#, "", "a  \\u{1b}[2J\n"),
        ];
        for (json, about, wanted) in rows {
            assert_eq!(table(&Json::parse(json).unwrap(), about), wanted, "{json}");
        }
    }

    #[test]
    fn long_values_are_cut() {
        let json = Json::parse(&format!("{{\"data\":\"{}\"}}", "0".repeat(200))).unwrap();
        assert_eq!(table(&json, ""), format!("data  {}.. (108 more)\n", "0".repeat(92)));
    }
}
