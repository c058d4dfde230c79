//! The objects of a server, as a table.
use crate::act::{attribute, Value};
use crate::connect::{connect, How};
use crate::failure::{grammar, plain, unwritten, Failure};
use crate::names::identifiers;
use crate::settings::Settings;
use crate::words::date_of;
use clap::ArgMatches;
use indicatif::{ProgressBar, ProgressDrawTarget, ProgressStyle};
use metsuwan::{Answer, Json, TlsClient, Word};
use std::ffi::OsString;
use std::io::{self, IsTerminal, Write};
use std::time::{Duration, Instant};

/// What is asked of each object.
const ATTRIBUTES: [&str; 6] = [
    "Name",
    "Object Type",
    "Cryptographic Algorithm",
    "Cryptographic Length",
    "State",
    "Initial Date",
];
/// The most objects that one message asks about.
const PAGE: usize = 64;
/// The most bytes of a response where no limit is set: identifiers of a million objects.
const LIMIT: u32 = 1 << 26;

/// A bar on standard error, where that is a terminal, for what takes longer than a second.
struct Progress {
    bar: ProgressBar,
    begun: Instant,
    is_shown: bool,
}

impl Progress {
    fn new(count: usize) -> Result<Progress, Failure> {
        let count = u64::try_from(count).unwrap_or(u64::MAX);
        let bar = ProgressBar::with_draw_target(Some(count), ProgressDrawTarget::hidden());
        let style = ProgressStyle::with_template("{pos} of {len} {wide_bar} {eta}");
        bar.set_style(style.map_err(|error| grammar(error.to_string()))?);
        Ok(Progress { bar, begun: Instant::now(), is_shown: false })
    }

    /// Writes lines where the bar is not.
    fn write(&mut self, count: usize, text: &str) -> Result<(), Failure> {
        let is_late = self.begun.elapsed() > Duration::from_secs(1);
        if !self.is_shown && is_late && io::stderr().is_terminal() {
            self.bar.set_draw_target(ProgressDrawTarget::stderr());
            self.is_shown = true;
        }
        self.bar.inc(u64::try_from(count).unwrap_or(0));
        let mut out = io::stdout().lock();
        let write = || out.write_all(text.as_bytes()).and_then(|()| out.flush());
        self.bar.suspend(write).map_err(unwritten)
    }
}

/// The attributes that the objects are to have.
fn asked(found: &ArgMatches) -> Result<Vec<(String, String)>, Failure> {
    let words = found.get_many::<OsString>("ATTRIBUTE").into_iter().flatten();
    let words: Vec<_> = words.collect();
    let words = match &words[..] {
        [first, rest @ ..] if *first == "where" => rest,
        all => all,
    };
    let mut made = Vec::new();
    for word in words {
        if let Value::Option(name, value) = attribute(word)? {
            made.push((name, value));
        }
    }
    Ok(made)
}

/// The value of an attribute in an answer to `attributes`; empty where it has none.
fn value_of(answer: &Answer, name: &str) -> String {
    if let Some(tree) = answer.tree() {
        // An object of no table is told as items.
        let mut all = tree.items().iter().filter(|it| it.tag == "Attribute");
        let item = all.find(|it| it.text_at("AttributeName").is_ok_and(|it| it == name));
        let value = item.and_then(|it| it.item_at("AttributeValue").ok()).map(|it| it.to_json());
        return value.map_or(String::new(), |json| innermost(&json));
    }
    let all = answer.json().member("attributes").and_then(Json::as_list).unwrap_or_default();
    let is_it = |it: &&Json| it.member("name").and_then(Json::as_text) == Some(name);
    let value = all.iter().find(is_it).and_then(|it| it.member("value"));
    value.map_or(String::new(), innermost)
}

/// The value within choices and structures, of which the first member says most.
fn innermost(json: &Json) -> String {
    let mut json = json;
    loop {
        json = match json {
            Json::Object(_) if json.member("value").is_some() => {
                json.member("value").unwrap_or(&Json::Null)
            }
            Json::Object(members) if !members.is_empty() => &members[0].1,
            Json::List(items) if !items.is_empty() => &items[0],
            json => return json.as_text().map_or_else(|| json.to_string(), plain),
        }
    }
}

fn line(cells: [&str; 7]) -> String {
    let [id, name, kind, algorithm, bits, state, made] = cells;
    let front = format!("{id:10} {name:28} {kind:12} {algorithm:10} {bits:>6} {state:12}");
    format!("{front} {made}\n")
}

fn row(id: &str, answer: &Answer) -> String {
    let [name, kind, algorithm, bits, state, made] = ATTRIBUTES.map(|name| value_of(answer, name));
    let made = made.parse().map_or(made, date_of);
    line([&plain(id), &name, &kind, &algorithm, &bits, &state, &made])
}

/// The attributes of some objects, in one message where the server takes that.
fn asked_of(client: &TlsClient, ids: &[String]) -> metsuwan::Result<Vec<metsuwan::Result<Answer>>> {
    let words = |id| std::iter::once(id).chain(ATTRIBUTES).map(Word::Text).collect::<Vec<_>>();
    let mut batch = client.batch();
    for id in ids {
        batch.call("attributes", &words(id.as_str()))?;
    }
    match batch.send() {
        // It takes no batches.
        Err(error) if !error.is_lost() => {
            Ok(ids.iter().map(|id| client.call("attributes", &words(id.as_str()))).collect())
        }
        answers => answers,
    }
}

/// The lines of some objects. One that was destroyed meanwhile is left out.
fn page(client: &TlsClient, ids: &[String], is_json: bool) -> Result<String, Failure> {
    let mut text = String::new();
    for (id, answer) in ids.iter().zip(asked_of(client, ids)?) {
        match answer {
            Ok(answer) if is_json => text += &format!("{}\n", answer.json()),
            Ok(answer) => text += &row(id, &answer),
            Err(metsuwan::Error::ItemNotFound(_)) => {}
            Err(error) => return Err(error.into()),
        }
    }
    Ok(text)
}

pub fn list(settings: &Settings, found: &ArgMatches) -> Result<u8, Failure> {
    let asked = asked(found)?;
    let options: Vec<_> = asked.iter().map(|(name, value)| Word::Option(name, value)).collect();
    let how = How { limit: Some(LIMIT), trace: found.get_flag("trace") };
    let connected = connect(settings, &how)?;
    // KMIP 1.2 has no second page of a Locate.
    let ids = identifiers(&connected.client.call("locate", &options)?);
    let is_json = found.get_flag("json") || !io::stdout().is_terminal();
    let mut progress = Progress::new(ids.len())?;
    if !is_json {
        let head = ["ID", "NAME", "TYPE", "ALGORITHM", "BITS", "STATE", "MADE"];
        progress.write(0, &line(head))?;
    }
    for ids in ids.chunks(PAGE) {
        progress.write(ids.len(), &page(&connected.client, ids, is_json)?)?;
    }
    progress.bar.finish_and_clear();
    connected.check_record()?;
    Ok(0)
}

#[cfg(test)]
mod tests {
    use super::*;

    #[test]
    fn values_are_those_within() {
        let rows = [
            (r#"{"Integer":256}"#, "256"),
            (
                r#"{"Name":{"name_value":"issuing","name_type":"UninterpretedTextString"}}"#,
                "issuing",
            ),
            (r#""Active""#, "Active"),
            (r#"{"tag":"AttributeValue","type":"Enumeration","value":"AES"}"#, "AES"),
            (r#""\u001b[2J""#, "\\u{1b}[2J"),
        ];
        for (json, wanted) in rows {
            assert_eq!(innermost(&Json::parse(json).unwrap()), wanted, "{json}");
        }
    }
}
