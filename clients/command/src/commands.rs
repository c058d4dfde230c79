//! The commands of clap, made from the rows when the program starts.
use crate::extra::calls;
use crate::output::FORMS;
use crate::row::{Call, Given, Kind, Value, Word};
use clap::builder::{PossibleValue, PossibleValuesParser};
use clap::{value_parser, Arg, ArgAction, Command, ValueHint};
use std::ffi::OsString;

pub const STATUSES: &str = "\
Status  0 done  1 refused, not valid, or the answer has no such value
        2 the words, a setting, a file or a closed stream: nothing was sent
        3 there is no connection, or it is lost: whether it was done is not known
        4 done, and the answer could not be written  5 out of memory";
const FIRST: &str = "\
Without a server:   kmip sign issuing text:hello --dry-run
First with one:     kmip ping
";
/// The most values that a help lists.
const MOST: usize = 24;

fn names(values: &'static [Value]) -> PossibleValuesParser {
    let named =
        |value: &Value| PossibleValue::new(value.name).aliases(value.others.iter().copied());
    values.iter().map(named).collect::<Vec<_>>().into()
}

fn typed(arg: Arg, kind: Kind) -> Arg {
    let is_hidden = kind.values().len() > MOST;
    match kind {
        Kind::Id | Kind::Text | Kind::Attribute => arg.value_parser(value_parser!(OsString)),
        Kind::Data => arg.value_parser(value_parser!(OsString)).value_hint(ValueHint::FilePath),
        Kind::Number => arg.value_parser(value_parser!(i64)).allow_negative_numbers(true),
        Kind::Date => arg.value_parser(value_parser!(String)),
        Kind::Truth => arg.value_parser(["true", "false"]),
        Kind::Name(values) => {
            arg.value_parser(names(values)).ignore_case(true).hide_possible_values(is_hidden)
        }
        Kind::Names(values) => arg
            .value_parser(names(values))
            .ignore_case(true)
            .value_delimiter(',')
            .action(ArgAction::Append)
            .hide_possible_values(is_hidden),
        Kind::Flag => arg.action(ArgAction::SetTrue),
    }
}

/// What the help has in the place of a value.
fn shown(kind: Kind) -> &'static str {
    match kind {
        Kind::Id => "ID",
        Kind::Text => "TEXT",
        Kind::Data => "DATA",
        Kind::Number => "N",
        Kind::Truth => "true|false",
        Kind::Date => "DATE",
        Kind::Name(_) => "NAME",
        Kind::Names(_) => "NAME,..",
        Kind::Attribute => "ATTRIBUTE",
        Kind::Flag => "",
    }
}

/// What a word is, where its name does not say it.
fn about(kind: Kind) -> &'static str {
    match kind {
        Kind::Id => "an identifier or a name; id:.. or name:.. says which",
        Kind::Data => "@FILE, - (standard input), hex:.., base64:.. or text:..",
        Kind::Date => "2026-01-31, 2026-01-31T12:30 or seconds since 1970, in UTC",
        Kind::Attribute => "an attribute, as state=Active",
        _ => "",
    }
}

/// By which name clap knows the words behind those that a call needs.
pub const MORE: &str = "more";

fn word(id: &'static str, word: &'static Word, is_needed: bool) -> Arg {
    let arg = Arg::new(id).value_name(word.name).required(is_needed);
    typed(arg.help(about(word.kind)), word.kind)
}

fn option(given: &'static Given) -> Arg {
    let arg = Arg::new(given.name).long(given.name).required(given.is_needed);
    match given.kind {
        Kind::Flag => typed(arg, given.kind),
        kind => typed(arg.value_name(shown(kind)).help(about(kind)), kind),
    }
}

/// The command of a call.
pub fn of_call(call: &'static Call) -> Command {
    // (A heading would also stand over the words, and sort them.)
    let mut command = Command::new(call.name).about(call.help);
    for it in call.words {
        command = command.arg(word(it.name, it, true));
    }
    if let Some(more) = call.more {
        command = command.arg(word(MORE, more, false).num_args(0..).action(ArgAction::Append));
    }
    command = command.next_help_heading("Options of the call");
    for it in call.options {
        command = command.arg(option(it));
    }
    command.after_help(format!("Example: {}", call.example))
}

fn global(name: &'static str, help: &'static str) -> Arg {
    Arg::new(name).long(name).help(help).global(true)
}

fn setting(name: &'static str, value: &'static str, help: &'static str) -> Arg {
    global(name, help).value_name(value)
}

/// The settings that are options, too.
pub const SETTINGS: [&str; 5] = ["server", "user", "seconds", "limit", "record"];

fn settings(command: Command) -> Command {
    command
        .next_help_heading("Settings")
        .arg(setting("profile", "NAME", "the section of the settings' file"))
        .arg(setting("config", "FILE", "the settings' file").value_hint(ValueHint::FilePath))
        .arg(setting("server", "HOST[:PORT]", "in place of the setting, as the next four"))
        .arg(setting("user", "NAME", "whose password is asked for, or stands in the settings"))
        .arg(setting("seconds", "N", "the most time of connecting, and of each call"))
        .arg(setting("limit", "BYTES", "the most bytes of a response"))
        .arg(
            setting("record", "FILE", "adds each exchange to this file")
                .value_hint(ValueHint::FilePath),
        )
}

fn outputs(command: Command) -> Command {
    let flag = |name, help| global(name, help).action(ArgAction::SetTrue);
    let form = |name: &'static str, help| {
        // (A group of global options is looked at on the top alone.)
        let others = FORMS.iter().map(|(other, _)| *other).filter(move |other| *other != name);
        flag(name, help).conflicts_with_all(others)
    };
    let help = "writes the value there, whole or not at all";
    command
        .next_help_heading("Output")
        .arg(setting("output", "FILE", help).short('o').value_hint(ValueHint::FilePath))
        .arg(form("json", "the whole answer, a line of JSON"))
        .arg(form("raw", "the value's bytes"))
        .arg(form("hex", "the value in hex"))
        .arg(form("base64", "the value in base64"))
        .arg(form("pem", "the key or the certificate in PEM"))
        .arg(flag("dry-run", "shows the request, and sends nothing"))
        .arg(flag("trace", "says on standard error what was sent and read, without values"))
}

fn run() -> Command {
    let script = "a script: a call a line, words in quotes as in a shell; - is standard input";
    let count = "so many calls in a message";
    Command::new("run")
        .about("a call a line, over one connection; an answer or an error a line")
        .arg(Arg::new("FILE").help(script).value_parser(value_parser!(OsString)))
        .arg(
            Arg::new("batch")
                .long("batch")
                .value_name("N")
                .value_parser(value_parser!(u16).range(1..=1000))
                .help(count),
        )
        .arg(
            Arg::new("stop")
                .long("stop")
                .action(ArgAction::SetTrue)
                .help("ends after the first call that is refused"),
        )
        .after_help("Example: kmip run calls.txt --batch 50")
}

fn list() -> Command {
    Command::new("list")
        .about("the objects, as a table; those with all of these attributes")
        .arg(
            Arg::new("ATTRIBUTE")
                .num_args(0..)
                .help("an attribute, as state=Active; `where` may stand before them")
                .value_parser(value_parser!(OsString)),
        )
        .after_help("Example: kmip list where type=PrivateKey state=Active")
}

fn others() -> [Command; 5] {
    let check = "each setting, where it came from, and whether they connect";
    [
        Command::new("ping")
            .about("whether the server answers, and what it is")
            .after_help("Example: kmip ping --profile test"),
        list(),
        run(),
        Command::new("config").about("the settings").subcommand_required(true).subcommand(
            Command::new("check").about(check).after_help("Example: kmip config check"),
        ),
        Command::new("completion")
            .about("a script that completes words")
            .arg(Arg::new("SHELL").required(true).value_parser(["bash", "zsh"]))
            .after_help("Example: kmip completion bash"),
    ]
}

/// The program's commands.
pub fn command() -> Command {
    let top = Command::new("kmip")
        .version(env!("CARGO_PKG_VERSION"))
        .about("Keys and certificates on a KMIP server")
        .after_help(format!("{FIRST}\n{STATUSES}"))
        .subcommand_required(true)
        .arg_required_else_help(true);
    outputs(settings(top)).subcommands(others()).subcommands(calls().map(of_call))
}

/// Those of a line of a script: calls alone, without settings.
pub fn of_script() -> Command {
    Command::new("kmip").subcommand_required(true).subcommands(calls().map(of_call))
}

#[cfg(test)]
mod tests {
    use super::*;

    #[test]
    fn the_commands_are_whole() {
        command().debug_assert();
        of_script().debug_assert();
    }

    #[test]
    fn each_example_is_a_call() {
        for call in calls() {
            let words = shlex::split(call.example).unwrap();
            let found = command().try_get_matches_from(words);
            assert!(found.is_ok(), "{}: {:?}", call.example, found.err().map(|it| it.to_string()));
        }
    }

    #[test]
    fn what_is_no_call_is_said() {
        let said = |words: &[&str]| {
            let words = std::iter::once(&"kmip").chain(words);
            command().try_get_matches_from(words).unwrap_err().to_string()
        };
        assert!(said(&["sing"]).contains("'sign'"));
        assert!(said(&["sign", "k", "text:a", "--hahs", "MD5"]).contains("--hash"));
        assert!(said(&["sign", "k", "text:a", "--hash", "SHA385"]).contains("SHA384"));
        assert!(said(&["sign", "k"]).contains("DATA"));
        assert!(said(&["hash", "text:a"]).contains("--hash"));
    }
}
