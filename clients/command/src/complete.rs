//! Completion: a script for the shell, and the words that the program gives it.
use crate::commands::command;
use crate::extra::call_of;
use crate::failure::Failure;
use crate::output::print;
use crate::row::{Call, Kind};
use crate::settings::{file_of, profiles, Asked};
use crate::table::ATTRIBUTES;
use clap::{Arg, ArgMatches, Command};

const BASH: &str = include_str!("completion.bash");
const ZSH: &str = include_str!("completion.zsh");
/// In the place of words: the shell completes names of files.
const FILES: &str = "@FILES";

/// `completion SHELL`.
pub fn script(found: &ArgMatches) -> Result<u8, Failure> {
    let is_zsh = found.get_one::<String>("SHELL").is_some_and(|it| it == "zsh");
    print(if is_zsh { ZSH } else { BASH }.as_bytes())?;
    Ok(0)
}

fn attributes(current: &str) -> Vec<String> {
    let mut found = Vec::new();
    for attribute in &ATTRIBUTES {
        if current.split_once('=').is_some_and(|(name, _)| name == attribute.name) {
            let values = attribute.kind.values().iter();
            return values.map(|value| format!("{}={}", attribute.name, value.name)).collect();
        }
        found.push(format!("{}=", attribute.name));
    }
    found
}

/// What a word of a call may be.
fn words_of(call: &Call, current: &str) -> Vec<String> {
    let kinds = call.words.iter().chain(call.more).map(|it| it.kind);
    let of_kind = |kind: Kind| match kind {
        Kind::Attribute => attributes(current),
        kind => kind.values().iter().map(|it| it.name.to_string()).collect(),
    };
    kinds.flat_map(of_kind).collect()
}

/// What the value of an option may be.
fn values_of(option: &Arg, current: &str) -> Vec<String> {
    if option.get_id() == "profile" {
        let file = file_of(&Asked::default()).ok().flatten();
        return file.map_or(Vec::new(), |it| profiles(&it));
    }
    let values = option.get_possible_values();
    if values.is_empty() {
        return vec![FILES.into()];
    }
    // The last of several names.
    let front = match option.get_action() {
        clap::ArgAction::Append => current.rfind(',').map_or("", |at| &current[..=at]),
        _ => "",
    };
    values.iter().map(|it| format!("{front}{}", it.get_name())).collect()
}

/// The command that the words before lead to.
fn here<'a>(top: &'a Command, words: &[String]) -> &'a Command {
    let mut here = top;
    for word in words {
        here = here.find_subcommand(word).unwrap_or(here);
    }
    here
}

/// What may stand at this place.
fn found(words: &[String], at: usize) -> Vec<String> {
    let current = words.get(at).map_or("", String::as_str);
    let before = &words[..at.min(words.len())];
    let mut top = command();
    top.build();
    let here = here(&top, before.get(1..).unwrap_or_default());
    let last = before.last().map_or("", String::as_str);
    let is_last = |it: &&Arg| match last.strip_prefix("--") {
        Some(name) => it.get_long() == Some(name),
        None => it.get_short().is_some_and(|short| last == format!("-{short}")),
    };
    if let Some(option) = here.get_arguments().find(is_last) {
        if option.get_action().takes_values() {
            return values_of(option, current);
        }
    }
    if current.starts_with('@') {
        return vec![FILES.into()];
    }
    let mut all = match (call_of(here.get_name()), here.get_name()) {
        (Some(call), _) => words_of(call, current),
        (None, "list") => attributes(current),
        _ => {
            let values = here.get_positionals().flat_map(Arg::get_possible_values);
            values.map(|it| it.get_name().to_string()).collect()
        }
    };
    all.extend(here.get_subcommands().map(|it| it.get_name().to_string()));
    all.extend(here.get_arguments().filter_map(Arg::get_long).map(|it| format!("--{it}")));
    if here.get_name() == "run" {
        all.push(FILES.into());
    }
    all
}

/// `__complete AT WORD..`: what may stand at this place, a line each.
pub fn words() -> u8 {
    let all: Vec<String> =
        std::env::args_os().skip(2).map(|word| word.to_string_lossy().into_owned()).collect();
    let at: usize = all.first().and_then(|it| it.parse().ok()).unwrap_or(1);
    let words = all.get(1..).unwrap_or_default();
    let current = words.get(at).map_or("", String::as_str);
    let fits = |it: &&String| it.starts_with(current) || *it == FILES;
    let lines: String = found(words, at).iter().filter(fits).map(|it| format!("{it}\n")).collect();
    print(lines.as_bytes()).map_or_else(|failure| failure.status, |()| 0)
}

#[cfg(test)]
mod tests {
    use super::*;

    /// What completes the last word.
    fn completes(line: &str) -> Vec<String> {
        let words: Vec<String> = line.split(' ').map(str::to_string).collect();
        let at = words.len() - 1;
        let mut all = found(&words, at);
        all.retain(|it| it.starts_with(&words[at]) || it == FILES);
        all
    }

    #[test]
    fn words_are_completed() {
        let rows: [(&str, &[&str]); 14] = [
            ("kmip des", &["destroy"]),
            ("kmip sign k @t", &[FILES]),
            ("kmip sign k text:a --ha", &["--hash"]),
            ("kmip sign k text:a --hash SHA2", &["SHA224", "SHA256"]),
            ("kmip --json sign k text:a --pre", &["--prehashed"]),
            ("kmip create A", &["AES"]),
            ("kmip create AES 8 n --usage Sign,Ver", &["Sign,Verify"]),
            ("kmip locate where sta", &["state="]),
            ("kmip list state=Des", &["state=Destroyed", "state=DestroyedCompromised"]),
            ("kmip config c", &["check"]),
            ("kmip completion z", &["zsh"]),
            ("kmip get k -o x", &[FILES]),
            ("kmip query --output x", &[FILES]),
            ("kmip encrypt 5 hex:00 --random-iv t", &["true"]),
        ];
        for (line, wanted) in rows {
            assert_eq!(completes(line), wanted, "{line}");
        }
        assert!(completes("kmip run ").contains(&FILES.to_string()));
        assert!(completes("kmip ").contains(&"register-private".to_string()));
    }
}
