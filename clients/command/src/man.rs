//! Manual pages, of the same rows as the help: `__man FOLDER`.
use crate::commands::{command, STATUSES};
use crate::failure::{grammar, Failure};
use clap::{Arg, Command};
use std::path::Path;

/// A text that mdoc takes as it stands.
fn safe(text: &str) -> String {
    let text = text.replace('\\', "\\e").replace('-', "\\-");
    let escaped = |line: &str| match line.starts_with(['.', '\'']) {
        true => format!("\\&{line}"),
        false => line.to_string(),
    };
    text.lines().map(escaped).collect::<Vec<_>>().join("\n")
}

/// One as an argument of a macro: quotes keep its blanks, and `Ns` within it no macro.
fn quoted(text: &str) -> String {
    format!("\"{}\"", safe(text).replace('"', "\\(dq"))
}

fn head(name: &str, about: &str) -> String {
    let title = name.to_uppercase();
    format!(".Dd December 2, 2026\n.Dt {title} 1\n.Os\n.Sh NAME\n.Nm {name}\n.Nd {}\n", safe(about))
}

fn value_name(arg: &Arg) -> String {
    let names = arg.get_value_names().unwrap_or_default();
    names.first().map_or(String::new(), |it| it.to_string())
}

/// A line of the synopsis.
fn synopsis(name: &str, command: &Command) -> String {
    let mut line = format!(".Sh SYNOPSIS\n.Nm {name}\n");
    for arg in command.get_positionals() {
        let word = quoted(&value_name(arg));
        let is_many = arg.get_num_args().is_some_and(|it| it.max_values() > 1);
        line += &match (arg.is_required_set(), is_many) {
            (true, _) => format!(".Ar {word}\n"),
            (false, true) => format!(".Op Ar {word} ...\n"),
            (false, false) => format!(".Op Ar {word}\n"),
        };
    }
    line + ".Op Ar option ...\n"
}

/// An item of a list: an option or a word, what it is, and its values.
fn item(arg: &Arg) -> String {
    let mut text = match arg.get_long() {
        Some(long) => format!(".It Fl Fl {long}"),
        None => format!(".It Ar {}", quoted(&value_name(arg))),
    };
    if arg.get_long().is_some() && arg.get_action().takes_values() {
        text += &format!(" Ar {}", quoted(&value_name(arg)));
    }
    text += "\n";
    let help = arg.get_help().map_or(String::new(), |it| it.to_string());
    if !help.is_empty() {
        text += &format!("{}.\n", safe(&help));
    }
    let values = arg.get_possible_values();
    if !values.is_empty() && arg.get_action().takes_values() {
        let names: Vec<_> = values.iter().map(|it| it.get_name().to_string()).collect();
        text += &format!("One of {}.\n", safe(&names.join(", ")));
    }
    text
}

fn list<'a>(title: &str, args: impl Iterator<Item = &'a Arg>) -> String {
    let items: String = args.map(item).collect();
    if items.is_empty() {
        return String::new();
    }
    format!(".Sh {title}\n.Bl -tag -width Ds\n{items}.El\n")
}

fn statuses() -> String {
    format!(".Sh EXIT STATUS\n.Bd -literal\n{}\n.Ed\n", safe(STATUSES))
}

/// The page of a command; options that all have are told on that of `kmip`.
fn page(name: &str, command: &Command) -> String {
    let about = command.get_about().map_or(String::new(), |it| it.to_string());
    let mut text = head(&name.replace(' ', "-"), &about) + &synopsis(name, command);
    text += ".Sh DESCRIPTION\n";
    text += &format!("{}.\n", safe(&about));
    text +=
        "The settings, the forms of the output and the exit statuses are those of\n.Xr kmip 1 .\n";
    text += &list("WORDS", command.get_positionals());
    let own = |arg: &&Arg| !arg.is_positional() && !arg.is_global_set() && arg.get_id() != "help";
    text += &list("OPTIONS", command.get_arguments().filter(own));
    text += &statuses();
    if let Some(example) = command.get_after_help() {
        let example = example.to_string();
        let example = example.strip_prefix("Example: ").unwrap_or(&example);
        text += &format!(".Sh EXAMPLES\n.Dl {}\n", safe(example));
    }
    text + ".Sh SEE ALSO\n.Xr kmip 1 ,\n.Xr kmip.conf 5\n"
}

/// The page of the program.
fn first(top: &Command) -> String {
    let about = top.get_about().map_or(String::new(), |it| it.to_string());
    let mut text = head("kmip", &about);
    text += ".Sh SYNOPSIS\n.Nm\n.Ar command\n.Op Ar word ...\n.Op Ar option ...\n";
    text += ".Sh DESCRIPTION\nCalls of a server of the Key Management Interoperability Protocol.\n";
    text += "Each command has a page of its own, as\n.Xr kmip\\-sign 1 .\n";
    text += ".Sh COMMANDS\n.Bl -tag -width Ds\n";
    for command in top.get_subcommands() {
        let about = command.get_about().map_or(String::new(), |it| it.to_string());
        text += &format!(".It Cm {}\n{}.\n", safe(command.get_name()), safe(&about));
    }
    text += ".El\n";
    text += &list("OPTIONS", top.get_arguments().filter(|it| it.is_global_set()));
    text += &statuses();
    text + ".Sh EXAMPLES\n.Dl kmip sign issuing text:hello \\-\\-dry\\-run\n.Sh SEE ALSO\n\
            .Xr kmip_call 1 ,\n.Xr kmip.conf 5\n"
}

/// Writes a page for the program and one for each command into a folder.
pub fn write(folder: &Path) -> Result<u8, Failure> {
    let put = |name: &str, text: String| {
        let path = folder.join(format!("{name}.1"));
        let wrong = |error| grammar(format!("{}: {error}", path.display()));
        std::fs::write(&path, text).map_err(wrong)
    };
    let top = command();
    put("kmip", first(&top))?;
    for command in top.get_subcommands() {
        let name = command.get_name();
        put(&format!("kmip-{name}"), page(&format!("kmip {name}"), command))?;
    }
    Ok(0)
}
