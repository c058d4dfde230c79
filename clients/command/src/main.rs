//! `kmip`: calls of a KMIP server, as commands.
#![cfg_attr(not(test), no_main)]
#![cfg_attr(test, allow(dead_code))]

mod act;
mod commands;
mod complete;
mod conf;
mod connect;
mod extra;
mod failure;
mod list;
mod man;
mod names;
mod one;
mod output;
mod ping;
mod record;
mod row;
mod run;
mod settings;
mod signals;
#[rustfmt::skip]
mod table;
mod terminal;
mod trace;
mod tree;
#[rustfmt::skip]
mod values;
mod view;
mod words;

use clap::ArgMatches;
use failure::{grammar, plain, Failure};
use std::io::{self, Write};
use std::path::Path;

/// The settings that stand in options.
fn asked(found: &ArgMatches) -> settings::Asked<'_> {
    let text = |name: &str| found.get_one::<String>(name).map(String::as_str);
    let given = commands::SETTINGS.iter().filter_map(|name| Some((*name, text(name)?)));
    settings::Asked { config: text("config"), profile: text("profile"), given: given.collect() }
}

/// That no form of an answer is asked of a command that has its own.
fn check_outputs(name: &str, found: &ArgMatches, allowed: &[&str]) -> Result<(), Failure> {
    let forms = output::FORMS.iter().map(|(form, _)| *form);
    let flags = forms.chain(["dry-run"]).filter(|flag| found.get_flag(flag));
    let output = found.contains_id("output").then_some("output");
    match flags.chain(output).find(|it| !allowed.contains(it)) {
        Some(option) => Err(grammar(format!("{name} takes no --{option}"))),
        None => Ok(()),
    }
}

fn act(found: &ArgMatches) -> Result<u8, Failure> {
    let Some((name, below)) = found.subcommand() else {
        return Err(grammar("there is no command"));
    };
    let settings = || settings::read(&asked(below));
    match name {
        "completion" => complete::script(below),
        "config" | "ping" => {
            check_outputs(name, below, &[])?;
            match name {
                "ping" => ping::ping(&settings()?, below.get_flag("trace")),
                _ => ping::config(&settings()?),
            }
        }
        "list" => {
            check_outputs(name, below, &["json"])?;
            list::list(&settings()?, below)
        }
        "run" => {
            check_outputs(name, below, &["json"])?;
            run::run(&settings()?, below)
        }
        _ => one::one(settings(), name, below),
    }
}

/// What clap says of words that are none: what is wrong, and what may be meant, without the usage.
fn said(error: &clap::Error) -> String {
    let text = error.to_string();
    let text = text.strip_prefix("error: ").unwrap_or(&text);
    let is_said = |line: &&str| {
        // (it proposes to pass a call's name behind `--`, which is none then either)
        let others = ["Usage:", "For more information", "If you believe"];
        !line.is_empty() && !others.iter().any(|front| line.starts_with(front))
    };
    let lines = text.lines().map(str::trim).filter(is_said).map(plain);
    lines.collect::<Vec<_>>().join("; ")
}

/// Help and the version on standard output; else an error.
fn tell(error: &clap::Error) -> u8 {
    if error.use_stderr() {
        return ended(Err(grammar(said(error))));
    }
    let is_written = error.print().and_then(|()| io::stdout().flush()).is_ok();
    if is_written {
        0
    } else {
        4
    }
}

/// `__examples`: a line for each call, which the tests run.
fn examples() -> Result<u8, Failure> {
    let lines: String = extra::calls().map(|call| format!("{}\n", call.example)).collect();
    output::print(lines.as_bytes()).map(|()| 0)
}

/// The program, without the standard library's entry.
fn start() -> u8 {
    let words: Vec<_> = std::env::args_os().take(3).collect();
    match &words[..] {
        [_, first, ..] if first == "__complete" => return complete::words(),
        [_, first] if first == "__examples" => return ended(examples()),
        [_, first, folder] if first == "__man" => return ended(man::write(Path::new(folder))),
        _ => {}
    }
    let found = match commands::command().try_get_matches() {
        Ok(found) => found,
        Err(error) => return tell(&error),
    };
    if let Err(error) = signals::watch() {
        return ended(Err(grammar(format!("signals: {error}"))));
    }
    ended(act(&found))
}

fn ended(made: Result<u8, Failure>) -> u8 {
    made.unwrap_or_else(|failure| {
        failure.say();
        failure.status
    })
}

/// Whether standard input, output and error are open.
fn are_open() -> bool {
    // SAFETY: it looks at a descriptor alone.
    (0..3).all(|descriptor| unsafe { libc::fcntl(descriptor, libc::F_GETFD) } >= 0)
}

/// The C program's own entry. The standard library's opens /dev/null where a stream is closed, so
/// that an answer would be lost and no data be signed, and it ignores SIGPIPE.
#[cfg_attr(not(test), no_mangle)]
#[cfg(not(test))]
pub extern "C" fn main(_: i32, _: *const *const u8) -> i32 {
    if !are_open() {
        ended(Err(grammar("standard input, output or error is closed")));
        return 2;
    }
    i32::from(start())
}
