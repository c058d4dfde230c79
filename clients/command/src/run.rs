//! A script: a call a line, over one connection.
use crate::act::Act;
use crate::commands::of_script;
use crate::connect::{connect, Connected, How};
use crate::failure::{grammar, Failure};
use crate::names::Found;
use crate::output::print;
use crate::settings::Settings;
use crate::words::Input;
use clap::{ArgMatches, Command};
use metsuwan::{BatchErrorContinuationOption, Json};
use std::ffi::OsString;
use std::io::{self, BufRead};

/// Calls after which a name may stand for another object.
const CHANGES_NAMES: [&str; 6] =
    ["rename", "destroy", "attribute-add", "attribute-modify", "attribute-delete", "operation"];

struct Script {
    connected: Connected,
    names: Found,
    /// Calls that are to be one message.
    waiting: Vec<Act>,
    most: usize,
    stops: bool,
    worst: u8,
    is_stopped: bool,
}

/// A line of a script, as words.
fn read_line(command: &mut Command, line: &str, input: &mut Input) -> Result<Option<Act>, Failure> {
    let words = shlex::split(line).ok_or_else(|| grammar("a quote has no end"))?;
    if words.is_empty() {
        return Ok(None);
    }
    let words = std::iter::once("kmip".to_string()).chain(words);
    let found = command.try_get_matches_from_mut(words);
    let found = found.map_err(|error| grammar(crate::said(&error)))?;
    let (name, below) = found.subcommand().ok_or_else(|| grammar("there is no call"))?;
    Act::read(name, below, input).map(Some)
}

impl Script {
    /// A line for what came of a call. What closes the connection ends the script.
    fn tell(&mut self, act: Option<&Act>, made: Result<Json, Failure>) -> Result<(), Failure> {
        let (line, status) = match made {
            Ok(json) => {
                let status = act.map_or(0, |act| act.status(&json));
                (format!("{{\"answer\":{json}}}\n"), status)
            }
            Err(failure) if failure.status >= 3 => return Err(failure),
            Err(failure) => (format!("{}\n", failure.json()), failure.status),
        };
        self.worst = self.worst.max(status);
        self.is_stopped |= self.stops && status != 0;
        print(line.as_bytes())
    }

    /// Makes the calls that wait.
    fn flush(&mut self) -> Result<(), Failure> {
        let waiting = std::mem::take(&mut self.waiting);
        if let [act] = &waiting[..] {
            let made = act.perform(&self.connected.client).map(|reply| reply.json());
            self.tell(Some(act), made.map_err(|error| act.failed(error)))?;
        } else {
            for (act, made) in waiting.iter().zip(self.batch(&waiting)?) {
                self.tell(Some(act), made)?;
            }
        }
        self.connected.check_record()
    }

    /// Makes calls in one message. One that is none is not sent with the others.
    fn batch(&self, acts: &[Act]) -> Result<Vec<Result<Json, Failure>>, Failure> {
        let on_error = match self.stops {
            true => BatchErrorContinuationOption::Stop,
            false => BatchErrorContinuationOption::Continue,
        };
        let mut batch = self.connected.client.batch().on_error(on_error);
        let added = acts.iter().map(|act| act.add_to(&mut batch).map_err(Failure::from));
        let added: Vec<_> = added.collect();
        let answers = if batch.is_empty() { Vec::new() } else { batch.send()? };
        let mut answers = answers.into_iter();
        let none = || Failure::new(1, "MissingValue", "the batch has no answer to this call");
        let mut made = |()| match answers.next() {
            Some(answer) => Ok(answer?.json().clone()),
            None => Err(none()),
        };
        Ok(added.into_iter().map(|it| it.and_then(&mut made)).collect())
    }

    fn add(&mut self, mut act: Act) -> Result<(), Failure> {
        let is_single = !act.is_of_batch();
        // A name may be that of an object which is still to be made.
        if is_single || act.objects().any(|object| self.names.lacks(object)) {
            self.flush()?;
            if self.is_stopped {
                return Ok(());
            }
        }
        if let Err(failure) = act.resolve(&self.connected.client, &mut self.names) {
            return self.tell(None, Err(failure));
        }
        if CHANGES_NAMES.contains(&act.call.name) {
            self.names = Found::default();
        }
        self.waiting.push(act);
        if is_single || self.waiting.len() >= self.most {
            self.flush()?;
        }
        Ok(())
    }

    fn line(&mut self, read: Result<Option<Act>, Failure>) -> Result<(), Failure> {
        match read {
            Ok(None) => Ok(()),
            Ok(Some(act)) => self.add(act),
            Err(failure) => {
                self.flush()?;
                if self.is_stopped {
                    return Ok(());
                }
                self.tell(None, Err(failure))
            }
        }
    }
}

/// The file of a script, or standard input.
fn source(path: Option<&OsString>) -> Result<Box<dyn BufRead>, Failure> {
    let Some(path) = path else { return Ok(Box::new(io::stdin().lock())) };
    let file = std::fs::File::open(path);
    let file = file.map_err(|error| grammar(format!("{}: {error}", path.to_string_lossy())))?;
    Ok(Box::new(io::BufReader::new(file)))
}

/// Makes the calls of a script; the status is the worst of theirs.
pub fn run(settings: &Settings, found: &ArgMatches) -> Result<u8, Failure> {
    let path = found.get_one::<OsString>("FILE").filter(|it| *it != "-");
    let source = source(path)?;
    let how = How { limit: None, trace: found.get_flag("trace") };
    let mut script = Script {
        connected: connect(settings, &how)?,
        names: Found::default(),
        waiting: Vec::new(),
        most: found.get_one::<u16>("batch").map_or(1, |it| usize::from(*it)),
        stops: found.get_flag("stop"),
        worst: 0,
        is_stopped: false,
    };
    let mut command = of_script();
    let mut input = Input { is_taken: path.is_none() };
    for line in source.lines() {
        let line = line.map_err(|error| grammar(format!("the script: {error}")))?;
        script.line(read_line(&mut command, &line, &mut input))?;
        if script.is_stopped {
            return Ok(script.worst);
        }
    }
    script.flush()?;
    Ok(script.worst)
}

#[cfg(test)]
mod tests {
    use super::*;

    #[test]
    fn lines_have_the_words_of_a_shell() {
        let mut command = of_script();
        let mut read = |line: &str| read_line(&mut command, line, &mut Input { is_taken: true });
        let name = |act: Result<Option<Act>, Failure>| {
            act.map(|it| it.map(|it| it.call.name)).map_err(|it| it.text)
        };
        assert_eq!(name(read("")), Ok(None));
        assert_eq!(name(read("  # a comment")), Ok(None));
        assert_eq!(name(read("create-aes 256 'a name'  # why")), Ok(Some("create-aes")));
        assert_eq!(name(read("query")), Ok(Some("query")));
        assert_eq!(name(read("get 'a")), Err("a quote has no end".into()));
        for line in ["sing k", "get k --json", "get k -o x", "ping", "run x", "sign k -", "--help"]
        {
            assert!(read(line).is_err(), "{line}");
        }
    }
}
