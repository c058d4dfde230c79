//! What is written: on standard output, or in a file that is whole or not there.
use crate::failure::{grammar, unwritten, Failure};
use clap::ArgMatches;
use std::fs::{File, OpenOptions, Permissions};
use std::io::{self, IsTerminal, Write};
use std::os::unix::fs::{OpenOptionsExt, PermissionsExt};
use std::path::{Path, PathBuf};

/// How an answer is written.
#[derive(Clone, Copy, PartialEq, Eq, Debug)]
pub enum Form {
    Table,
    Json,
    Raw,
    Hex,
    Base64,
    Pem,
}

/// The options that say it, of which one may be given.
pub const FORMS: [(&str, Form); 5] = [
    ("json", Form::Json),
    ("raw", Form::Raw),
    ("hex", Form::Hex),
    ("base64", Form::Base64),
    ("pem", Form::Pem),
];

/// That which is asked for; else into a file the value's bytes, on a terminal a table, into a pipe
/// JSON.
pub fn form_of(found: &ArgMatches) -> Result<Form, Failure> {
    // (clap looks at conflicts of global options within one level alone.)
    let mut asked = FORMS.iter().filter(|(name, _)| found.get_flag(name)).map(|(_, form)| *form);
    let (asked, second) = (asked.next(), asked.next());
    if second.is_some() {
        return Err(grammar("--json, --raw, --hex, --base64 and --pem exclude each other"));
    }
    let other = || match found.contains_id("output") {
        true => Form::Raw,
        false if io::stdout().is_terminal() => Form::Table,
        false => Form::Json,
    };
    Ok(asked.unwrap_or_else(other))
}

/// Writes on standard output.
pub fn print(bytes: &[u8]) -> Result<(), Failure> {
    let mut out = io::stdout().lock();
    out.write_all(bytes).and_then(|()| out.flush()).map_err(unwritten)
}

/// Where an answer goes. It is opened before anything is sent.
pub enum Sink {
    Stdout,
    /// A file that gets its name when it is whole.
    Whole(Part),
    /// A device or a pipe.
    Device(File),
}

/// A file that is not whole yet, which is removed where it comes to be none.
pub struct Part {
    file: File,
    temporary: PathBuf,
    target: PathBuf,
}

impl Drop for Part {
    fn drop(&mut self) {
        // It has its name, and so is not there, where it is whole.
        let _ = std::fs::remove_file(&self.temporary);
        crate::signals::remove_at_signal(None);
    }
}

/// The mode that a new file of the user's has.
fn usual_mode() -> u32 {
    // SAFETY: it sets the mask and cannot fail; no other thread makes files.
    let mask = unsafe {
        let mask = libc::umask(0o077);
        libc::umask(mask);
        mask
    };
    0o666 & !mask
}

impl Part {
    fn open(path: &Path) -> Result<Part, Failure> {
        // A link keeps being one.
        let target = std::fs::canonicalize(path).unwrap_or_else(|_| path.into());
        let name = target.file_name().ok_or_else(|| grammar("the output is no file"))?;
        let mut name = name.to_os_string();
        name.push(format!(".{}.part", std::process::id()));
        let temporary = target.with_file_name(name);
        crate::signals::remove_at_signal(Some(temporary.clone()));
        let file = OpenOptions::new().write(true).create_new(true).mode(0o600).open(&temporary);
        let file = file.map_err(|error| grammar(format!("{}: {error}", path.display())))?;
        Ok(Part { file, temporary, target })
    }

    fn write(&mut self, bytes: &[u8], is_secret: bool) -> io::Result<()> {
        self.file.write_all(bytes)?;
        if !is_secret {
            self.file.set_permissions(Permissions::from_mode(usual_mode()))?;
        }
        self.file.sync_all()?;
        std::fs::rename(&self.temporary, &self.target)
    }
}

impl Sink {
    pub fn open(path: Option<&Path>) -> Result<Sink, Failure> {
        let Some(path) = path else { return Ok(Sink::Stdout) };
        let about = std::fs::metadata(path);
        if about.as_ref().is_ok_and(std::fs::Metadata::is_dir) {
            return Err(grammar(format!("{} is a folder", path.display())));
        }
        if about.is_ok_and(|it| !it.is_file()) {
            let file = OpenOptions::new().write(true).open(path).map(Sink::Device);
            return file.map_err(|error| grammar(format!("{}: {error}", path.display())));
        }
        Part::open(path).map(Sink::Whole)
    }

    /// Writes all of it. A file of what may be secret is its owner's alone.
    pub fn write(self, bytes: &[u8], is_secret: bool) -> Result<(), Failure> {
        match self {
            Sink::Stdout => print(bytes),
            Sink::Device(mut file) => file.write_all(bytes).map_err(unwritten),
            Sink::Whole(mut part) => part.write(bytes, is_secret).map_err(unwritten),
        }
    }
}
