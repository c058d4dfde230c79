//! Records of exchanges: lines of a script of `kmip_run`.
use crate::item::hex_of;
use crate::library::{self, KmipWord};
use std::fs::{File, OpenOptions};
use std::io::{self, ErrorKind, Write};
use std::os::fd::{AsRawFd, IntoRawFd};
use std::os::raw::c_int;
use std::os::unix::fs::{FileExt, OpenOptionsExt};
use std::path::{Path, PathBuf};
use std::thread;
use std::time::{Duration, Instant};

/// What is told of each exchange.
pub(crate) type Record = Box<dyn FnMut(&str) -> io::Result<()> + Send>;

/// A holder of the lock writes one entry, and is stopped or hangs where it has it longer.
const MOST_WAIT: Duration = Duration::from_secs(5);

// Those of flock(2).
const LOCK_EXCLUSIVE: c_int = 2;
const LOCK_NO_WAIT: c_int = 4;
const UNLOCK: c_int = 8;

extern "C" {
    fn flock(file: c_int, how: c_int) -> c_int;
    fn close(file: c_int) -> c_int;
}

/// `raw REQUEST RESPONSE` in hex, which `kmip_run replay` answers again; or, where it has no such
/// call, as for Encrypt or a batch, `message REQUEST RESPONSE`.
pub(crate) fn line_of(request: &[u8], response: &[u8]) -> String {
    let made = library::request(&[KmipWord::text("raw"), KmipWord::data(request)], &[], None);
    let word = if made.is_ok_and(|made| made == request) { "raw" } else { "message" };
    format!("{word} {} {}\n", hex_of(request), hex_of(response))
}

/// A file of a record, for a program whose listener
/// ([`with_record`](crate::ClientBuilder::with_record)) does more than to write;
/// [`with_record_file`](crate::ClientBuilder::with_record_file) is over it. Other processes and
/// threads may add their lines to it at the same time.
#[derive(Clone, Debug)]
pub struct RecordFile {
    path: PathBuf,
}

impl RecordFile {
    /// The file of this path, which is made where it is not there, for its owner alone.
    ///
    /// # Errors
    /// It cannot be opened
    pub fn open(path: impl AsRef<Path>) -> io::Result<RecordFile> {
        // (where the program goes to another folder)
        let path = std::env::current_dir()?.join(path);
        close_file(open(&path)?)?;
        Ok(RecordFile { path })
    }

    /// Adds a line at its end, whole or not at all. The file is locked for that one write alone.
    ///
    /// # Errors
    /// It cannot be opened or written, or it is locked for five seconds
    pub fn add(&self, line: &str) -> io::Result<()> {
        add(&self.path, line.as_bytes())
    }
}

/// What adds each entry at the end of a file.
///
/// # Errors
/// The file cannot be opened
pub(crate) fn to_file(path: &Path) -> io::Result<Record> {
    let file = RecordFile::open(path)?;
    Ok(Box::new(move |line| file.add(line)))
}

fn open(path: &PathBuf) -> io::Result<File> {
    OpenOptions::new().read(true).append(true).create(true).mode(0o600).open(path)
}

/// On a disk of another machine this may say that it is full.
fn close_file(file: File) -> io::Result<()> {
    // Safety: the descriptor is this function's.
    match unsafe { close(file.into_raw_fd()) } {
        0 => Ok(()),
        _ => Err(io::Error::last_os_error()),
    }
}

/// Opens the file anew, which may have been put away, and locks it for the one write.
fn add(path: &PathBuf, entry: &[u8]) -> io::Result<()> {
    let mut file = open(path)?;
    lock(&file, path)?;
    let added = write(&mut file, entry);
    // By name, since a child of a fork may have a copy of it.
    // Safety: the descriptor is that of the file.
    let unlocked = match unsafe { flock(file.as_raw_fd(), UNLOCK) } {
        0 => Ok(()),
        _ => Err(io::Error::last_os_error()),
    };
    added.and(unlocked).and(close_file(file))
}

/// Exclusive from the start: what is shared first, and then made so, is let go between.
fn lock(file: &File, path: &Path) -> io::Result<()> {
    let begun = Instant::now();
    let mut pause = Duration::from_micros(50);
    loop {
        // Safety: the descriptor is that of the file.
        if unsafe { flock(file.as_raw_fd(), LOCK_EXCLUSIVE | LOCK_NO_WAIT) } == 0 {
            return Ok(());
        }
        let error = io::Error::last_os_error();
        if !matches!(error.kind(), ErrorKind::WouldBlock | ErrorKind::Interrupted) {
            return Err(error);
        }
        if begun.elapsed() >= MOST_WAIT {
            let text = format!("{}: another process has it locked", path.display());
            return Err(io::Error::new(ErrorKind::TimedOut, text));
        }
        let mut chance = [128];
        // (without random bytes it is the pause itself)
        let _ = library::random(&mut chance);
        thread::sleep(pause.mul_f64(0.5 + f64::from(chance[0]) / 255.0));
        pause = (2 * pause).min(Duration::from_millis(10));
    }
}

/// Adds the entry, behind what ends a line that was torn; or leaves the file as it was.
fn write(file: &mut File, entry: &[u8]) -> io::Result<()> {
    let found = file.metadata()?;
    let mut last = [b'\n'];
    if found.is_file() && found.len() > 0 {
        file.read_exact_at(&mut last, found.len() - 1)?;
    }
    let torn: &[u8] = if last == [b'\n'] { b"" } else { b"\n" };
    let added = file.write_all(&[torn, entry].concat());
    if added.is_err() && found.is_file() {
        file.set_len(found.len())?; // a disk that is full takes a part
    }
    added
}
