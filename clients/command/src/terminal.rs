//! What is asked for on the terminal, which shows nothing meanwhile.
use std::fs::File;
use std::mem::MaybeUninit;
use std::os::unix::io::AsRawFd;
use std::sync::{Mutex, PoisonError};
use zeroize::Zeroizing;

/// The terminal as it was, while something is asked.
static BEFORE: Mutex<Option<libc::termios>> = Mutex::new(None);

fn settings_of(terminal: &File) -> Option<libc::termios> {
    let mut found = MaybeUninit::uninit();
    // SAFETY: the descriptor is open, and tcgetattr fills the room where it gives 0.
    let status = unsafe { libc::tcgetattr(terminal.as_raw_fd(), found.as_mut_ptr()) };
    // SAFETY: it is filled.
    (status == 0).then(|| unsafe { found.assume_init() })
}

fn keep(before: Option<libc::termios>) {
    *BEFORE.lock().unwrap_or_else(PoisonError::into_inner) = before;
}

/// What a user types behind `WHAT: `.
pub fn ask(what: &str) -> std::io::Result<Zeroizing<String>> {
    keep(settings_of(&File::open("/dev/tty")?));
    let said = rpassword::prompt_password(format!("{what}: ")).map(Zeroizing::new);
    keep(None);
    said
}

/// The terminal is as it was: what a signal leaves.
pub fn restore() {
    let before = BEFORE.lock().unwrap_or_else(PoisonError::into_inner).take();
    if let (Some(before), Ok(terminal)) = (before, File::open("/dev/tty")) {
        // SAFETY: the descriptor is open, and the settings are those that tcgetattr gave.
        unsafe { libc::tcsetattr(terminal.as_raw_fd(), libc::TCSANOW, &before) };
    }
}
