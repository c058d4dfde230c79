//! SIGINT and the like: the part of a file is removed, the terminal is as it was, and the program
//! ends by the signal, so that its caller sees that.
use signal_hook::consts::{SIGHUP, SIGINT, SIGTERM};
use std::mem::MaybeUninit;
use std::path::PathBuf;
use std::sync::{Mutex, PoisonError};

static PART: Mutex<Option<PathBuf>> = Mutex::new(None);

/// From here on this file is removed where a signal ends the program.
pub fn remove_at_signal(path: Option<PathBuf>) {
    *PART.lock().unwrap_or_else(PoisonError::into_inner) = path;
}

/// Whether the caller has this signal ignored, as `nohup` has SIGHUP.
fn is_ignored(signal: i32) -> bool {
    let mut found = MaybeUninit::<libc::sigaction>::uninit();
    // SAFETY: with no new action it is told alone, and fills the room where it gives 0.
    let status = unsafe { libc::sigaction(signal, std::ptr::null(), found.as_mut_ptr()) };
    // SAFETY: it is filled.
    status == 0 && unsafe { found.assume_init() }.sa_sigaction == libc::SIG_IGN
}

pub fn watch() -> std::io::Result<()> {
    let watched = [SIGINT, SIGTERM, SIGHUP].into_iter().filter(|signal| !is_ignored(*signal));
    let mut signals = signal_hook::iterator::Signals::new(watched)?;
    let wait = move || {
        for signal in signals.forever() {
            if let Some(path) = PART.lock().unwrap_or_else(PoisonError::into_inner).take() {
                // It is of no use to say here that it stays.
                let _ = std::fs::remove_file(path);
            }
            crate::terminal::restore();
            // It ends the process, where it does not fail.
            let _ = signal_hook::low_level::emulate_default_handler(signal);
        }
    };
    std::thread::Builder::new().name("signals".into()).spawn(wait).map(drop)
}
