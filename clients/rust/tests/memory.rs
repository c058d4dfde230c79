//! What a response takes of memory: three times its length in the crate, which keeps that with the
//! answer, and nine times for a while with what the library takes.
mod ttlv;

use metsuwan::ClientBuilder;
use std::alloc::{GlobalAlloc, Layout, System};
use std::io::{self, Cursor, Read, Write};
use std::sync::atomic::{AtomicUsize, Ordering::Relaxed};
use std::sync::Mutex;
use ttlv::{bytes, enumeration, identifier, response, structure, text};

static NOW: AtomicUsize = AtomicUsize::new(0);
static MOST: AtomicUsize = AtomicUsize::new(0);

/// The system's, with what is taken counted.
struct Counting;

// SAFETY: each call is that of the system's.
unsafe impl GlobalAlloc for Counting {
    unsafe fn alloc(&self, layout: Layout) -> *mut u8 {
        let now = NOW.fetch_add(layout.size(), Relaxed) + layout.size();
        MOST.fetch_max(now, Relaxed);
        System.alloc(layout)
    }

    unsafe fn dealloc(&self, place: *mut u8, layout: Layout) {
        NOW.fetch_sub(layout.size(), Relaxed);
        System.dealloc(place, layout);
    }
}

#[global_allocator]
static ALLOCATOR: Counting = Counting;

/// One test at a time counts.
static ALONE: Mutex<()> = Mutex::new(());

struct Answers<'a>(Cursor<&'a [u8]>);

impl Write for Answers<'_> {
    fn write(&mut self, bytes: &[u8]) -> io::Result<usize> {
        Ok(bytes.len())
    }

    fn flush(&mut self) -> io::Result<()> {
        Ok(())
    }
}

impl Read for Answers<'_> {
    fn read(&mut self, into: &mut [u8]) -> io::Result<usize> {
        self.0.read(into)
    }
}

/// The most memory of a call that gives this response, in hundredths of its length.
fn taken(answer: &[u8], call: &str) -> usize {
    let client = ClientBuilder::new(Answers(Cursor::new(answer))).with_max_bytes(0).build();
    let before = NOW.load(Relaxed);
    MOST.store(before, Relaxed);
    let (name, words) = call.split_once(' ').unwrap_or((call, ""));
    let words: Vec<&str> = words.split_whitespace().collect();
    client.call_texts(name, &words).unwrap();
    (MOST.load(Relaxed) - before) * 100 / answer.len()
}

/// Answers to get a key of so many bytes, and to query with such a text.
fn answers(many: usize) -> [(Vec<u8>, &'static str); 2] {
    let key = structure(0x420045, &[bytes(0x420043, &vec![0xA5; many])]);
    let block = structure(0x420040, &[enumeration(0x420042, 2), key]);
    let object = [enumeration(0x420057, 2), identifier("k"), structure(0x42008F, &[block])];
    let vendor = text(0x42009D, &"x".repeat(many));
    [(response(0x0A, &object), "get k"), (response(0x18, &[vendor]), "query")]
}

/// A number of kB that the system has of this process.
#[cfg(target_os = "linux")]
fn system_says(name: &str) -> usize {
    let status = std::fs::read_to_string("/proc/self/status").unwrap();
    let line = status.lines().find(|line| line.starts_with(name)).unwrap();
    line.split_whitespace().nth(1).unwrap().parse().unwrap()
}

#[test]
#[cfg(target_os = "linux")]
fn the_system_counts_nine_times_its_length() {
    let _alone = ALONE.lock();
    for (answer, call) in answers(20 << 20) {
        // The most that it has held is counted from here on.
        if std::fs::write("/proc/self/clear_refs", "5").is_err() {
            return; // it is not allowed here
        }
        let before = system_says("VmRSS:");
        taken(&answer, call);
        let hundredths = (system_says("VmHWM:") - before) * 1024 * 100 / answer.len();
        println!("{call}: {hundredths} hundredths");
        assert!(hundredths <= 900, "{call}: {hundredths} hundredths");
    }
}

#[test]
fn a_response_takes_three_times_its_length() {
    let _alone = ALONE.lock();
    for (answer, call) in answers(3 << 20) {
        let hundredths = taken(&answer, call);
        assert!(hundredths <= 305, "{call}: {hundredths} hundredths");
    }
}
