//! What a record is told.
mod script;
mod ttlv;

use metsuwan::library::{self, KmipWord};
use metsuwan::{Client, ClientBuilder, Error, Item, Word};
use script::{Does, Script, Sent};
use std::fs::{self, File, OpenOptions};
use std::io::{ErrorKind, Write};
use std::os::fd::AsRawFd;
use std::os::raw::c_int;
use std::path::{Path, PathBuf};
use std::process::Command;
use std::sync::{Arc, Mutex};
use std::time::{Duration, Instant};
use ttlv::{failure, identifier, response};

/// The request to activate `k` (KMIP 1.0, 4.18), and with 15 that to archive it, as the standard has
/// it.
fn asks_for(operation: &str) -> String {
    format!(
        "4200780100000070420077010000003842006901000000204200\
         6A0200000004000000010000000042006B02000000040000000000000000\
         42000D0200000004000000010000000042000F0100000028\
         42005C0500000004000000{operation}00000000\
         420079010000001042009407000000016B00000000000000"
    )
}

type Seen = Arc<Mutex<Vec<String>>>;

fn client(does: &[Does]) -> (Client<Script>, Seen) {
    let seen = Seen::default();
    let kept = Arc::clone(&seen);
    let builder = ClientBuilder::new(Script::new(does, &Sent::default()))
        .with_credentials("alice", "geheim")
        .with_record(move |line| kept.lock().unwrap().push(line.to_string()));
    (builder.build(), seen)
}

fn done(operation: u32) -> Does {
    Does::Answer(response(operation, &[identifier("k")]))
}

/// The words of the last line.
fn words(seen: &Seen) -> [String; 3] {
    let seen = seen.lock().unwrap();
    let line = seen.last().unwrap().strip_suffix('\n').unwrap();
    line.split(' ').map(str::to_string).collect::<Vec<_>>().try_into().unwrap()
}

#[test]
fn a_call_is_answered_again() {
    let (client, seen) = client(&[done(0x12), done(0x12)]);
    client.call("activate", &[Word::Text("k")]).unwrap();
    client.do_operation("Activate", "1.0", vec![Item::new("UniqueIdentifier", "k")]).unwrap();
    // (That of the operation has no ID, but in its response.)
    let [word, request, answer] = words(&seen);
    assert_eq!((word.as_str(), &request), ("raw", &asks_for("12")));
    let digits = answer.as_bytes().chunks(2).map(|pair| std::str::from_utf8(pair).unwrap());
    let answer: Vec<u8> = digits.map(|pair| u8::from_str_radix(pair, 16).unwrap()).collect();
    assert_eq!(answer.len(), response(0x12, &[identifier("k")]).len() + 16);
    let raw = [KmipWord::text("raw"), KmipWord::text(&request)];
    let (status, _) = library::answer(&raw, &[], &answer);
    assert_eq!(status, library::Status::Answered);
    let seen = seen.lock().unwrap();
    assert!(seen.len() == 2 && seen[0].starts_with(&format!("raw {request} ")));
}

#[test]
fn what_is_no_call_of_a_script_is_a_message() {
    let (client, seen) = client(&[done(0x15), done(0x15)]);
    client.do_operation("Archive", "1.0", vec![Item::new("UniqueIdentifier", "k")]).unwrap();
    let [word, request, _] = words(&seen);
    assert_eq!((word.as_str(), request), ("message", asks_for("15")));
    // By words it is that of KMIP 1.2.
    client.call("archive", &[Word::Text("k")]).unwrap();
    let [word, request, answer] = words(&seen);
    let minor = "42006B0200000004000000";
    let wanted = asks_for("15").replace(&format!("{minor}00"), &format!("{minor}02"));
    assert_eq!((word.as_str(), request), ("message", wanted));
    assert!(answer.contains("4200930800000008"));
}

#[test]
fn a_batch_is_a_message_without_its_credential() {
    let (client, seen) = client(&[Does::Answer(failure(0x12, 5, "no batches"))]);
    client.batch().call("activate", &[Word::Text("k")]).unwrap().send().unwrap();
    let [word, request, answer] = words(&seen);
    let digits = request.split_once("4200930800000008").unwrap().1;
    assert!(word == "message" && answer.contains(&format!("4200930800000008{}", &digits[..16])));
    assert!(!request.contains("67656865696D"));
}

#[test]
fn what_is_refused_is_recorded_and_what_is_lost_is_not() {
    let refusal = Does::Answer(failure(0x12, 12, "no"));
    for (does, count) in [(refusal, 1), (Does::Fail(ErrorKind::ConnectionReset), 0)] {
        let (client, seen) = client(&[does]);
        client.call("activate", &[Word::Text("k")]).unwrap_err();
        assert_eq!(seen.lock().unwrap().len(), count);
    }
}

extern "C" {
    fn flock(file: c_int, how: c_int) -> c_int;
}

/// A file of this test, which is removed at its end.
struct Temporary(PathBuf);

impl Temporary {
    fn new(name: &str) -> Temporary {
        let name = format!("metsuwan-{}-{name}", std::process::id());
        Temporary(std::env::temp_dir().join(name))
    }

    fn lines(&self) -> Vec<String> {
        fs::read_to_string(&self.0).unwrap().lines().map(str::to_string).collect()
    }
}

impl Drop for Temporary {
    fn drop(&mut self) {
        let _ = fs::remove_file(&self.0); // it may not have been made
    }
}

/// A client whose record is this file.
fn recording(path: &Path, does: &[Does]) -> Client<Script> {
    let builder = ClientBuilder::new(Script::new(does, &Sent::default()));
    builder.with_record_file(path).unwrap().build()
}

#[test]
#[ignore = "it is run by `processes_add_their_lines_side_by_side`"]
fn one_of_many() {
    let Some(path) = std::env::var_os("METSUWAN_RECORD") else { return };
    let client = recording(path.as_ref(), &vec![done(0x12); 20]);
    for _ in 0..20 {
        client.activate_key("k").unwrap();
    }
}

#[test]
fn processes_add_their_lines_side_by_side() {
    let file = Temporary::new("many");
    let begin = || {
        let words = ["--exact", "one_of_many", "--include-ignored"];
        let program = std::env::current_exe().unwrap();
        Command::new(program).args(words).env("METSUWAN_RECORD", &file.0).spawn().unwrap()
    };
    let processes: Vec<_> = (0..50).map(|_| begin()).collect();
    for mut process in processes {
        assert!(process.wait().unwrap().success());
    }
    let lines = file.lines();
    let wanted = format!("raw {} ", asks_for("12"));
    assert_eq!(lines.len(), 1000);
    assert!(lines.iter().all(|line| line.starts_with(&wanted) && line.len() == lines[0].len()));
}

#[test]
fn a_line_that_was_torn_is_ended() {
    let file = Temporary::new("torn");
    fs::write(&file.0, "raw 42").unwrap();
    recording(&file.0, &[done(0x12)]).activate_key("k").unwrap();
    let lines = file.lines();
    assert!(lines.len() == 2 && lines[0] == "raw 42" && lines[1].starts_with("raw 4200"));
}

#[test]
fn what_is_not_recorded_is_answered() {
    let full = Path::new("/dev/full");
    let client = recording(full, &[done(0x12), Does::Answer(failure(0x12, 12, "no"))]);
    let error = client.activate_key("k").unwrap_err();
    assert_eq!(error.to_string(), "NotRecorded: No space left on device (os error 28)");
    let [Ok(answer)] = error.answers() else { panic!("{error:?}") };
    assert_eq!(answer.response(), response(0x12, &[identifier("k")]));
    assert!(error.was_sent() && !error.is_lost() && client.is_open());
    // So is a refusal, and each call of a batch.
    let error = client.activate_key("k").unwrap_err();
    assert!(matches!(error.answers(), [Err(Error::ServerError(_))]), "{error:?}");
    let client = recording(full, &[Does::Answer(failure(0x12, 5, "no batches"))]);
    let error = client.batch().call("activate", &[Word::Text("k")]).unwrap().send().unwrap_err();
    assert!(matches!(error.answers(), [Err(Error::ServerError(_))]), "{error:?}");
    let nowhere = ClientBuilder::new(Script::new(&[], &Sent::default()));
    let error = nowhere.with_record_file("/none/of/it").unwrap_err();
    let wanted = "ConfigurationError: record /none/of/it: No such file or directory (os error 2)";
    assert_eq!(error.to_string(), wanted);
    assert!(error.answers().is_empty());
}

#[test]
fn a_lock_that_is_held_too_long_is_told() {
    let file = Temporary::new("locked");
    let client = recording(&file.0, &[done(0x12), done(0x12)]);
    let other: File = OpenOptions::new().append(true).open(&file.0).unwrap();
    // Safety: the descriptor is that of the file.
    assert_eq!(unsafe { flock(other.as_raw_fd(), 2) }, 0);
    let begun = Instant::now();
    let error = client.activate_key("k").unwrap_err();
    assert!(error.to_string().ends_with(": another process has it locked"), "{error}");
    assert!(error.answers().len() == 1 && begun.elapsed() >= Duration::from_secs(5));
    (&other).write_all(b"").unwrap();
    drop(other);
    client.activate_key("k").unwrap();
    assert_eq!(file.lines().len(), 1);
}
