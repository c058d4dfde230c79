//! Forks after a client is open: the connection stays the parent's, whatever a child does.
mod fakes;

use fakes::{client, connector, LONG};
use metsuwan::{ClientBuilder, Pool, Result, TlsClient, TlsStream};
use std::io::{Cursor, Read, Write};
use std::os::raw::c_int;
use std::os::unix::net::UnixStream;
use std::panic::{catch_unwind, AssertUnwindSafe};
use std::sync::{Mutex, MutexGuard, PoisonError};
use std::thread;
use std::time::Duration;

extern "C" {
    fn fork() -> c_int;
    fn waitpid(process: c_int, status: *mut c_int, options: c_int) -> c_int;
    fn kill(process: c_int, signal: c_int) -> c_int;
    fn _exit(status: c_int) -> !;
}

const REFUSED: &str = "RequestWriteError: the connection is another process's; nothing was sent";

/// One test at a time: in a child no lock is held that is of a thread of another test.
fn alone() -> MutexGuard<'static, ()> {
    static ALONE: Mutex<()> = Mutex::new(());
    ALONE.lock().unwrap_or_else(PoisonError::into_inner)
}

/// What this comes to in the child of a fork. One that waits for a lock that nobody opens is ended.
fn said_in_child(work: impl FnOnce() -> String) -> String {
    let (mut reads, mut writes) = UnixStream::pair().unwrap();
    // Safety: the child calls what follows, and ends.
    let child = unsafe { fork() };
    if child == 0 {
        let said = catch_unwind(AssertUnwindSafe(work)).unwrap_or_else(|_| "it panicked".into());
        let _ = writes.write_all(said.as_bytes());
        unsafe { _exit(0) }
    }
    drop(writes);
    reads.set_read_timeout(Some(LONG)).unwrap();
    let mut said = String::new();
    let read = reads.read_to_string(&mut said);
    // Safety: it is the child, which nobody has waited for.
    unsafe {
        kill(child, 9);
        waitpid(child, std::ptr::null_mut(), 0);
    }
    read.expect("the child has ended");
    said
}

fn text<R>(made: Result<R>) -> String {
    made.map_or_else(|error| error.to_string(), |_| "done".into())
}

fn signs(client: &TlsClient, name: &str) -> Result<()> {
    let signed = client.sign(name, b"x")?;
    assert_eq!(signed.signature_data, format!("signature by {name}").as_bytes());
    Ok(())
}

/// Drops what the parent keeps.
fn drop_copy<V>(value: &V) -> String {
    // Safety: the child's copy of it is not used again.
    drop(unsafe { std::ptr::read(value) });
    "dropped".into()
}

#[test]
#[ignore = "it needs the fake servers"]
fn calls_of_a_child_are_refused() {
    let _alone = alone();
    for reconnects in [false, true] {
        let builder = connector("good", "localhost", "client").with_reconnect(reconnects).connect();
        let client = builder.unwrap().build();
        assert_eq!(said_in_child(|| text(signs(&client, "CHILD"))), REFUSED);
        let batch = || client.batch().call("query", &[]).unwrap().send();
        assert_eq!(said_in_child(|| text(batch())), REFUSED);
        assert_eq!(said_in_child(|| client.is_open().to_string()), "false");
        signs(&client, "PARENT").unwrap();
    }
}

#[test]
#[ignore = "it needs the fake servers"]
fn a_child_that_ends_it_ends_nothing_of_the_parents() {
    let _alone = alone();
    let client = client("good");
    assert_eq!(said_in_child(|| drop_copy(&client)), "dropped");
    signs(&client, "PARENT").unwrap();
    let stream = connector("good", "localhost", "client");
    let pool = Pool::new(2, move || Ok(stream.connect()?.build())).unwrap();
    signs(&pool.client().unwrap(), "PARENT").unwrap();
    assert_eq!(said_in_child(|| drop_copy(&pool)), "dropped");
    signs(&pool.client().unwrap(), "PARENT").unwrap();
}

#[test]
#[ignore = "it needs the fake servers"]
fn a_stream_of_the_parents_is_not_used() {
    let _alone = alone();
    let mut stream = client("good").into_inner().unwrap();
    let said = said_in_child(|| {
        let written = stream.write(b"x").unwrap_err();
        format!("{written}, {}", stream.read(&mut [0]).unwrap_err())
    });
    let wanted = "the connection is another process's";
    assert_eq!(said, format!("{wanted}, {wanted}"));
    let client = stream.into_builder().build();
    assert_eq!(said_in_child(|| drop_copy(&client)), "dropped");
    signs(&client, "PARENT").unwrap();
}

#[test]
#[ignore = "it needs the fake servers"]
fn a_lock_that_a_thread_of_the_parent_has() {
    let _alone = alone();
    let client = client("slow");
    thread::scope(|scope| {
        scope.spawn(|| signs(&client, "slow").unwrap());
        // (so that it has begun; where it has not, the test is the one before)
        thread::sleep(Duration::from_secs(1));
        assert_eq!(said_in_child(|| text(signs(&client, "CHILD"))), REFUSED);
    });
    signs(&client, "PARENT").unwrap();
}

fn pool_of(fake: &str, size: usize) -> Pool<TlsStream> {
    let server = connector(fake, "localhost", "client");
    Pool::new(size, move || Ok(server.connect()?.build())).unwrap()
}

#[test]
#[ignore = "it needs the fake servers"]
fn a_pool_has_others_in_a_child() {
    let _alone = alone();
    let pool = pool_of("good", 2);
    let use_it = |name: &str| text(pool.client().and_then(|client| signs(&client, name)));
    assert_eq!(use_it("PARENT"), "done");
    for at in 0..10 {
        assert_eq!(said_in_child(|| use_it(&format!("CHILD{at}"))), "done");
    }
    // All places are taken, and a child leaves one of them.
    let (first, second) = (pool.client().unwrap(), pool.client().unwrap());
    assert_eq!(said_in_child(|| use_it("CHILD")), "done");
    assert_eq!(said_in_child(|| text(signs(&first, "CHILD"))), REFUSED);
    assert_eq!(said_in_child(|| drop_copy(&first) + &use_it("CHILD")), "droppeddone");
    signs(&first, "PARENT").unwrap();
    drop((first, second));
    assert_eq!(use_it("PARENT"), "done");
    pool.close();
    let closed = "ConfigurationError: the pool is closed";
    assert_eq!(said_in_child(|| use_it("CHILD")), closed);
}

#[test]
fn a_stream_of_the_callers() {
    let _alone = alone();
    let client = ClientBuilder::new(Cursor::new(Vec::<u8>::new())).build();
    assert_eq!(said_in_child(|| text(client.query())), REFUSED);
    assert!(client.is_open());
    let copy = || unsafe { std::ptr::read(&client) };
    assert_eq!(said_in_child(|| format!("{}", copy().into_inner().is_none())), "true");
}
