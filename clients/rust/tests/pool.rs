//! Several streams that threads share.
mod script;
mod ttlv;

use metsuwan::{Client, ClientBuilder, Error, Pool};
use script::{Does, Script, Sent};
use std::sync::atomic::{AtomicUsize, Ordering::SeqCst};
use std::sync::{mpsc, Arc};
use std::thread;
use std::time::Duration;
use ttlv::response;

const QUERY: u32 = 0x18;

/// A pool whose streams answer so many queries each, and how many were opened.
fn pool(size: usize, answers: usize) -> (Pool<Script>, Arc<AtomicUsize>) {
    let opened = Arc::new(AtomicUsize::new(0));
    let count = Arc::clone(&opened);
    let open = move || -> metsuwan::Result<Client<Script>> {
        count.fetch_add(1, SeqCst);
        let does = vec![Does::Answer(response(QUERY, &[])); answers];
        Ok(ClientBuilder::new(Script::new(&does, &Sent::default())).build())
    };
    (Pool::new(size, open).unwrap(), opened)
}

#[test]
fn threads_share_it() {
    let (pool, opened) = pool(2, 1000);
    let (used, most) = (AtomicUsize::new(0), AtomicUsize::new(0));
    thread::scope(|scope| {
        for _ in 0..8 {
            scope.spawn(|| {
                for _ in 0..20 {
                    let client = pool.client().unwrap();
                    most.fetch_max(used.fetch_add(1, SeqCst) + 1, SeqCst);
                    client.query().unwrap();
                    used.fetch_sub(1, SeqCst);
                }
            });
        }
    });
    assert!(most.load(SeqCst) <= 2 && opened.load(SeqCst) <= 2);
}

#[test]
fn a_connection_is_used_again_and_a_lost_one_is_not() {
    let (pool, opened) = pool(1, 2);
    for _ in 0..2 {
        pool.client().unwrap().query().unwrap();
    }
    assert_eq!(opened.load(SeqCst), 1);
    assert!(pool.client().unwrap().query().is_err());
    pool.client().unwrap().query().unwrap();
    assert_eq!(opened.load(SeqCst), 2);
}

#[test]
fn a_thread_waits_for_one_that_is_given_back() {
    let (pool, opened) = pool(1, 9);
    let (sender, receiver) = mpsc::channel();
    thread::scope(|scope| {
        let client = pool.client().unwrap();
        scope.spawn(|| {
            let client = pool.client().unwrap();
            sender.send("given").unwrap();
            client.query().unwrap();
        });
        client.query().unwrap();
        assert!(receiver.try_recv().is_err());
        drop(client);
        assert_eq!(receiver.recv(), Ok("given"));
    });
    assert_eq!(opened.load(SeqCst), 1);
}

#[test]
fn one_that_is_not_good_is_not_given_out() {
    let opened = Arc::new(AtomicUsize::new(0));
    let count = Arc::clone(&opened);
    let open = move || -> metsuwan::Result<Client<Script>> {
        count.fetch_add(1, SeqCst);
        let does = vec![Does::Answer(response(QUERY, &[])); 9];
        let mut looks = 0;
        let builder = ClientBuilder::new(Script::new(&does, &Sent::default()));
        // The server has ended each after its first call.
        Ok(builder
            .with_before_call(move |_| {
                looks += 1;
                if looks > 1 {
                    Err(std::io::ErrorKind::UnexpectedEof.into())
                } else {
                    Ok(())
                }
            })
            .build())
    };
    let pool = Pool::new(1, open).unwrap();
    for _ in 0..3 {
        pool.client().unwrap().query().unwrap();
    }
    assert_eq!(opened.load(SeqCst), 3);
}

#[test]
fn a_place_is_waited_for_in_time() {
    let (pool, _) = pool(1, 9);
    let pool = pool.with_timeout(Some(Duration::from_millis(200)));
    let client = pool.client().unwrap();
    let error = pool.client().unwrap_err();
    let wanted = "ConnectError: no connection of the pool is free within 0.2 seconds";
    assert!(error.to_string() == wanted && !error.was_sent(), "{error}");
    client.query().unwrap();
    drop(client);
    pool.client().unwrap().query().unwrap();
}

#[test]
fn a_connection_has_an_age() {
    for (age, wanted) in [(Duration::ZERO, 3), (Duration::from_secs(1000), 1)] {
        let (pool, opened) = pool(1, 9);
        let pool = pool.with_max_age(age);
        for _ in 0..3 {
            pool.client().unwrap().query().unwrap();
            thread::sleep(Duration::from_millis(2));
        }
        assert_eq!(opened.load(SeqCst), wanted);
    }
}

fn is_closed(pool: &Pool<Script>) -> bool {
    matches!(pool.client(), Err(Error::ConfigurationError(details)) if details.text() == "the pool is closed")
}

#[test]
fn it_is_closed() {
    let (pool, opened) = pool(2, 9);
    let client = pool.client().unwrap();
    drop(pool.client().unwrap());
    assert_eq!(opened.load(SeqCst), 2);
    pool.close();
    assert!(is_closed(&pool));
    client.query().unwrap();
    drop(client);
    assert!(is_closed(&pool) && format!("{pool:?}").contains("free: 0, used: 0"));
}

#[test]
fn a_thread_that_waits_is_told_that_it_is_closed() {
    let (pool, _) = pool(1, 9);
    thread::scope(|scope| {
        let client = pool.client().unwrap();
        let waits = scope.spawn(|| is_closed(&pool));
        pool.close();
        assert!(waits.join().unwrap());
        client.query().unwrap();
    });
}

#[test]
fn a_connection_that_is_not_opened_takes_no_place() {
    let tries = AtomicUsize::new(0);
    let pool = Pool::new(1, move || {
        if tries.fetch_add(1, SeqCst) == 1 {
            panic!("as wanted");
        }
        let none = ClientBuilder::new(Script::new(&[], &Sent::default())).build();
        none.query().map(|_| none)
    })
    .unwrap();
    assert!(pool.client().is_err());
    thread::scope(|scope| assert!(scope.spawn(|| pool.client().map(drop)).join().is_err()));
    assert!(pool.client().is_err());
    let size = Pool::new(0, || -> metsuwan::Result<Client<Script>> { unreachable!() });
    assert!(
        matches!(size, Err(Error::ConfigurationError(details)) if details.text() == "a size is 1 or more")
    );
}
