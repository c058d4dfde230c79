//! Clients in a pool of r2d2.
mod script;
mod ttlv;

use metsuwan::{Client, ClientBuilder, Error, Manager};
use r2d2::ManageConnection;
use script::{Does, Script, Sent};
use std::io;
use std::sync::atomic::{AtomicBool, AtomicUsize, Ordering::SeqCst};
use std::sync::Arc;
use std::thread;
use std::time::Duration;
use ttlv::response;

const QUERY: u32 = 0x18;

/// Streams that answer so many queries each, how many were opened, and whether the server has ended
/// those that are open.
struct Server {
    answers: usize,
    reconnects: bool,
    opened: Arc<AtomicUsize>,
    has_ended: Arc<AtomicBool>,
    sent: Sent,
}

impl Server {
    fn new(answers: usize) -> Server {
        let (opened, has_ended) = <(Arc<AtomicUsize>, Arc<AtomicBool>)>::default();
        Server { answers, reconnects: false, opened, has_ended, sent: Sent::default() }
    }

    fn opened(&self) -> usize {
        self.opened.load(SeqCst)
    }

    fn manager(&self) -> Manager<Script> {
        let does = vec![Does::Answer(response(QUERY, &[])); self.answers];
        let (opened, has_ended) = (Arc::clone(&self.opened), Arc::clone(&self.has_ended));
        let (sent, reconnects) = (self.sent.clone(), self.reconnects);
        Manager::new(move || {
            opened.fetch_add(1, SeqCst);
            has_ended.store(false, SeqCst);
            let has_ended = Arc::clone(&has_ended);
            let looks = move |_: &mut Script| match has_ended.load(SeqCst) {
                true => Err(io::Error::new(io::ErrorKind::UnexpectedEof, "ended")),
                false => Ok(()),
            };
            let script = Script::new(&does, &sent);
            let builder = ClientBuilder::new(script).with_before_call(looks);
            let (does, sent) = (does.clone(), sent.clone());
            let reopen = move || Ok(Script::new(&does, &sent));
            Ok(if reconnects { builder.with_reconnect(reopen) } else { builder }.build())
        })
    }

    fn pool(&self, size: u32) -> r2d2::Pool<Manager<Script>> {
        r2d2::Pool::builder().max_size(size).min_idle(Some(0)).build(self.manager()).unwrap()
    }
}

#[test]
fn threads_share_it() {
    let server = Server::new(1000);
    let pool = server.pool(2);
    thread::scope(|scope| {
        for _ in 0..8 {
            scope.spawn(|| {
                for _ in 0..20 {
                    pool.get().unwrap().query().unwrap();
                }
            });
        }
    });
    assert!((1..=2).contains(&server.opened()));
    assert_eq!(server.sent.count(), 160);
}

#[test]
fn a_connection_is_used_again_and_a_lost_one_is_not() {
    let server = Server::new(2);
    let pool = server.pool(1);
    for _ in 0..2 {
        pool.get().unwrap().query().unwrap();
    }
    assert_eq!(server.opened(), 1);
    assert!(pool.get().unwrap().query().is_err());
    pool.get().unwrap().query().unwrap();
    assert_eq!(server.opened(), 2);
}

#[test]
fn one_that_the_server_has_ended_is_not_given_out() {
    let server = Server::new(9);
    let pool = server.pool(1);
    pool.get().unwrap().query().unwrap();
    server.has_ended.store(true, SeqCst);
    // No call was made to see it.
    drop(pool.get().unwrap());
    assert_eq!((server.opened(), server.sent.count()), (2, 1));
    pool.get().unwrap().query().unwrap();
    assert_eq!((server.opened(), server.sent.count()), (2, 2));
}

#[test]
fn it_is_asked_whether_a_client_is_good() {
    let server = Server::new(1);
    let manager = server.manager();
    let mut client = manager.connect().unwrap();
    manager.is_valid(&mut client).unwrap();
    assert!(!manager.has_broken(&mut client) && server.sent.count() == 0);
    server.has_ended.store(true, SeqCst);
    let error = manager.is_valid(&mut client).unwrap_err();
    assert_eq!(error.to_string(), "RequestWriteError: ended; nothing was sent");
    // What was looked at is closed, and stays so.
    server.has_ended.store(false, SeqCst);
    assert!(manager.is_valid(&mut client).is_err() && manager.has_broken(&mut client));
    assert!(client.query().is_err() && server.sent.count() == 0);
}

#[test]
fn one_that_reconnects_is_not_broken() {
    let server = Server { reconnects: true, ..Server::new(1) };
    let manager = server.manager();
    let mut client = manager.connect().unwrap();
    client.query().unwrap();
    server.has_ended.store(true, SeqCst);
    assert!(manager.is_valid(&mut client).is_err());
    server.has_ended.store(false, SeqCst);
    assert!(!manager.has_broken(&mut client) && manager.is_valid(&mut client).is_ok());
    client.query().unwrap();
    assert_eq!(server.sent.count(), 2);
}

#[test]
fn an_error_of_what_opens_it_is_told() {
    let manager = Manager::new(|| -> metsuwan::Result<Client<Script>> {
        let none = ClientBuilder::new(Script::new(&[], &Sent::default())).build();
        none.query().map(|_| none)
    });
    assert!(matches!(manager.connect(), Err(Error::ResponseReadError(_))));
    assert_eq!(format!("{manager:?}"), "Manager { .. }");
    let builder = r2d2::Pool::builder().connection_timeout(Duration::from_millis(200));
    let error = builder.error_handler(Box::new(r2d2::NopErrorHandler)).build(manager).unwrap_err();
    assert!(error.to_string().contains("ResponseReadError: end of input"), "{error}");
}
