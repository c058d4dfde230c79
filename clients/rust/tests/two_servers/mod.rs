//! Two servers, of which one dies, by turns, or both live.
#![allow(dead_code)] // each test takes what it needs

#[path = "../ttlv/mod.rs"]
mod ttlv;

use crate::fakes::folder;
use metsuwan::TlsConnector;
use openssl::ssl::{SslAcceptor, SslFiletype, SslMethod, SslStream};
use std::io::{Read, Write};
use std::net::{Shutdown, TcpListener, TcpStream};
use std::sync::atomic::{AtomicBool, AtomicUsize, Ordering::SeqCst};
use std::sync::{Arc, Mutex};
use std::thread;
use std::time::Duration;

pub struct TwoServers {
    servers: [Arc<One>; 2],
    ports: [u16; 2],
    turn: AtomicUsize,
    came: Came,
}

/// The connection of each request, by its number, and the identifier in it.
type Came = Arc<Mutex<Vec<(usize, String)>>>;

#[derive(Default)]
struct One {
    is_dead: AtomicBool,
    open: Mutex<Vec<TcpStream>>,
}

/// The first text or bytes with this tag.
fn value(request: &[u8], tag: u32) -> Vec<u8> {
    let tag = &tag.to_be_bytes()[1..];
    let at = (0..request.len()).step_by(8).find(|at| request[*at..].starts_with(tag)).unwrap();
    let length = u32::from_be_bytes(request[at + 4..at + 8].try_into().unwrap());
    request[at + 8..at + 8 + usize::try_from(length).unwrap()].to_vec()
}

/// The next request, where one comes.
fn request(tls: &mut SslStream<TcpStream>) -> Option<Vec<u8>> {
    let mut request = vec![0; 8];
    tls.read_exact(&mut request).ok()?;
    let more = u32::from_be_bytes(request[4..].try_into().unwrap());
    request.resize(8 + usize::try_from(more).unwrap(), 0);
    tls.read_exact(&mut request[8..]).ok()?;
    Some(request)
}

fn serve(mut tls: SslStream<TcpStream>, number: usize, server: &One, came: &Came) {
    while let Some(request) = request(&mut tls) {
        let name = String::from_utf8(value(&request, 0x420094)).unwrap();
        came.lock().unwrap().push((number, name.clone()));
        if server.is_dead.load(SeqCst) {
            return;
        }
        let identifier = ttlv::identifier(&name);
        let answer = if name.starts_with('s') {
            ttlv::response(0x21, &[identifier, ttlv::bytes(0x4200C3, b"x")])
        } else {
            ttlv::response(0x12, &[identifier])
        };
        if tls.write_all(&answer).is_err() {
            return;
        }
    }
}

impl TwoServers {
    pub fn begin() -> TwoServers {
        let mut acceptor = SslAcceptor::mozilla_intermediate_v5(SslMethod::tls()).unwrap();
        let file = |name: &str| folder().join(name);
        acceptor.set_private_key_file(file("server.key"), SslFiletype::PEM).unwrap();
        acceptor.set_certificate_chain_file(file("server.pem")).unwrap();
        let acceptor = Arc::new(acceptor.build());
        let (came, count) = (Came::default(), Arc::new(AtomicUsize::new(0)));
        let servers = [Arc::<One>::default(), Arc::default()];
        let ports = [0, 1].map(|which: usize| {
            let listener = TcpListener::bind(("127.0.0.1", 0)).unwrap();
            let port = listener.local_addr().unwrap().port();
            let (server, came) = (Arc::clone(&servers[which]), Arc::clone(&came));
            let (acceptor, count) = (Arc::clone(&acceptor), Arc::clone(&count));
            thread::spawn(move || loop {
                let (plain, _) = listener.accept().unwrap();
                if server.is_dead.load(SeqCst) {
                    continue;
                }
                server.open.lock().unwrap().push(plain.try_clone().unwrap());
                let (server, came) = (Arc::clone(&server), Arc::clone(&came));
                let (acceptor, number) = (Arc::clone(&acceptor), count.fetch_add(1, SeqCst));
                thread::spawn(move || {
                    if let Ok(tls) = acceptor.accept(plain) {
                        serve(tls, number, &server, &came);
                    }
                });
            });
            port
        });
        TwoServers { servers, ports, turn: AtomicUsize::new(0), came }
    }

    pub fn connector(&self) -> TlsConnector {
        let [first, second] = self.ports;
        let list = format!("localhost:{first},localhost:{second}");
        let file = |name: &str| folder().join(name);
        TlsConnector::of_servers([list])
            .with_certificate(file("client.pem"), file("client.key"))
            .with_authority(file("ca.pem"))
            .with_timeout(Some(Duration::from_secs(60)))
    }

    pub fn came(&self) -> Vec<(usize, String)> {
        self.came.lock().unwrap().clone()
    }

    /// One dies, by turns, with all connections, or the next time both live again.
    pub fn die_or_live(&self) {
        let turn = self.turn.fetch_add(1, SeqCst);
        for server in &self.servers {
            server.is_dead.store(false, SeqCst);
        }
        if turn % 2 == 0 {
            let server = &self.servers[turn / 2 % 2];
            server.is_dead.store(true, SeqCst);
            for plain in server.open.lock().unwrap().drain(..) {
                let _ = plain.shutdown(Shutdown::Both); // it may have ended
            }
        }
    }
}
