//! Servers of which it is not known who they are, and servers that refuse the client's certificate.
mod fakes;

use fakes::{client, connector, folder, port_of, LONG};
use foreign_types::ForeignTypeRef;
use metsuwan::{Error, EventKind, Result, TlsStream};
use openssl::asn1::Asn1Time;
use openssl::ec::{EcGroup, EcKey};
use openssl::hash::MessageDigest;
use openssl::nid::Nid;
use openssl::pkey::PKey;
use openssl::ssl::{Ssl, SslAcceptor, SslContext, SslContextBuilder, SslFiletype, SslMethod};
use openssl::ssl::{SslVerifyMode, SslVersion};
use openssl::x509::extension::SubjectAlternativeName;
use openssl::x509::{X509Name, X509};
use std::net::{TcpListener, TcpStream};
use std::os::raw::{c_int, c_void};
use std::process::Command;
use std::sync::{Arc, Mutex};
use std::thread;

extern "C" {
    fn SSL_CTX_set_cert_verify_callback(
        context: *mut c_void,
        callback: Option<unsafe extern "C" fn(*mut c_void, *mut c_void) -> c_int>,
        argument: *mut c_void,
    );
}

unsafe extern "C" fn takes_all(_: *mut c_void, _: *mut c_void) -> c_int {
    1
}

/// A context of the caller's that takes all that OpenSSL has.
fn context(ciphers: &str) -> SslContextBuilder {
    let mut context = SslContext::builder(SslMethod::tls_client()).unwrap();
    context.set_cipher_list(ciphers).unwrap();
    context.set_min_proto_version(None).unwrap();
    context.set_verify(SslVerifyMode::PEER);
    context.set_ca_file(folder().join("ca.pem")).unwrap();
    context.set_certificate_chain_file(folder().join("client.pem")).unwrap();
    context.set_private_key_file(folder().join("client.key"), SslFiletype::PEM).unwrap();
    context
}

fn open(context: &SslContext, port: u16) -> Result<()> {
    let stream = TcpStream::connect(("127.0.0.1", port)).unwrap();
    TlsStream::from_ssl(Ssl::new(context).unwrap(), "localhost", stream, Some(LONG)).map(drop)
}

fn is_refused(context: &SslContext, port: u16, wanted: &str) {
    let error = open(context, port).expect_err(wanted);
    assert!(matches!(error, Error::ConnectError(_)) && !error.was_sent(), "{error}");
    assert!(error.to_string().contains(wanted), "{error} {wanted}");
}

#[test]
#[ignore = "it needs the fake servers"]
fn whatever_a_context_allows() {
    let rows = [
        ("no_certificate", "ALL:aNULL:@SECLEVEL=0", "TLS: the server has no certificate"),
        ("no_encryption", "ALL:eNULL:@SECLEVEL=0", "encrypts nothing, or weakly"),
        ("old_tls", "ALL:@SECLEVEL=0", "TLS: TLSv1.1 is older than TLS 1.2"),
    ];
    for (fake, ciphers, wanted) in rows {
        let mut context = context(ciphers);
        context.set_max_proto_version(Some(SslVersion::TLS1_2)).unwrap();
        is_refused(&context.build(), port_of(fake), wanted);
    }
    open(&context("ALL:@SECLEVEL=0").build(), port_of("good")).unwrap();
}

/// Contexts whose callbacks take all.
fn tolerant() -> Vec<SslContext> {
    let mut by_callback = context("DEFAULT");
    by_callback.set_verify_callback(SslVerifyMode::PEER, |_, _| true);
    let mut forgets = context("DEFAULT");
    forgets.set_verify_callback(SslVerifyMode::PEER, |_, check| {
        check.set_error(openssl::x509::X509VerifyResult::OK);
        true
    });
    let whole = context("DEFAULT").build();
    // Safety: the context is one, and the callback is there as long as the program.
    unsafe {
        let context = whole.as_ptr().cast();
        SSL_CTX_set_cert_verify_callback(context, Some(takes_all), std::ptr::null_mut());
    }
    let mut none = context("DEFAULT");
    none.set_verify(SslVerifyMode::NONE);
    vec![by_callback.build(), forgets.build(), whole, none.build()]
}

#[test]
#[ignore = "it needs the fake servers"]
fn whatever_a_callback_says() {
    for (at, context) in tolerant().iter().enumerate() {
        for fake in ["other/server", "expired_server"] {
            is_refused(context, port_of(fake), "the server's certificate: ");
        }
        is_refused(
            context,
            port_of("wrong_host"),
            if at == 2 { "it does not name localhost" } else { "" },
        );
        is_refused(
            context,
            port_of("cn_only"),
            if at == 2 { "it does not name localhost" } else { "" },
        );
        is_refused(context, self_signed(), "the server's certificate: self");
        open(context, port_of("good")).unwrap();
    }
}

/// The port of a server with a certificate of the right name that signs itself.
fn self_signed() -> u16 {
    let group = EcGroup::from_curve_name(Nid::X9_62_PRIME256V1).unwrap();
    let key = PKey::from_ec_key(EcKey::generate(&group).unwrap()).unwrap();
    let mut name = X509Name::builder().unwrap();
    name.append_entry_by_text("CN", "localhost").unwrap();
    let name = name.build();
    let mut made = X509::builder().unwrap();
    made.set_version(2).unwrap();
    made.set_subject_name(&name).unwrap();
    made.set_issuer_name(&name).unwrap();
    made.set_pubkey(&key).unwrap();
    made.set_not_before(&Asn1Time::days_from_now(0).unwrap()).unwrap();
    made.set_not_after(&Asn1Time::days_from_now(1).unwrap()).unwrap();
    let mut alternative = SubjectAlternativeName::new();
    let names = alternative.dns("localhost").build(&made.x509v3_context(None, None)).unwrap();
    made.append_extension(names).unwrap();
    made.sign(&key, MessageDigest::sha256()).unwrap();
    let mut server = SslAcceptor::mozilla_intermediate_v5(SslMethod::tls()).unwrap();
    server.set_private_key(&key).unwrap();
    server.set_certificate(&made.build()).unwrap();
    let (server, listener) = (server.build(), TcpListener::bind(("127.0.0.1", 0)).unwrap());
    let port = listener.local_addr().unwrap().port();
    thread::spawn(move || server.accept(listener.accept().unwrap().0).map(drop));
    port
}

#[test]
#[ignore = "it needs the fake servers"]
fn whatever_openssls_configuration_allows() {
    let file = std::env::temp_dir().join(format!("metsuwan-{}.cnf", std::process::id()));
    let other = folder().join("other/ca.pem");
    let lines = format!(
        "openssl_conf=a\n[a]\nssl_conf=b\n[b]\nsystem_default=c\n[c]\n\
         CipherString=ALL:aNULL:eNULL:@SECLEVEL=0\nMinProtocol=TLSv1\nVerifyCAFile={other}\n\
         ChainCAFile={other}\n",
        other = other.display()
    );
    std::fs::write(&file, lines).unwrap();
    for fake in ["no_certificate", "no_encryption", "old_tls", "other/server"] {
        let words = ["--exact", "a_query_of_another_process", "--include-ignored", "--nocapture"];
        let mut program = Command::new(std::env::current_exe().unwrap());
        let made =
            program.args(words).env("OPENSSL_CONF", &file).env("FAKE", fake).output().unwrap();
        let said = String::from_utf8(made.stdout).unwrap();
        assert!(said.contains("ConnectError") && !said.contains("taken"), "{fake}: {said}");
    }
    std::fs::remove_file(&file).unwrap();
}

/// What the test above runs.
#[test]
#[ignore = "it needs the fake servers"]
fn a_query_of_another_process() {
    let Ok(fake) = std::env::var("FAKE") else { return };
    match connector(&fake, "localhost", "client").connect() {
        Ok(client) => println!("taken {:?}", client.build().query()),
        Err(error) => println!("{error}"),
    }
}

const REFUSED: &str = "ConnectError: the server refused the certificate: unknown CA";

#[test]
#[ignore = "it needs the fake servers"]
fn a_certificate_that_is_refused() {
    for size in [1, 1 << 22] {
        for waits in [false, true] {
            let client = client("refuses");
            if waits {
                // The alert has come before the call.
                thread::sleep(std::time::Duration::from_millis(500));
            }
            let error = client.sign("k", &vec![0; size]).unwrap_err();
            assert_eq!(error.to_string(), REFUSED);
            assert!(!error.was_sent() && error.is_lost() && !client.is_open());
        }
    }
    let early = connector("refuses_early", "localhost", "client").connect().map(drop);
    assert_eq!(early.unwrap_err().to_string(), REFUSED);
}

#[test]
#[ignore = "it needs the fake servers"]
fn with_that_the_call_is_not_made_again() {
    let kinds = Arc::new(Mutex::new(Vec::new()));
    let seen = Arc::clone(&kinds);
    let builder = connector("refuses", "localhost", "client").with_reconnect(true).connect();
    let builder = builder.unwrap().with_log(move |event| seen.lock().unwrap().push(event.kind));
    assert_eq!(builder.build().query().unwrap_err().to_string(), REFUSED);
    assert_eq!(*kinds.lock().unwrap(), [EventKind::Call]);
}

#[test]
#[ignore = "it needs the fake servers"]
fn what_was_sent() {
    assert!(client("end").query().unwrap_err().was_sent());
    let client = client("end_after");
    client.query().unwrap();
    let error = client.query().unwrap_err();
    assert!(matches!(error, Error::RequestWriteError(_)) && !error.was_sent(), "{error}");
}
