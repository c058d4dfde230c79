//! That it is known who a server is, whatever the context of a connection allows; and what the
//! server says of the client's certificate.
use crate::error::CertificateRefused;
use foreign_types::ForeignTypeRef;
use openssl::error::ErrorStack;
use openssl::ssl::{SslRef, SslVersion};
use openssl::x509::{X509Ref, X509VerifyResult};
use std::ffi::CString;
use std::net::IpAddr;
use std::os::raw::{c_char, c_int, c_long, c_uint, c_void};
use std::ptr;

/// A cipher of less encrypts nothing, or weakly.
const LEAST_BITS: i32 = 112;

/// OpenSSL's `X509_CHECK_FLAG_NO_PARTIAL_WILDCARDS | X509_CHECK_FLAG_NEVER_CHECK_SUBJECT`: a name is
/// one of the certificate's alternative names, and `*` stands for a whole label.
const HOW_NAMED: c_uint = 0x4 | 0x20;

/// OpenSSL's `SSL_CTRL_GET_VERIFY_CERT_STORE`, which OpenSSL 1.1.1 answers with nothing.
const GET_VERIFY_STORE: c_int = 137;

/// OpenSSL's `SSL_OP_NO_RENEGOTIATION | SSL_OP_NO_COMPRESSION`.
const NEITHER: u64 = 1 << 30 | 1 << 17;

type Verify = Option<unsafe extern "C" fn(*mut c_void) -> c_int>;
type Callback = unsafe extern "C" fn(c_int, *mut c_void) -> c_int;

// What the crate openssl, which links the library, does not have.
extern "C" {
    fn SSL_ctrl(ssl: *mut c_void, what: c_int, number: c_long, into: *mut c_void) -> c_long;
    fn SSL_set_options(ssl: *mut c_void, options: u64) -> u64;
    fn SSL_set_post_handshake_auth(ssl: *mut c_void, is_wanted: c_int);
    fn SSL_get_SSL_CTX(ssl: *const c_void) -> *mut c_void;
    fn SSL_CTX_get_cert_store(context: *const c_void) -> *mut c_void;
    fn SSL_get_peer_cert_chain(ssl: *const c_void) -> *mut c_void;
    fn SSL_get_security_level(ssl: *const c_void) -> c_int;
    fn SSL_get0_param(ssl: *mut c_void) -> *mut c_void;
    fn X509_STORE_CTX_new() -> *mut c_void;
    fn X509_STORE_CTX_free(check: *mut c_void);
    fn X509_STORE_CTX_cleanup(check: *mut c_void);
    fn X509_STORE_CTX_init(
        check: *mut c_void,
        trusted: *mut c_void,
        certificate: *mut c_void,
        chain: *mut c_void,
    ) -> c_int;
    fn X509_STORE_CTX_get_verify(check: *const c_void) -> Verify;
    fn X509_STORE_CTX_set_verify(check: *mut c_void, verify: Verify);
    fn X509_STORE_CTX_set_verify_cb(check: *mut c_void, callback: Callback);
    fn X509_STORE_CTX_set_default(check: *mut c_void, name: *const c_char) -> c_int;
    fn X509_STORE_CTX_get0_param(check: *const c_void) -> *mut c_void;
    fn X509_STORE_CTX_get_error(check: *const c_void) -> c_int;
    fn X509_VERIFY_PARAM_set_auth_level(param: *mut c_void, level: c_int);
    fn X509_VERIFY_PARAM_set1(to: *mut c_void, from: *const c_void) -> c_int;
    fn X509_verify_cert(check: *mut c_void) -> c_int;
    fn X509_check_host(
        certificate: *mut c_void,
        name: *const c_char,
        length: usize,
        flags: c_uint,
        peer: *mut *mut c_char,
    ) -> c_int;
    fn X509_check_ip_asc(certificate: *mut c_void, address: *const c_char, flags: c_uint) -> c_int;
}

/// What holds of each connection, whatever its context says: no compression, no second handshake, and
/// nobody is asked later who they are, so that no certificate is refused after a request was read.
pub(crate) fn insist(ssl: &mut SslRef) {
    let ssl = ssl.as_ptr().cast();
    // Safety: the connection is there.
    unsafe {
        SSL_set_options(ssl, NEITHER);
        SSL_set_post_handshake_auth(ssl, 0);
    }
}

/// Whether the handshake is one by which it is known who the server is, and what is sent is for it
/// alone, whatever the context and OpenSSL's configuration say. Else nothing is to be sent.
///
/// The context may be the caller's (`is_callers`): then what it trusts may stand in a store apart.
pub(crate) fn check(ssl: &SslRef, name: &str, is_callers: bool) -> Result<(), String> {
    if !matches!(ssl.version2(), Some(SslVersion::TLS1_2 | SslVersion::TLS1_3)) {
        return Err(format!("TLS: {} is older than TLS 1.2", ssl.version_str()));
    }
    let cipher = ssl.current_cipher();
    if !cipher.is_some_and(|cipher| cipher.bits().secret >= LEAST_BITS) {
        let name = cipher.map_or("none", |cipher| cipher.name());
        return Err(format!("TLS: {name} encrypts nothing, or weakly"));
    }
    if ssl.session_reused() {
        // Then no certificate is shown again.
        return Err("TLS: the session is an earlier one".into());
    }
    let peer = ssl.peer_certificate().ok_or("TLS: the server has no certificate")?;
    is_ok(ssl.verify_result())?;
    if !is_named(&peer, name) {
        return Err(format!("the server's certificate: it does not name {name}"));
    }
    // A callback of the context may have stood in the place of the verification.
    is_ok(verify_anew(ssl, &peer, is_callers))
}

fn is_ok(verified: X509VerifyResult) -> Result<(), String> {
    if verified == X509VerifyResult::OK {
        return Ok(());
    }
    Err(format!("the server's certificate: {}", verified.error_string()))
}

/// Whether the certificate has this name or address, asked apart from all that a context can set.
fn is_named(peer: &X509Ref, name: &str) -> bool {
    let Ok(text) = CString::new(name) else { return false };
    let peer = peer.as_ptr().cast();
    // Safety: the certificate and the text are there, and neither is kept.
    let found = match name.parse::<IpAddr>() {
        Ok(_) => unsafe { X509_check_ip_asc(peer, text.as_ptr(), HOW_NAMED) },
        Err(_) => unsafe {
            X509_check_host(peer, text.as_ptr(), name.len(), HOW_NAMED, ptr::null_mut())
        },
    };
    found == 1
}

/// What is wrong stays wrong, whatever a callback of the context's store would say.
unsafe extern "C" fn as_it_is(is_right: c_int, _: *mut c_void) -> c_int {
    is_right
}

/// A verification, which is freed at its end.
struct Check(*mut c_void);

impl Drop for Check {
    fn drop(&mut self) {
        // Safety: it is one, or null, and this is its end.
        unsafe { X509_STORE_CTX_free(self.0) }
    }
}

/// What the verification of the server's chain comes to, made as TLS makes it, with what the context
/// trusts, and with no callback of it.
fn verify_anew(ssl: &SslRef, peer: &X509Ref, is_callers: bool) -> X509VerifyResult {
    // Safety: the connection, its context and the certificate are there, and outlive the check.
    unsafe {
        let check = Check(X509_STORE_CTX_new());
        let is_right = !check.0.is_null()
            && prepare(&check, ssl.as_ptr().cast(), peer.as_ptr().cast(), is_callers)
            && X509_verify_cert(check.0) == 1;
        let error = if check.0.is_null() { -1 } else { X509_STORE_CTX_get_error(check.0) };
        match (is_right, error) {
            (false, 0) => X509VerifyResult::APPLICATION_VERIFICATION,
            (_, error) => X509VerifyResult::from_raw(error),
        }
    }
}

unsafe fn prepare(check: &Check, ssl: *mut c_void, peer: *mut c_void, is_callers: bool) -> bool {
    let Check(check) = *check;
    // What a verification is made by where a store says nothing else.
    if X509_STORE_CTX_init(check, ptr::null_mut(), peer, ptr::null_mut()) != 1 {
        return false;
    }
    let verify = X509_STORE_CTX_get_verify(check);
    X509_STORE_CTX_cleanup(check);
    let mut trusted: *mut c_void = ptr::null_mut();
    if is_callers {
        SSL_ctrl(ssl, GET_VERIFY_STORE, 0, ptr::addr_of_mut!(trusted).cast());
    }
    if trusted.is_null() {
        trusted = SSL_CTX_get_cert_store(SSL_get_SSL_CTX(ssl));
    }
    if X509_STORE_CTX_init(check, trusted, peer, SSL_get_peer_cert_chain(ssl)) != 1 {
        return false;
    }
    let param = X509_STORE_CTX_get0_param(check);
    X509_VERIFY_PARAM_set_auth_level(param, SSL_get_security_level(ssl));
    X509_STORE_CTX_set_verify(check, verify);
    X509_STORE_CTX_set_verify_cb(check, as_it_is);
    X509_STORE_CTX_set_default(check, b"ssl_server\0".as_ptr().cast()) == 1
        && X509_VERIFY_PARAM_set1(param, SSL_get0_param(ssl)) == 1
}

/// What an alert says of the client's certificate, where it refuses it (RFC 8446, 6.2). Under TLS 1.3
/// it comes after the handshake is done here, and before the server reads anything else (4.4.2.4 and
/// 4.4.3).
pub(crate) fn refusal_of(errors: &ErrorStack) -> Option<CertificateRefused> {
    // OpenSSL's reasons of alerts begin at 1000.
    let of_tls = errors.errors().iter().filter(|one| one.library() == Some("SSL routines"));
    let alerts = of_tls.filter_map(|one| (one.code() & 0xFFF).checked_sub(1000));
    alerts.into_iter().find_map(|alert| {
        let why = match alert {
            42 => "bad certificate",
            43 => "unsupported certificate",
            44 => "certificate revoked",
            45 => "certificate expired",
            46 => "certificate unknown",
            48 => "unknown CA",
            49 => "access denied",
            116 => "certificate required",
            _ => return None,
        };
        Some(CertificateRefused(why))
    })
}
