//! A KMIP client over any stream. The library below it, which makes the requests and checks the
//! responses, is proved; this crate moves the bytes. The names are those of the crate
//! kmip-protocol.
//!
//! With the feature `openssl`, `TlsConnector` makes the connection:
//!
#![cfg_attr(feature = "openssl", doc = "```no_run")]
#![cfg_attr(not(feature = "openssl"), doc = "```ignore")]
//! # fn main() -> metsuwan::Result<()> {
//! use metsuwan::TlsConnector;
//!
//! let client = TlsConnector::new("localhost", 5696)
//!     .with_certificate("client.pem", "client.key")
//!     .with_authority("ca.pem")
//!     .connect()?
//!     .build();
//! let (private_key, _public_key) =
//!     client.create_rsa_key_pair(2048, "issuing".into(), "issuing, public".into())?;
//! client.activate_key(&private_key)?;
//! let signature = client.sign(&private_key, b"to be signed")?.signature_data;
//! # let _ = signature; Ok(()) }
//! ```
//!
//! Three more features stand on the crates of their names: `r2d2` brings `Manager`, for a pool of
//! that crate; `tokio` brings `AsyncClient` and `AsyncPool`, whose calls are awaited and take a
//! thread each; with `tracing` that crate is told of each [`Event`].
#![warn(missing_docs)]

mod answer;
#[cfg(feature = "tokio")]
mod asynchronous;
mod batch;
mod calls;
#[cfg_attr(not(feature = "openssl"), allow(dead_code))] // what connects over TLS uses all of it
mod carrier;
mod client;
#[cfg(feature = "openssl")]
mod connector;
mod error;
#[cfg(feature = "openssl")]
mod identity;
mod item;
mod json;
mod keys;
#[cfg(feature = "openssl")]
mod known;
pub mod library;
mod log;
#[cfg(feature = "r2d2")]
mod manager;
mod names;
mod options;
mod payload;
mod pem;
mod pool;
mod process;
#[cfg(feature = "openssl")]
mod race;
mod record;
#[cfg_attr(not(feature = "openssl"), allow(dead_code))]
mod servers;
#[cfg_attr(not(feature = "openssl"), allow(dead_code))]
mod time;
#[cfg(feature = "openssl")]
mod tls;
mod word;

pub use answer::Answer;
#[cfg(feature = "tokio")]
pub use asynchronous::{AsyncClient, AsyncPool};
pub use batch::{Batch, BatchErrorContinuationOption};
pub use client::{Client, ClientBuilder, Options, DEFAULT_LIMIT};
#[cfg(feature = "openssl")]
pub use connector::{TlsConnector, DEFAULT_TIMEOUT};
pub use error::{CertificateRefused, Details, Error, Result};
pub use item::{Item, Value};
pub use json::{Json, Text};
pub use keys::SecretDataType;
pub use log::{Event, EventKind};
#[cfg(feature = "r2d2")]
pub use manager::Manager;
pub use names::{
    CryptographicAlgorithm, CryptographicUsageMask, HashingAlgorithm, KeyFormatType, NotInTable,
    ObjectType, PaddingMethod, RevocationReasonCode, State,
};
pub use options::{
    AttributeValue, Create, CreateRsa, Get, KeyKind, NewKey, Register, Revoke, Sign,
};
pub use payload::{
    Attribute, GetResponsePayload, ModifyAttributeResponsePayload, ProtocolVersion,
    QueryResponsePayload, RNGRetrieveResponsePayload, SignResponsePayload,
};
pub use pool::{Pool, PooledClient};
pub use record::RecordFile;
#[cfg(feature = "openssl")]
pub use servers::Order;
#[cfg(feature = "openssl")]
pub use tls::{TlsClient, TlsStream};
pub use word::Word;

/// The examples of README.md.
#[cfg(all(doctest, feature = "openssl"))]
#[doc = include_str!("../README.md")]
struct Readme;
