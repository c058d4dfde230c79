//! What `use metsuwan::*` does to a program: its own `Result` is still the standard library's.
#![allow(clippy::wildcard_imports)]

use metsuwan::*;

/// The standard library's, with two types.
fn halved(text: &str) -> Result<u8, std::num::ParseIntError> {
    text.parse().map(|number: u8| number / 2)
}

/// The crate's, with one.
fn mac(item: &Item) -> Result<Vec<u8>> {
    item.bytes_at("MACData").map(<[u8]>::to_vec)
}

#[test]
fn results_of_both_kinds() {
    assert_eq!(halved("8"), Ok(4));
    assert!(halved("x").is_err());
    assert!(mac(&Item::new("ResponsePayload", Vec::<Item>::new())).is_err());
}
