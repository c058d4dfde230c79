# shellcheck shell=bash
# needs: server
# Operations, keys and certificates past the calls of words.
cp "$own/operations.rs" "$run/rust/source/examples"
linter_says 'clippy finds nothing in the operations' cargo-clippy ' 0\.1\.95' rust-clippy \
    cargo_of_copy clippy --release --features openssl --example operations -- -D warnings
cargo_of_copy build --release --features openssl --example operations >"$said" 2>&1
verdict 'the operations are built'
patience=200 client_run operations "$certs/objects" "$work" 2>"$said"
verdict 'operations ends well'
. "$here/registered.sh"
