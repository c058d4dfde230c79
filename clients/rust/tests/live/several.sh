# shellcheck shell=bash
# Several servers, each of which fails in its way, and a crowd that calls two of them while they die by turns.
cp "$own/several.rs" "$own/crowd.rs" "$run/rust/source/examples"
cargo_of_copy build --release --features openssl --example several --example crowd >"$said" 2>&1
verdict 'the programs are built'
linter_says 'clippy finds nothing in them' cargo-clippy ' 0\.1\.95' rust-clippy \
    cargo_of_copy clippy --release --features openssl --example several --example crowd -- -D warnings
several=("$run/rust/target/release/examples/several")
. "$here/several.sh"
for way in clients pool; do
    crowd "200 by $way" 10000 "$run/rust/target/release/examples/crowd" "$way" 200 25 $((20 * slack))
done
