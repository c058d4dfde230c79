# shellcheck shell=bash disable=SC2154
# What the tools of Rust say of the command: nothing.
linter_says 'clippy finds nothing' cargo-clippy ' 0\.1\.95' rust-clippy \
    cargo_of_command clippy --all-targets -- -D warnings
layout() { (cd "$top/clients/command" && cargo fmt --check); }
linter_says 'the layout is that of rustfmt' rustfmt ' 1\.9\.' rustfmt layout
linter_says 'shellcheck finds nothing in kmip-test-server' shellcheck '^version: 0\.9\.' shellcheck \
    shellcheck "$top/clients/command/kmip-test-server"
find "$top/clients/command/src" -name '*.rs' -exec awk 'length > 100 { print FILENAME ": " $0 }' {} + >"$said"
[[ ! -s $said ]]
verdict 'no line is longer than 100 columns'
# It needs OpenSSL, libc, and what every program in Rust needs.
readelf -d "$kmip" | sed -n 's/.*NEEDED.*\[\(.*\)\]/\1/p' | grep -vE '^(libssl|libcrypto|libc|libgcc_s|ld-linux-x86-64)\.so' >"$said"
[[ ! -s $said ]]
verdict 'it is linked with OpenSSL, libc and libgcc_s alone'
