# shellcheck shell=bash
# What the tools of Rust say of the crate: nothing. What is published is whole.
linter_says 'clippy finds nothing' cargo-clippy ' 0\.1\.95' rust-clippy \
    cargo_of_copy clippy --release --all-targets --features "$(features_here)" -- -D warnings
linter_says 'clippy finds nothing in the crate over std alone' cargo-clippy ' 0\.1\.95' rust-clippy \
    cargo_of_copy clippy --release -- -D warnings
# (the folder is that of the repository, since it has the settings)
layout() { (cd "$top/clients/rust" && cargo fmt --check); }
linter_says 'the layout is that of rustfmt' rustfmt ' 1\.9\.' rustfmt layout
RUSTDOCFLAGS='-D warnings' cargo_of_copy doc --no-deps --features "$(features_here)" >"$said" 2>&1
verdict 'each public item has its documentation'
[[ -z $(cargo_of_copy tree --edges normal --prefix none --no-dedupe 2>"$said" | sed 1d) ]]
verdict 'without its features the crate stands on no other'
# What a later version may add to breaks no program.
awk '/^ *#\[non_exhaustive\]/ { open = 1 } /^ *(\/\/\/|#\[|$)/ { next }
    /^pub (enum|struct) / { kind = $2; name = FILENAME ": " $0; if (kind == "enum" && !open) print name; within = kind == "struct" && !open }
    within && /^    pub [a-z_]+:/ { print name; within = 0 } /^}/ { within = 0 } { open = 0 }' "$top"/clients/rust/src/*.rs >"$said" 2>&1
[[ ! -s $said ]]
verdict 'each public enumeration, and each structure with public fields, is non_exhaustive'
