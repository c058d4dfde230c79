# shellcheck shell=bash
# How the harness builds and runs the client in Rust.

crates=/usr/share/cargo/registry

client_needs() {
    # (rustup leaves a cargo that has no toolchain)
    cargo --version >/dev/null 2>&1 || echo cargo
    rustc --version >/dev/null 2>&1 || echo rustc
    command -v cc >/dev/null || echo gcc
    compgen -G "$crates/openssl-0.10*" >/dev/null || echo librust-openssl-dev
    [[ -e $built/libmetsuwan.a ]] || echo 'libmetsuwan.a (clients/build.sh)'
}

# cargo WORD.. in a copy of the crate, since it writes a Cargo.lock; with Debian's crates, so that no network is needed, and
# without a user's settings.
cargo_of_copy() { # COMMAND WORD..
    (cd "$run/rust/source" && unset RUSTFLAGS RUSTC_WRAPPER && export CARGO_HOME=$run/rust/home &&
        LIBMETSUWAN_DIR=$built CARGO_TARGET_DIR=$run/rust/target ${limit[@]+"${limit[@]}"} cargo "$1" --offline \
            --config 'source.crates-io.replace-with="debian"' --config "source.debian.directory=\"$crates\"" "${@:2}")
}

# Whether the crate of an optional feature is here: client_needs does not want these.
has_crate() { # FEATURE
    compgen -G "$crates/$1-[0-9]*" >/dev/null
}

# The features that can be built here, as cargo takes them.
features_here() {
    local feature all=openssl
    for feature in r2d2 tokio tracing; do
        if has_crate "$feature"; then all+=,$feature; fi
    done
    printf '%s\n' "$all"
}

client_build() {
    local feature
    cp -r "$top/clients/rust" "$run/rust/source" || return
    # cargo wants the crates of all features, also of those that nobody asks for.
    for feature in r2d2 tokio tracing; do
        has_crate "$feature" ||
            sed -i "s/^$feature = \\[.*/$feature = []/; /^$feature = {/d" "$run/rust/source/Cargo.toml" || return
    done
    cargo_of_copy build --release --features openssl --examples
}

client_program() { # NAME
    program=("$run/rust/target/release/examples/$1")
}
