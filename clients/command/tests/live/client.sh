# shellcheck shell=bash disable=SC2034,SC2154
# How the harness builds and runs the command `kmip`.

crates=/usr/share/cargo/registry
# What it stands on beside what the client in Rust stands on.
own_crates=(clap dirs indicatif libc openssl rpassword serde_json shlex signal-hook zeroize)

client_needs() {
    local crate
    # (rustup leaves a cargo that has no toolchain)
    cargo --version >/dev/null 2>&1 || echo cargo
    rustc --version >/dev/null 2>&1 || echo rustc
    command -v cc >/dev/null || echo gcc
    for crate in "${own_crates[@]}"; do
        compgen -G "$crates/$crate-[0-9]*" >/dev/null || echo "librust-${crate/_/-}-dev"
    done
    [[ -e $built/libmetsuwan.a ]] || echo 'libmetsuwan.a (clients/build.sh)'
}

# cargo WORD.. in a copy of the crate and of the client in Rust, since it writes a Cargo.lock; with Debian's crates, so that
# no network is needed, and without a user's settings.
cargo_of_command() { # COMMAND WORD..
    (cd "$run/command/source/command" && unset RUSTFLAGS RUSTC_WRAPPER && export CARGO_HOME=$run/command/home &&
        LIBMETSUWAN_DIR=$built CARGO_TARGET_DIR=$run/command/target ${limit[@]+"${limit[@]}"} cargo "$1" --offline \
            --config 'source.crates-io.replace-with="debian"' --config "source.debian.directory=\"$crates\"" "${@:2}")
}

client_build() {
    local feature
    mkdir -p "$run/command/source/tests" &&
        cp -r "$top/clients/rust" "$top/clients/command" "$run/command/source" &&
        cp -r "$top/clients/tests/conf" "$run/command/source/tests" || return
    # cargo wants the crates of all features of the client in Rust, also of those that nobody asks for.
    for feature in r2d2 tokio tracing; do
        compgen -G "$crates/$feature-[0-9]*" >/dev/null ||
            sed -i "s/^$feature = \\[.*/$feature = []/; /^$feature = {/d" "$run/command/source/rust/Cargo.toml" || return
    done
    # (what is installed is made smaller and takes longer to build)
    cargo_of_command build --release --config profile.release.lto=false --config profile.release.codegen-units=16
}

kmip=$run/command/target/release/kmip

# `call` takes the words of kmip_call, which the cases for each client have.
client_program() { # NAME
    case $1 in
    call) program=("$python" -B "$top/clients/command/tests/live/call.py" "$kmip") ;;
    *) program=(env "KMIP=$kmip" "$top/clients/command/examples/$1.sh") ;;
    esac
}

# kmip WORD.., with the server and the certificates that are set
kmip_here() {
    METSUWAN_CONF=/dev/null METSUWAN_SERVER=$host:$port METSUWAN_CERTIFICATE=$certificate METSUWAN_KEY=$key \
        METSUWAN_AUTHORITY=$authority METSUWAN_SECONDS=${KMIP_TIMEOUT-200} timeout -k 2 $((20 * slack)) "$kmip" "$@"
}

kmip_is() { # WHAT STATUS WORD..
    local status
    kmip_here "${@:3}" >"$said" 2>&1 </dev/null
    status=$?
    if ((status != $2)); then printf 'status %d in place of %d\n' "$status" "$2" >>"$said"; fi
    ((status == $2)) && ! grep -qE 'panicked|core dumped' "$said"
    verdict "$1"
}
