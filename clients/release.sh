#!/bin/bash
# Makes packages of binaries for Linux on x86-64, so that who deploys needs no toolchain.
#
#   clients/release.sh [--built FOLDER] TARGET
#
#   TARGET/metsuwan-VERSION-linux-x86_64.tar.gz     all that clients/install.sh installs, in one folder that may lie anywhere
#   TARGET/metsuwan_VERSION_amd64.deb               the same as a package of Debian
#   TARGET/metsuwan-VERSION-py3-none-..whl          the wheel for Python 3.8 or later, with the library in it
#   TARGET/metsuwan-VERSION.crate                   the sources of the crate for Rust, as `cargo package` makes them
#   TARGET/SHA256SUMS                               their sums: sha256sum -c SHA256SUMS
#
# VERSION is that of the sources, with what the library says of itself where that is not that it is proved, so that the proved
# one is the newer: 2.0+not.proved in the tarball's name, 2.0~not.proved as Debian has it, 2.0.dev0+not.proved for Python,
# 2.0.0-notproved for Rust.
#
#   --built FOLDER   the folder that `clients/build.sh --whole` made; `built` at the top of the repository where it is not
#                    given. What it has not is left out, which is said
#   --help           prints this
#
# It needs what clients/install.sh needs, tar, gzip and dpkg-deb (Debian: dpkg). Where python3, or the
# one that PYTHON names, has no pip, setuptools and wheel the wheel is left out, and without cargo the crate, which is said. Two runs over the same files make the same
# bytes: times are those of the last commit, or of SOURCE_DATE_EPOCH.
set -eu

give_up() { # TEXT
    printf 'release.sh: %s\n' "$*" >&2
    exit 1
}

usage() {
    sed -n '4s/^# */usage: /p' "$0" >&2
    exit 2
}

top=$(cd "$(dirname "$0")/.." && pwd)
built=$top/built target=''
while (($#)); do
    case $1 in
    --help) sed -n '2,/^set/{/^set/d;s/^# \{0,1\}//p}' "$0" && exit ;;
    --built)
        (($# > 1)) || usage
        built=$2
        shift
        ;;
    -*) usage ;;
    *)
        [[ -z $target && -n $1 ]] || usage
        target=$1
        ;;
    esac
    shift
done
[[ -n $target ]] || usage
for tool in gcc:gcc make:make tar:tar gzip:gzip dpkg-deb:dpkg readelf:binutils; do
    type -P "${tool%:*}" >/dev/null || give_up "there is no ${tool%:*} (Debian: apt-get install ${tool#*:})"
done
[[ $(uname -sm) == 'Linux x86_64' ]] || give_up 'it is made for Linux on x86-64, and there alone'
[[ -f $built/libmetsuwan.a ]] || give_up "there is no $built/libmetsuwan.a: clients/build.sh makes it"
built=$(cd "$built" && pwd)
mkdir -p "$target"
target=$(cd "$target" && pwd)
SOURCE_DATE_EPOCH=${SOURCE_DATE_EPOCH:-$(git -C "$top" log -1 --format=%ct 2>/dev/null || date +%s)}
export SOURCE_DATE_EPOCH
work=$(mktemp -d -t kmip-release-XXXXXX)
trap 'rm -rf "$work"' EXIT
umask 022

# What the library says: its version, and of its proof.
say_version() {
    printf '%s\n' '#include <stdio.h>' '#include "metsuwan.h"' 'int main(void) { return puts(kmip_version()) < 0; }' |
        gcc -x c -I"$top/clients/c" -o "$work/version" - -x none "$built/libmetsuwan.a"
    "$work/version"
}

# Which C library is new enough for all programs and libraries below a folder.
newest_glibc() { # FOLDER
    find "$1" -type f -exec readelf -V {} + 2>/dev/null | grep -oE 'GLIBC_2\.[0-9]+' | sort -uV | tail -1 | sed 's/GLIBC_//'
}

pack() { # FILE FOLDER NAME: a tar that tells nothing of who made it
    tar --sort=name --owner=0 --group=0 --numeric-owner --mtime="@$SOURCE_DATE_EPOCH" -C "$2" -cf - "$3" | gzip -n9 >"$1"
}

# The folder that may lie anywhere: its .pc files say where they are, and pkg-config goes on from there.
make_tar() {
    local name=metsuwan-$version-linux-x86_64 file
    mkdir "$work/$name"
    "$top/clients/install.sh" --built "$built" --prefix /P --destdir "$work/staged"
    mv "$work/staged/P"/* "$work/$name"
    for file in "$work/$name"/lib/pkgconfig/*.pc; do
        # shellcheck disable=SC2016 # pkg-config's own names
        sed -i 's|^prefix=/P$|prefix=${pcfiledir}/../..|; s|=/P/|=${prefix}/|' "$file"
    done
    cp "$top/LICENSE" "$work/$name"
    printf 'Metsuwan %s, for Linux on x86-64 with glibc %s or later; libmetsuwan_tls and the provider want OpenSSL 3.\n' \
        "$version" "$(newest_glibc "$work/$name")" >"$work/$name/VERSION"
    pack "$target/$name.tar.gz" "$work" "$name"
    files+=("$name.tar.gz")
}

make_deb() {
    local root=$work/deb name=metsuwan_${of_debian}_amd64.deb summary='whose requests and answers a proved library makes'
    if [[ -n $note ]]; then summary="compiled to try it out ($note)"; fi
    mkdir "$root"
    "$top/clients/install.sh" --built "$built" --prefix /usr --libdir /usr/lib/x86_64-linux-gnu --destdir "$root" 2>/dev/null
    mv "$root/usr/share/doc/metsuwan/LICENSE" "$root/usr/share/doc/metsuwan/copyright"
    find "$root/usr/share/man" -type f -exec gzip -n9 {} +
    mkdir "$root/DEBIAN"
    cat >"$root/DEBIAN/control" <<CONTROL
Package: metsuwan
Version: $of_debian
Architecture: amd64
Maintainer: the founders of Metsuwan <metsuwan@localhost>
Section: utils
Priority: optional
Installed-Size: $(du -sk --apparent-size "$root/usr" | cut -f1)
Depends: libc6 (>= $(newest_glibc "$root/usr")), libssl3 | libssl3t64, libgcc-s1
Recommends: bash (>= 5.0), openssl (>= 3.0), jq, util-linux, coreutils
Suggests: bash-completion, pkgconf, libssl-dev, python3-pykmip
Description: KMIP client $summary
 Calls of a key server by KMIP 1.0 to 1.2: the program kmip_call and functions
 of bash over it, libraries for C with their headers, and where they were built
 the command kmip, the provider for OpenSSL 3, the encoder of JSON and XML, and
 the page that shows captured messages. kmip_test_server starts PyKMIP to try
 them with.
CONTROL
    echo 'activate-noawait ldconfig' >"$root/DEBIAN/triggers"
    find "$root" -exec touch -h -d "@$SOURCE_DATE_EPOCH" {} +
    dpkg-deb --root-owner-group --build "$root" "$target/$name" >/dev/null
    files+=("$name")
}

# The wheel, out of a copy whose version sorts below the proved one where it is not proved.
make_wheel() {
    local lacking made python=${PYTHON:-python3}
    lacking=$("$python" -c 'import importlib.util as it
print(*(name for name in ("pip", "setuptools", "wheel") if it.find_spec(name) is None))' 2>/dev/null) || lacking=venv
    if [[ -n $lacking ]]; then
        echo "release.sh: the wheel is left out: there is no $lacking for $python (Debian: apt-get install python3-${lacking%% *})" >&2
        return
    fi
    cp -r "$top/clients/python" "$work/python"
    if [[ -n $note ]]; then sed -i "s/^__version__ = '\(.*\)'/__version__ = '\1.dev0'/" "$work/python/metsuwan/version.py"; fi
    LIBMETSUWAN=$built/libmetsuwan.so "$python" -m pip wheel --quiet --no-index --no-deps --no-build-isolation \
        --wheel-dir "$work/wheels" "$work/python" >"$work/wheel.log" 2>&1 || give_up "no wheel: $(tail -3 "$work/wheel.log")"
    made=$(cd "$work/wheels" && echo metsuwan-*.whl)
    mv "$work/wheels/$made" "$target"
    files+=("$made")
}

# The crate's sources, without a lock file of what its examples stand on, which cargo would look up in a registry.
make_crate() {
    local made words=(--quiet --allow-dirty --no-verify)
    if ! type -P cargo >/dev/null; then
        echo 'release.sh: the crate is left out: there is no cargo (Debian: apt-get install cargo-web)' >&2
        return
    fi
    cp -r "$top/clients/rust" "$work/rust"
    rm -rf "$work/rust/target"
    if [[ -n $note ]]; then sed -i "0,/^version = /s/^version = \"\(.*\)\"/version = \"\1-${note// /}\"/" "$work/rust/Cargo.toml"; fi
    if cargo package --help 2>/dev/null | grep -q -e --exclude-lockfile; then words+=(--exclude-lockfile --offline); fi
    if ! (cd "$work/rust" && CARGO_TARGET_DIR=$work/cargo cargo package "${words[@]}") >"$work/crate.log" 2>&1; then
        echo "release.sh: the crate is left out: $(tail -3 "$work/crate.log")" >&2
        return
    fi
    made=$(cd "$work/cargo/package" && echo metsuwan-*.crate)
    mv "$work/cargo/package/$made" "$target"
    files+=("$made")
}

said=$(say_version)
number=${said%%,*} note=${said#*, }
if [[ $note == proved ]]; then note=''; fi
version=$number${note:++${note// /.}} of_debian=$number${note:+\~${note// /.}}
files=()
make_tar
make_deb
make_wheel
make_crate
(cd "$target" && sha256sum "${files[@]}" >SHA256SUMS && cat SHA256SUMS)
