#!/bin/bash
# Builds what the clients stand on, into a folder.
#
#   clients/build.sh [--unproved] [--encoder] [--command] [--provider] [--whole] [--program FILE] [--library FILE] FOLDER
#
#   FOLDER/kmip_call         the program: one call over its standard input and output
#   FOLDER/libmetsuwan.a     the library of metsuwan.h, for C and Rust
#   FOLDER/libmetsuwan.so    the same, for Python
#   FOLDER/metsuwan.h        its header
#
# Without --unproved the crates kmip_call and kmip_c, and those below them, are proved first: some 120 processor minutes from
# nothing, and minutes where `rt ci` passed on this machine before, in whichever checkout of these files. Each crate is shown
# as it ends, as one of how many, with the time so far, and nothing is written into the checkout. What is in FOLDER already, and
# was made of the same files by the same toolchain, is not made again. clients/install.sh installs what is in the folder.
#
#   --unproved       compiles at once, and checks no contract: to try things out. It takes some 4 processor minutes; the
#                    encoder, the provider and the page take 3 more
#   --encoder        also makes FOLDER/kmip_ttlv, the program that turns items into JSON and XML, and back
#   --command        also makes FOLDER/kmip, the command, with its manual pages in FOLDER/man, and FOLDER/kmip_ttlv
#   --provider       also makes FOLDER/metsuwan.so, the provider for OpenSSL 3 (docs/OPENSSL.md)
#   --whole          makes all of these, and FOLDER/kmip.html, the page that shows captured messages (clients/web/build.sh)
#   --program FILE   takes this kmip_call, which was built before
#   --library FILE   takes this libkmip_c.a, which was built before
#   --help           prints this
#
# It needs gcc, make and binutils, and where a part is built also python3 and the Rattle toolchain's `rt` on the path (README.md
# says which). The command needs cargo and Debian's packages of crates (clients/command/README.md), or a network. FOLDER/build.log has what they wrote. A FILE is copied, and `kmip_version()` says whether the library is proved.
set -eu

give_up() { # TEXT
    printf 'build.sh: %s\n' "$*" >&2
    exit 1
}

usage() {
    sed -n '4s/^# */usage: /p' "$0" >&2
    exit 2
}

unproved='' encoder='' command='' provider='' page='' program='' library='' folder=''
while (($#)); do
    case $1 in
    --help) sed -n '2,/^set/{/^set/d;s/^# \{0,1\}//p}' "$0" && exit ;;
    --unproved) unproved=1 ;;
    --encoder) encoder=1 ;;
    --command) encoder=1 command=1 ;;
    --provider) provider=1 ;;
    --whole) encoder=1 command=1 provider=1 page=1 ;;
    --program | --library)
        (($# > 1)) || usage
        [[ -f $2 ]] || give_up "there is no file $2"
        if [[ $1 == --program ]]; then program=$(realpath "$2"); else library=$(realpath "$2"); fi
        shift
        ;;
    -*) usage ;;
    *)
        [[ -z $folder && -n $1 ]] || usage
        folder=$1
        ;;
    esac
    shift
done
[[ -n $folder ]] || usage
top=$(cd "$(dirname "$0")/.." && pwd)

# What is missing, and the Debian package that has it.
missing=()
needs() { # COMMAND PACKAGE
    type -P "$1" >/dev/null || missing+=("$1 (Debian: apt-get install $2)")
}
if [[ -z $program || -z $library || -n $encoder ]]; then
    type -P rt >/dev/null || missing+=('rt (the Rattle toolchain; no package of Debian: README.md says where it is from)')
    needs python3 python3
fi
needs gcc gcc
needs ar binutils
needs make make
if [[ -n $command ]]; then
    needs cargo cargo
    needs rustc rustc
fi
if ((${#missing[@]})); then
    printf 'build.sh: missing: %s\n' "${missing[@]}" >&2
    exit 1
fi

mkdir -p "$folder"
folder=$(cd "$folder" && pwd)
log=$folder/build.log
: >"$log"

# What a part is made of: the files of the crates, how they are compiled, and the toolchain.
sources() { # PROVED|UNPROVED
    local kit
    kit=$(dirname "$(rt doc)")
    echo "$1"
    stat -c '%s %Y %n' "$kit/bin/"* 2>/dev/null
    (cd "$top" && find crates.txt crates tools/build.py tools/inline_hints.py -type f -not -path '*/out/*' -print0 |
        sort -z | xargs -0 sha256sum)
}
# Whether FILE is there as it was made of these sources; the sum of both is kept in FOLDER/.made.
is_made() { # FILE
    local name=${1##*/}
    [[ -f $1 && -f $folder/.made ]] && grep -qxF "$name $made_of $(sha256sum <"$1")" "$folder/.made"
}
note_made() { # FILE
    local name=${1##*/} others=''
    if [[ -f $folder/.made ]]; then others=$(grep -v "^$name " "$folder/.made") || :; fi
    printf '%s\n' "$others" "$name $made_of $(sha256sum <"$1")" | sed '/^$/d' >"$folder/.made"
}

step() { # TEXT COMMAND..: a line before and after
    local text=$1 from=$SECONDS
    shift
    printf '%s .. ' "$text"
    if ! "$@" >>"$log" 2>&1; then
        printf 'FAILED\n'
        tail -20 "$log" >&2
        give_up "$log has the whole of it"
    fi
    printf '%d s\n' $((SECONDS - from))
}

proved() { # KIND CRATE FILE: a line for each crate
    if ! python3 "$top/tools/build.py" --proved "$@" "$top" 2>>"$log"; then
        tail -20 "$log" >&2
        give_up "$log has the whole of it"
    fi
}

# Copies a program to where an older one may be running, which goes on with its own file.
put() { # PROGRAM FILE
    cp "$1" "$2.new" && mv -f "$2.new" "$2"
}

made() { # KIND CRATE FILE TEXT
    if is_made "$3"; then
        printf '%s .. is there, made before of the same files\n' "$4"
        return
    fi
    if [[ -n $unproved ]]; then
        step "$4" python3 "$top/tools/build.py" --unproved "${@:1:3}" "$top"
    else
        echo "$4:"
        proved "${@:1:3}"
    fi
    note_made "$3"
}

if [[ -z $program || -z $library || -n $encoder ]]; then
    if [[ -n $unproved ]]; then
        echo 'Compiled with no proof: some 4 processor minutes, as many by the clock where nothing else runs.'
    else
        echo 'Each crate is proved: some 120 processor minutes from nothing, minutes where rt ci passed here before; 4 with --unproved.'
    fi
    made_of=$(sources "${unproved:-proved}" | sha256sum)
fi
if [[ -z $program ]]; then
    made program kmip_call "$folder/kmip_call" 'kmip_call'
elif [[ ! $program -ef $folder/kmip_call ]]; then
    put "$program" "$folder/kmip_call"
fi
if [[ -n $encoder ]]; then made program kmip_ttlv "$folder/kmip_ttlv" 'kmip_ttlv'; fi

# The command, over the library of this folder, in a copy of the sources, since cargo writes beside them. Where Debian's
# packages have all crates no network is asked.
crates=/usr/share/cargo/registry
has_crates() {
    local crate
    for crate in clap dirs indicatif libc openssl rpassword serde_json shlex signal-hook zeroize r2d2 tokio tracing; do
        compgen -G "$crates/$crate-[0-9]*" >/dev/null || return
    done
}
make_command() {
    local words=()
    if has_crates; then
        words=(--offline --config 'source.crates-io.replace-with="debian"' --config "source.debian.directory=\"$crates\"")
    fi
    mkdir "$work/sources" &&
        cp -r "$top/clients/rust" "$top/clients/command" "$work/sources" &&
        (cd "$work/sources/command" &&
            LIBMETSUWAN_DIR=$folder CARGO_TARGET_DIR=$work/target cargo build --release ${words[@]+"${words[@]}"}) &&
        put "$work/target/release/kmip" "$folder/kmip" &&
        mkdir -p "$folder/man" &&
        "$folder/kmip" __man "$folder/man"
}

# The library, for the two ways of linking. It is made in a folder whose path has no space, which neither make nor ar knows.
# A library of the caller's is copied there, and stays as it is.
work=$(mktemp -d -t kmip-build-XXXXXX)
trap 'rm -rf "$work"' EXIT
proof='proof unknown'
if [[ -n $library ]]; then
    cp "$library" "$work/libkmip_c.a"
else
    made library kmip_c "$folder/.libkmip_c.a" 'the library'
    cp "$folder/.libkmip_c.a" "$work/libkmip_c.a"
    if [[ -z $unproved ]]; then proof=proved; fi
fi
if ! make -s -C "$top/clients/c" library CORE="$work/libkmip_c.a" OUT="$work" PROOF="$proof" >>"$log" 2>&1; then
    tail -20 "$log" >&2
    give_up 'no library'
fi
rm "$work/libkmip_c.a"
if [[ -n $provider ]]; then
    step 'the provider for OpenSSL' make -s -C "$top/clients/openssl" BUILT="$work" OUT="$work"
    rm "$work"/openssl_*.o
fi
mv "$work"/* "$folder"
if [[ -n $command ]]; then
    mkdir "$work/command"
    work=$work/command step 'the command kmip' make_command
fi
if [[ -n $page ]]; then
    "$top/clients/web/build.sh" ${unproved:+--unproved} "$work/page"
    mv "$work"/page/kmip*.html "$folder"
fi
printf 'made %s: %s\n' "$folder" \
    "$(cd "$folder" && echo kmip_call ${encoder:+kmip_ttlv} ${command:+kmip} lib*.a lib*.so ${provider:+metsuwan.so} *.h ${page:+kmip*.html})"

# What the clients themselves stand on.
missing=()
needs openssl openssl
needs jq jq
needs flock util-linux
if ((${#missing[@]})); then printf "the shell's client also wants %s\n" "${missing[@]}"; fi
missing=()
[[ -e /usr/include/openssl/ssl.h ]] || missing+=('the headers of OpenSSL (Debian: apt-get install libssl-dev)')
if ((${#missing[@]})); then printf 'the client in C also wants %s\n' "${missing[@]}"; fi
missing=()
needs rustc rustc
needs cargo cargo
if ((${#missing[@]})); then printf 'the client in Rust also wants %s\n' "${missing[@]}"; fi
