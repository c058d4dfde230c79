#!/bin/bash
# Installs what clients/build.sh made, and takes it away again.
#
#   clients/install.sh [uninstall] [--prefix P] [--destdir D] [--libdir L] [--modulesdir M] [--built FOLDER]
#
#   P/bin/kmip_call, kmip_ttlv              the program, and the encoder of JSON and XML
#   P/bin/kmip, kmip-test-server            the command, and a server to try it with (P/share/metsuwan/tools)
#   P/bin/kmip.sh, kmip_keys.sh             the functions of bash: `. kmip.sh` finds them on the path
#   L/libmetsuwan.*, libmetsuwan_tls.*      the libraries, static and shared, and L/pkgconfig for pkg-config
#   P/include/metsuwan.h, metsuwan_tls.h    their headers
#   M/metsuwan.so                           the provider for OpenSSL 3
#   P/share/man                             manual pages
#   P/share/bash-completion/completions     completion in bash
#   P/bin/kmip_test_server                  a server to try things with, PyKMIP (tools/test_server.sh)
#   P/bin/kmip_try_server                   what a server of yours does of the calls (tools/try_server.sh)
#   P/share/zsh/site-functions/_kmip        completion of the command in zsh
#   P/share/metsuwan/kmip.html              the page that shows captured messages
#   P/share/metsuwan/tools                  what kmip_test_server starts
#   P/share/doc/metsuwan                    LICENSE, the documents, and examples
#
#   uninstall          takes away all of this, and nothing else
#   --prefix P         an absolute path; /usr/local where it is not given
#   --destdir D        all is put below this folder, as for a package
#   --libdir L         P/lib where it is not given
#   --modulesdir M     L/ossl-modules where it is not given; OpenSSL looks there where L is that of its own libraries, and
#                      elsewhere by a line `module =` of openssl.cnf
#   --built FOLDER     the folder that clients/build.sh made; `built` at the top of the repository where it is not given
#   --help             prints this
#
# What the folder has not is left out, which is said: `clients/build.sh --whole FOLDER` makes all. It needs gcc, make,
# binutils and OpenSSL's headers for the client in C. A system that has not seen the libraries before wants `ldconfig`.
set -eu

give_up() { # TEXT
    printf 'install.sh: %s\n' "$*" >&2
    exit 1
}

usage() {
    sed -n '4s/^# */usage: /p' "$0" >&2
    exit 2
}

uninstall='' prefix=/usr/local destdir='' libdir='' modules='' built=''
while (($#)); do
    case $1 in
    --help) sed -n '2,/^set/{/^set/d;s/^# \{0,1\}//p}' "$0" && exit ;;
    uninstall) uninstall=1 ;;
    --prefix | --destdir | --libdir | --modulesdir | --built)
        [[ -n ${2-} ]] || usage
        case $1 in
        --prefix) prefix=${2%/} ;;
        --destdir) destdir=$2 ;;
        --libdir) libdir=$2 ;;
        --modulesdir) modules=$2 ;;
        --built) built=$2 ;;
        esac
        shift
        ;;
    *) usage ;;
    esac
    shift
done
libdir=${libdir:-$prefix/lib}
modules=${modules:-$libdir/ossl-modules}
for path in "${prefix:-/}" "$libdir" "$modules"; do
    # make and ld know no such path.
    [[ $path == /* && $path != *[[:space:]]* ]] || give_up "$path is no absolute path without spaces"
done
top=$(cd "$(dirname "$0")/.." && pwd)
if [[ -n $destdir ]]; then
    mkdir -p "$destdir"
    destdir=$(cd "$destdir" && pwd)
fi
share=$destdir$prefix/share
pages=(kmip_call.1 kmip.sh.1 kmip_ttlv.1)
# The completion is found by the name of the command that is completed.
completed=(kmip_call kmip_field kmip_open kmip_without)

tools=(test_server.sh live/certs.sh live/start_server.sh)
# The documents, which keep their folders, since links lead from one to another.
mapfile -t papers < <(cd "$top" && printf '%s\n' {README,CHANGELOG,SECURITY}.md docs/*.{md,png} clients/{,*/}README.md \
    clients/{shell,c,python}/{call,life,rotate}.{sh,c,py} clients/python/output.py clients/rust/examples/*.rs |
    while read -r paper; do if [[ -f $paper ]]; then echo "$paper"; fi; done)

work=$(mktemp -d -t kmip-install-XXXXXX)
trap 'rm -rf "$work"' EXIT

# The libraries, by their own rules, in a folder without a space.
libraries() { # TARGET
    cp -r "$top/clients/c" "$work/c"
    make -s -C "$work/c" "$1" BUILT="$work" OUT="$work" PREFIX="$prefix" LIBDIR="$libdir" DESTDIR="$destdir" \
        CFLAGS="${CFLAGS:--O2 -g} -ffile-prefix-map=$work=."
}

put() { # MODE FILE TARGET: the file, where it is there
    if [[ ! -f $2 ]]; then
        printf 'install.sh: %s is left out: there is no %s\n' "${3##*/}" "$2" >&2
        return
    fi
    install -d "$(dirname "$3")"
    install -m "$1" "$2" "$3"
}

# Completion of the command, and of the functions of kmip.sh where these are sourced, which have its name.
completion() {
    # shellcheck disable=SC2016 # that of the shell which completes
    printf '%s\n' '# shellcheck shell=bash disable=SC1091' 'if declare -F kmip >/dev/null; then' \
        '    . "$(dirname "${BASH_SOURCE[0]}")/kmip_call"' '    return' 'fi'
    cat "$top/clients/command/src/completion.bash"
}

# The command, where it was built.
install_command() {
    local file name=$share/bash-completion/completions/kmip
    if [[ ! -f $built/kmip ]]; then
        printf 'install.sh: kmip is left out: there is no %s\n' "$built/kmip" >&2
        put 644 "$top/clients/shell/completion.bash" "$name"
        return
    fi
    put 755 "$built/kmip" "$destdir$prefix/bin/kmip"
    put 755 "$top/clients/command/kmip-test-server" "$destdir$prefix/bin/kmip-test-server"
    for file in "$built"/man/kmip*.1; do put 644 "$file" "$share/man/man1/${file##*/}"; done
    put 644 "$top/clients/man/kmip.conf.5" "$share/man/man5/kmip.conf.5"
    completion >"$work/kmip"
    put 644 "$work/kmip" "$name"
    put 644 "$top/clients/command/src/completion.zsh" "$share/zsh/site-functions/_kmip"
}

install_all() {
    local part file page name
    built=${built:-$top/built}
    for part in kmip_call libmetsuwan.a libmetsuwan.so; do
        [[ -f $built/$part ]] || give_up "there is no $built/$part: clients/build.sh makes it"
    done
    cp "$built"/libmetsuwan.{a,so} "$work"
    libraries install
    put 755 "$built/kmip_call" "$destdir$prefix/bin/kmip_call"
    put 755 "$built/kmip_ttlv" "$destdir$prefix/bin/kmip_ttlv"
    for file in kmip.sh kmip_keys.sh; do put 755 "$top/clients/shell/$file" "$destdir$prefix/bin/$file"; done
    for page in "${pages[@]}"; do put 644 "$top/clients/man/$page" "$share/man/man1/$page"; done
    for name in "${completed[@]}"; do
        put 644 "$top/clients/shell/completion.bash" "$share/bash-completion/completions/$name"
    done
    install_command
    put 644 "$built/kmip.html" "$share/metsuwan/kmip.html"
    if [[ -f $built/kmip32.html ]]; then put 644 "$built/kmip32.html" "$share/metsuwan/kmip32.html"; fi
    put 755 "$top/tools/test_server.sh" "$destdir$prefix/bin/kmip_test_server"
    put 755 "$top/tools/try_server.sh" "$destdir$prefix/bin/kmip_try_server"
    for file in "${tools[@]}"; do put 755 "$top/tools/$file" "$share/metsuwan/tools/$file"; done
    for file in "${papers[@]}"; do put 644 "$top/$file" "$share/doc/metsuwan/$file"; done
    put 644 "$top/LICENSE" "$share/doc/metsuwan/LICENSE"
    put 755 "$built/metsuwan.so" "$destdir$modules/metsuwan.so"
}

uninstall_all() {
    libraries uninstall
    rm -f "$destdir$prefix/bin"/{kmip_call,kmip_ttlv,kmip,kmip-test-server,kmip_test_server,kmip_try_server,kmip.sh,kmip_keys.sh} \
        "${pages[@]/#/$share/man/man1/}" \
        "$share/man/man1"/kmip{,-*}.1 "$share/man/man5/kmip.conf.5" "$share/bash-completion/completions/kmip" \
        "$share/zsh/site-functions/_kmip" \
        "${completed[@]/#/$share/bash-completion/completions/}" "$share/metsuwan"/kmip{,32}.html \
        "${tools[@]/#/$share/metsuwan/tools/}" "${papers[@]/#/$share/doc/metsuwan/}" \
        "$share/doc/metsuwan/LICENSE" "$destdir$modules/metsuwan.so"
    # Folders that nothing else is in.
    for folder in "$share/metsuwan" "$share/doc/metsuwan"; do
        if [[ -d $folder ]]; then find "$folder" -depth -type d -empty -delete; fi
    done
}

if [[ -n $uninstall ]]; then uninstall_all; else install_all; fi
