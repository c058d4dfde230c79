#!/bin/bash
# The packages of clients/release.sh and the wheel, each in a Debian that has nothing but its essential packages: no compiler,
# no toolchain, no checkout. What is called there is a fake server of this machine.
#
#   clients/tests/packages_in_chroot.sh [--built DIR] [--system DIR] [--suite NAME] [--mirror URL] [--keep]
#
#   --built DIR    the folder that clients/build.sh made; `built` at the top of the repository where it is not given
#   --system DIR   an empty system that was made before, by `mmdebstrap --variant=minbase` or debootstrap, which is copied and
#                  stays as it is; else one is made
#   --suite NAME   the Debian to make it of: bookworm where it is not given
#   --mirror URL   where its packages are from: http://deb.debian.org/debian where it is not given
#   --keep         leaves the folder of the run where it is, and says where
#
# It wants root, mmdebstrap or debootstrap, a mirror of Debian, and what clients/release.sh wants; what is missing it says, and skips. The
# systems share the network of this machine, its /proc and its /dev, and no file. The last line is `N passed, M failed`.
# shellcheck disable=SC1091,SC2031,SC2034,SC2154 # harness.sh sets and uses them
set -u
top=$(cd "$(dirname "$0")/../.." && pwd)
. "$top/tools/live/harness.sh"

system='' suite=bookworm mirror=http://deb.debian.org/debian keep='' may_skip=1 usage_at=5
own_words() {
    case $1=${2-} in
    --keep=*) keep=1 took=1 ;;
    --system=?*) system=$(cd "$2" && pwd) || exit 2 ;;
    --suite=?*) suite=$2 ;;
    --mirror=?*) mirror=$2 ;;
    *) return 1 ;;
    esac
}
built=$top/built
read_words "$@"
make_run chroot || give_up 'no temporary folder can be made'
said=$run/said client=packages root=''
: >"$said"

# The first thing that is missing, as a reason to skip.
lacking() {
    local tool
    if ((EUID != 0)); then echo 'there is no root'; fi
    for tool in gcc:gcc make:make readelf:binutils dpkg-deb:dpkg openssl:openssl pkg-config:pkgconf; do
        type -P "${tool%:*}" >/dev/null || echo "there is no ${tool%:*} (Debian: apt-get install ${tool#*:})"
    done
    [[ -e /usr/include/openssl/ssl.h ]] || echo 'there is no libssl-dev'
    [[ -f $built/libmetsuwan.a ]] || echo "there is no $built/libmetsuwan.a: clients/build.sh makes it"
    # (the status of `type` is 1 where one of the two is missing)
    if [[ -z $system && -z $(type -P mmdebstrap debootstrap) ]]; then
        echo 'there is no debootstrap (Debian: apt-get install debootstrap, or mmdebstrap)'
    fi
}

# In the system at $root, with nothing of this one's environment. What is mounted for it is so for the command alone: kmip.sh
# wants /proc, and bash /dev/fd.
within() { # COMMAND WORD..
    # shellcheck disable=SC2016 # the words of the shell that is begun
    env -i PATH=/usr/local/bin:/usr/bin:/usr/sbin:/bin:/sbin HOME=/root LC_ALL=C.UTF-8 DEBIAN_FRONTEND=noninteractive \
        TMPDIR=/tmp timeout -k 5 $((1200 * slack)) unshare --mount bash -c \
        'mount -t proc proc "$0/proc" && mount --rbind /dev "$0/dev" && exec chroot "$0" "$@"' "$root" "$@" </dev/null
}

does() { # WHAT COMMAND WORD..: within, its status is 0
    within "${@:2}" >"$said" 2>&1
    verdict "$1"
}

# A copy of the empty system, with the certificates of the fake servers.
begin() { # NAME
    root=$run/$1
    cp -a --reflink=auto "$run/system" "$root"
    mkdir -p "$root/certs"
    cp "$certs"/{client.pem,client.key,ca.pem} "$root/certs"
}

# A tool that the packages are said not to need.
has_no_compiler() {
    local tool
    for tool in gcc cc make ld rt rattle cargo; do
        ! within bash -c "type -P $tool" || return
    done >"$said" 2>&1
}

# What a user of bash enters, by `. kmip.sh` on this path.
calls_by_bash() { # WHAT FOLDER
    cat >"$root/calls.sh" <<BASH
PATH=$2:\$PATH
. kmip.sh
kmip_open localhost:$port /certs/client.pem /certs/client.key /certs/ca.pem || exit
kmip query
key=\$(kmip_field private_key create-rsa 2048 issuing 'issuing, public') && kmip activate "\$key"
kmip_field signature_data sign "\$key" 68656C6C6F
printf 'a secret' >/tmp/secret && kmip register-secret /tmp/secret name=it
kmip operation Query '{"tag":"RequestPayload","value":[]}' >/dev/null || exit
kmip_close
BASH
    does "$1" bash /calls.sh
    says 'query is answered' '^\{"answer":\{"operations":'
    says 'a key signs' "^$(printf 'signature by private' | od -An -v -tx1 | tr -d ' \n' | tr a-f A-F)\$"
    says 'a secret is registered' '^\{"answer":\{"unique_identifier":"1"\}\}$'
}

# A program in C, which is compiled out of the package's own headers and libraries and runs where they are installed.
calls_by_c() { # WHAT FOLDER-WITH-PKGCONFIG SYSROOT [VARIABLE=VALUE]
    local flags
    mapfile -t flags < <(PKG_CONFIG_SYSROOT_DIR=$3 PKG_CONFIG_ALLOW_SYSTEM_LIBS=1 PKG_CONFIG_ALLOW_SYSTEM_CFLAGS=1 \
        PKG_CONFIG_LIBDIR=$2:$(pkg-config --variable pc_path pkg-config) pkg-config --cflags --libs metsuwan_tls | xargs -n1)
    gcc -o "$root/call" "$top/clients/c/call.c" "${flags[@]}" >"$said" 2>&1
    verdict "$1 is compiled with the package's headers"
    does "$1 runs" env "${4:-A=}" /call localhost "$port" /certs/client.pem /certs/client.key /certs/ca.pem query
    says 'and is answered' '^\{"answer":\{"operations":'
}

# openssl.cnf of docs/OPENSSL.md, with the tarball's module: OpenSSL finds it and its own too.
beside_legacy() {
    if [[ ! -e $root/opt/it/lib/ossl-modules/metsuwan.so ]]; then return; fi
    awk '/^END$/ { on = 0 } on; /^cat >openssl.cnf/ { on = 1 }' "$top/docs/OPENSSL.md" |
        sed 's|^module = .*|module = /opt/it/lib/ossl-modules/metsuwan.so|' >"$root/modules.cnf"
    does 'the tarball: a provider by openssl.cnf' env OPENSSL_CONF=/modules.cnf openssl list -providers -provider legacy
    says 'which does not hide legacy' '^  legacy$'
    says 'and is there' '^  metsuwan$'
}

# README's opening and "Sign" as they stand there, with nothing but the release and a server's package, in less than a minute
# once these are installed.
readme() { # WHAT COMMAND: that puts the release on the path
    local from
    does "$1: the server to try things with is installed" \
        bash -c 'apt-get update && apt-get install -y --no-install-recommends python3-pykmip openssl jq'
    {
        echo "$2"
        awk '/^    \$ / { sub(/^    \$ /, ""); print }' "$top/README.md" |
            sed 's|tools/test_server.sh|kmip_test_server|; s|clients/shell/||; s|localhost:5696|localhost:$port|' |
            sed 's|^kmip_test_server start|&; port=$(sed -n s/^port=//p built/test_server/server.conf)|'
    } >"$root/readme.sh"
    from=$SECONDS
    does "$1: its lines" bash -c 'cd /tmp && bash /readme.sh'
    says 'the request is shown' '^\{"tag":"RequestMessage"'
    says 'a pair is made' '^\{"answer":\{"private_key":"2","public_key":"1"\}\}$'
    says 'and the key signs' '^[0-9A-F]{512}$'
    ((SECONDS - from < 60 * slack))
    verdict "in less than a minute ($((SECONDS - from)) s)"
}

tarball() {
    begin tarball
    mkdir "$root/opt/it" && tar -xzf "$run"/release/metsuwan-*.tar.gz -C "$root/opt/it" --strip-components 1
    has_no_compiler
    verdict 'the system has no compiler and no toolchain'
    does 'tarball: kmip_call runs with the C library alone' /opt/it/bin/kmip_call --version
    says 'and says its version' '^kmip_call [0-9.]+(, not proved)?$'
    within bash -c 'PATH=/opt/it/bin:$PATH; . kmip.sh && kmip_open localhost:1 /certs/client.pem /certs/client.key /certs/ca.pem' \
        >"$said" 2>&1
    says 'kmip.sh says what it lacks here' '^kmip_open: there is no openssl'
    if [[ -e $root/opt/it/bin/kmip_ttlv ]]; then
        does 'the encoder runs' bash -c '/opt/it/bin/kmip_ttlv --help || (($? == 2))'
    else
        echo "skipped packages: the encoder: there is no $built/kmip_ttlv"
    fi
    does 'what kmip.sh wants is installed' bash -c 'apt-get update && apt-get install -y --no-install-recommends openssl jq'
    calls_by_bash 'tarball: calls by bash' /opt/it/bin
    beside_legacy
    readme 'tarball: README' 'PATH=/opt/it/bin:$PATH'
    calls_by_c 'tarball: a program in C' "$root/opt/it/lib/pkgconfig" '' LD_LIBRARY_PATH=/opt/it/lib
}

package() {
    local deb
    begin package
    deb=$(cd "$run/release" && echo metsuwan_*_amd64.deb)
    cp "$run/release/$deb" "$root/tmp"
    does 'package: apt installs it, with what it depends on and recommends' \
        bash -c "apt-get update && apt-get install -y /tmp/$deb"
    has_no_compiler
    verdict 'which has no compiler among it'
    does 'package: kmip_call is on the path' kmip_call --version
    says 'and says its version' '^kmip_call [0-9.]+(, not proved)?$'
    within dpkg -V metsuwan >"$said" 2>&1 && [[ ! -s $said ]]
    verdict 'its files are as they were packed'
    calls_by_bash 'package: calls by bash' /usr/bin
    readme 'package: README' :
    calls_by_c 'package: a program in C' "$root/usr/lib/x86_64-linux-gnu/pkgconfig" "$root"
    if [[ -e $root/usr/lib/x86_64-linux-gnu/ossl-modules/metsuwan.so ]]; then
        cat >"$root/openssl.cnf" <<CNF
openssl_conf = init
[init]
providers = providers
[providers]
default = on
metsuwan = metsuwan_section
[on]
activate = 1
[metsuwan_section]
activate = 1
server = localhost:$port
certificate = /certs/client.pem
key = /certs/client.key
authority = /certs/ca.pem
CNF
        does 'openssl finds the provider by its name' env OPENSSL_CONF=/openssl.cnf openssl list -providers
        says 'and loads it' '^  metsuwan$'
    else
        echo "skipped packages: the provider for OpenSSL: there is no $built/metsuwan.so"
    fi
    does 'dpkg takes it away' dpkg -r metsuwan
    [[ -z $(find "$root" -xdev -not -path "$root/tmp/*" -not -path "$root/var/*" \( -name '*metsuwan*' -o -name 'kmip*' \) | tee "$said") ]]
    verdict 'and nothing of it is left'
}

wheel() {
    local missing
    missing=$("$python" -c 'import importlib.util as it
print(*(name for name in ("pip", "setuptools", "wheel") if it.find_spec(name) is None))')
    if [[ -n $missing ]]; then
        echo "skipped packages: the wheel: there is no $missing for $python (Debian: apt-get install python3-${missing%% *})"
        return
    fi
    begin wheel
    cp -r "$top/clients/python" "$run/python"
    LIBMETSUWAN=$built/libmetsuwan.so "$python" -m pip wheel --quiet --no-index --no-deps --no-build-isolation \
        --wheel-dir "$run/wheels" "$run/python" >"$said" 2>&1
    verdict 'a wheel is built'
    cp "$run"/wheels/metsuwan-*.whl "$root/tmp"
    does 'Python and pip are installed' bash -c 'apt-get update && apt-get install -y --no-install-recommends python3 python3-venv'
    has_no_compiler
    verdict 'which have no compiler among them'
    does 'pip installs the wheel' bash -c 'python3 -m venv /env && /env/bin/pip install --no-index --no-deps /tmp/metsuwan-*.whl'
    cat >"$root/calls.py" <<PY
import metsuwan
with metsuwan.Client('localhost', $port, cert='/certs/client.pem', key='/certs/client.key', ca='/certs/ca.pem') as kmip:
    pair = kmip.create_rsa_key_pair(2048, 'issuing', 'issuing, public')
    print(kmip.sign(pair.private_key, b'hello').signature_data.decode(), metsuwan.__file__)
PY
    does 'wheel: calls by Python' /env/bin/python -I /calls.py
    says 'with the library of the wheel' '^signature by private /env/lib/python3[.0-9]*/site-packages/metsuwan/__init__\.py$'
}

packages() {
    local missing
    missing=$(lacking | head -1)
    if [[ -n $missing ]]; then
        echo "skipped packages: $missing"
        return
    fi
    "$top/clients/release.sh" --built "$built" "$run/release" >"$said" 2>&1
    verdict 'the packages are made' | tee "$run/made"
    if grep -q '^FAILED' "$run/made"; then return; fi
    if [[ -n $system ]]; then
        cp -a --reflink=auto "$system" "$run/system"
    elif ! "$(type -P mmdebstrap debootstrap | head -1)" --variant=minbase "$suite" "$run/system" "$mirror" \
        >"$run/bootstrap.log" 2>&1 </dev/null; then
        echo "skipped packages: there is no Debian to try them in: $(tail -1 "$run/bootstrap.log")"
        return
    fi
    cp -L /etc/resolv.conf "$run/system/etc/resolv.conf"
    echo '127.0.0.1 localhost' >"$run/system/etc/hosts"
    begin_servers || return
    fake good
    tarball
    package
    wheel
}

count packages
