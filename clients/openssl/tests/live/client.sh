# shellcheck shell=bash disable=SC1091
# How the harness builds the provider for OpenSSL, and what its case files have. It has no program `call`, so that the case
# files of tools/live/each are not run with it.
. "$top/clients/c/tests/live/client.sh"

# What the client in C needs, and OpenSSL 3: its headers and its command.
client_needs() {
    for tool in gcc make; do command -v "$tool" >/dev/null || echo "$tool"; done
    links $'#include <openssl/opensslv.h>\n#if OPENSSL_VERSION_MAJOR < 3\n#error\n#endif' -lssl -lcrypto ||
        echo 'libssl-dev of OpenSSL 3'
    [[ $(openssl version 2>/dev/null) =~ ^OpenSSL\ ([3-9]|[1-9][0-9]) ]] || echo 'openssl of version 3'
    [[ -e $built/libmetsuwan.a ]] || echo 'libmetsuwan.a (clients/build.sh)'
}

client_build() {
    ${limit[@]+"${limit[@]}"} make -C "$top/clients/openssl" BUILT="$built" OUT="$run/openssl" CFLAGS='-O1 -g -Werror'
}

client_program() { # NAME: there is none
    return 1
}

# openssl.cnf for the server and the certificates that are set, or for those in `servers`, with these lines of settings
# besides; what is called after it has the provider.
configure() { # LINE..
    export OPENSSL_CONF=$work/openssl.cnf
    {
        printf '%s\n' 'openssl_conf = init' '[init]' 'providers = providers' '[providers]' 'default = default_section' \
            'metsuwan = metsuwan_section' '[default_section]' 'activate = 1' '[metsuwan_section]' 'activate = 1' \
            "module = ${provider:-$run/openssl/metsuwan.so}" "server = ${servers:-$host:$port}" "certificate = $certificate" \
            "key = $key" "authority = $authority" "seconds = $((30 * slack))"
        printf '%s\n' "$@" '[req]' 'distinguished_name = dn' 'x509_extensions = authority' 'prompt = no' '[dn]' \
            'CN = KMIP CA' '[authority]' 'basicConstraints = critical,CA:TRUE' \
            'keyUsage = critical,keyCertSign,cRLSign,digitalSignature' 'subjectKeyIdentifier = hash' '[leaf]' \
            'basicConstraints = CA:FALSE' 'subjectAltName = DNS:localhost,IP:127.0.0.1'
    } >"$OPENSSL_CONF"
}

# The command without the provider.
stock=(env OPENSSL_CONF=/dev/null openssl)

does() { # WHAT COMMAND..: the command's status is 0
    timeout -k 2 $((60 * slack)) "${@:2}" >"$said" 2>&1 </dev/null
    verdict "$1"
}

refuses() { # WHAT REGEX COMMAND..: the command fails by itself, and has a line like this
    local status
    timeout -k 2 $((60 * slack)) "${@:3}" >"$said" 2>&1 </dev/null
    status=$?
    ((status > 0 && status < 124)) && grep -qE -- "$2" "$said"
    verdict "$1"
}

# An active RSA pair under this name; $private and $public are then its identifiers.
make_key() { # NAME
    local made
    made=$(by_shell create-rsa 2048 "$1" "$1, public") || return
    private=$(jq -r .answer.private_key <<<"$made")
    public=$(jq -r .answer.public_key <<<"$made")
    by_shell activate "$private" >/dev/null
}

# A PEM file that holds a URI.
write_uri() { # URI FILE
    {
        echo '-----BEGIN KMIP KEY URI-----'
        printf '%s' "$1" | "${stock[@]}" base64
        echo '-----END KMIP KEY URI-----'
    } >"$2"
}

# From here on $port is that of a signer.py, which writes its operations to the file $signed, whose process is $signer.
# Its key is that of the file $signer_key, or one of RSA where that is not set.
signer() { # [WRONG]
    local log
    log=$(mktemp "$work/signer.XXXXXX")
    signed=$log
    [[ -e $work/signer.key ]] || "${stock[@]}" genrsa -out "$work/signer.key" 2048 2>"$work/signer.err" || give_up 'no key'
    OPENSSL_CONF=/dev/null "$python" -B "$own/signer.py" "$certs" "${signer_key:-$work/signer.key}" "$@" >"$log" 2>"$log.err" &
    signer=$!
    started+=("$signer")
    disown "$signer"
    wait_for ready "$log" "$signer" || give_up 'signer.py does not listen'
    port=$(sed -n 's/^ready //p' "$log")
}

# From here on $port is that of a relay.py to the port that was set, whose process is $relay.
through_relay() {
    local log=$work/relay
    rm -f "$log"
    OPENSSL_CONF=/dev/null "$python" -B "$own/relay.py" "$port" >"$log" 2>"$log.err" &
    relay=$!
    started+=("$relay")
    disown "$relay"
    wait_for ready "$log" "$relay" || give_up 'relay.py does not listen'
    port=$(sed -n 's/^ready //p' "$log")
}

# A program of clients/openssl/tests, built with these flags.
build_test() { # NAME FLAG..
    gcc -std=c11 -g -O1 -Wall -Wextra -Werror "${@:2}" -o "$work/$1" "$top/clients/openssl/tests/$1.c" \
        -lcrypto -pthread >"$said" 2>&1
    verdict "the test $1 is built"
}

# The provider, built with these flags, in $work/NAME; what is configured after it has that one.
build_provider() { # NAME FLAG..
    mkdir "$work/$1"
    make -s -C "$top/clients/openssl" BUILT="$built" OUT="$work/$1" CFLAGS="-O1 -g ${*:2}" >"$said" 2>&1
    verdict "the provider is built $1"
    provider=$work/$1/metsuwan.so
}

# It is run, by the words of `watch`, and prints its own checks.
watch=()
run_test() { # NAME WORD..
    timeout -k 2 $((300 * slack)) ${watch[@]+"${watch[@]}"} "$work/$1" "${@:2}" 2>"$said" </dev/null
    verdict "$1 $2 ends well"
}

run_program() { # WORD..
    run_test program "$@"
}

# With a fork, in whose child the connections of the parent, and what they stand on, are left as they are and not freed.
run_threads() { # URI COUNT
    ASAN_OPTIONS=detect_leaks=0 run_program threads "$@"
}

# Servers of TLS with the certificate tls.pem.
client_reads() { # WHAT PORT tls1_2|tls1_3
    printf 'GET / HTTP/1.0\r\n\r\n' | OPENSSL_CONF=/dev/null timeout $((20 * slack)) openssl s_client -connect "127.0.0.1:$2" \
        -CAfile tls.pem -verify_return_error -verify_hostname localhost "-$3" -ign_eof >"$said" 2>&1
    grep -q 'HTTP/1.* 200' "$said"
    verdict "$1, $3 to s_client"
}
python_reads() { # WHAT PORT TLSv1_2|TLSv1_3
    OPENSSL_CONF=/dev/null timeout $((20 * slack)) "$python" - "$2" "$3" $((20 * slack)) >"$said" 2>&1 <<'PY'
import socket
import ssl
import sys
context = ssl.create_default_context(cafile='tls.pem')
context.minimum_version = context.maximum_version = ssl.TLSVersion[sys.argv[2]]
plain = socket.create_connection(('127.0.0.1', int(sys.argv[1])), int(sys.argv[3]))
with context.wrap_socket(plain, server_hostname='localhost') as wire:
    wire.sendall(b'GET / HTTP/1.0\r\n\r\n')
    assert b' 200' in wire.recv(4096)
PY
    verdict "$1, $3 to Python"
}
listens() { # PORT PROCESS
    local try
    for ((try = 0; try < 100 * slack; try++)); do
        (exec 3<>"/dev/tcp/127.0.0.1/$1") 2>/dev/null && return
        kill -0 "$2" 2>/dev/null || return
        sleep 0.1
    done
    return 1
}
serve() { # WHAT -key URI
    local own
    own=$(free_port)
    openssl s_server -accept "127.0.0.1:$own" -cert tls.pem "${@:2}" -www >"$work/s_server" 2>&1 </dev/null &
    started+=($!)
    listens "$own" $! || cat "$work/s_server"
    client_reads "$1" "$own" tls1_2
    client_reads "$1" "$own" tls1_3
    python_reads "$1" "$own" TLSv1_2
    python_reads "$1" "$own" TLSv1_3
    kill "${started[-1]}"
}
