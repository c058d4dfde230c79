#!/bin/bash
# The live test: the clients and the provider for OpenSSL against a real key server, PyKMIP, and fakes, on this machine.
#
#   tools/live.sh [--unproved] [--built DIR] [--client NAME].. [--topic NAME].. [--measure N] [--slack N] [--keep]
#
# It installs the server and what the clients are built with where they are missing (Debian; it needs root for that), builds
# kmip_call and the library by clients/build.sh (proved; with --unproved optimized and not proved), makes an authority and
# certificates, starts the server and the fakes, and has each client live through the cases: those of tools/live/each for every
# client, of clients/CLIENT/tests/live for one. The last line is `N passed, M failed`, and the status is 0 where none failed.
#
#   --built DIR    takes what is in this folder, which clients/build.sh made before
#   --client NAME  this client alone (shell, c, python, rust, command, or openssl, the provider), or these
#   --topic NAME   this case file alone (as words for tools/live/each/words.sh), or these
#   --measure N    each client also makes 10 N queries and N signatures over its one connection, beside PyKMIP's own client
#   --slack N      seconds count N times, for a machine that is busy with other things: 10 where it is not given, with which
#                  all passes on one that has four times the work that it can do at once
#   --keep         leaves the folder of the run where it is, and says where
#
# It needs python3, openssl and, for a build, rt, gcc, make and cargo. What it starts it stops. How a case is added is said
# in tools/live/harness.sh.
# shellcheck disable=SC1090,SC1091,SC2030,SC2031,SC2034,SC2154 # harness.sh sets and uses them
set -u
top=$(cd "$(dirname "$0")/.." && pwd)
. "$top/tools/live/harness.sh"

unproved=() measure=0 keep=''
own_words() {
    case $1=${2-} in
    --unproved=*) unproved=(--unproved) took=1 ;;
    --keep=*) keep=1 took=1 ;;
    *)
        [[ $1=${2-} =~ ^--(measure=[0-9]+|slack=[1-9][0-9]?)$ ]] || return
        if [[ $1 == --measure ]]; then measure=$2; else slack=$2; fi
        ;;
    esac
}
read_words "$@"
make_run live || give_up 'no temporary folder can be made'

install() {
    local missing=()
    type -P pykmip-server >/dev/null || missing+=(python3-pykmip)
    type -P jq >/dev/null || missing+=(jq)
    [[ -e /usr/include/openssl/ssl.h ]] || missing+=(libssl-dev)
    local crate crates=()
    if [[ " ${clients[*]} " == *' rust '* ]]; then crates=(openssl); fi
    if [[ " ${clients[*]} " == *' command '* ]]; then
        crates=(clap dirs indicatif libc openssl rpassword serde_json shlex signal-hook zeroize)
    fi
    for crate in ${crates[@]+"${crates[@]}"}; do
        compgen -G "/usr/share/cargo/registry/$crate-[0-9]*" >/dev/null || missing+=("librust-${crate/_/-}-dev")
    done
    ((${#missing[@]})) || return 0
    ((EUID == 0)) || give_up "missing, and this is not root: apt-get install ${missing[*]}"
    echo "installing ${missing[*]}"
    { apt-get update && DEBIAN_FRONTEND=noninteractive apt-get install -y --no-install-recommends "${missing[@]}"; } \
        >"$run/apt" 2>&1 || { tail -5 "$run/apt" && give_up 'the packages were not installed'; }
}

time_calls() {
    mkdir -p "$run/measured"
    host=localhost port=$server_port certificate=$certs/client.pem key=$certs/client.key authority=$certs/ca.pem patience=3600
    for client in "${clients[@]}"; do
        case $client in openssl | command) continue ;; esac # they have no such program
        . "$(folder_of "$client")/client.sh"
        client_run life "$run/measured" "$measure"
    done
    "$python" -B "$here/measure.py" "$server_port" "$certs" "$KMIP_CALL" "$measure"
}

live() {
    install
    if [[ -z $built ]]; then
        built=$run/kmip
        "$top/clients/build.sh" ${unproved[@]+"${unproved[@]}"} "$built" || give_up 'no build'
    fi
    export KMIP_CALL=$built/kmip_call
    begin_servers || return
    server_port=$(free_port)
    "$here/start_server.sh" "$run" "$server_port" || give_up 'no server'
    started+=("$(cat "$run/server.pid")")
    build_clients
    run_cases fakes 8 "${clients[@]}"
    run_cases server 1 "${clients[@]}"
    if ((measure > 0)); then time_calls; fi
}

count live
