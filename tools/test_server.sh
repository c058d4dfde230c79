#!/bin/bash
# A KMIP server to try things out with: PyKMIP, on this machine alone, with an authority and certificates of its own.
#
#   tools/test_server.sh start [--port N] [--folder DIR]
#   tools/test_server.sh stop [--folder DIR]
#
# `start` prints what to enter next. The server listens on localhost, on port 5696 or, where that is taken, another one; it
# begins with no objects each time. DIR has its certificates, its log and its keys; `stop` ends the server and removes DIR. If
# it is not given, it is built/test_server, of the checkout, or of a release, where this script is kmip_test_server, in the
# folder where it is called. A folder that has other things in it is left alone, by both.
#
# It needs openssl and PyKMIP's pykmip-server on the path: on Debian 12 the package python3-pykmip; elsewhere
# `pip install PyKMIP` under a Python of 3.11 or earlier, since PyKMIP uses ssl.wrap_socket.
set -eu
top=$(cd "$(dirname "$0")/.." && pwd)

give_up() { # TEXT
    printf 'test_server.sh: %s\n' "$*" >&2
    exit 1
}

usage() {
    sed -n '4,5s/^# */usage: /p' "$0" >&2
    exit 2
}

# Of a checkout, or of what clients/install.sh installs.
if [[ -d $top/clients ]]; then
    own=$top/tools/test_server.sh helpers=$top/tools/live released='' usual=$top/built/test_server
else
    own=kmip_test_server helpers=$top/share/metsuwan/tools/live released=1 usual=$PWD/built/test_server
    # (the script itself, and not kmip_test_server, was called)
    if [[ -d $top/tools/live ]]; then helpers=$top/tools/live; fi
fi
verb='' folder=$usual port=''
while (($#)); do
    case $1 in
    start | stop) verb=$1 ;;
    --help) sed -n '2,/^set/{/^set/d;s/^# \{0,1\}//p}' "$0" && exit ;;
    --port)
        if [[ ! ${2-} =~ ^[1-9][0-9]{0,4}$ ]] || (($2 > 65535)); then usage; fi
        port=$2 && shift
        ;;
    --folder)
        [[ -n ${2-} ]] || usage
        folder=$2 && shift
        ;;
    *) usage ;;
    esac
    shift
done
[[ -n $verb ]] || usage
folder=$(realpath -m "$folder")
# A folder that has this file was made by this script.
mark=$folder/.metsuwan_test_server
if [[ -e $folder && ! -f $mark && -n $(ls -A "$folder") ]]; then
    give_up "$folder is not empty, and no folder of this script"
fi

# The server's process, where it runs: its words name its settings, so that it is no other process that has got its number.
process_of() {
    local process
    [[ -r $folder/server.pid ]] || return 1
    process=$(<"$folder/server.pid")
    tr '\0' ' ' 2>/dev/null <"/proc/$process/cmdline" | grep -qF "$folder/server.conf" || return 1
    printf '%s\n' "$process"
}

is_taken() { # PORT
    (exec 3<>"/dev/tcp/127.0.0.1/$1") 2>/dev/null
}

free_port() {
    local try
    for try in 5696 $(shuf -n 50 -i 20000-32000); do
        is_taken "$try" || break
    done
    printf '%s\n' "$try"
}

start() {
    local missing=() process
    if process=$(process_of); then
        echo "It runs already, as process $process."
        return
    fi
    type -P openssl >/dev/null || missing+=('openssl (Debian: apt-get install openssl)')
    type -P pykmip-server >/dev/null ||
        missing+=('pykmip-server (Debian 12: apt-get install python3-pykmip; else, with Python 3.11 or earlier, pip install PyKMIP)')
    if ((${#missing[@]})); then
        printf 'test_server.sh: missing: %s\n' "${missing[@]}" >&2
        exit 1
    fi
    if [[ -n $port ]] && is_taken "$port"; then give_up "port $port is taken"; fi
    [[ -n $port ]] || port=$(free_port)
    rm -rf "$folder"
    { mkdir -p "$folder" && : >"$mark"; } || give_up "$folder cannot be made"
    "$helpers/certs.sh" "$folder/certs" few || give_up 'no certificates'
    "$helpers/start_server.sh" "$folder" "$port" ||
        give_up "PyKMIP did not start; $folder/server.out has what it wrote"
    echo "PyKMIP listens on localhost:$port, as process $(<"$folder/server.pid")."
}

# What to enter next, in bash.
say_next() {
    local certs program=$top/built/kmip_call listens
    listens=$(sed -n 's/^port=//p' "$folder/server.conf")
    printf -v certs '%q %q %q' "$folder/certs/client.pem" "$folder/certs/client.key" "$folder/certs/ca.pem"
    printf '\nEnter:\n\n'
    if [[ -n $released ]]; then
        printf '    . kmip.sh\n'
    else
        if [[ ! -x $program ]]; then
            printf '    %q --unproved %q      # once: makes kmip_call, in some minutes\n' "$top/clients/build.sh" "$top/built"
        fi
        printf '    export KMIP_CALL=%q\n' "$program"
        printf '    . %q\n' "$top/clients/shell/kmip.sh"
    fi
    printf '    kmip_open localhost:%s %s\n' "$listens" "$certs"
    printf "    kmip create-rsa 2048 issuing 'issuing, public'\n"
    printf '\nAnd at last:\n\n    kmip_close\n    %q stop' "$own"
    if [[ $folder != "$usual" || -n $released ]]; then printf ' --folder %q' "$folder"; fi
    printf '\n'
}

# Whether the server has ended within a second.
has_ended() {
    local try
    for ((try = 0; try < 10; try++)); do
        process_of >/dev/null || return 0
        sleep 0.1
    done
    return 1
}

stop() {
    local process
    if process=$(process_of); then
        # PyKMIP takes up to 10 seconds to end, and has processes of its own, which are all of one group. Nothing that it
        # has is to be kept.
        kill "$process" 2>/dev/null || :
        has_ended || :
        kill -KILL -- "-$process" 2>/dev/null || :
        has_ended || give_up "process $process does not end"
        echo 'PyKMIP has ended.'
    else
        echo 'It does not run.'
    fi
    if [[ -f $mark ]]; then rm -rf "$folder"; fi
}

case $verb in
start) start && say_next ;;
stop) stop ;;
esac
