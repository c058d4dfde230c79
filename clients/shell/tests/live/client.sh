# shellcheck shell=bash
# How the harness builds and runs the shell's client.

client_needs() {
    command -v openssl >/dev/null || echo openssl
    command -v jq >/dev/null || echo jq
    command -v flock >/dev/null || echo util-linux
    command -v pgrep >/dev/null || echo procps
    [[ -x $built/kmip_call ]] || echo 'kmip_call (clients/build.sh)'
}

client_build() { :; }

client_program() { # NAME
    program=("$top/clients/shell/$1.sh")
}

export top here built run work certs python host port certificate key authority

# A bash script: kmip.sh is sourced, and there are
#   open             opens a connection to the server that is set
#   until_true COMMAND..    its status is 0 where this command is true within a minute
#   ended PROCESS    waits so for the end of a process, and `arrived` for bytes from the server, or its end
#   calling          waits until the server `held` has a request about $held, and leaves the process of kmip_call in CALLING
#   release          has that server answer it, and waits for that; `late` also waits for the bytes, which no call takes
# and $held is an identifier that no other script has, about which `held` answers late. What it writes is in $said. Where
# `apart` is set, it is in a process group of its own.
control=$(awk '$1 == "control" { print $2 }' "$run/fakes")
export control
script() { # TEXT
    held=held$BASHPID.$RANDOM
    export held
    timeout -k 2 $((${patience:-20} * slack)) ${apart:+setsid -w} bash -c '. "$top/clients/shell/kmip.sh"
        open() { kmip_open "$host:$port" "$certificate" "$key" "$authority"; }
        until_true() { local try; for ((try = 0; try < 600; try++)); do "$@" && return; sleep 0.1; done; return 1; }
        is_gone() { ! grep -qs "^State:[[:space:]]*[^Z[:space:]]" "/proc/$1/status"; }
        ended() { until_true is_gone "$1"; }
        has_bytes() { read -r -t 0 -u "$KMIP_IN"; }
        arrived() { until_true has_bytes; }
        asks_control() {
            local to is=no
            exec {to}<>"/dev/tcp/127.0.0.1/$control" || return
            echo "$1 $held" >&"$to" && read -r -t 90 is <&"$to"
            exec {to}>&-
            [[ $is == yes ]]
        }
        calling() { asks_control arrived && CALLING=$(pgrep -f "^[^ ]*kmip_call .* $held( |$)"); }
        release() { asks_control release; }
        late() { release; arrived; }
        '"$1" >"$said" 2>&1 </dev/null
}

script_is() { # WHAT STATUS TEXT: it has this status, and no error of bash's own
    local status
    script "$3"
    status=$?
    if ((status != $2)); then printf 'status %d in place of %d\n' "$status" "$2" >>"$said"; fi
    ((status == $2)) && ! grep -qE '^[^ ]*: line [0-9]+:|unbound variable|command not found' "$said"
    verdict "$1"
}
