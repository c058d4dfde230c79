# shellcheck shell=bash
# What the cases of several servers stand on: two ports, and servers (servers.py) that come and go there.
a=$(free_port) b=$(free_port) read=$work/read
both=localhost:$a,localhost:$b sign=33 activate=18 poll=26

# (a pipe's end is a shell of its own: so processes are known by files)
up() { # PORT MODE [1.2]
    rm -f "$work/server.$1"
    "$python" -B "$here/servers.py" "$2" "$1" "$certs" "$read" "${3-1.3}" >"$work/server.$1" 2>"$work/server.$1.err" &
    echo $! >"$work/process.$1"
    started+=($!)
    disown $!
    wait_for '^ready' "$work/server.$1" $! || give_up "the server $1 does not listen"
}
down() { # PORT..: what is not up is down
    local port process
    for port; do
        [[ -e $work/process.$port ]] || continue
        process=$(<"$work/process.$port")
        kill -KILL "$process" 2>/dev/null
        while kill -0 "$process" 2>/dev/null; do sleep 0.05; done
        rm -f "$work/process.$port"
    done
}
begin() { # WHAT
    what=$1
    down "$a" "$b"
    : >"$read"
}
reads() { # PORT OPERATION COUNT
    (($(grep -cx "$1 $2" "$read") == $3))
    verdict "$what: so often it was read"
}

# Whether a server has read so many requests more than before, while the crowd lives.
has_read() { # COUNT PROCESS
    local before
    before=$(wc -l <"$read")
    while kill -0 "$2" 2>/dev/null && (($(wc -l <"$read") < before + $1)); do sleep 0.05; done
    kill -0 "$2" 2>/dev/null
}

# A crowd calls both, while they are killed by turns and come back. Its program writes a line for each change, `NAME STATUS
# SENT`, and for each signature, whose name begins with s. What was told is compared with what each server has read.
crowd() { # WHAT CALLS PROGRAM WORD..: CALLS are those that are told
    local which process lives deaths=0
    begin "$1"
    up "$a" named
    up "$b" named
    timeout $((300 * slack)) "${@:3}" "$both" "$certificate" "$key" "$authority" >"$work/told" 2>"$said" &
    process=$!
    started+=("$process")
    while kill -0 "$process" 2>/dev/null; do
        for which in "$a" "$b"; do
            has_read $(($2 / 12)) "$process" || break 2
            lives=$(grep -c ready "$work/server.$which")
            kill -USR1 "$(<"$work/process.$which")"
            deaths=$((deaths + 1))
            # (where both were dead at once, each call would fail)
            until (($(grep -c ready "$work/server.$which") > lives)); do sleep 0.05; done
        done
    done
    wait "$process"
    verdict "$1: the crowd ends"
    down "$a" "$b"
    "$python" -B "$here/crowd.py" "$read" "$work/told" "$2" "$deaths" >"$said" 2>&1
    verdict "$1: no change is read twice, and each loss is told"
}
