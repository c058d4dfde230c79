# shellcheck shell=bash
# 200 threads over two servers that are killed by turns and come back, each with a client, and with a pool: no change is read
# twice, each that is lost is told, with the server that may have done it, and each signature is right, though one server of
# two is dead.
look_for_sanitizers
test_build crowd "${sanitized[@]}"
a=$(free_port) b=$(free_port) threads=200 rounds=4

up() { # PORT
    rm -f "$work/server.$1"
    "$python" -B "$here/servers.py" names "$1" "$certs" "$work/read" >"$work/server.$1" 2>"$work/server.$1.err" &
    echo $! >"$work/process.$1"
    started+=($!)
    disown $!
    wait_for '^ready' "$work/server.$1" $! || give_up "the server $1 does not listen"
}
down() { # PORT
    local process
    process=$(<"$work/process.$1")
    kill -KILL "$process" 2>/dev/null
    while kill -0 "$process" 2>/dev/null; do sleep 0.05; done
}
is_read() { # COUNT: so many requests, or the round is at its end
    (($(wc -l <"$work/read") >= $1)) || grep -q "^round $round\$" "$work/told" || ! kill -0 "$program" 2>/dev/null
}
# In each round one server dies when a quarter of its calls were read, and is back before the next.
rounds_of() {
    local round dies
    for ((round = 0; round < rounds; round++)); do
        if ((round % 2)); then dies=$b; else dies=$a; fi
        until is_read $(((4 * round + 1) * threads * 3 / 4)); do sleep 0.05; done
        down "$dies"
        while ! grep -q "^round $round\$" "$work/told" && kill -0 "$program" 2>/dev/null; do sleep 0.05; done
        up "$dies"
        echo
    done
}
crowd() { # HOW
    local file=$work/crowd.$1 program which
    : >"$work/read"
    up "$a"
    up "$b"
    mkfifo "$file"
    timeout $((120 * slack)) "$work/crowd" "$1" "localhost:$a,localhost:$b" "$certificate" "$key" "$authority" \
        $((20 * slack)) "$threads" "$rounds" <"$file" >"$work/told" 2>"$work/crowd.err" &
    program=$!
    started+=("$program")
    rounds_of >"$file"
    wait "$program"
    verdict "$threads threads, $1"
    down "$a"
    down "$b"
    "$python" - "$work/read" "$work/told" $((threads * rounds)) >"$said" 2>&1 <<'PY'
import collections
import sys

with open(sys.argv[1]) as lines:
    read = collections.Counter(line.split()[2] for line in lines)
told, wrong, count = collections.Counter(), [], int(sys.argv[3])
with open(sys.argv[2]) as lines:
    for line in lines:
        if line.startswith('round '):
            continue
        what, name, status, sent, text = line.rstrip('\n').split(' ', 4)
        kind = 'answered' if status == '0' else 'lost' if sent == '1' else 'not sent'
        told[what, kind] += 1
        # On a busy machine a server that is just back may have no connection within its 5 seconds.
        if kind == 'not sent' and 'within 5 seconds; ' in text and read[name] == 0:
            continue
        if what == 'change':
            may = {'answered': (1,), 'lost': (0, 1)}.get(kind, ())
            right = read[name] in may and (kind != 'lost' or 'it may have been done there' in text)
        else:
            right = what == 'signature' and kind == 'answered'
        if not right:
            wrong.append('read %d times: %s' % (read[name], line[:250]))
print(dict(told), len(wrong), 'wrong')
print('\n'.join(wrong[:4]))
assert sum(told.values()) == 3 * count and told['change', 'answered'] > count
assert not wrong
PY
    verdict "$1: no change was read twice, each loss is told, and each signature is right"
    for which in "$a" "$b"; do
        grep -q "^$which 18 " "$work/read"
        verdict "$1: both servers have read changes"
    done
}
for how in clients.first clients.turns pool.first pool.turns; do crowd "$how"; done
