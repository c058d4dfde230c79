# shellcheck shell=bash disable=SC2154
# 200 threads that sign over two servers, by turns, while these are killed by turns and come back.
command -v openssl >/dev/null || return
look_for_sanitizers
build_provider with_sanitizers ${sanitized[@]+"${sanitized[@]}"}
build_test program ${sanitized[@]+"${sanitized[@]}"}
signer
a=$port process_of_a=$signer of_a=$signed
signer
b=$port process_of_b=$signer of_b=$signed
servers=localhost:$a,localhost:$b configure 'order = turns' 'connections = 50'
signed_by_all() {
    cat "$work"/signer.?????? | grep -c '^Sign '
}
is_over() { # ROUND
    grep -q "^round $1\$" "$work/told" || ! kill -0 "$program" 2>/dev/null
}
# In each round one server dies when a quarter of its signatures were asked for, and is back before the next.
rounds() {
    local round dies
    for round in 0 1 2 3; do
        until is_over "$round" || (($(signed_by_all) >= 150 * (4 * round + 1))); do sleep 0.05; done
        dies=a
        if ((round % 2)); then dies=b; fi
        process=process_of_$dies
        kill -KILL "${!process}"
        while kill -0 "${!process}" 2>/dev/null; do sleep 0.05; done
        until is_over "$round"; do sleep 0.05; done
        SIGNER_PORT=${!dies} signer
        printf -v "$process" %s "$signer"
        echo
    done
}
mkfifo go
: >told
# (connections that another thread has are left as they are at the end)
ASAN_OPTIONS=detect_leaks=0 timeout -k 2 $((120 * slack)) "$work/program" crowd kmip:id=priv <go >told 2>"$said" &
program=$!
started+=("$program")
rounds >go
wait "$program"
verdict 'the crowd ends well'
grep -v '^round ' told
grep -q '^Sign ' "$of_a" && grep -q '^Sign ' "$of_b"
verdict 'both servers have signed'
