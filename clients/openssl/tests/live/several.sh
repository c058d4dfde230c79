# shellcheck shell=bash disable=SC2154
# Several servers: one of two that is dead, dies, hangs or is another's; whose turn it is; and connections that get old.
command -v openssl >/dev/null || return
look_for_sanitizers
build_provider with_sanitizers ${sanitized[@]+"${sanitized[@]}"}
build_test program ${sanitized[@]+"${sanitized[@]}"}
uri=kmip:id=priv
by_both() { # [LINE]..: openssl.cnf with both servers
    servers=$a,$b configure "${@-}"
}
signs() { # FILE: a signer has signed
    grep -q '^Sign ' "$1"
    verdict "$2"
}
a=localhost:$(free_port)
signer
b=localhost:$port of_b=$signed
by_both
run_program uses "$uri"
b=localhost:$(free_port) by_both
run_program wrong <(write_uri "$uri" /dev/stdout) "$a: connect: Connection refused"

signer
a=localhost:$port of_a=$signed
by_both
: >"$of_b"
run_program moves "$uri" "$signer"
signs "$of_a" 'the first signed before it died'
signs "$of_b" 'the second did so after it'

signer hangs
a=localhost:$port of_a=$signed
by_both "seconds = $((2 * slack))"
: >"$of_b"
run_program rests "$uri"
signs "$of_b" 'where the first hangs, the second signs'
[[ $(grep -c '^Sign ' "$of_a") == 1 ]]
verdict 'and the first is then left out'

signer
a=localhost:$port of_a=$signed
by_both 'order = turns'
: >"$of_b"
run_threads "$uri" 2
signs "$of_a" 'by turns one signs'
signs "$of_b" 'and the other'

b=127.0.0.1:$port
servers=$b configure
run_program wrong <(write_uri "$uri" /dev/stdout) 'IP address mismatch'
servers=$b configure 'server_name = localhost'
run_program rests "$uri"

through_relay
configure
run_program rests "$uri"
[[ $(grep -c opened "$work/relay") == 1 ]]
verdict 'a connection is used again'
configure 'max_age = 0.2'
run_program rests "$uri"
(($(grep -c opened "$work/relay") > 2))
verdict 'one that is older than max_age is not'

port=$(free_port)
OPENSSL_CONF=/dev/null "$python" -B "$here/servers.py" refuses "$port" "$certs" "$work/read" >"$work/refuses" 2>&1 &
started+=($!)
disown $!
wait_for '^ready' "$work/refuses" $! || give_up 'servers.py does not listen'
configure
run_program refused "$uri"
