# shellcheck shell=bash
# TLS is not renegotiated: a server that asks for it is refused.
mkfifo asks
openssl s_server -accept 127.0.0.1:0 -naccept 1 -tls1_2 -cert "$certs/server.pem" -key "$certs/server.key" \
    -CAfile "$certs/ca.pem" -Verify 1 <>asks >server 2>&1 &
server=$!
started+=("$server")
disown "$server"
wait_for '^ACCEPT ' server "$server" || give_up 'openssl s_server does not listen'
port=$(sed -n 's/^ACCEPT .*://p' server)
{ wait_for '^Secure Renegotiation IS' server "$server" && printf 'r\n' >asks; } &
call_is 'a server that asks for another handshake' 3 query
wait_for 'no renegotiation' server "$server"
cp server "$said"
says 'is told that there is none' 'no renegotiation'
kill "$server" 2>/dev/null
