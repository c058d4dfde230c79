#!/bin/sh
# Starts a PyKMIP server on 127.0.0.1 with the certificates in DIR/certs, and waits until it listens. Its process is then
# in DIR/server.pid, and is the first of a group of processes; end it by: kill "$(cat DIR/server.pid)", which takes up to
# 10 seconds, or the group at once by: kill -KILL -- "-$(cat DIR/server.pid)".
set -eu
dir=${1:?usage: start_server.sh DIR PORT}
port=${2:?usage: start_server.sh DIR PORT}
mkdir -p "$dir/policy"
dir=$(cd "$dir" && pwd)
cat >"$dir/server.conf" <<CONF
[server]
hostname=127.0.0.1
port=$port
certificate_path=$dir/certs/server.pem
key_path=$dir/certs/server.key
ca_path=$dir/certs/ca.pem
auth_suite=TLS1.2
policy_path=$dir/policy
enable_tls_client_auth=True
tls_cipher_suites=
logging_level=INFO
database_path=$dir/pykmip.db
CONF
setsid pykmip-server -f "$dir/server.conf" -l "$dir/server.log" >"$dir/server.out" 2>&1 </dev/null &
echo $! >"$dir/server.pid"
for _ in $(seq 1200); do
    if grep -q 'Starting connection service' "$dir/server.log" 2>/dev/null; then exit 0; fi
    kill -0 "$(cat "$dir/server.pid")" 2>/dev/null || break
    sleep 0.1
done
tail -5 "$dir/server.out" >&2
echo 'the server does not listen' >&2
exit 1
