# shellcheck shell=bash
# What is no answer is one line of JSON on standard error, which says why. python/reasons.sh has the
# same cases.
is_json() { # WHAT: what was said is one object in JSON, with an error and a text
    "$python" -c 'import json, sys
line, = open(sys.argv[1], encoding="utf-8").read().splitlines()
it = json.loads(line)
assert isinstance(it["error"], str) and isinstance(it["text"], str), line' "$said" 2>"$work/not"
    verdict "$1 is JSON"
}
reason() { # WHAT STATUS REGEX CALL WORD..
    call_is "$1" "$2" "${@:4}"
    says "$1 is said" "$3"
    is_json "$1"
}
fake end
reason 'an end' 3 'ResponseReadError.*end of input' query
fake reset
reason 'a reset' 3 'ResponseReadError.*[Rr]eset by peer' query
fake silent
# The deadline is the shortest within which there is a connection.
for seconds in 2 10 60; do
    KMIP_TIMEOUT=$seconds client_run call query >"$said" 2>&1
    grep -q ConnectError "$said" || break
done
KMIP_TIMEOUT=$seconds reason 'a deadline' 3 "ResponseReadError.*no answer within $seconds seconds" query
fake unanswered
KMIP_TIMEOUT=2 reason 'one in the handshake' 3 'ConnectError.*no answer within 2 seconds' query
fake over_limit
reason 'a limit' 3 'DeserializeError.*limit of 1048576 bytes' query
fake expired_server
reason 'a certificate that has ended' 3 'ConnectError.*certificate has expired' query
fake wrong_host
reason 'another host' 3 'ConnectError.*[Hh]ostname mismatch' query
fake no_tls
reason 'no TLS' 3 'ConnectError.*wrong version number' query
fake good
certificate=$certs/none.pem reason 'no certificate' 3 'none\.pem: No such file' query
certificate=$certs reason 'a folder as a certificate' 3 'ConnectError' query
certificate=$certs/client.key reason 'a key in the place of a certificate' 3 \
    'certificate .*client\.key: there is no certificate in PEM' query
key=$certs/client.pem reason 'a certificate in the place of a key' 3 \
    'key .*client\.pem: there is no private key in PEM' query
authority=$certs/client.key reason 'a key in the place of an authority' 3 \
    'authority .*client\.key.*no certificate' query
key=$certs/plain.key reason 'another key' 3 '[Kk]ey values mismatch|KEY_VALUES_MISMATCH' query
fake nobody
reason 'nobody' 3 'Connection refused' query
refusals='ConnectError.*(refused|unreachable|Cannot assign)'
host='[::1]' reason 'nobody at an address of IPv6' 3 "$refusals" query
fake good
RES_OPTIONS='timeout:1 attempts:1' host=no.such.invalid reason 'no such host' 3 'ConnectError' query
KMIP_USER=alice reason 'a user without a password' 2 'a credential is a user and a password' query
KMIP_TIMEOUT=soon reason 'a deadline that is none' 2 'KMIP_TIMEOUT' query
KMIP_LIMIT=-1 reason 'a limit that is none' 2 'KMIP_LIMIT|limit' query
reason 'a call that is none' 2 'there is no call sing' sing 1
reason 'a word too few' 2 'the words are not those of rename ID NAME' rename 1
reason 'a word that is none' 2 'HEX is no even number of hex digits' sign 1 XY
reason 'a call with a space' 2 'one word|no call' 'sign -' 00
reason 'a call of odd bytes' 2 'GrammarError' $'s\xff"\n\\'
client_run call query 2>"$said" >/dev/full
says 'an answer that cannot be written is said' 'NotWritten.*cannot be written: No space left'
is_json 'an answer that cannot be written'
# (Rust puts /dev/null in the place of a stream that is closed.)
if [[ $client != rust ]]; then
    client_run call query 2>"$said" >&-
    says 'an output that is closed is said' 'NotWritten.*closed; nothing was sent'
    client_run call query >"$said" 2>&-
    (($? == 4)) && [[ ! -s $said ]]
    verdict 'with standard error closed no call is made'
fi
client_run call >"$said" 2>&1
(($? == 2))
verdict 'no words have status 2'
is_json 'no words'
if grep -q '^address6 ' "$run/fakes"; then
    fake address6
    host=::1 call_is 'an address of IPv6' 0 query
    host='[::1]' call_is 'an address of IPv6 in brackets' 0 query
else
    echo 'skipped c: there is no IPv6'
fi
