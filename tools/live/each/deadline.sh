# shellcheck shell=bash
# One deadline for a call, with connect and handshake.
export KMIP_TIMEOUT=2
"$python" "$here/fakes.py" --list >"$work/list"
for name in silent half_hold drip unanswered drip_handshake unaccepting tickets; do
    fake "$name"
    call_is "a server that $(sed -n "s/^$name  *//p" "$work/list")" 3 query
    lasts "$name ends with the deadline of 2 seconds" 5
done
unset KMIP_TIMEOUT
fake silent
slack=3 patience=45 call_is 'the deadline where none is set' 3 query
slack=3 lasts 'it is 30 seconds' 36
((elapsed >= 29000000))
verdict 'and no less'
