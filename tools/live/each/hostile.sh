# shellcheck shell=bash
# Servers that break off, or send what no good server sends.
"$python" "$here/fakes.py" --list >"$work/list"
server_has() { # STATUS NAME..: where these servers are asked, a call ends so
    local name
    for name in "${@:2}"; do
        fake "$name"
        call_is "a server that $(sed -n "s/^$name  *//p" "$work/list")" "$1" activate 1
    done
}
server_has 3 end reset half half_head rubbish deep abyss
# None of these is a response to the call: what comes next may be that.
server_has 3 batch_none batch_one batch_two other_operation no_operation
server_has 1 no_payload odd_payload doubled pending undone other_status large_text
fake levels
call_is 'a server that answers with as many levels as may be' 0 query
fake endless
call_is 'a server that answers again and again: the first answer' 0 query
fake no_length
call_is 'an empty structure, which is a whole message and no response' 3 query
fake echo
call_is 'a request in place of a response' 3 query
fake huge
call_is 'an announcement of 4 GiB' 3 query
lasts 'it is refused at once' 5
fake huge_stream
call_is '4 GiB that come' 3 query
lasts 'they are refused at once' 5
fake over_limit
call_is 'a response of 2 MiB, past the limit that holds where none is set' 3 query
KMIP_LIMIT=3000000 call_is 'a response within a larger limit' 0 query
KMIP_LIMIT=0 call_is 'the same where there is no limit' 0 query
fake not_utf8
call_is 'a message that is not UTF-8' 3 query
fake odd_text
call_is 'a message of odd characters' 1 query
