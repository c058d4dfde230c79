# shellcheck shell=bash
# The Unique Batch Item IDs of operations: eight random bytes, by which the answer is known.
export payload='{"tag":"RequestPayload","value":[{"tag":"UniqueIdentifier","type":"TextString","value":"k"}]}'
answered() { # WHAT REGEX..: the answers have these IDs, which the server gives as data
    local line=0 wanted
    mapfile -t ids < <(sed -nE 's/.*"tag":"Data","type":"ByteString","value":"([0-9A-F]*)".*/\1/p' "$said")
    for wanted in "${@:2}"; do [[ ${ids[line++]-} =~ ^$wanted$ ]] || break; done
    ((line == $# - 1 && ${#ids[@]} == line)) && [[ ${ids[line - 1]} =~ ^${!#}$ ]]
    verdict "$1"
}
fake ids
script_is 'two operations' 0 'set -euo pipefail; IFS=; open
    kmip operation Encrypt "$payload"; kmip operation Encrypt version=1.0 "$payload"; kmip_close'
answered 'each has an ID of eight bytes' '[0-9A-F]{16}' '[0-9A-F]{16}'
[[ ${ids[0]} != "${ids[1]}" ]]
verdict 'and another one'
script_is 'IDs of the caller' 0 'open; kmip operation Encrypt item-id=00ff "$payload"
    kmip operation Encrypt version=1.1 item-id=02 "$payload"; kmip operation Encrypt item-id=03 version=1.0 "$payload"; kmip_close'
answered 'are sent' 00FF 02 03
call_is 'an ID without bytes' 2 operation Encrypt item-id= "$payload"
says 'is said to be none' '"GrammarError".*item-id='
call_is 'an ID and no payload' 2 operation Encrypt item-id=01
script_is 'no random bytes' 3 'open; od() { return 1; }; kmip activate k && kmip operation Encrypt "$payload"'
says 'are said' '^\{"error":"RequestWriteError","text":"no random bytes for the Unique Batch Item ID: .*; nothing was sent"\}$'
script_is 'after that' 3 'open; od() { return 1; }; kmip operation Encrypt "$payload"; unset -f od; kmip activate k'
says 'the connection is closed' '"the connection was given up|"there is no connection'
for name in no_id other_id; do
    fake "$name"
    for about in k failing; do
        call_is "$name, $about: an answer without the ID of the request" 3 operation Encrypt "${payload/\"k\"/\"$about\"}"
        says 'is none to it' '"InternalError","text":"Response does not have the request.s Unique Batch Item ID"'
    done
    script_is 'after it' 3 'open; kmip operation Encrypt "$payload"; kmip activate k'
    says 'the connection is closed' '"the connection was given up|"there is no connection'
    call_is 'a call of words has no ID' 0 activate k
done
fake unread
script_is 'a failure of the message is that of the call, and the connection good' 1 'open
    kmip operation Encrypt "$payload"; kmip operation Encrypt "$payload"'
(($(grep -c '^{"error":"ServerError".*"message":"not read"}$' "$said") == 2))
verdict 'it has the message of the server'
