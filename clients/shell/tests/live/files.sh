# shellcheck shell=bash
# What kmip_call reads from a file or a descriptor in the place of a word, and what it says where it cannot, or cannot write.
printf '\012\377@' >'the data'
printf %s '{"tag":"RequestPayload","value":[]}' >payload.json
printf '"\377"' >other.json
: >empty
mkdir folder

# kmip_call, with a response that has no byte: it sends, and the connection is lost; a refusal sends nothing.
called() { # WHAT STATUS WORD..
    local status
    "$KMIP_CALL" "${@:3}" <empty >sent 2>"$said"
    status=$?
    ((status == $2))
    verdict "$1"
}
sends_as() { # WHAT WORD..: what was sent is what these words send
    [[ -s sent ]] && { "$KMIP_CALL" "${@:2}" <empty 2>/dev/null || :; } | cmp -s - sent
    verdict "$1"
}
refuses() { # WHAT TEXT WORD..
    called "$1" 2 "${@:3}"
    says 'is said, with its cause' "$2"
    [[ ! -s sent ]]
    verdict 'and nothing is sent'
}
called 'bytes of a file' 3 sign @k '@the data' hash=SHA384
sends_as 'are those of its hex, and an identifier with the sign is one' sign @k 0AFF40 hash=SHA384
called 'bytes of a descriptor' 3 register symmetric @7 format=Raw algorithm=AES length=24 7<'the data'
sends_as 'are those of its hex' register symmetric 0AFF40 format=Raw algorithm=AES length=24
called 'bytes of a pipe' 3 sign k @3 3< <(printf '\012\377@')
sends_as 'are those of its hex, too' sign k 0AFF40
called 'a file without bytes' 3 sign k @empty
sends_as 'is that' sign k -
called 'a payload of a file' 3 operation Poll version=1.1 @payload.json
sends_as 'is its text' operation Poll version=1.1 "$(<payload.json)"
called 'a payload of a descriptor' 3 operation Poll @4 4<payload.json
sends_as 'is its text, too' operation Poll "$(<payload.json)"
mv payload.json 3
called 'a file whose name is a number' 3 operation Poll @./3
sends_as 'is read by its path' operation Poll "$(<./3)"
refuses 'a file that is not there' '^\{"error":"GrammarError","text":"cannot read @none: No such file or directory' sign k @none
refuses 'a folder' '^\{"error":"GrammarError","text":"cannot read @folder: Is a directory' message @folder
refuses 'a descriptor that is closed' '"text":"cannot read @9: No such file or directory' sign k @9 9<&-
for given in 0 1 2; do
    refuses "descriptor $given" "\"text\":\"cannot read @$given: 0, 1 and 2 are the connection and the answer\"" sign k "@$given"
done
refuses 'JSON that is no UTF-8' '"text":"@other.json is no JSON: it is not UTF-8"' message @other.json

fake good
KMIP_RECORD=$work/calls call_is 'a call whose bytes a file has' 0 sign k '@the data'
grep -q '^sign k 0AFF40 42007B' calls
verdict 'is recorded with its hex'
KMIP_RECORD=$work/calls script_is 'a key that is recorded' 0 'open
    kmip register symmetric 0aff40 format=Raw algorithm=AES length=24; kmip_close'
grep -q '^raw 420078[0-9A-F]*0AFF40[0-9A-F]* 42007B' calls
verdict 'is so with its hex'

# An output that is full.
"$KMIP_CALL" query >/dev/full 2>"$said" <empty
(($? == 3))
verdict 'a request that cannot be written'
says 'its reason is said' '^\{"error":"RequestWriteError","text":"link failed: No space left on device \(os error 28\)"\}$'
"$KMIP_CALL" query >sent 2>"$said" <folder
(($? == 3))
verdict 'a response that cannot be read'
says 'its reason is said, too' '^\{"error":"ResponseReadError","text":"link failed: Is a directory \(os error 21\)"\}$'
"$KMIP_CALL" qeury >sent 2>/dev/full <empty
(($? == 2))
verdict 'a refusal that cannot be written has its status'
"$KMIP_CALL" query >sent 2>/dev/full <empty
(($? == 4))
verdict 'and so has an answer'
"$KMIP_CALL" --help >/dev/full 2>"$said"
(($? == 4))
verdict 'and a help'
