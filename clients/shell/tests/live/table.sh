# shellcheck shell=bash
# kmip_call makes the calls of its table of operations, which it lists by --operations: with the requests of `operation`, and
# plain answers.
request() { # WORD..
    "$built/kmip_call" "$@" </dev/null 2>"$said"
}
same() { # WHAT PAYLOAD OPERATION WORD..
    [[ -n $(request "${@:4}" | od -An -tx1) ]] &&
        cmp -s <(request "${@:4}") <(request operation "$3" "{\"tag\":\"RequestPayload\",\"value\":[$2]}")
    verdict "$1"
}
id='{"tag":"UniqueIdentifier","type":"TextString","value":"5"}'
data='{"tag":"Data","type":"ByteString","value":"68656C6C6F"}'
mode='{"tag":"BlockCipherMode","type":"Enumeration","value":"CBC"}'
padding='{"tag":"PaddingMethod","type":"Enumeration","value":"PKCS5"}'
parameters='{"tag":"CryptographicParameters","value":['
same 'an Encrypt' "$id,$parameters$mode,$padding]},$data,{\"tag\":\"IVCounterNonce\",\"type\":\"ByteString\",\"value\":\"00112233\"}" \
    Encrypt encrypt 5 68656C6C6F padding=PKCS5 mode=CBC iv=00112233
same 'a Hash' "$parameters{\"tag\":\"HashingAlgorithm\",\"type\":\"Enumeration\",\"value\":\"SHA_256\"}]},$data" \
    Hash hash 68656C6C6F hash=SHA256
object='{"tag":"ObjectType","type":"Enumeration","value":"SymmetricKey"}'
method='{"tag":"DerivationMethod","type":"Enumeration","value":"ENCRYPT"}'
iv='{"tag":"InitializationVector","type":"ByteString","value":"00112233"}'
length='{"tag":"AttributeName","type":"TextString","value":"Cryptographic Length"},{"tag":"AttributeValue","type":"Integer","value":128}'
same 'a Derive Key of two objects' \
    "$object,$id,${id/5/6},$method,{\"tag\":\"DerivationParameters\",\"value\":[$parameters$mode,$padding]},$iv]},
    {\"tag\":\"TemplateAttribute\",\"value\":[{\"tag\":\"Attribute\",\"value\":[$length]}]}" \
    DeriveKey derive-key 5 ENCRYPT also=6 length=128 iv=00112233 padding=PKCS5 mode=CBC
same 'an Archive' "$id" Archive archive 5
printf hello >data.bin
same 'bytes of a file' "$id,$data" Encrypt encrypt 5 @data.bin
same 'bytes of a descriptor' "$id,$data" Encrypt encrypt 5 @3 3<data.bin
printf '\253\315' >code.bin
same 'bytes of two files' "$id,$data,{\"tag\":\"MACData\",\"type\":\"ByteString\",\"value\":\"ABCD\"}" MACVerify mac-verify 5 @data.bin @code.bin
refused() { # WHAT REGEX WORD..
    local status
    [[ -z $(request "${@:3}" | od -An -tx1) ]]
    verdict "$1: nothing is sent"
    request "${@:3}" >sent
    status=$?
    ((status == 2)) && grep -qE -- "$2" "$said"
    verdict "$1: it is said, with status 2"
}
refused 'a word that is missing' '"GrammarError".*encrypt' encrypt 5
refused 'a mode that is none' '"GrammarError".*mode=.*CBC' encrypt 5 00 mode=XYZ
refused 'an empty identifier' '"GrammarError"' archive -
refused 'a file that is not there' '"GrammarError".*cannot read @nowhere' encrypt 5 @nowhere
refused 'a descriptor for two words' '"GrammarError".*@3 stands for two words' mac-verify 5 @3 @3 3<code.bin
request user=u password=geheim record=record archive 5 >sent
[[ $(<record) == "message $(request archive 5 | od -An -v -tx1 | tr -d ' \n' | tr a-f A-F) -" ]]
verdict 'a call of it is recorded as a message, without its password'
"$built/kmip_call" --operations >"$said" 2>&1
verdict 'the table is listed'
(($(grep -c '^[a-z]' "$said") == $(grep -c '^    [a-z]' "$said") && $(grep -c '^[a-z]' "$said") >= 20))
verdict 'each call of it has its words and what it asks for'
says 'as that of encrypt' '^encrypt ID DATA \[mode='
cmp -s <(request item-id=0102 archive 5) <(request operation Archive item-id=0102 "{\"tag\":\"RequestPayload\",\"value\":[$id]}")
verdict 'a Unique Batch Item ID stands before the name of a call'
forms=$("$built/kmip_call" --operations | grep '^[a-z]')
by_lines() { # TEXT: its words, in order
    tr -s ' ' '\n' <<<"$1" | sed '/^$/d' | LC_ALL=C sort
}
listed() { # FORM: how many words a call of the table has, and its options
    local words plain
    words=$(by_lines "$1")
    plain=$(grep -cE '^[A-Z][A-Z-]*$' <<<"$words") || :
    printf '%d\n' "$plain"
    sed -nE 's/^\[?([a-z-]+)=.*/\1/p' <<<"$words" | LC_ALL=C sort
}
ours() ( # NAME: the same by the client for bash, which counts the words only where options follow
    # shellcheck source=clients/shell/kmip.sh
    . "$top/clients/shell/kmip.sh"
    kmip_options "$1"
    kmip_is_of_table "$1" || exit
    printf '%d\n' "$KMIP_PLAIN"
    by_lines "$KMIP_OPTIONS"
)
differs=''
while read -r line; do
    theirs=$(listed "$line") own_words=$(ours "${line%% *}") || differs+=" ${line%% *}"
    [[ $theirs == "$own_words" || ($theirs != *[a-z]* && $own_words == 1) ]] || differs+=" ${line%% *}"
done <<<"$forms"
printf 'not as the table has it:%s\n' "$differs" >"$said"
[[ -n $forms && -z $differs ]]
verdict "the client for bash has the table's calls, with their words and options"
fake good
script_is 'an Encrypt by words' 0 'open; kmip encrypt "my key" 68656C6C6F mode=CBC padding=PKCS5; kmip_close'
says 'its answer is plain JSON' '^\{"answer":\{"unique_identifier":"my key"\}\}$'
rm -f record
KMIP_RECORD=record KMIP_USER=u KMIP_PASSWORD=geheim script_is 'a day with an Encrypt in it is recorded' 0 '
    open; kmip rng 2 && kmip encrypt "my key" 68656C6C6F && kmip locate "a name"; kmip_close'
[[ $(sed -E 's/ 42007B[0-9A-F]+$//; s/(420078)[0-9A-F]+$/\1/' record) == $'rng 2\nmessage 420078\nraw 420078' ]] &&
    ! grep -q 67656865696D record
verdict 'each call has its line, and none the password'
script_is 'a code that is verified, of a file' 0 'open; kmip mac-verify "my key" 68656C6C6F @code.bin; kmip_close'
script_is 'bytes of a file that tell which operation is ended' 0 'kmip_words cancel @code.bin; [[ "${KMIP_WORDS[*]}" == *" cancel @code.bin" ]]
    kmip_words poll @code.bin && [[ "${KMIP_WORDS[*]}" == *" poll @code.bin" ]]'
script_is 'a field of a plain answer' 0 'open; kmip_field unique_identifier hash 68656C6C6F hash=SHA256; kmip_close'
says 'is written' '^1$'
# RFC 4231, 4.2: the data comes by a descriptor of the client's, the code by one of the caller's that has the same number.
fake ciphers
printf 'Hi There' | openssl dgst -sha256 -mac HMAC -macopt "hexkey:$(printf '0B%.0s' {1..20})" -binary >code.bin
script_is 'a code that is verified, of a descriptor' 0 '
    open; kmip_field validity_indicator mac-verify secret 4869205468657265 @3 hash=SHA_256 3<code.bin; kmip_close'
says 'is that of the data' '^Valid$'
